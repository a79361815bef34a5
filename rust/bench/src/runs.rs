//! Several runs of the whole measurement: their rows with the median of each time, and single ratios with their spread.
use crate::report::Row;

/// The rows of each run: the same ones in the same order.
pub struct Runs(pub Vec<Vec<Row>>);

/// A number over the runs.
#[derive(Clone, Copy)]
pub struct Spread {
    pub least: f64,
    pub median: f64,
    pub most: f64,
}

impl Spread {
    fn of(numbers: impl Iterator<Item = f64>) -> Spread {
        let mut sorted: Vec<f64> = numbers.collect();
        sorted.sort_by(f64::total_cmp);
        let (low, high) = (sorted[(sorted.len() - 1) / 2], sorted[sorted.len() / 2]);
        Spread { least: sorted[0], median: (low + high) / 2.0, most: sorted[sorted.len() - 1] }
    }

    /// From the least to the most.
    pub fn range(&self) -> String {
        format!("{} to {}", two_digits(self.least), two_digits(self.most))
    }
}

/// A ratio, with at least two digits that count.
pub fn two_digits(number: f64) -> String {
    match number {
        _ if number < 0.1 => format!("{number:.3}"),
        _ if number < 10.0 => format!("{number:.2}"),
        _ => format!("{number:.1}"),
    }
}

impl Runs {
    /// Each row with the median of each of its times.
    pub fn medians(&self) -> Vec<Row> {
        (0..self.0[0].len()).map(|i| self.median_row(i)).collect()
    }

    fn median_row(&self, i: usize) -> Row {
        let first = &self.0[0][i];
        let over = |time: &dyn Fn(&Row) -> f64| Spread::of(self.0.iter().map(|rows| time(&rows[i]))).median;
        Row {
            library: over(&|row| row.library),
            rust: over(&|row| row.rust),
            c: first.c.map(|_| over(&|row| row.c.unwrap())),
            other: first.other.iter().enumerate().map(|(j, other)| (other.0, over(&|row| row.other[j].1))).collect(),
            ..first.clone()
        }
    }

    /// What is worked out of the row with this name and size in each run; none if a run does not give it.
    pub fn spread(&self, what: &str, size: &str, number: impl Fn(&Row) -> Option<f64>) -> Option<Spread> {
        let numbers: Option<Vec<f64>> = self.0.iter().map(|rows| number(find(rows, what, size))).collect();
        numbers.map(|numbers| Spread::of(numbers.into_iter()))
    }
}

/// The row with this name and size.
pub fn find<'a>(rows: &'a [Row], what: &str, size: &str) -> &'a Row {
    rows.iter().find(|row| row.what == what && row.size == size).unwrap_or_else(|| panic!("no row {what}, {size}"))
}
