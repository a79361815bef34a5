//! The rows as a table, in markdown, which a terminal shows well too.

/// What a row's times are shown as.
#[derive(Clone, Copy)]
pub enum Unit {
    /// MB/s over so many bytes.
    Rate {
        bytes: usize,
    },
    Time,
}

/// Times in nanoseconds.
#[derive(Clone)]
pub struct Row {
    pub group: &'static str,
    pub what: String,
    pub size: String,
    pub unit: Unit,
    pub library: f64,
    pub rust: f64,
    pub c: Option<f64>,
    pub other: Vec<(&'static str, f64)>,
}

impl Row {
    pub fn new(group: &'static str, what: impl Into<String>, size: impl Into<String>, unit: Unit, library: f64, rust: f64) -> Row {
        Row { group, what: what.into(), size: size.into(), unit, library, rust, c: None, other: Vec::new() }
    }

    /// The library's speed over that of plain Rust: above 1 is faster.
    pub fn ratio(&self) -> f64 {
        self.rust / self.library
    }

    pub fn ratio_to_c(&self) -> Option<f64> {
        self.c.map(|c| c / self.library)
    }

    /// A time as this row shows it.
    pub fn figure(&self, time: f64) -> String {
        match self.unit {
            Unit::Rate { bytes } => format!("{:.0} MB/s", bytes as f64 / time * 1000.0),
            Unit::Time if time < 1000.0 => format!("{time:.1} ns"),
            Unit::Time => format!("{:.2} µs", time / 1000.0),
        }
    }

    /// The time of what stands in the last column under this name.
    pub fn other(&self, name: &str) -> Option<f64> {
        self.other.iter().find(|other| other.0 == name).map(|other| other.1)
    }

    fn cells(&self) -> [String; 8] {
        let ratio = |ratio: f64| format!("{ratio:.2}");
        [
            self.what.clone(),
            self.size.clone(),
            self.figure(self.library),
            self.figure(self.rust),
            ratio(self.ratio()),
            self.c.map_or(String::new(), |c| self.figure(c)),
            self.ratio_to_c().map_or(String::new(), ratio),
            self.other.iter().map(|&(name, time)| format!("{name} {}", self.figure(time))).collect::<Vec<_>>().join(", "),
        ]
    }
}

const TITLES: [&str; 8] = ["what", "size", "library", "plain Rust", "ratio", "C loop", "to C", "other"];

pub fn table(rows: &[Row]) -> String {
    let lines: Vec<Vec<String>> = rows.iter().map(|row| row.cells().into()).collect();
    markdown(&TITLES, 2, &lines)
}

/// A table in markdown; the first columns stand to the left, the others to the right.
pub fn markdown(titles: &[&str], left: usize, rows: &[Vec<String>]) -> String {
    let titles: Vec<String> = titles.iter().map(|&title| title.to_owned()).collect();
    let width = |i: usize| rows.iter().chain([&titles]).map(|line| line[i].chars().count()).max().unwrap();
    let widths: Vec<usize> = (0..titles.len()).map(width).collect();
    let show = |line: &Vec<String>| {
        let cell = |(i, cell): (usize, &String)| match i {
            _ if i < left => format!("| {cell:<width$} ", width = widths[i]),
            _ => format!("| {cell:>width$} ", width = widths[i]),
        };
        line.iter().enumerate().map(cell).collect::<String>() + "|\n"
    };
    let end = |i| if i < left { "-" } else { ":" };
    let rule: String = widths.iter().enumerate().map(|(i, &width)| format!("|{}{}", "-".repeat(width + 1), end(i))).collect();
    show(&titles) + &rule + "|\n" + &rows.iter().map(show).collect::<String>()
}
