//! How the cost grows with entries, heads and zones, in words.
use crate::fixture::{Shape, LARGEST, SMALL};
use crate::report::Row;

/// A series of rows by the number in their size.
struct Series<'a> {
    rows: Vec<(f64, &'a Row)>,
}

impl<'a> Series<'a> {
    fn new(rows: &'a [Row], what: String) -> Series<'a> {
        let number = |row: &Row| row.size.chars().filter(char::is_ascii_digit).collect::<String>().parse().unwrap();
        Series { rows: rows.iter().filter(|row| row.what == what).map(|row| (number(row), row)).collect() }
    }

    fn at(&self, number: f64) -> &Row {
        self.rows.iter().find(|row| row.0 == number).unwrap().1
    }

    /// The time that each further one adds between two rows: the library's and that of plain Rust.
    fn each(&self, from: f64, to: f64) -> String {
        let added = |time: fn(&Row) -> f64| (time(self.at(to)) - time(self.at(from))) / (to - from);
        times(added(|row| row.library), added(|row| row.rust))
    }
}

fn times(library: f64, rust: f64) -> String {
    let show = |time: f64| if time < 1000.0 { format!("{time:.1} ns") } else { format!("{:.1} µs", time / 1000.0) };
    format!("{} ({})", show(library), show(rust))
}

/// All rows of this call or list of steps over pools of this shape.
fn series<'a>(rows: &'a [Row], what: &str, shape: Shape, more: &str) -> Series<'a> {
    Series::new(rows, format!("{what}, {}{more}", shape.name()))
}

pub fn words(rows: &[Row]) -> String {
    let parts = [commits(rows), recoveries(rows), calls(rows)];
    "How the cost grows; plain Rust in brackets.\n\n".to_owned() + &parts.concat().join("\n") + "\n"
}

fn commits(rows: &[Row]) -> Vec<String> {
    let whole = series(rows, "commit by advance", LARGEST, ", ascending");
    let whole_shuffled = series(rows, "commit by advance", LARGEST, ", not ascending");
    let step = series(rows, "commit step", LARGEST, ", ascending");
    let step_shuffled = series(rows, "commit step", LARGEST, ", not ascending");
    vec![
        format!("- A whole commit by advance, ascending: each entry adds {} from 10 to 60,", whole.each(10.0, 60.0)),
        format!("  {} from 60 to 127. Not ascending: {},", whole.each(60.0, 127.0), whole_shuffled.each(10.0, 60.0)),
        format!("  then {}.", whole_shuffled.each(60.0, 127.0)),
        format!("- A single commit step, ascending: each entry adds {} from 10 to 60,", step.each(10.0, 60.0)),
        format!("  {} from 60 to 127. Not ascending: {},", step.each(60.0, 127.0), step_shuffled.each(10.0, 60.0)),
        format!("  then {}. A commit has 6n + 9 steps.", step_shuffled.each(60.0, 127.0)),
    ]
}

fn recoveries(rows: &[Row]) -> Vec<String> {
    let whole = series(rows, "recovery by advance", LARGEST, "");
    let step = series(rows, "recovery step", LARGEST, "");
    vec![
        format!("- A whole recovery by advance: each entry adds {} from 10 to 60,", whole.each(10.0, 60.0)),
        format!("  {} from 60 to 127.", whole.each(60.0, 127.0)),
        format!("- A single recovery step: each entry adds {} from 10 to 60,", step.each(10.0, 60.0)),
        format!("  {} from 60 to 127. A recovery has 2n + 5 steps.", step.each(60.0, 127.0)),
    ]
}

fn calls(rows: &[Row]) -> Vec<String> {
    let heads = |call| series(rows, call, LARGEST, ", heads in zone 0");
    let zones = series(rows, "allocate 120 bytes", LARGEST, ", full zones before the fit");
    let few = series(rows, "write 16 bytes", SMALL, " nearly full");
    let many = series(rows, "write 16 bytes", LARGEST, " nearly full");
    vec![
        format!("- Each head of the zone adds {} to allocate", heads("allocate 120 bytes").each(101.0, 1001.0)),
        format!("  and {} to write, from 101 to 1001 heads.", heads("write 16 bytes").each(101.0, 1001.0)),
        format!("- Each full zone before the fit, 1280 heads, adds {} to allocate from 4 to 8 zones,", zones.each(4.0, 8.0)),
        format!("  {} from 8 to 15.", zones.each(8.0, 15.0)),
        format!("- Each entry staged before adds to write {} in a zone with 5 heads,", few.each(60.0, 120.0)),
        format!("  {} in one with 1280, from 60 to 120 entries.", many.each(60.0, 120.0)),
    ]
}
