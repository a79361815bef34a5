//! The ten rows that matter, losses among them: each with the one that it stands beside.
use crate::report::{markdown, Row};
use crate::runs::{find, two_digits, Runs};

/// What a row's library is compared with.
#[derive(Clone, Copy)]
pub enum Beside {
    Rust,
    C,
    Other(&'static str),
}

impl Beside {
    pub fn time(self, row: &Row) -> Option<f64> {
        match self {
            Beside::Rust => Some(row.rust),
            Beside::C => row.c,
            Beside::Other(name) => row.other(name),
        }
    }

    fn name(self) -> &'static str {
        match self {
            Beside::Rust => "plain Rust",
            Beside::C => "C loop",
            Beside::Other("by steps") => "the library by steps",
            Beside::Other(name) => name,
        }
    }
}

pub const SAVE_AND_FREE: (&str, &str) = ("save and free, (2,2,1), by advance", "120 bytes");
pub const WITH_BARRIERS: (&str, &str) = ("save and free, (2,2,1), by advance, with barriers", "120 bytes");
pub const RECOVERY: (&str, &str) = ("recovery by advance, (15,64,16)", "n = 127");

const TEN: [((&str, &str), Beside); 10] = [
    (SAVE_AND_FREE, Beside::Other("libpmemobj")),
    (WITH_BARRIERS, Beside::Other("libpmemobj")),
    (SAVE_AND_FREE, Beside::Other("by steps")),
    (RECOVERY, Beside::Other("by steps")),
    (("commit by advance, (15,64,16), ascending", "n = 127"), Beside::Rust),
    (("write 16 bytes, (2,2,1) nearly full", "120 staged"), Beside::Rust),
    (("allocate 120 bytes, (15,64,16) nearly full", "101 staged"), Beside::Rust),
    (("check", "64 KiB"), Beside::Other("zlib")),
    (("scrub (15,64,16) full of 120-byte objects", "4096 KiB"), Beside::C),
    (("repair (15,64,16), one page a column", "4096 KiB"), Beside::Other("ISA-L")),
];

const TITLES: [&str; 7] = ["what", "size", "beside", "library", "the other", "ratio", "least to most"];

/// The ten rows; one whose other was not there says so.
pub fn table(runs: &Runs) -> String {
    let rows = runs.medians();
    let lines: Vec<Vec<String>> =
        TEN.iter().filter(|((what, _), _)| rows.iter().any(|row| row.what == *what)).map(|line| cells(runs, &rows, line)).collect();
    markdown(&TITLES, 3, &lines)
}

fn cells(runs: &Runs, rows: &[Row], &((what, size), beside): &((&str, &str), Beside)) -> Vec<String> {
    let row = find(rows, what, size);
    let ratio = runs.spread(what, size, |row| beside.time(row).map(|time| time / row.library));
    let [other, median, range] = match (beside.time(row), ratio) {
        (Some(time), Some(ratio)) => [row.figure(time), two_digits(ratio.median), ratio.range()],
        _ => ["not installed".to_owned(), String::new(), String::new()],
    };
    vec![what.to_owned(), size.to_owned(), beside.name().to_owned(), row.figure(row.library), other, median, range]
}
