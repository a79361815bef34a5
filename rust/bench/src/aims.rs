//! The aims, and whether each is met.
use crate::chosen::{Beside, RECOVERY, SAVE_AND_FREE, WITH_BARRIERS};
use crate::report::{markdown, Row};
use crate::runs::{find, two_digits, Runs, Spread};

/// Speed over plain Rust before there were calls that go on to the next barrier. Since then plain Rust's check adds over blocks, and its scrub
/// does so too and judges the bytes behind bodies, as the library's. On an AMD EPYC, the median of seven runs.
const BEFORE: [(&str, &str, f64); 6] = [
    ("check", "496 bytes", 0.99),
    ("check", "64 KiB", 1.04),
    ("scrub (2,2,1) full of 120-byte objects", "1.5 KiB", 1.02),
    ("scrub (2,2,1) full of 496-byte objects", "1.5 KiB", 1.00),
    ("scrub (15,64,16) full of 120-byte objects", "4096 KiB", 1.03),
    ("scrub (15,64,16) full of 496-byte objects", "4096 KiB", 1.00),
];

/// So much less than before is within what one run differs from the other.
const TOLERANCE: f64 = 0.95;

/// A call of a transaction, and repair of the largest pool, are to have at least so much of the speed of plain Rust.
const OF_PLAIN_RUST: f64 = 0.8;

/// The check is to have at least so much of the speed of zlib's.
const OF_ZLIB: f64 = 0.8;

/// Whatever the bytes are, a check is to take at most so many times what it takes for others.
const EVEN: f64 = 1.1;

/// An aim, what was measured, and whether it is met.
type Line = [String; 3];

pub fn table(runs: &Runs) -> String {
    let rows = runs.medians();
    let aims = [
        at_most_pmemobj(runs, "save and free of 120 bytes by advance: at most 1.5 times libpmemobj's time", SAVE_AND_FREE, 1.5),
        at_most_pmemobj(runs, "the same: at most libpmemobj's time", SAVE_AND_FREE, 1.0),
        at_most_pmemobj(runs, "the same with barriers passed, as libpmemobj's are: at most 1.5 times its time", WITH_BARRIERS, 1.5),
        faster_than_steps(runs, "save and free of 120 bytes: at least 6 times faster by advance than by steps", SAVE_AND_FREE, 6.0),
        faster_than_steps(runs, "recovery of 127 entries: at least 20 times faster by advance than by steps", RECOVERY, 20.0),
        beside_zlib(&rows),
        even(&rows),
        not_slower(&rows),
        repair(&rows),
        calls(&rows),
        linear(&rows, "ascending"),
        linear(&rows, "not ascending"),
    ];
    markdown(&["aim", "measured", "met"], 3, &aims.into_iter().map(Vec::from).collect::<Vec<_>>())
}

fn line(aim: &str, measured: String, met: String) -> Line {
    [aim.to_owned(), measured, met]
}

fn ratio(runs: &Runs, (what, size): (&str, &str), of: impl Fn(&Row) -> Option<f64>) -> Option<Spread> {
    let there = runs.0[0].iter().any(|row| row.what == what);
    if there {
        runs.spread(what, size, of)
    } else {
        None
    }
}

fn shown(spread: Spread) -> String {
    format!("{} times ({})", two_digits(spread.median), spread.range())
}

/// The library's time over libpmemobj's.
fn at_most_pmemobj(runs: &Runs, aim: &str, row: (&str, &str), most: f64) -> Line {
    let times = |row: &Row| Beside::Other("libpmemobj").time(row).map(|time| row.library / time);
    match ratio(runs, row, times) {
        Some(spread) => line(aim, shown(spread), at_most(spread.median, most)),
        None => not_known(aim, "libpmemobj or clwb"),
    }
}

/// Whether the aim is met to take at most so many times as long as the other.
fn at_most(times: f64, most: f64) -> String {
    if times <= most {
        "yes".to_owned()
    } else {
        format!("no: {} times too long", two_digits(times / most))
    }
}

fn not_known(aim: &str, missing: &str) -> Line {
    line(aim, format!("{missing} is not there"), "not known".to_owned())
}

fn faster_than_steps(runs: &Runs, aim: &str, row: (&str, &str), least: f64) -> Line {
    let spread = ratio(runs, row, |row| row.other("by steps").map(|time| time / row.library)).expect("measured beside single steps");
    let met = if spread.median >= least { "yes".to_owned() } else { format!("no: {} of it", two_digits(spread.median / least)) };
    line(aim, shown(spread), met)
}

/// Each of these rows is to have at least this ratio.
fn at_least(aim: &str, ratios: &[(&Row, f64)], least: f64) -> Line {
    let (row, smallest) = ratios.iter().min_by(|a, b| a.1.total_cmp(&b.1)).unwrap();
    let below = ratios.iter().filter(|(_, ratio)| *ratio < least).count();
    let met = if below == 0 { "yes".to_owned() } else { format!("no, in {below} of {} rows", ratios.len()) };
    line(aim, format!("at least {} ({}, {})", two_digits(*smallest), row.what, row.size), met)
}

/// Check beside zlib's.
fn beside_zlib(rows: &[Row]) -> Line {
    let aim = "check of 496 bytes and of 64 KiB: at 0.8 of zlib or better";
    let checks = ["496 bytes", "64 KiB"].map(|size| find(rows, "check", size));
    let ratios: Option<Vec<(&Row, f64)>> = checks.iter().map(|&row| row.other("zlib").map(|time| (row, time / row.library))).collect();
    ratios.map_or_else(|| not_known(aim, "zlib"), |ratios| at_least(aim, &ratios, OF_ZLIB))
}

/// The library's check over bytes of three kinds, one beside the other.
fn even(rows: &[Row]) -> Line {
    let mut checks = ["check, all 00", "check, all FF", "check, random"].map(|what| find(rows, what, "496 bytes"));
    checks.sort_by(|a, b| a.library.total_cmp(&b.library));
    let [fastest, _, slowest] = checks;
    let times = slowest.library / fastest.library;
    let measured = format!("the slowest ({}) takes {} times as long as the fastest ({})", slowest.what, two_digits(times), fastest.what);
    line("check of 496 bytes, all 00, all FF and random: within a tenth of each other", measured, at_most(times, EVEN))
}

/// Check and scrub beside plain Rust, now and before.
fn not_slower(rows: &[Row]) -> Line {
    let of_before = BEFORE.map(|(what, size, before)| {
        let row = find(rows, what, size);
        (row, row.ratio() / before)
    });
    let aim = "check and scrub not slower than before, measured by plain Rust: at least 0.95 of the ratio then";
    at_least(aim, &of_before, TOLERANCE)
}

/// Repair of the largest pool beside plain Rust, which counts the bytes that it alters too.
fn repair(rows: &[Row]) -> Line {
    let row = find(rows, "repair (15,64,16), one page a column", "4096 KiB");
    at_least(
        "repair of the largest pool, which counts the bytes that it alters: at 0.8 of plain Rust or better",
        &[(row, row.ratio())],
        OF_PLAIN_RUST,
    )
}

/// Allocate, write and free beside plain Rust.
fn calls(rows: &[Row]) -> Line {
    let calls = rows.iter().filter(|row| ["transaction", "growth"].contains(&row.group));
    let ratios: Vec<(&Row, f64)> = calls.map(|row| (row, row.ratio())).collect();
    at_least("allocate, write and free: at 0.8 of plain Rust or better in every row", &ratios, OF_PLAIN_RUST)
}

/// What an entry adds to a whole commit, from 60 to 127 over from 10 to 60.
fn linear(rows: &[Row], order: &str) -> Line {
    let time = |count: usize| find(rows, &format!("commit by advance, (15,64,16), {order}"), &format!("n = {count}")).library;
    let (early, late) = ((time(60) - time(10)) / 50.0, (time(127) - time(60)) / 67.0);
    let met = if late <= 1.25 * early { "yes".to_owned() } else { format!("no: {} times as much", two_digits(late / early)) };
    let aim = format!("a commit's cost grows linearly in its entries, {order}: an entry adds as much from 60 to 127 as from 10 to 60");
    line(&aim, format!("{early:.1} ns, then {late:.1} ns"), met)
}
