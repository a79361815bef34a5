//! Where and when it was measured, and beside what.
use crate::measure::{ROUND, ROUNDS};
use crate::{barrier, native};
use std::process::Command;

pub fn heading(runs: usize) -> String {
    let (there, missing) = native::peers();
    let list = |names: &[String]| if names.is_empty() { "none".to_owned() } else { names.join(", ") };
    let mut lines = vec![
        format!("Machine: {}. Date: {}.", cpu(), date()),
        format!("Compilers: {}; {}, -O2.", env!("BENCH_RUSTC"), env!("BENCH_CC")),
        format!("Other libraries that were there: {}.", list(&there)),
        format!(
            "Runs: {runs}; each figure is their median. In a run it is the best of {ROUNDS} rounds of at least {} ms,",
            ROUND.as_millis()
        ),
        "and the rounds of what stands in one row alternate.".to_owned(),
        "Caches are warm; nothing was cleared.".to_owned(),
    ];
    lines.extend(missing.iter().map(|name| format!("Left out, since it is not installed: {name}.")));
    if !barrier::is_there() {
        lines.push("Left out, since the processor has no clwb: the rows with barriers.".to_owned());
    }
    lines.join("\n") + "\n"
}
fn cpu() -> String {
    let text = std::fs::read_to_string("/proc/cpuinfo").unwrap_or_default();
    let model = text.lines().find(|line| line.starts_with("model name")).and_then(|line| line.split_once(": "));
    model.map_or("unknown", |(_, model)| model).to_owned()
}

fn date() -> String {
    let output = Command::new("date").args(["-u", "+%Y-%m-%d"]).output();
    output.map_or("unknown".to_owned(), |output| String::from_utf8_lossy(&output.stdout).trim().to_owned())
}
