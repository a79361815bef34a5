//! Measures the proved library beside plain Rust, C loops and other libraries, as often as `--runs N` says. Prints the ten rows that matter,
//! the aims and one long table; `--page FILE` writes all of it into that page, each part between its marks, and draws benchmark.svg beside it.
mod aims;
mod barrier;
mod chart;
mod chosen;
mod commit;
mod fixture;
mod growth;
mod library;
mod machine;
mod measure;
mod native;
mod pages;
mod report;
mod runs;
mod saves;
mod setups;
mod staging;

use report::Row;
use runs::Runs;
use std::env;
use std::os::unix::process::CommandExt;
use std::path::{Path, PathBuf};
use std::process::Command;

const USAGE: &str = "usage: bench [--runs N] [--page FILE]";

fn main() -> Result<(), String> {
    let (count, page) = options(env::args().skip(1))?;
    if let Some(page) = &page {
        filled(page, "", "")?; // its marks are there
    }
    flush_by_instructions()?;
    let runs = Runs((1..=count).map(run).collect());
    let rows = runs.medians();
    let first = format!("{}\n{}\n{}", chosen::table(&runs), aims::table(&runs), machine::heading(count));
    let rest = format!("{}\n{}", report::table(&rows), growth::words(&rows));
    print!("{first}\n{rest}");
    let Some(page) = page else { return Ok(()) };
    write(&page, &filled(&page, &first, &rest)?)?;
    write(&page.with_file_name("benchmark.svg"), &chart::svg(&rows))
}

/// The number of runs, and the page to write into.
fn options(mut arguments: impl Iterator<Item = String>) -> Result<(usize, Option<PathBuf>), String> {
    let (mut runs, mut page) = (1, None);
    while let Some(option) = arguments.next() {
        let value = arguments.next().ok_or(USAGE)?;
        match option.as_str() {
            "--runs" => runs = value.parse().ok().filter(|&runs| runs > 0).ok_or(USAGE)?,
            "--page" => page = Some(value.into()),
            _ => return Err(USAGE.to_owned()),
        }
    }
    Ok((runs, page))
}

/// libpmemobj flushes by instructions on tmpfs only if this variable is set when the program starts: it is started again with it.
fn flush_by_instructions() -> Result<(), String> {
    const FORCE: &str = "PMEM_IS_PMEM_FORCE";
    if !cfg!(pmemobj) || env::var_os(FORCE).is_some() {
        return Ok(());
    }
    let program = env::current_exe().map_err(|e| e.to_string())?;
    Err(Command::new(program).args(env::args_os().skip(1)).env(FORCE, "1").exec().to_string())
}

fn run(number: usize) -> Vec<Row> {
    eprintln!("run {number}");
    let groups = [
        pages::check,
        pages::scrub,
        pages::repair,
        staging::calls,
        staging::growth,
        commit::commits,
        saves::saves,
        commit::recoveries,
        setups::setups,
        setups::commands,
    ];
    groups.into_iter().flat_map(|group| group()).collect()
}

/// The page with these two parts in their places.
fn filled(page: &Path, first: &str, rest: &str) -> Result<String, String> {
    let text = std::fs::read_to_string(page).map_err(|e| format!("{}: {e}", page.display()))?;
    between(&between(&text, "ten rows", first)?, "all rows", rest)
}

/// The page with this text in place of what stands between the two marks of this name.
fn between(page: &str, name: &str, text: &str) -> Result<String, String> {
    let (begin, end) = (format!("<!-- {name} -->\n"), format!("<!-- end of {name} -->\n"));
    let (head, rest) = page.split_once(&begin).ok_or(format!("the page has no line {begin}"))?;
    let (_, tail) = rest.split_once(&end).ok_or(format!("the page has no line {end}"))?;
    Ok(format!("{head}{begin}\n{text}\n{end}{tail}"))
}

fn write(path: &Path, text: &str) -> Result<(), String> {
    std::fs::write(path, text).map_err(|e| format!("{}: {e}", path.display()))
}
