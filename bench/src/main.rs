//! Times ours and the Rust side by side. `bench/run` starts it.
//!
//!     bench measure FILE BUILD [TEXT]    runs the cases with the text in their name, and writes what it finds to FILE;
//!                                        BUILD is plain or native, and decides which targets hold
//!     bench report FOLDER [DOCS]         prints the tables of FOLDER/plain.txt and FOLDER/native.txt; writes them and
//!                                        the chart to FOLDER, and if DOCS is given to DOCS/SPEED.md and DOCS/speed.svg
mod allocations;
mod cases;
mod chart;
mod data;
mod machine;
mod peers;
mod results;
mod table;
mod targets;
mod timing;

use results::Results;
use std::fs;
use std::process::ExitCode;
use targets::Build;

/// The tables stand in DOCS/SPEED.md between these lines.
const FROM: &str = "<!-- the figures of a run: bench/run SOURCES --write -->\n";
const TO: &str = "<!-- the end of the figures -->\n";

fn measure(file: &str, build: &str, only: &str) -> std::io::Result<()> {
    let build = Build::named(build).ok_or_else(|| std::io::Error::other(format!("there is no build '{build}'")))?;
    let (machine, warnings) = (machine::facts(), machine::warnings());
    warnings.iter().for_each(|warning| eprintln!("warning: {warning}"));
    let results = Results { machine, warnings, ..cases::run(build, only) };
    if results.measured.is_empty() && results.growth.is_empty() {
        return Err(std::io::Error::other(format!("no case has '{only}' in its name")));
    }
    fs::write(file, results.text())
}

fn report(folder: &str, docs: Option<&String>) -> std::io::Result<()> {
    let read = |name: &str| fs::read_to_string(format!("{folder}/{name}")).map(|text| Results::read(&text));
    let (plain, native) = (read("plain.txt")?, read("native.txt").ok());
    let (tables, chart) = (table::report(&plain, native.as_ref()), chart::chart(&plain, native.as_ref()));
    print!("{tables}");
    fs::write(format!("{folder}/tables.md"), &tables)?;
    fs::write(format!("{folder}/speed.svg"), &chart)?;
    let Some(docs) = docs else { return Ok(()) };
    let page = fs::read_to_string(format!("{docs}/SPEED.md"))?;
    let parts = page.split_once(FROM).and_then(|(head, rest)| Some((head, rest.split_once(TO)?.1)));
    let (head, tail) = parts.ok_or_else(|| std::io::Error::other("SPEED.md has no place for the figures"))?;
    fs::write(format!("{docs}/SPEED.md"), format!("{head}{FROM}\n{tables}{TO}{tail}"))?;
    fs::write(format!("{docs}/speed.svg"), chart)
}

fn main() -> ExitCode {
    let words: Vec<String> = std::env::args().skip(1).collect();
    let names: Vec<&str> = words.iter().map(String::as_str).collect();
    let done = match names[..] {
        ["measure", file, build] => measure(file, build, ""),
        ["measure", file, build, only] => measure(file, build, only),
        ["report", folder] | ["report", folder, _] => report(folder, words.get(2)),
        _ => Err(std::io::Error::other("bench measure FILE BUILD [TEXT], or bench report FOLDER [DOCS]")),
    };
    if let Err(error) = done {
        eprintln!("bench: {error}");
        return ExitCode::FAILURE;
    }
    ExitCode::SUCCESS
}
