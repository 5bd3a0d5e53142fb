//! Compares our program with the Rust's own files, case by case.
//!
//!     compare CASES SEED -- WORDS          compares so many cases; WORDS start our program
//!     compare --sample FOLDER -- WORDS     writes a sample to FOLDER/stdin and FOLDER/stdout
//!     compare --ask -- WORDS               answers the requests of standard input
//!
//! It ends with 1 if there is an error, and with 2 if it is not called so.
mod ask;
mod batch;
mod cases;
mod paper;
mod program;
mod rules;
mod rust;
mod sample;
mod tally;
mod text;

use cases::Cases;
use program::{Program, ROOM};
use std::io::IsTerminal;
use std::process::ExitCode;
use tally::Tally;

/// Progress is told so often where standard error is no terminal.
const STEP: u64 = 50_000;

fn main() -> ExitCode {
    rust::be_quiet();
    let words: Vec<String> = std::env::args().skip(1).collect();
    let (own, program) = match words.iter().position(|w| w == "--") {
        Some(k) if k + 1 < words.len() => (&words[..k], Program { words: words[k + 1..].to_vec() }),
        _ => return usage(),
    };
    match own {
        [flag] if flag == "--ask" => ask::ask(&program),
        [flag, folder] if flag == "--sample" => sample::write(folder, &program),
        [cases, seed] => match (cases.parse(), seed.parse()) {
            (Ok(cases), Ok(seed)) => compare(cases, seed, &program),
            _ => usage(),
        },
        _ => usage(),
    }
}

fn usage() -> ExitCode {
    eprintln!("compare CASES SEED -- WORDS, compare --sample FOLDER -- WORDS, or compare --ask -- WORDS");
    ExitCode::from(2)
}

fn compare(cases: u64, seed: u64, program: &Program) -> ExitCode {
    let mut tally = Tally::default();
    let mut requests = vec![];
    let mut bytes = 0;
    let all = Cases::new(seed, cases);
    println!("{cases} cases, seed {seed}. The first {} are short ones, the others random.", all.short());
    println!("`dep N` is departure N of docs/DIFFERENCES.md: the answers differ as it says.");
    for request in all {
        if bytes + request.len() + 1 > ROOM {
            finish(&mut requests, program, &mut tally, cases);
            bytes = 0;
        }
        bytes += request.len() + 1;
        requests.push(request);
    }
    finish(&mut requests, program, &mut tally, cases);
    if std::io::stderr().is_terminal() {
        eprintln!();
    }
    print!("{}", tally.shown());
    ExitCode::from((tally.errors() > 0) as u8)
}

/// Compares a batch, empties it and tells of the progress.
fn finish(requests: &mut Vec<String>, program: &Program, tally: &mut Tally, cases: u64) {
    let before = tally.cases();
    batch::compare(requests, program, tally);
    requests.clear();
    let now = tally.cases();
    if std::io::stderr().is_terminal() {
        eprint!("\r{now} of {cases} cases, {} errors", tally.errors());
    } else if now / STEP > before / STEP || now == cases {
        eprintln!("{now} of {cases} cases, {} errors", tally.errors());
    }
}
