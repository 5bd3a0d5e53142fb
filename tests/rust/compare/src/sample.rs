//! Writes a sample of the cases, with the Rust's answers, as the standard input and output of our program.
use crate::batch::{self, Case};
use crate::cases::{spread, Cases};
use crate::program::Program;
use crate::rules::{self, Owed};
use crate::rust;
use crate::tally::Verdict;
use crate::text;
use std::collections::BTreeMap;
use std::process::ExitCode;

const SEED: u64 = 1;

/// The sample is drawn from so many cases.
const DRAWN_FROM: u64 = 120_000;

/// So many cases of each call, short ones and longer ones; and so many more of each departure that it shows.
const OF_EACH: [usize; 2] = [92, 2];
const OF_DEPARTURE: [usize; 2] = [22, 1];

/// So many runs of an aggregate, and so many more of each departure.
const OF_RUNS: [usize; 2] = [220, 8];
const OF_DEPARTED_RUNS: [usize; 2] = [35, 5];

/// A short request has at most so many bytes, a longer one is in this range.
const SHORT: usize = 80;
const LONGER: std::ops::Range<usize> = 250..500;

/// Both files stay below this.
const MOST_BYTES: usize = 250_000;

const HEAD: [&str; 6] = [
    "# Cases that were compared with the Rust, tensorchord/pgvecto.rs at commit 2b290b34e8.",
    "# Made by: tests/compare SOURCES --sample",
    "# In the output each case has the answer of the Rust's own files. Where a departure of docs/DIFFERENCES.md",
    "# applies it has the answer that is owed by it; then the case ends in a `;` and a text, which is printed as it",
    "# stands: the number of the departure, and what the Rust answers. `none` is its None; where it panics it",
    "# `stops`.",
];

/// Chosen at even distances among the cases of each call and departure, the short ones first.
fn chosen() -> Vec<String> {
    let mut groups: BTreeMap<(String, usize), [Vec<String>; 2]> = BTreeMap::new();
    for request in Cases::new(SEED, DRAWN_FROM) {
        let k = match request.len() {
            n if n <= SHORT => 0,
            n if LONGER.contains(&n) => 1,
            _ => continue,
        };
        let number = match rules::owed(&request, &rust::answer(&request)) {
            Owed::Departure(number, _) => number,
            _ => 0,
        };
        let call = text::fields(&request).0.into();
        groups.entry((call, number)).or_default()[k].push(request);
    }
    let choose = |((call, number), [short, longer]): ((String, usize), [Vec<String>; 2])| {
        let n = match (&call[..], number) {
            ("aggregate run", 0) => OF_RUNS,
            ("aggregate run", _) => OF_DEPARTED_RUNS,
            (_, 0) => OF_EACH,
            _ => OF_DEPARTURE,
        };
        [spread(&short, n[0]), spread(&longer, n[1])].concat()
    };
    groups.into_iter().flat_map(choose).collect()
}

/// A case's lines of input and output.
fn lines(case: &Case) -> (String, String) {
    match &case.owed {
        Owed::Departure(number, answer) => {
            let note = format!(" ; departure {number}, the Rust: {}", case.rust);
            (format!("{}{note}", case.request), format!("{answer}{note}"))
        }
        _ => (case.request.into(), case.rust.clone()),
    }
}

fn made(program: &Program) -> Result<(String, String), String> {
    let requests = chosen();
    let (cases, problem) = batch::answered(&requests, program);
    let mut input: Vec<String> = HEAD.map(String::from).to_vec();
    let mut output = input.clone();
    for case in &cases {
        if let Verdict::Error(text) = case.verdict() {
            return Err(text);
        }
        let (request, answer) = lines(case);
        input.push(request);
        output.push(answer);
    }
    if let Some(text) = problem {
        return Err(text);
    }
    let text = |lines: &[String]| lines.join("\n") + "\n";
    if text(&input).len() > MOST_BYTES {
        return Err(format!("the sample has {} bytes, which are too many", text(&input).len()));
    }
    // The program prints comments and notes as they stand.
    let (again, ()) = program.lines(&text(&input), || ());
    if again.problem.is_some() || again.lines != output {
        return Err("the program answers otherwise with the comments and notes".into());
    }
    println!("{} cases of {} bytes", cases.len(), text(&input).len());
    Ok((text(&input), text(&output)))
}

pub fn write(folder: &str, program: &Program) -> ExitCode {
    let written = made(program).and_then(|(input, output)| {
        let put = |name, text| std::fs::write(format!("{folder}/{name}"), text).map_err(|e| format!("{name}: {e}"));
        put("stdin", input)?;
        put("stdout", output)
    });
    match written {
        Ok(()) => ExitCode::SUCCESS,
        Err(text) => {
            eprintln!("no sample was written\n{text}");
            ExitCode::from(1)
        }
    }
}
