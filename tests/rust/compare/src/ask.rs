//! Answers the requests of standard input, and shows both answers and how they were judged.
use crate::batch::{self, Case};
use crate::program::Program;
use crate::tally::Verdict;
use std::io::BufRead;
use std::panic::{catch_unwind, AssertUnwindSafe};
use std::process::ExitCode;

fn shown(case: &Case) -> (String, bool) {
    let ours = case.ours.as_deref().unwrap_or("(no line)");
    let (judged, is_error) = match case.verdict() {
        Verdict::Same => ("the same".into(), false),
        Verdict::Departure(number) => (format!("departure {number}"), false),
        Verdict::Error(_) => ("an error".into(), true),
    };
    (format!("{}\n    the Rust: {}\n    ours:     {ours}\n    {judged}", case.request, case.rust), is_error)
}

pub fn ask(program: &Program) -> ExitCode {
    let mut status = 0;
    for request in std::io::stdin().lock().lines().map_while(Result::ok) {
        let requests = [request];
        // A line that is no request stops the Rust side.
        match catch_unwind(AssertUnwindSafe(|| shown(&batch::answered(&requests, program).0[0]))) {
            Ok((text, is_error)) => {
                println!("{text}");
                status |= is_error as u8;
            }
            Err(_) => {
                println!("{}\n    this is no case", requests[0]);
                status = 1;
            }
        }
    }
    ExitCode::from(status)
}
