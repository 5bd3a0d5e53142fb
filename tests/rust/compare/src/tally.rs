//! What was found: a row for each call, and the first errors in full.
use crate::text;
use std::collections::BTreeMap;
use std::fmt::Write;

/// The departures that can show.
const DEPARTURES: [usize; 9] = [1, 2, 3, 6, 7, 8, 10, 11, 12];

const ERRORS_SHOWN: usize = 20;

/// How a case ended.
pub enum Verdict {
    Same,
    Departure(usize),
    Error(String),
}

#[derive(Default, Clone)]
struct Row {
    cases: u64,
    same: u64,
    departures: [u64; DEPARTURES.len()],
    errors: u64,
}

#[derive(Default)]
pub struct Tally {
    rows: BTreeMap<String, Row>,
    all: Row,
    shown: Vec<String>,
}

impl Row {
    fn add(&mut self, verdict: &Verdict) {
        self.cases += 1;
        match verdict {
            Verdict::Same => self.same += 1,
            Verdict::Departure(number) => {
                let k = DEPARTURES.iter().position(|d| d == number).expect("a departure of the table");
                self.departures[k] += 1;
            }
            Verdict::Error(_) => self.errors += 1,
        }
    }

    fn shown(&self, name: &str) -> String {
        let mut line = format!("{name:<20}{:>10}{:>10}", self.cases, self.same);
        for n in self.departures {
            write!(line, "{n:>8}").unwrap();
        }
        writeln!(line, "{:>8}", self.errors).unwrap();
        line
    }
}

impl Tally {
    pub fn cases(&self) -> u64 {
        self.all.cases
    }

    pub fn errors(&self) -> u64 {
        self.all.errors
    }

    pub fn add(&mut self, request: &str, verdict: Verdict) {
        let call = text::fields(request).0;
        self.rows.entry(call.into()).or_default().add(&verdict);
        self.all.add(&verdict);
        if let Verdict::Error(text) = verdict {
            self.show(text);
        }
    }

    /// An error that belongs to no case.
    pub fn error(&mut self, text: String) {
        self.all.errors += 1;
        self.show(text);
    }

    fn show(&mut self, text: String) {
        if self.shown.len() < ERRORS_SHOWN {
            self.shown.push(text);
        }
    }

    pub fn shown(&self) -> String {
        let mut table = format!("{:<20}{:>10}{:>10}", "call", "cases", "same");
        for number in DEPARTURES {
            write!(table, "{:>8}", format!("dep {number}")).unwrap();
        }
        table += "  errors\n";
        for (call, row) in &self.rows {
            table += &row.shown(call);
        }
        table += &self.all.shown("all");
        for (k, text) in self.shown.iter().enumerate() {
            write!(table, "\nerror {}\n{text}", k + 1).unwrap();
        }
        table
    }
}
