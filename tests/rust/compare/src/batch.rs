//! One batch of requests: both sides answer, and each case is judged.
use crate::program::Program;
use crate::rules::{self, Owed};
use crate::rust;
use crate::tally::{Tally, Verdict};

/// A case that both sides answered, and what was owed.
pub struct Case<'a> {
    pub request: &'a str,
    pub rust: String,
    pub owed: Owed,
    pub ours: Option<String>,
}

impl Case<'_> {
    pub fn verdict(&self) -> Verdict {
        let owed = match &self.owed {
            Owed::Same => Some(&self.rust),
            Owed::Departure(_, answer) => Some(answer),
            Owed::Unexplained => None,
        };
        match &self.owed {
            _ if owed.is_none() || owed != self.ours.as_ref() => Verdict::Error(self.told()),
            Owed::Departure(number, _) => Verdict::Departure(*number),
            _ => Verdict::Same,
        }
    }

    fn told(&self) -> String {
        let ours = self.ours.as_deref().unwrap_or("(no line)");
        let owed = match &self.owed {
            Owed::Same => String::new(),
            Owed::Departure(number, answer) => format!("owed by departure {number}: {answer}\n"),
            Owed::Unexplained => "no departure explains the Rust's answer\n".into(),
        };
        format!("request: {}\nthe Rust: {}\n{owed}ours: {ours}\n", self.request, self.rust)
    }
}

/// Hands the requests to both sides. Also answers what is wrong with the whole of our program's answer, if anything.
pub fn answered<'a>(requests: &'a [String], program: &Program) -> (Vec<Case<'a>>, Option<String>) {
    let text: String = requests.iter().flat_map(|r| [r.as_str(), "\n"]).collect();
    let answer = |request: &String| {
        let rust = rust::answer(request);
        let owed = rules::owed(request, &rust);
        (rust, owed)
    };
    let (ours, rusts) = program.lines(&text, || requests.iter().map(answer).collect::<Vec<_>>());
    let miscount = (ours.lines.len() != requests.len())
        .then(|| format!("the program has {} lines for {} requests", ours.lines.len(), requests.len()));
    let mut lines = ours.lines.into_iter();
    let both = requests.iter().zip(rusts);
    let cases = both.map(|(request, (rust, owed))| Case { request, rust, owed, ours: lines.next() });
    (cases.collect(), ours.problem.or(miscount))
}

pub fn compare(requests: &[String], program: &Program, tally: &mut Tally) {
    if requests.is_empty() {
        return;
    }
    let (cases, problem) = answered(requests, program);
    if let Some(text) = problem {
        tally.error(format!("{text}\n"));
    }
    for case in cases {
        tally.add(case.request, case.verdict());
    }
}
