//! What a run has found, and its text: a line for each finding, fields between tabs.
use crate::targets::Target;
use crate::timing::Spread;

/// A case by two sides. The ratio is the first side's time by the other's.
pub struct Measured {
    pub case: String,
    pub target: Option<Target>,
    pub side: String,
    pub other: String,
    pub ns: f64,
    pub other_ns: f64,
    pub ratio: Spread,
}

/// The nanoseconds of an entry at each size.
pub struct Growth {
    pub call: String,
    pub side: String,
    pub ns: Vec<f64>,
}

/// The allocations that calls of ours made.
pub struct Allocations {
    pub calls: String,
    pub made: u64,
}

#[derive(Default)]
pub struct Results {
    pub machine: Vec<String>,
    pub warnings: Vec<String>,
    pub measured: Vec<Measured>,
    pub growth: Vec<Growth>,
    pub allocations: Vec<Allocations>,
}

impl Results {
    /// The cases of one side against another.
    pub fn of<'a>(&'a self, side: &'a str, other: &'a str) -> impl Iterator<Item = &'a Measured> {
        self.measured.iter().filter(move |m| m.side == side && m.other == other)
    }

    pub fn text(&self) -> String {
        let mut lines = vec![];
        lines.extend(self.machine.iter().map(|m| format!("machine\t{m}")));
        lines.extend(self.warnings.iter().map(|w| format!("warning\t{w}")));
        for m in &self.measured {
            let target = m.target.map_or("-".into(), |t| t.to_string());
            let Spread { median, low, high } = m.ratio;
            let (case, side, other) = (&m.case, &m.side, &m.other);
            lines.push(format!(
                "case\t{case}\t{target}\t{side}\t{other}\t{}\t{}\t{median}\t{low}\t{high}",
                m.ns, m.other_ns
            ));
        }
        for g in &self.growth {
            let ns: Vec<String> = g.ns.iter().map(f64::to_string).collect();
            lines.push(format!("growth\t{}\t{}\t{}", g.call, g.side, ns.join("\t")));
        }
        lines.extend(self.allocations.iter().map(|a| format!("allocations\t{}\t{}", a.calls, a.made)));
        lines.join("\n") + "\n"
    }

    /// Reads what `text` wrote.
    pub fn read(text: &str) -> Results {
        let mut results = Results::default();
        for line in text.lines() {
            let fields: Vec<&str> = line.split('\t').collect();
            match fields[0] {
                "machine" => results.machine.push(fields[1].into()),
                "warning" => results.warnings.push(fields[1].into()),
                "case" => results.measured.push(measured(&fields)),
                "growth" => {
                    let ns = fields[3..].iter().map(|f| number(f)).collect();
                    results.growth.push(Growth { call: fields[1].into(), side: fields[2].into(), ns });
                }
                "allocations" => {
                    let made = number(fields[2]) as u64;
                    results.allocations.push(Allocations { calls: fields[1].into(), made });
                }
                other => panic!("no such finding: {other}"),
            }
        }
        results
    }
}

fn number(field: &str) -> f64 {
    field.parse().expect("a number of the results")
}

fn measured(fields: &[&str]) -> Measured {
    Measured {
        case: fields[1].into(),
        target: Target::read(fields[2]),
        side: fields[3].into(),
        other: fields[4].into(),
        ns: number(fields[5]),
        other_ns: number(fields[6]),
        ratio: Spread { median: number(fields[7]), low: number(fields[8]), high: number(fields[9]) },
    }
}
