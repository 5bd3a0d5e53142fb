//! What is to be reached, and whether it is.
use crate::results::{Measured, Results};
use crate::timing::{COPY, EIGEN, OURS, RUST, TWIN};
use std::fmt::{Display, Formatter, Result};

/// What all sides are built for.
#[derive(Clone, Copy)]
pub enum Build {
    /// Any machine.
    Plain,
    /// This processor.
    Native,
}

impl Build {
    pub fn named(name: &str) -> Option<Self> {
        match name {
            "plain" => Some(Build::Plain),
            "native" => Some(Build::Native),
            _ => None,
        }
    }
}

/// Whose time a target is a share of.
#[derive(Clone, Copy, Debug, PartialEq)]
pub enum Of {
    Rust,
    /// The faster one of the Rust and Eigen. Without Eigen it is the Rust.
    Better,
    /// A plain copy of the answer.
    Copy,
    /// The other one of two calls of ours.
    Twin,
}

impl Of {
    fn name(self) -> &'static str {
        match self {
            Of::Rust => "the Rust",
            Of::Better => "the better",
            Of::Copy => "the copy",
            Of::Twin => "the twin",
        }
    }

    /// The side against which the target is kept.
    pub fn side(self) -> &'static str {
        match self {
            Of::Rust | Of::Better => RUST,
            Of::Copy => COPY,
            Of::Twin => TWIN,
        }
    }
}

/// A ratio as it is shown and compared: two digits after the point, and up to four where it is small.
pub fn shown(ratio: f64) -> String {
    let digits = match ratio {
        r if r < 0.01 => 4,
        r if r < 0.1 => 3,
        _ => 2,
    };
    format!("{ratio:.digits$}")
}

/// A ratio that is to be reached.
#[derive(Clone, Copy, Debug, PartialEq)]
pub struct Target {
    pub at_most: f64,
    pub of: Of,
}

pub fn of_rust(at_most: f64) -> Option<Target> {
    Some(Target { at_most, of: Of::Rust })
}

pub fn of_better(at_most: f64) -> Option<Target> {
    Some(Target { at_most, of: Of::Better })
}

pub fn of_copy(at_most: f64) -> Option<Target> {
    Some(Target { at_most, of: Of::Copy })
}

pub fn of_twin(at_most: f64) -> Option<Target> {
    Some(Target { at_most, of: Of::Twin })
}

impl Display for Target {
    fn fmt(&self, f: &mut Formatter) -> Result {
        write!(f, "{} of {}", shown(self.at_most), self.of.name())
    }
}

impl Target {
    /// Reads what is shown.
    pub fn read(text: &str) -> Option<Self> {
        let (at_most, name) = text.split_once(" of ")?;
        let of = [Of::Rust, Of::Better, Of::Copy, Of::Twin].into_iter().find(|of| of.name() == name)?;
        Some(Target { at_most: at_most.parse().ok()?, of })
    }

    /// Whether a ratio is at most this, both as they are shown.
    pub fn is_met_by(&self, ratio: f64) -> bool {
        let digits = |number: f64| shown(number).parse::<f64>().expect("a ratio");
        digits(ratio) <= digits(self.at_most)
    }
}

/// How that is said; nothing without a target.
pub fn verdict(is_met: Option<bool>) -> &'static str {
    is_met.map_or("", |met| if met { "met" } else { "missed" })
}

/// A case of ours by the Rust, and what its target is held against.
pub struct Judged<'a> {
    pub by_rust: &'a Measured,
    /// Ours by the better, if the target is of that.
    pub by_better: Option<f64>,
}

impl Judged<'_> {
    /// The ratio that decides.
    pub fn ratio(&self) -> f64 {
        self.by_better.unwrap_or(self.by_rust.ratio.median)
    }

    pub fn is_met(&self) -> Option<bool> {
        self.by_rust.target.map(|target| target.is_met_by(self.ratio()))
    }
}

pub fn judged(results: &Results) -> impl Iterator<Item = Judged<'_>> {
    results.of(OURS, RUST).map(|by_rust| {
        let by_eigen = results.of(OURS, EIGEN).find(|m| m.case == by_rust.case);
        let is_of_better = by_rust.target.is_some_and(|target| target.of == Of::Better);
        // Who is faster gives the greater ratio.
        let better = by_eigen.map_or(0.0, |m| m.ratio.median).max(by_rust.ratio.median);
        Judged { by_rust, by_better: is_of_better.then_some(better) }
    })
}

#[cfg(test)]
mod tests {
    use super::{judged, of_better, of_copy, of_rust, of_twin, shown, Target, EIGEN, OURS, RUST};
    use crate::results::{Measured, Results};
    use crate::timing::Spread;

    fn by(other: &str, ratio: f64, target: Option<Target>) -> Measured {
        let ratio = Spread { median: ratio, low: ratio, high: ratio };
        let (case, side, other) = ("a case".into(), OURS.into(), other.into());
        Measured { case, target, side, other, ns: 1.0, other_ns: 1.0, ratio }
    }

    /// Whether a target is met with these ratios to the Rust and to Eigen; by the text of the results.
    fn is_met(target: Option<Target>, rust: f64, eigen: Option<f64>) -> Option<bool> {
        let mut results = Results::default();
        results.measured.push(by(RUST, rust, target));
        results.measured.extend(eigen.map(|ratio| by(EIGEN, ratio, None)));
        let found = judged(&Results::read(&results.text())).next().unwrap().is_met();
        found
    }

    #[test]
    fn a_target_is_held_against_whom_it_names() {
        assert_eq!(is_met(of_rust(0.8), 0.7, Some(0.9)), Some(true));
        assert_eq!(is_met(of_better(0.8), 0.7, Some(0.9)), Some(false));
        assert_eq!(is_met(of_better(0.8), 0.9, Some(0.7)), Some(false));
        assert_eq!(is_met(of_better(0.8), 0.804, None), Some(true));
        assert_eq!(is_met(None, 0.7, Some(0.7)), None);
    }

    #[test]
    fn small_ratios_have_more_digits() {
        let ratios = [0.00034, 0.0034, 0.0996, 0.1, 1.0].map(shown);
        assert_eq!(ratios, ["0.0003", "0.0034", "0.100", "0.10", "1.00"]);
        assert_eq!(is_met(of_rust(0.003), 0.00304, None), Some(true));
        assert_eq!(is_met(of_rust(0.003), 0.0034, None), Some(false));
    }

    #[test]
    fn a_target_is_read_as_it_is_shown() {
        for target in [of_rust(0.003), of_better(0.8), of_copy(2.0), of_twin(1.05)].into_iter().flatten() {
            assert_eq!(Target::read(&target.to_string()), Some(target));
        }
        assert_eq!(Target::read("-"), None);
    }
}
