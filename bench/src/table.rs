//! The tables of a run, as Markdown that also reads well as text.
use crate::cases::{grouped, growth::SIZES};
use crate::results::{Measured, Results};
use crate::targets::{judged, shown as ratio, verdict, Judged};
use crate::timing::{COPY, OURS, OWNED, RUST, TWIN};

/// A table with columns of even width; numbers stand to the right. Without rows it is nothing.
fn table(head: &[&str], rows: &[Vec<String>]) -> String {
    if rows.is_empty() {
        return String::new();
    }
    let width = |k: usize| rows.iter().map(|row| row[k].chars().count()).max().unwrap_or(0).max(head[k].len()).max(3);
    let line = |cells: Vec<String>| format!("| {} |\n", cells.join(" | "));
    let cell = |k: usize, text: &str| {
        let w = width(k);
        if k == 0 {
            format!("{text:<w$}")
        } else {
            format!("{text:>w$}")
        }
    };
    let rule = |k: usize| if k == 0 { "-".repeat(width(k)) } else { "-".repeat(width(k) - 1) + ":" };
    let mut text = line(head.iter().enumerate().map(|(k, name)| cell(k, name)).collect());
    text += &line((0..head.len()).map(rule).collect());
    for row in rows {
        text += &line(row.iter().enumerate().map(|(k, value)| cell(k, value)).collect());
    }
    text
}

fn ns(time: f64) -> String {
    grouped(time.round() as u64)
}

/// A case by a name, the times of both sides, and the ratio with its quartiles.
fn named(name: String, m: &Measured) -> Vec<String> {
    let mut row = vec![name];
    row.extend(figures(m));
    row
}

fn figures(m: &Measured) -> [String; 4] {
    let quartiles = format!("{} to {}", ratio(m.ratio.low), ratio(m.ratio.high));
    [ns(m.ns), ns(m.other_ns), ratio(m.ratio.median), quartiles]
}

fn at_most(m: &Measured) -> String {
    m.target.map_or(String::new(), |target| target.to_string())
}

/// Ours against the Rust, with what is to be reached.
fn against_rust(results: &Results) -> String {
    let row = |case: Judged| {
        let mut row = named(case.by_rust.case.clone(), case.by_rust);
        row.extend([case.by_better.map_or(String::new(), ratio), at_most(case.by_rust), verdict(case.is_met()).into()]);
        row
    };
    let rows: Vec<_> = judged(results).map(row).collect();
    let met: Vec<bool> = judged(results).filter_map(|case| case.is_met()).collect();
    let count = met.iter().filter(|met| **met).count();
    let head = ["case", "ours, ns", "Rust, ns", "ratio", "quartiles", "by the better", "at most", ""];
    match met.len() {
        0 => table(&head, &rows),
        all => format!("{}\n{count} of {all} targets are met.\n", table(&head, &rows)),
    }
}

/// Where ours allocates its answer, as the Rust does.
fn owned(results: &Results) -> String {
    let rows: Vec<_> = results.of(OWNED, RUST).map(|m| named(m.case.clone(), m)).collect();
    table(&["case", "ours, ns", "Rust, ns", "ratio", "quartiles"], &rows)
}

/// The rows of a table of ours against others, and which others.
struct Others {
    name: &'static str,
    /// The name of a row, if it is wanted.
    row: fn(&Measured) -> Option<String>,
    /// Whether something is to be reached.
    has_targets: bool,
}

/// Ours against others, by the plain build and, if there is one, by that for the processor.
fn beside(others: &Others, plain: &Results, native: Option<&Results>) -> String {
    let cells = |m: &Measured| {
        let mut cells = figures(m).to_vec();
        if others.has_targets {
            let is_met = m.target.map(|target| target.is_met_by(m.ratio.median));
            cells.extend([at_most(m), verdict(is_met).into()]);
        }
        cells
    };
    let row = |m: &Measured| {
        let mut row = vec![(others.row)(m)?];
        row.extend(cells(m));
        if let Some(n) = native.and_then(|native| native.of(&m.side, &m.other).find(|n| n.case == m.case)) {
            row.extend(cells(n));
        }
        Some(row)
    };
    let rows: Vec<_> = plain.measured.iter().filter(|m| m.side == OURS).filter_map(row).collect();
    let mut head = vec!["case".to_string()];
    for unit in ["ns", "this CPU"].iter().take(1 + native.iter().count()) {
        head.extend([format!("ours, {unit}"), format!("{}, {unit}", others.name), "ratio".into(), "quartiles".into()]);
        if others.has_targets {
            head.extend(["at most".into(), String::new()]);
        }
    }
    table(&head.iter().map(String::as_str).collect::<Vec<_>>(), &rows)
}

fn peers(plain: &Results, native: Option<&Results>) -> String {
    let row = |m: &Measured| (![RUST, COPY, TWIN].contains(&&m.other[..])).then(|| format!("{}: {}", m.other, m.case));
    beside(&Others { name: "peer", row, has_targets: false }, plain, native)
}

/// Ours against a plain copy of the answer.
fn copies(plain: &Results, native: Option<&Results>) -> String {
    let row = |m: &Measured| (m.other == COPY).then(|| m.case.clone());
    beside(&Others { name: "copy", row, has_targets: true }, plain, native)
}

/// Two calls of ours that do the same work, each by the other.
fn twins(plain: &Results, native: Option<&Results>) -> String {
    let row = |m: &Measured| (m.other == TWIN).then(|| m.case.clone());
    beside(&Others { name: "twin", row, has_targets: true }, plain, native)
}

fn growth(results: &Results) -> String {
    let row = |g: &crate::results::Growth| {
        let mut row = vec![format!("{}: {}", g.side, g.call)];
        row.extend(g.ns.iter().map(|ns| format!("{ns:.2}")));
        let flat = g.ns[4] / g.ns[1];
        let met = if flat <= 1.5 { "met" } else { "missed" };
        row.extend([format!("{flat:.2}"), if g.side == OURS { met.into() } else { String::new() }]);
        row
    };
    let sizes: Vec<String> = SIZES.iter().map(|&n| grouped(n as u64)).collect();
    let mut head = vec!["ns for an entry at"];
    head.extend(sizes.iter().map(String::as_str));
    head.extend(["last by 1,000", "at most 1.50"]);
    table(&head, &results.growth.iter().map(row).collect::<Vec<_>>())
}

fn allocations(results: &Results) -> String {
    results.allocations.iter().map(|a| format!("- {}: {} allocations\n", a.calls, a.made)).collect()
}

fn listed(lines: &[String]) -> String {
    lines.iter().map(|line| format!("- {line}\n")).collect()
}

/// All of it.
pub fn report(plain: &Results, native: Option<&Results>) -> String {
    let kind = if std::env::consts::ARCH == "x86_64" { "any x86-64" } else { "any Arm of 64 bits" };
    let mut parts = vec![("The machine".to_string(), listed(&plain.machine))];
    let mut warnings = plain.warnings.clone();
    warnings.extend(native.iter().flat_map(|n| n.warnings.clone()).filter(|w| !plain.warnings.contains(w)));
    if !warnings.is_empty() {
        parts.push(("Warnings".into(), listed(&warnings)));
    }
    parts.push((format!("Both built for {kind}"), against_rust(plain)));
    if let Some(native) = native {
        parts.push(("Both built for this processor".into(), against_rust(native)));
    }
    parts.push((format!("Ours with owned answers, built for {kind}"), owned(plain)));
    let also = native.map_or("", |_| ", then for this processor");
    parts.push((format!("A copy of the answer's bytes, built for {kind}{also}"), copies(plain, native)));
    parts.push((format!("Two calls of ours, each by the other, built for {kind}{also}"), twins(plain, native)));
    parts.push((format!("Peers, built for {kind}{also}"), peers(plain, native)));
    parts.push((format!("Growth, built for {kind}"), growth(plain)));
    parts.push(("Allocations of ours".into(), allocations(plain)));
    parts.retain(|(_, text)| !text.is_empty());
    parts.iter().map(|(title, text)| format!("### {title}\n\n{text}\n")).collect()
}
