//! Reads cases, and prints answers in the words of the test programs.

use std::fs;
use std::ops::Bound;
use std::path::Path;

/// What `.` stands for in two lists: an entry whose index and value both have these bits.
pub const DOT: u32 = 0xeeee_eeee;

/// The cases of a program, each with the line that it printed.
pub fn cases(program: &str) -> Vec<(String, String)> {
    let folder = Path::new(env!("CARGO_MANIFEST_DIR")).join("../../crates").join(program);
    let read = |file: &str| fs::read_to_string(folder.join(file)).expect("the repository has the cases");
    let (cases, lines) = (read("stdin"), read("stdout"));
    assert_eq!(cases.lines().count(), lines.lines().count());
    let pairs = cases.lines().zip(lines.lines()).filter(|(case, _)| !case.starts_with('#'));
    pairs.map(|(case, line)| (case.to_string(), line.to_string())).collect()
}

/// The fields of a case, between its bars.
pub fn fields(case: &str) -> Vec<&str> {
    case.split('|').map(str::trim).collect()
}

/// Numbers in decimal.
pub fn numbers(field: &str) -> Vec<u64> {
    field.split_whitespace().map(|word| word.parse().expect("a number")).collect()
}

/// Two lists, entry by entry.
pub fn lists(field: &str) -> (Vec<u32>, Vec<f32>) {
    let (mut indexes, mut values) = (Vec::new(), Vec::new());
    for word in field.split_whitespace() {
        if word == "." {
            indexes.push(DOT);
            values.push(f32::from_bits(DOT));
            continue;
        }
        let (index, value) = word.split_once(':').expect("an entry");
        indexes.extend(index.parse::<u32>());
        values.extend(u32::from_str_radix(value, 16).map(f32::from_bits));
    }
    (indexes, values)
}

/// A sparse vector: its dims and its entries.
pub fn vector(field: &str) -> (u32, Vec<u32>, Vec<f32>) {
    let (dims, entries) = field.split_once(' ').unwrap_or((field, ""));
    let (indexes, values) = lists(entries);
    (dims.parse().expect("dims"), indexes, values)
}

/// The bounds of a slice: `=4` is included, `!4` is excluded, `*` is none.
pub fn bounds(field: &str) -> (Bound<u32>, Bound<u32>) {
    let bound = |word: &str| match word.split_at(1) {
        ("=", n) => Bound::Included(n.parse().expect("a bound")),
        ("!", n) => Bound::Excluded(n.parse().expect("a bound")),
        _ => Bound::Unbounded,
    };
    let (from, to) = field.split_once(' ').expect("two bounds");
    (bound(from), bound(to))
}

/// The digits of a float's bits; those of a NaN are not promised.
pub fn float(x: f32) -> String {
    if x.is_nan() {
        "nan".to_string()
    } else {
        format!("{:08x}", x.to_bits())
    }
}

/// Two lists as they are printed; `open` are places that a call leaves open.
pub fn shown(indexes: &[u32], values: &[f32], open: std::ops::Range<usize>) -> String {
    let mut line = String::from(" |");
    for at in 0..indexes.len().max(values.len()) {
        line += &match (indexes.get(at), values.get(at)) {
            _ if open.contains(&at) => " _".to_string(),
            (Some(&DOT), Some(value)) if value.to_bits() == DOT => " .".to_string(),
            (index, value) => format!(
                " {}:{}",
                index.map(u32::to_string).unwrap_or_default(),
                value.copied().map(float).unwrap_or_default()
            ),
        };
    }
    line
}
