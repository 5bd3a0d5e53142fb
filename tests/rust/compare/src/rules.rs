//! Which answer is owed to a request, given the Rust's: the same one, or another by a departure of docs/DIFFERENCES.md.
//! Each rule says when the departure applies and what the answer then is, to the letter. Departures 4 and 5 cannot arise:
//! outputs have room, those of add and sub just as much as they ask for; and sums are exact in every order. Departure 9 is
//! no more: averages are the Rust's with any count.
use crate::paper::{self, Field, Ways};
use crate::text::{self, Bits, Sparse};
use base::scalar::bit;

/// What our program owes.
#[derive(Debug, PartialEq)]
pub enum Owed {
    /// The Rust's answer.
    Same,
    /// This answer, by the departure of this number.
    Departure(usize, String),
    /// The Rust's answer is neither the paper's nor explained by a departure.
    Unexplained,
}

pub fn owed(request: &str, rust: &str) -> Owed {
    let (call, fields) = text::fields(request);
    if call == "aggregate run" {
        return run(&fields, rust);
    }
    if let Some(refusal) = paper::due(call, &fields) {
        let answer = refusal.shown();
        return if refusal.number == 7 && compares_words_only(call) {
            unequal_dims(call, &fields, rust, answer)
        } else {
            instead_of_none(call, refusal.number, rust, answer)
        };
    }
    match call {
        "bvect and" => real_and(&fields, rust),
        "bvect jaccard" => alike(&fields, rust),
        "svect order" => nan_decides(&fields, rust),
        _ => Owed::Same,
    }
}

/// Departure 1. The Rust's AND of two valid vectors of equal dims is its left vector. Owed is what its own
/// `bit::vector_and` gives, in the left vector's dims.
fn real_and(fields: &[&str], rust: &str) -> Owed {
    let (left, right) = (Bits::read(fields[0]), Bits::read(fields[1]));
    let answer = text::bits_shown(left.dims, &bit::vector_and(&left.words, &right.words));
    if answer == rust {
        Owed::Same
    } else if rust == left.request() {
        Owed::Departure(1, answer)
    } else {
        Owed::Unexplained
    }
}

/// Departure 11. The Rust's Jaccard distance is NaN for two vectors without ones, and for no others. Owed is +0.0. The call
/// that keeps the Rust's answer, `jaccard_or_nan`, has no rule of its own.
fn alike(fields: &[&str], rust: &str) -> Owed {
    let is_bare = |field| Bits::read(field).words.iter().all(|&word| word == 0);
    match (is_bare(fields[0]) && is_bare(fields[1]), rust == "nan") {
        (true, true) => Owed::Departure(11, text::float_shown(0.0)),
        (false, false) => Owed::Same,
        _ => Owed::Unexplained,
    }
}

/// Departure 12. The first entries that are not the same decide, and of these the one at the lower index. Where that is
/// a NaN, and the other side's stands behind it, the Rust says greater, on whichever side the NaN is. Owed is that there
/// is no order. Nothing else departs: not a NaN behind what decides, at equal indexes, or past the other side's end.
fn nan_decides(fields: &[&str], rust: &str) -> Owed {
    let (a, b) = (Sparse::read(fields[0]), Sparse::read(fields[1]));
    let entries = |v: &Sparse| v.indexes.iter().copied().zip(v.values.clone()).collect::<Vec<_>>();
    let first = entries(&a).into_iter().zip(entries(&b)).find(|(left, right)| left != right);
    let is_lone_nan = |((i, x), (j, y)): ((u32, f32), (u32, f32))| (i < j && x.is_nan()) || (j < i && y.is_nan());
    match (a.dims == b.dims && first.is_some_and(is_lone_nan), rust) {
        (true, "greater") => Owed::Departure(12, "unordered".into()),
        (true, _) => Owed::Unexplained,
        (false, _) => Owed::Same,
    }
}

/// The distances, and the functions of bit.rs, which are handed words and no dims.
fn compares_words_only(call: &str) -> bool {
    let distances = ["svect dot", "svect l2", "bvect dot", "bvect hamming", "bvect jaccard", "bvect jaccard_or_nan"];
    distances.contains(&call) || call.starts_with("bit ")
}

/// Departure 2. Both vectors are valid and their dims differ. The Rust gives a number or words; it stops where the
/// numbers of words differ. Owed is DIFFER.
fn unequal_dims(call: &str, fields: &[&str], rust: &str, answer: String) -> Owed {
    let words = |text| Bits::read(text).words.len();
    let stops = !call.starts_with("svect") && words(fields[0]) != words(fields[1]);
    if (rust == "stops") == stops && rust != "none" {
        Owed::Departure(2, answer)
    } else {
        Owed::Unexplained
    }
}

/// Departure 3. A refusal is due. The Rust stops for zero of bad dims, `get` beyond dims and operands of unequal dims.
/// It says None to bad vectors and bad bounds. Owed is the refusal.
fn instead_of_none(call: &str, number: u32, rust: &str, answer: String) -> Owed {
    let stops = call.ends_with(" zero") || number == 7 || (call == "bvect get" && number == 4);
    if rust == if stops { "stops" } else { "none" } {
        Owed::Departure(3, answer)
    } else {
        Owed::Unexplained
    }
}

/// A run. Owed is the paper's run. Every step of the Rust's has to be as its text has it; where that is not the paper's
/// answer the step has its departure. The number is that of the first.
fn run(steps: &[&str], rust: &str) -> Owed {
    let (paper, like) = (paper::run(steps, Ways::Paper), paper::run(steps, Ways::Rust));
    let rust: Vec<&str> = rust.split(" | ").collect();
    if rust.len() != paper.len() || like.len() != paper.len() {
        return Owed::Unexplained;
    }
    let mut first = None;
    for ((field, like), said) in paper.iter().zip(&like).zip(rust) {
        match step(field, like, said) {
            Some(0) => (),
            Some(number) => first = first.or(Some(number)),
            None => return Owed::Unexplained,
        }
    }
    let answer = || paper.iter().map(|f| &f.text[..]).collect::<Vec<_>>().join(" | ");
    first.map_or(Owed::Same, |number| Owed::Departure(number, answer()))
}

/// The departure that a step shows, 0 where it shows none; or nothing explains it.
///
/// Departure 7: a combine went on with another state, or a first state without rows became the second itself.
/// Departure 8: there was an average before, and the Rust's divided the state. Both are worked out to the letter.
fn step(paper: &Field, like: &Field, rust: &str) -> Option<usize> {
    if rust == "none" || rust == "stops" {
        return not_carried_out(&paper.text, rust);
    }
    let is_spoilt = like.text != rust;
    if is_spoilt && (like.finite || !differs_at_nan(&like.text, rust)) {
        return None;
    }
    Some(match () {
        _ if paper.text == rust => 0,
        _ if is_spoilt => 6,
        _ if paper.averaged => 8,
        _ => 7,
    })
}

/// Departure 10: the first state has no rows, and the Rust no sum; or a row or a second state has other dims, and the
/// Rust stops. Departure 3: the row is not valid, and the Rust says None.
fn not_carried_out(paper: &str, rust: &str) -> Option<usize> {
    match (paper, rust) {
        ("refused 12 0", "none") => Some(10),
        ("refused 7 0", "stops") => Some(10),
        (text, "none") if ('1'..='5').any(|n| text.starts_with(&format!("refused {n} "))) => Some(3),
        _ => None,
    }
}

/// Departure 6. Some value or partial sum was not finite. Of two vectors the Rust's has every entry of the other, the same
/// or NaN, and what it has besides is NaN. A state of the Rust's is then longer.
fn differs_at_nan(like: &str, rust: &str) -> bool {
    let (ours, theirs): (Vec<&str>, Vec<&str>) = (like.split(' ').collect(), rust.split(' ').collect());
    if ours[0] != theirs[0] {
        return false;
    }
    if let ([_, len, capacity, count], [_, longer, c, n]) = (&ours[..], &theirs[..]) {
        if !len.contains(':') {
            return [capacity, count] == [c, n] && text::number(len) < text::number(longer);
        }
    }
    let index = |entry: &str| entry.split(':').next().map(String::from);
    let is_nan = |entry: &str| entry.ends_with(":nan");
    let kept = |entry: &&str| theirs.iter().any(|t| t == entry || (index(t) == index(entry) && is_nan(t)));
    let known = |entry: &&str| is_nan(entry) || ours.contains(entry);
    ours[1..].iter().all(kept) && theirs[1..].iter().all(known)
}
