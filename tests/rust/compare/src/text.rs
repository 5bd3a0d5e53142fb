//! The one text format: how a request is read, and how vectors and answers are written.
use base::vector::{BVectBorrowed, SVectBorrowed};
use std::fmt::Write;
use std::ops::Bound;

/// A sparse vector as it is given. It need not be valid; the two lists need not be equally long.
#[derive(Clone, Debug, PartialEq)]
pub struct Sparse {
    pub dims: u32,
    pub indexes: Vec<u32>,
    pub values: Vec<f32>,
}

/// A bit vector as it is given. It need not be valid.
#[derive(Clone, Debug, PartialEq)]
pub struct Bits {
    pub dims: u32,
    pub words: Vec<u64>,
}

/// One step of an aggregate's run.
pub enum Step {
    First(Sparse),
    Second(Sparse),
    Combine,
    Sum,
    Average,
}

/// The call and the other fields of a request.
pub fn fields(request: &str) -> (&str, Vec<&str>) {
    let mut fields = request.split(" | ");
    let call = fields.next().expect("a request has a call");
    (call, fields.collect())
}

pub fn number(text: &str) -> u32 {
    text.parse().expect("a number of a request")
}

pub fn count(text: &str) -> u64 {
    text.parse().expect("a count of a request")
}

fn float(digits: &str) -> f32 {
    f32::from_bits(u32::from_str_radix(digits, 16).expect("a value's bits"))
}

impl Sparse {
    pub fn read(text: &str) -> Sparse {
        let mut words = text.split(' ');
        let dims = number(words.next().expect("a vector has dims"));
        let (mut indexes, mut values) = (vec![], vec![]);
        for word in words {
            let (index, bits) = word.split_once(':').expect("an entry has a colon");
            indexes.extend((!index.is_empty()).then(|| number(index)));
            values.extend((!bits.is_empty()).then(|| float(bits)));
        }
        Sparse { dims, indexes, values }
    }

    /// The text of a request. Every value has its bits, a NaN too.
    pub fn request(&self) -> String {
        let mut text = self.dims.to_string();
        for k in 0..self.indexes.len().max(self.values.len()) {
            text.push(' ');
            if let Some(index) = self.indexes.get(k) {
                write!(text, "{index}").unwrap();
            }
            text.push(':');
            if let Some(value) = self.values.get(k) {
                write!(text, "{:08x}", value.to_bits()).unwrap();
            }
        }
        text
    }

    /// The vector as the Rust takes it, if it is valid.
    pub fn checked(&self) -> Option<SVectBorrowed<'_, f32>> {
        SVectBorrowed::new_checked(self.dims, &self.indexes, &self.values)
    }
}

impl Bits {
    pub fn read(text: &str) -> Bits {
        let mut parts = text.split(' ');
        let dims = number(parts.next().expect("a vector has dims"));
        let words = parts.map(|w| u64::from_str_radix(w, 16).expect("a word")).collect();
        Bits { dims, words }
    }

    pub fn request(&self) -> String {
        bits_shown(self.dims, &self.words)
    }

    /// The vector as the Rust takes it, if it is valid.
    pub fn checked(&self) -> Option<BVectBorrowed<'_>> {
        BVectBorrowed::new_checked(self.dims, &self.words)
    }
}

impl Step {
    pub fn read(text: &str) -> Step {
        match text.split_once(' ').unwrap_or((text, "")) {
            ("first", row) => Step::First(Sparse::read(row)),
            ("second", row) => Step::Second(Sparse::read(row)),
            ("combine", "") => Step::Combine,
            ("sum", "") => Step::Sum,
            ("average", "") => Step::Average,
            _ => panic!("no step: {text}"),
        }
    }
}

fn bound(text: &str) -> Bound<u32> {
    match text.as_bytes()[0] {
        b'=' => Bound::Included(number(&text[1..])),
        b'!' => Bound::Excluded(number(&text[1..])),
        _ => Bound::Unbounded,
    }
}

pub fn bounds(text: &str) -> (Bound<u32>, Bound<u32>) {
    let (start, end) = text.split_once(' ').expect("two bounds");
    (bound(start), bound(end))
}

/// A float in an answer.
pub fn float_shown(x: f32) -> String {
    if x.is_nan() {
        "nan".into()
    } else {
        format!("{:08x}", x.to_bits())
    }
}

/// A sparse vector in an answer.
pub fn sparse_shown(v: SVectBorrowed<'_, f32>) -> String {
    use base::vector::VectorBorrowed;
    let mut text = v.dims().to_string();
    for (index, &value) in v.indexes().iter().zip(v.values()) {
        write!(text, " {index}:{}", float_shown(value)).unwrap();
    }
    text
}

/// A bit vector, in a request or in an answer.
pub fn bits_shown(dims: u32, words: &[u64]) -> String {
    let mut text = dims.to_string();
    for word in words {
        write!(text, " {word:x}").unwrap();
    }
    text
}

/// A state in an answer.
pub fn state_shown(dims: u32, len: u32, capacity: u32, count: u64) -> String {
    format!("{dims} {len} {capacity} {count}")
}
