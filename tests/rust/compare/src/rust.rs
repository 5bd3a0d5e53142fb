//! Answers a request by the Rust's own files. `none` is its None. `stops` is a panic: an assert, an index, error!.
use crate::text::{self, Bits, Sparse, Step};
use base::scalar::bit;
use base::vector::{BVectBorrowed, BVectOwned, SVectBorrowed, SVectOwned, VectorBorrowed, VectorOwned};
use pgrx::datum::{reset, Internal};
use std::cmp::Ordering;
use std::panic::{catch_unwind, AssertUnwindSafe};
use vectors::datatype::aggregate_svecf32::{probe, SVecf32AggregateAvgSumStype as State};

pub fn answer(request: &str) -> String {
    let (call, fields) = text::fields(request);
    let (file, name) = call.split_once(' ').expect("a call has a file and a name");
    match file {
        "svect" => svect(name, &fields),
        "bvect" => bvect(name, &fields),
        "bit" => bit_call(name, &fields),
        "aggregate" => aggregate(name, &fields),
        _ => panic!("no file of the Rust: {file}"),
    }
}

/// Keeps panics quiet: each is an answer.
pub fn be_quiet() {
    std::panic::set_hook(Box::new(|_| ()));
}

fn said(call: impl FnOnce() -> Option<String>) -> String {
    match catch_unwind(AssertUnwindSafe(call)) {
        Ok(Some(text)) => text,
        Ok(None) => "none".into(),
        Err(_) => "stops".into(),
    }
}

/// The Rust checks a borrowed and an owned vector by two functions.
fn checks(borrowed: bool, owned: bool) -> Option<String> {
    if borrowed != owned {
        return Some("the Rust's two checks differ".into());
    }
    borrowed.then(|| "valid".into())
}

fn yes_or_no(b: bool) -> String {
    if b { "yes" } else { "no" }.into()
}

fn order(o: Option<Ordering>) -> String {
    match o {
        Some(Ordering::Less) => "less",
        Some(Ordering::Equal) => "equal",
        Some(Ordering::Greater) => "greater",
        None => "unordered",
    }
    .into()
}

fn svect(name: &str, fields: &[&str]) -> String {
    if name == "zero" {
        let dims = text::number(fields[0]);
        return said(|| Some(text::sparse_shown(SVectOwned::<f32>::zero(dims).as_borrowed())));
    }
    let left = Sparse::read(fields[0]);
    match name {
        "check" => said(|| {
            let owned = SVectOwned::new_checked(left.dims, left.indexes.clone(), left.values.clone());
            checks(left.checked().is_some(), owned.is_some())
        }),
        "part" => {
            let bounds = text::bounds(fields[1]);
            said(|| Some(text::sparse_shown(left.checked()?.subvector(bounds)?.as_borrowed())))
        }
        _ => {
            let right = Sparse::read(fields[1]);
            said(|| Some(sparse_pair(name, left.checked()?, right.checked()?)))
        }
    }
}

fn sparse_pair(name: &str, a: SVectBorrowed<'_, f32>, b: SVectBorrowed<'_, f32>) -> String {
    match name {
        "add" => text::sparse_shown(a.operator_add(b).as_borrowed()),
        "sub" => text::sparse_shown(a.operator_sub(b).as_borrowed()),
        "mul" => text::sparse_shown(a.operator_mul(b).as_borrowed()),
        "dot" => text::float_shown(a.operator_dot(b).to_f32()),
        "l2" => text::float_shown(a.operator_l2(b).to_f32()),
        "eq" => yes_or_no(a == b),
        "order" => order(a.partial_cmp(&b)),
        _ => "no such call".into(),
    }
}

fn bits_of(v: BVectOwned) -> String {
    let v = v.as_borrowed();
    text::bits_shown(v.dims(), v.data())
}

fn bvect(name: &str, fields: &[&str]) -> String {
    if name == "zero" {
        let dims = text::number(fields[0]);
        return said(|| Some(bits_of(BVectOwned::zero(dims))));
    }
    let left = Bits::read(fields[0]);
    match name {
        "check" => said(|| {
            let owned = BVectOwned::new_checked(left.dims, left.words.clone());
            checks(left.checked().is_some(), owned.is_some())
        }),
        "get" => {
            let index = text::number(fields[1]);
            said(|| Some(yes_or_no(left.checked()?.get(index))))
        }
        "part" => {
            let bounds = text::bounds(fields[1]);
            said(|| Some(bits_of(left.checked()?.subvector(bounds)?)))
        }
        _ => {
            let right = Bits::read(fields[1]);
            said(|| Some(bits_pair(name, left.checked()?, right.checked()?)))
        }
    }
}

fn bits_pair(name: &str, a: BVectBorrowed<'_>, b: BVectBorrowed<'_>) -> String {
    match name {
        "and" => bits_of(a.operator_and(b)),
        "or" => bits_of(a.operator_or(b)),
        "xor" => bits_of(a.operator_xor(b)),
        "dot" => text::float_shown(a.operator_dot(b).to_f32()),
        "hamming" => text::float_shown(a.operator_hamming(b).to_f32()),
        "jaccard" | "jaccard_or_nan" => text::float_shown(a.operator_jaccard(b).to_f32()),
        "eq" => yes_or_no(a == b),
        "order" => order(a.partial_cmp(&b)),
        _ => "no such call".into(),
    }
}

/// The functions of bit.rs take words alone. They are handed the words of vectors that the Rust finds valid.
fn bit_call(name: &str, fields: &[&str]) -> String {
    let left = Bits::read(fields[0]);
    if name == "one" {
        return said(|| Some(bit::sum_of_x(left.checked()?.data()).to_string()));
    }
    let right = Bits::read(fields[1]);
    said(|| {
        let (a, b) = (left.checked()?.data(), right.checked()?.data());
        Some(match name {
            "counts" => {
                let (and, or) = bit::sum_of_and_or(a, b);
                let (one, two, three) = (bit::sum_of_and(a, b), bit::sum_of_or(a, b), bit::sum_of_xor(a, b));
                format!("{one} {two} {three} {and} {or}")
            }
            "and" => text::bits_shown(left.dims, &bit::vector_and(a, b)),
            "or" => text::bits_shown(left.dims, &bit::vector_or(a, b)),
            "xor" => text::bits_shown(left.dims, &bit::vector_xor(a, b)),
            _ => "no such call".into(),
        })
    })
}

fn aggregate(name: &str, fields: &[&str]) -> String {
    match name {
        "capacity" => {
            let (dims, n) = fields[0].split_once(' ').expect("dims and a number");
            capacity(text::number(dims), text::number(n)).to_string()
        }
        "average" => average(fields),
        "run" => run(fields),
        _ => "no such call".into(),
    }
}

/// The average of a state that holds a vector, with any count.
fn average(fields: &[&str]) -> String {
    let (count, held) = (text::count(fields[0]), Sparse::read(fields[1]));
    let answer = said(|| {
        let state = probe::state(count, held.checked()?);
        Some(text::sparse_shown(probe::average(state)?.as_borrowed()))
    });
    // The state ends here.
    unsafe { reset() };
    answer
}

/// The capacity that the Rust's state for n entries has.
pub fn capacity(dims: u32, n: u32) -> u32 {
    State::new_with_capacity(dims, n).capacity()
}

fn run(steps: &[&str]) -> String {
    let (mut first, mut second) = (Internal::NULL, Internal::NULL);
    let mut fields = vec![];
    for text in steps {
        let step = Step::read(text);
        let field = said(|| carried_out(&step, &mut first, &mut second));
        let is_last = field == "none" || field == "stops";
        fields.push(field);
        if is_last {
            break;
        }
    }
    // Both pointers end here.
    unsafe { reset() };
    fields.join(" | ")
}

fn carried_out(step: &Step, first: &mut Internal, second: &mut Internal) -> Option<String> {
    match step {
        Step::First(row) => {
            *first = probe::row(*first, row.checked()?);
            Some(state(*first))
        }
        Step::Second(row) => {
            *second = probe::row(*second, row.checked()?);
            Some(state(*second))
        }
        Step::Combine => {
            *first = probe::combine(*first, *second);
            *second = Internal::NULL;
            Some(state(*first))
        }
        Step::Sum => Some(text::sparse_shown(probe::sum(*first)?.as_borrowed())),
        Step::Average => Some(text::sparse_shown(probe::average(*first)?.as_borrowed())),
    }
}

/// A state's numbers. Without rows the Rust has no state; that is shown as four zeros.
fn state(state: Internal) -> String {
    match unsafe { state.get_mut::<State>() } {
        Some(s) => text::state_shown(s.dims(), s.len(), s.capacity(), s.count()),
        None => text::state_shown(0, 0, 0, 0),
    }
}
