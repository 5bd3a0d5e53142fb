//! Every call of ours that is not to allocate, once, on small data.
use crate::allocations;
use crate::results::Allocations;
use oxlanyard::{capacity, BVectBorrowed, Refusal, SVectBorrowed, State};

/// The calls so far, and the allocations that they made.
#[derive(Default)]
struct Watch {
    calls: u64,
    made: u64,
}

impl Watch {
    fn call<T>(&mut self, name: &str, call: impl FnOnce() -> Result<T, Refusal>) -> T {
        let (mut call, mut answer) = (Some(call), None);
        let made = allocations::of(|| answer = call.take().map(|call| call()));
        if made > 0 {
            eprintln!("{name} allocates");
        }
        self.calls += 1;
        self.made += made;
        answer.expect("it was called").unwrap_or_else(|refusal| panic!("{name}: {refusal}"))
    }
}

fn bit_calls(watch: &mut Watch) {
    let mut out = [0; 2];
    let a = watch.call("bit check", || BVectBorrowed::new_checked(70, &[5, 1]));
    let b = watch.call("bit check", || BVectBorrowed::new_checked(70, &[6, 2]));
    watch.call("bit zero", || BVectBorrowed::zero_into(70, &mut out).map(|_| ()));
    watch.call("bit get", || a.get(3));
    watch.call("bit dot", || a.operator_dot(b));
    watch.call("Hamming", || a.operator_hamming(b));
    watch.call("Jaccard", || a.operator_jaccard(b));
    watch.call("Jaccard or NaN", || a.operator_jaccard_or_nan(b));
    watch.call("AND", || a.operator_and_into(b, &mut out).map(|_| ()));
    watch.call("OR", || a.operator_or_into(b, &mut out).map(|_| ()));
    watch.call("XOR", || a.operator_xor_into(b, &mut out).map(|_| ()));
    watch.call("bit slice", || a.subvector_into(1..69, &mut out).map(|_| ()));
    watch.call("bit equality", || Ok(a == b));
    watch.call("bit order", || Ok(a.partial_cmp(&b)));
}

fn sparse_calls(watch: &mut Watch) {
    let (mut i, mut v) = ([0; 4], [0.0; 4]);
    let a = watch.call("check", || SVectBorrowed::new_checked(9, &[1, 4], &[1.0, -2.0]));
    let b = watch.call("check", || SVectBorrowed::new_checked(9, &[4, 6], &[2.0, 0.5]));
    watch.call("a refusal", || Ok(SVectBorrowed::new_checked(9, &[4, 1], &[1.0, -2.0]).is_err()));
    watch.call("zero", || SVectBorrowed::zero(9));
    watch.call("dot", || a.operator_dot(b));
    watch.call("L2", || a.operator_l2(b));
    watch.call("three sums", || a.three_sums(b));
    watch.call("add", || a.operator_add_into(b, &mut i, &mut v).map(|_| ()));
    watch.call("sub", || a.operator_sub_into(b, &mut i, &mut v).map(|_| ()));
    watch.call("mul", || a.operator_mul_into(b, &mut i, &mut v).map(|_| ()));
    watch.call("slice", || a.subvector_into(1..5, &mut i, &mut v).map(|_| ()));
    watch.call("equality", || Ok(a == b));
    watch.call("order", || Ok(a.partial_cmp(&b)));
}

fn state_calls(watch: &mut Watch) {
    let (mut i, mut v, mut j, mut w) = ([0; 16], [0.0; 16], [0; 16], [0.0; 16]);
    let (mut k, mut x, mut oi, mut ov) = ([0; 32], [0.0; 32], [0; 2], [0.0; 2]);
    let a = watch.call("check", || SVectBorrowed::new_checked(900, &[1, 4], &[1.0, -2.0]));
    watch.call("capacity", || Ok(capacity(900, 2)));
    let mut first = watch.call("fresh", || Ok(State::new(&mut i, &mut v)));
    let mut second = watch.call("fresh", || Ok(State::new(&mut j, &mut w)));
    watch.call("first row", || first.row(a));
    watch.call("first row", || second.row(a));
    watch.call("row", || first.row(a));
    watch.call("combine", || first.combine(&second));
    let header = first.header();
    let moved = watch.call("move", || first.as_borrowed().move_to(20, &mut k, &mut x));
    watch.call("sum", || moved.sum_into(&mut oi, &mut ov).map(|_| ()));
    watch.call("average", || moved.average_into(&mut oi, &mut ov).map(|_| ()));
    watch.call("check of a state", || State::resume(header, &mut i, &mut v).map(|_| ()));
}

/// How many calls there were, and how many allocations they made.
pub fn every_call() -> Allocations {
    let mut watch = Watch::default();
    bit_calls(&mut watch);
    sparse_calls(&mut watch);
    state_calls(&mut watch);
    let calls =
        format!("{} calls, among them every call of the bindings that is lent its output or makes none", watch.calls);
    Allocations { calls, made: watch.made }
}
