//! Answers the cases of `crates/test_sparse` by the raw calls.

use crate::read::{bounds, fields, float, vector, DOT};
use oxlanyard::ffi::*;
use std::ops::Bound;

type Vector = (u32, Vec<u32>, Vec<f32>);

/// Calls with the lists of two vectors, and what else is given.
macro_rules! two {
    ($call:expr, $a:expr, $b:expr, $($more:expr),*) => {{
        let ((da, ia, va), (db, ib, vb)) = ($a, $b);
        // SAFETY: all lists are slices, and all slots and outputs are our own.
        unsafe {
            $call(
                *da, ia.as_ptr(), ia.len(), va.as_ptr(), va.len(),
                *db, ib.as_ptr(), ib.len(), vb.as_ptr(), vb.len(),
                $($more),*
            )
        }
    }};
}

/// What was done, or the refusal.
fn told(number: u32, place: usize, done: String) -> String {
    if number == 0 {
        assert_eq!(place, 0);
        done
    } else {
        format!("refused {number} {place}")
    }
}

fn one(call: &str, (dims, i, v): &Vector) -> String {
    let (mut d, mut len, mut place) = (7, 7, 7);
    if call == "check" {
        // SAFETY: the lists are slices, and the slot is our own.
        let number = unsafe { oxl_svect_new_checked(*dims, i.as_ptr(), i.len(), v.as_ptr(), v.len(), &mut place) };
        return told(number, place, "valid".into());
    }
    // SAFETY: the slots are our own.
    let number = unsafe { oxl_svect_zero(*dims, &mut d, &mut len, &mut place) };
    assert!(number == 0 || (d, len) == (0, 0));
    told(number, place, format!("done dims {d} entries {len}"))
}

/// Before the call a float slot has a value of its own, which a refusal leaves there.
fn distances(call: &str, a: &Vector, b: &Vector) -> String {
    let (mut xy, mut x2, mut y2, mut place) = (-7.5, -7.5, -7.5, 7);
    let number = match call {
        "dot" => two!(oxl_svect_operator_dot, a, b, &mut xy, &mut place),
        "l2" => two!(oxl_svect_operator_l2, a, b, &mut xy, &mut place),
        _ => two!(oxl_svect_three_sums, a, b, &mut xy, &mut x2, &mut y2, &mut place),
    };
    assert!(number == 0 || (xy, x2, y2) == (-7.5, -7.5, -7.5));
    let done = match call {
        "three" => format!("sums {} {} {}", float(xy), float(x2), float(y2)),
        _ => format!("value {}", float(xy)),
    };
    told(number, place, done)
}

fn questions(call: &str, a: &Vector, b: &Vector) -> String {
    let (mut slot, mut place) = (7, 7);
    let (number, words) = match call {
        "eq" => (two!(oxl_svect_eq, a, b, &mut slot, &mut place), &["no", "yes"][..]),
        _ => (
            two!(oxl_svect_partial_cmp, a, b, &mut slot, &mut place),
            &["", "less", "equal", "greater", "unordered"][..],
        ),
    };
    assert!(number == 0 || slot == 0);
    told(number, place, words[slot as usize].into())
}

fn kind(bound: Bound<u32>) -> (u32, u32) {
    match bound {
        Bound::Included(n) => (0, n),
        Bound::Excluded(n) => (1, n),
        Bound::Unbounded => (2, 9),
    }
}

/// The calls that write to lent lists: what they answer, and what stands there afterwards.
fn writes(call: &str, a: &Vector, field: &str, room: &str) -> String {
    let room: Vec<usize> = room.trim_matches(['[', ']']).split(' ').map(|n| n.parse().expect("a length")).collect();
    let (mut oi, mut ov) = (vec![DOT; room[0]], vec![f32::from_bits(DOT); room[1]]);
    let (i, n, v, m) = (oi.as_mut_ptr(), oi.len(), ov.as_mut_ptr(), ov.len());
    // A slice has no turns.
    let (mut dims, mut len, mut turns, mut place) = (7, 7, if call == "part" { 0 } else { 7 }, 7);
    let (d, l, t, p) = (&mut dims, &mut len, &mut turns, &mut place);
    let number = if call == "part" {
        let (from, to) = bounds(field);
        let ((from_kind, from), (to_kind, to)) = (kind(from), kind(to));
        let (da, ia, va) = (a.0, &a.1, &a.2);
        let (at, is) = ((ia.as_ptr(), ia.len()), (va.as_ptr(), va.len()));
        // SAFETY: all lists are slices, and all slots and outputs are our own.
        unsafe { oxl_svect_subvector(da, at.0, at.1, is.0, is.1, from_kind, from, to_kind, to, i, n, v, m, d, l, p) }
    } else {
        let b = &vector(field);
        match call {
            "add" => two!(oxl_svect_operator_add, a, b, i, n, v, m, d, l, t, p),
            "sub" => two!(oxl_svect_operator_sub, a, b, i, n, v, m, d, l, t, p),
            _ => two!(oxl_svect_operator_mul, a, b, i, n, v, m, d, l, t, p),
        }
    };
    assert!(number == 0 || (dims, len, turns) == (0, 0, 0));
    let turns = if call == "part" { String::new() } else { format!(" turns {turns}") };
    let mut line = told(number, place, format!("done dims {dims} entries {len}{turns}")) + " |";
    oi.iter().for_each(|index| line += &format!(" {index}"));
    line += " |";
    ov.iter().for_each(|value| line += &format!(" {}", float(*value)));
    line
}

pub fn answer(case: &str) -> String {
    let fields = fields(case);
    let call = fields[0].split(' ').next().expect("a call");
    let a = vector(fields[1]);
    let answer = match call {
        "check" | "zero" => one(call, &a),
        "dot" | "l2" | "three" => distances(call, &a, &vector(fields[2])),
        "eq" | "order" => questions(call, &a, &vector(fields[2])),
        _ => writes(call, &a, fields[2], fields[3]),
    };
    format!("{} | {answer}", fields[0])
}
