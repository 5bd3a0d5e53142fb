//! Answers the cases of `crates/test_aggregate` by the raw calls.

use crate::read::{fields, lists, numbers, shown, vector};
use oxlanyard::ffi::*;

type Header = [u64; 7];
type Lists = (Vec<u32>, Vec<f32>);

fn header(field: &str) -> Header {
    numbers(field).try_into().expect("seven numbers")
}

fn header_shown(h: &Header) -> String {
    let words: Vec<String> = h.iter().map(u64::to_string).collect();
    format!("header {}", words.join(" "))
}

/// An answer with a header: what was done, or the refusal. Behind it the lists, with open places after a merge.
fn told(number: u32, place: usize, turns: usize, h: &Header, merges: bool, (i, v): &Lists) -> String {
    if number != 0 {
        assert_eq!(turns, 0);
        return format!("refused {number} {place} {}{}", header_shown(h), shown(i, v, 0..0));
    }
    assert_eq!(place, 0);
    let start = h[0] as usize;
    let open = if merges { start + h[4] as usize..start + h[5] as usize } else { 0..0 };
    format!("done {} turns {turns}{}", header_shown(h), shown(i, v, open))
}

fn row(mut h: Header, mut a: Lists, (dims, bi, bv): (u32, Vec<u32>, Vec<f32>)) -> String {
    let (begun, mut turns, mut place) = (h[2] == 1, 7, 7);
    let (i, n, v, m) = (a.0.as_mut_ptr(), a.0.len(), a.1.as_mut_ptr(), a.1.len());
    let (bi, bn, bv, bm) = (bi.as_ptr(), bi.len(), bv.as_ptr(), bv.len());
    // SAFETY: all lists are slices, and the header and the slots are our own.
    let number = unsafe { oxl_aggregate_row(h.as_mut_ptr(), i, n, v, m, dims, bi, bn, bv, bm, &mut turns, &mut place) };
    told(number, place, turns, &h, begun, &a)
}

fn combine(mut h: Header, mut a: Lists, g: Header, (bi, bv): Lists) -> String {
    let (begun, mut turns, mut place) = (h[2] == 1 && g[2] == 1, 7, 7);
    let (i, n, v, m) = (a.0.as_mut_ptr(), a.0.len(), a.1.as_mut_ptr(), a.1.len());
    let (other, bi, bn, bv, bm) = (g.as_ptr(), bi.as_ptr(), bi.len(), bv.as_ptr(), bv.len());
    // SAFETY: all lists are slices, and the headers and the slots are our own.
    let number =
        unsafe { oxl_aggregate_combine(h.as_mut_ptr(), i, n, v, m, other, bi, bn, bv, bm, &mut turns, &mut place) };
    told(number, place, turns, &h, begun, &a)
}

fn move_to(mut h: Header, (ai, av): Lists, to: &[u64], mut c: Lists) -> String {
    let (mut turns, mut place) = (7, 7);
    let (more, start, length) = (to[0] as usize, to[1] as usize, to[2] as usize);
    let (ai, an, av, am) = (ai.as_ptr(), ai.len(), av.as_ptr(), av.len());
    let (i, n, v, m) = (c.0.as_mut_ptr(), c.0.len(), c.1.as_mut_ptr(), c.1.len());
    let (h_, t, p) = (h.as_mut_ptr(), &mut turns, &mut place);
    // SAFETY: all lists are slices, and the header and the slots are our own.
    let number = unsafe { oxl_aggregate_move_to(h_, ai, an, av, am, more, i, n, v, m, start, length, t, p) };
    told(number, place, turns, &h, false, &c)
}

fn finish(call: &str, h: Header, (ai, av): Lists, (mut oi, mut ov): Lists) -> String {
    let (mut dims, mut len, mut place) = (7, 7, 7);
    let call = if call == "sum" { oxl_aggregate_sum } else { oxl_aggregate_average };
    let (ai, an, av, am) = (ai.as_ptr(), ai.len(), av.as_ptr(), av.len());
    let (i, n, v, m) = (oi.as_mut_ptr(), oi.len(), ov.as_mut_ptr(), ov.len());
    // SAFETY: all lists are slices, and the header and the slots are our own.
    let number = unsafe { call(h.as_ptr(), ai, an, av, am, i, n, v, m, &mut dims, &mut len, &mut place) };
    if number != 0 {
        assert_eq!((dims, len), (0, 0));
        return format!("refused {number} {place}{}", shown(&oi, &ov, 0..0));
    }
    assert_eq!(place, 0);
    format!("done dims {dims} entries {len}{}", shown(&oi, &ov, 0..0))
}

fn check(h: Header, (i, v): Lists) -> String {
    let mut place = 7;
    // SAFETY: the lists are slices, and the header and the slot are our own.
    let number = unsafe { oxl_aggregate_check(h.as_ptr(), i.as_ptr(), i.len(), v.as_ptr(), v.len(), &mut place) };
    match number {
        0 => "valid".into(),
        _ => format!("refused {number} {place}"),
    }
}

fn fresh(numbers: &[u64]) -> String {
    let mut h = [7; 7];
    // SAFETY: the header is our own.
    unsafe { oxl_aggregate_fresh(numbers[0] as usize, numbers[1] as usize, h.as_mut_ptr()) };
    header_shown(&h)
}

fn capacity(numbers: &[u64]) -> String {
    // SAFETY: the call takes two numbers.
    unsafe { oxl_aggregate_capacity(numbers[0] as u32, numbers[1] as usize) }.to_string()
}

pub fn answer(case: &str) -> String {
    let f = fields(case);
    let call = f[0].split(' ').next().expect("a call");
    let answer = match call {
        "fresh" => fresh(&numbers(f[1])),
        "capacity" => capacity(&numbers(f[1])),
        "check" => check(header(f[1]), lists(f[2])),
        "row" => row(header(f[1]), lists(f[2]), vector(f[3])),
        "combine" => combine(header(f[1]), lists(f[2]), header(f[3]), lists(f[4])),
        "move" => move_to(header(f[1]), lists(f[2]), &numbers(f[3]), lists(f[4])),
        _ => finish(call, header(f[1]), lists(f[2]), lists(f[3])),
    };
    format!("{} | {answer}", f[0])
}
