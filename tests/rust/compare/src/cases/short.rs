//! All short cases: every small vector in every call, every small slice, every short run.
use super::bound_shown;
use crate::text::{Bits, Sparse};
use std::ops::Bound;

const BIT_PAIRS: [&str; 13] = [
    "bvect and", "bvect or", "bvect xor", "bvect dot", "bvect hamming", "bvect jaccard", "bvect jaccard_or_nan",
    "bvect eq", "bvect order", "bit counts", "bit and", "bit or", "bit xor",
];

const SPARSE_PAIRS: [&str; 5] = ["svect add", "svect sub", "svect mul", "svect eq", "svect order"];

const SUMS: [&str; 2] = ["svect dot", "svect l2"];

const WHOLE: [f32; 3] = [1.0, -1.0, 2.0];

const ALL: [f32; 7] = [1.0, -1.0, 2.0, 0.5, f32::INFINITY, f32::NEG_INFINITY, f32::NAN];

const SPECIAL: [f32; 4] = [1.0, -1.0, f32::INFINITY, f32::NAN];

pub fn all() -> Vec<String> {
    let mut cases = vec![];
    bits(&mut cases);
    bit_checks(&mut cases);
    sparse_pairs(&mut cases);
    sparse_checks(&mut cases);
    slices(&mut cases);
    zeros_and_capacities(&mut cases);
    averages(&mut cases);
    runs(&mut cases);
    cases
}

/// All bit vectors of such dims, at most 64.
fn bit_vectors(dims: u32) -> Vec<Bits> {
    (0..1 << dims).map(|word| Bits { dims, words: vec![word] }).collect()
}

/// All sparse vectors of such dims with these values.
fn sparse_vectors(dims: u32, values: &[f32]) -> Vec<Sparse> {
    let mut all = vec![Sparse { dims, indexes: vec![], values: vec![] }];
    for index in 0..dims {
        for k in 0..all.len() {
            for &value in values {
                let mut v = all[k].clone();
                v.indexes.push(index);
                v.values.push(value);
                all.push(v);
            }
        }
    }
    all
}

fn each_pair(calls: &[&str], left: &[String], right: &[String], cases: &mut Vec<String>) {
    for call in calls {
        for a in left {
            cases.extend(right.iter().map(|b| format!("{call} | {a} | {b}")));
        }
    }
}

fn bits(cases: &mut Vec<String>) {
    let texts = |dims| bit_vectors(dims).iter().map(Bits::request).collect::<Vec<_>>();
    let small: Vec<String> = (1..=4).flat_map(texts).collect();
    each_pair(&BIT_PAIRS, &small, &small, cases);
    each_pair(&BIT_PAIRS, &texts(5), &texts(5), cases);
    for v in (1..=8).flat_map(bit_vectors) {
        cases.push(format!("bvect check | {}", v.request()));
        cases.push(format!("bit one | {}", v.request()));
        if v.dims <= 5 {
            cases.extend((0..=v.dims + 1).map(|k| format!("bvect get | {} | {k}", v.request())));
        }
    }
}

/// Dims and words that do not fit each other, and words around the end of the first.
fn bit_checks(cases: &mut Vec<String>) {
    let words = [0, 1, 2, 3, 4, 8, 1 << 62, 1 << 63, u64::MAX];
    let mut lists = vec![vec![]];
    lists.extend(words.map(|w| vec![w]));
    lists.extend(words.iter().flat_map(|&a| words.map(|b| vec![a, b])));
    for dims in [0, 1, 2, 3, 62, 63, 64, 65, 66, 127, 128, 129] {
        for list in &lists {
            let v = Bits { dims, words: list.clone() };
            cases.push(format!("bvect check | {}", v.request()));
        }
    }
}

fn sparse_pairs(cases: &mut Vec<String>) {
    let texts = |dims, values| sparse_vectors(dims, values).iter().map(Sparse::request).collect::<Vec<_>>();
    for (dims, values) in [(1, &ALL[..]), (2, &ALL), (3, &WHOLE), (3, &SPECIAL)] {
        let all = texts(dims, values);
        each_pair(&SPARSE_PAIRS, &all, &all, cases);
    }
    for dims in 1..=3 {
        let all = texts(dims, &WHOLE);
        each_pair(&SUMS, &all, &all, cases);
    }
    for calls in [&SPARSE_PAIRS[..], &SUMS] {
        each_pair(calls, &texts(1, &WHOLE), &texts(2, &WHOLE), cases);
        each_pair(calls, &texts(2, &WHOLE), &texts(1, &WHOLE), cases);
    }
}

/// All lists of so many of these.
fn lists<T: Copy>(n: usize, of: &[T]) -> Vec<Vec<T>> {
    let mut all = vec![vec![]];
    for _ in 0..n {
        all = all.iter().flat_map(|list| of.iter().map(|&x| [&list[..], &[x]].concat())).collect();
    }
    all
}

/// Lists that are out of order, too long, beyond dims or have zeros.
fn sparse_checks(cases: &mut Vec<String>) {
    for (n, of) in
        [(0, &[1.0][..]), (1, &[1.0, 0.0, -0.0, f32::NAN]), (2, &[1.0, 0.0, -0.0, f32::NAN]), (3, &[1.0, 0.0])]
    {
        for (indexes, values) in
            lists(n, &[0, 1, 2, 3]).iter().flat_map(|i| lists(n, of).into_iter().map(move |v| (i, v)))
        {
            for dims in 0..=4 {
                let mut v = Sparse { dims, indexes: indexes.clone(), values: values.clone() };
                cases.push(format!("svect check | {}", v.request()));
                if n == 2 && dims == 3 {
                    v.values.pop();
                    cases.push(format!("svect check | {}", v.request()));
                    v.values = values.clone();
                    v.indexes.pop();
                    cases.push(format!("svect check | {}", v.request()));
                }
            }
        }
    }
}

/// All pairs of bounds around a vector of such dims.
fn bounds(dims: u32) -> Vec<String> {
    let places: Vec<u32> = (0..=dims + 1).chain([u32::MAX]).collect();
    let mut one = vec![Bound::Unbounded];
    one.extend(places.iter().flat_map(|&n| [Bound::Included(n), Bound::Excluded(n)]));
    let pairs = one.iter().flat_map(|&a| one.iter().map(move |&b| (a, b)));
    pairs.map(|(a, b)| format!("{} {}", bound_shown(a), bound_shown(b))).collect()
}

fn slices(cases: &mut Vec<String>) {
    for dims in 1..=4 {
        let bounds = bounds(dims);
        for v in bit_vectors(dims) {
            cases.extend(bounds.iter().map(|b| format!("bvect part | {} | {b}", v.request())));
        }
        let values = if dims == 4 { &[1.0][..] } else { &[1.0, f32::NAN] };
        for v in sparse_vectors(dims, values) {
            cases.extend(bounds.iter().map(|b| format!("svect part | {} | {b}", v.request())));
        }
    }
}

fn zeros_and_capacities(cases: &mut Vec<String>) {
    let ends = [65_534, 65_535, 65_536, 1_048_574, 1_048_575, 1_048_576, u32::MAX - 1, u32::MAX];
    for n in (0..=200).chain(ends) {
        cases.push(format!("bvect zero | {n}"));
        cases.push(format!("svect zero | {n}"));
    }
    for dims in (0..=40).chain([1000, 1_048_575]) {
        cases.extend((0..=70).map(|n| format!("aggregate capacity | {dims} {n}")));
    }
}

/// Every count around the powers of two from which a float has gaps, and at the end.
fn averages(cases: &mut Vec<String>) {
    let around = |n: u64| (n - 20..=n).chain((1..=20).filter_map(move |k| n.checked_add(k)));
    let starts = [1 << 24, 1 << 25, 1 << 26, 1 << 53, 1 << 63, u64::MAX];
    for count in (1..=20).chain(starts.into_iter().flat_map(around)) {
        for x in [1.0, -3.0, 16_777_215.0, f32::MAX, f32::MIN_POSITIVE, f32::from_bits(1), f32::INFINITY, f32::NAN] {
            let held = Sparse { dims: 8, indexes: vec![3], values: vec![x] };
            cases.push(format!("aggregate average | {count} | {}", held.request()));
        }
    }
}

/// All runs of 1 to `most` of these steps. One that starts with a sum or an average ends there.
fn step_runs(steps: &[String], most: usize, cases: &mut Vec<String>) {
    for n in 1..=most {
        let places: Vec<usize> = (0..steps.len()).collect();
        for list in lists(n, &places) {
            let run: Vec<&str> = list.iter().map(|&k| &steps[k][..]).collect();
            if n > 1 && (run[0] == "sum" || run[0] == "average") {
                continue;
            }
            cases.push(format!("aggregate run | {}", run.join(" | ")));
        }
    }
}

fn rows_of(state: &str, dims: u32, values: &[f32]) -> Vec<String> {
    sparse_vectors(dims, values).iter().map(|v| format!("{state} {}", v.request())).collect()
}

fn runs(cases: &mut Vec<String>) {
    let ends = ["combine", "sum", "average"].map(String::from);
    let first = rows_of("first", 2, &WHOLE);
    let second = rows_of("second", 2, &WHOLE);
    for a in &first {
        for b in &first {
            cases.extend(first.iter().map(|c| format!("aggregate run | {a} | {b} | {c} | sum | average")));
            cases.extend(second.iter().map(|c| format!("aggregate run | {a} | {b} | {c} | combine | sum | average")));
            cases.extend(second.iter().map(|c| format!("aggregate run | {c} | combine | {a} | {b} | sum")));
        }
    }
    // Steps in every order, at dims 1, with the largest float too.
    let mut steps = rows_of("first", 1, &[1.0, f32::MAX, -f32::MAX]);
    steps.extend(rows_of("second", 1, &[1.0]));
    steps.extend(ends.clone());
    step_runs(&steps, 4, cases);
    // At dims 17 a state has the capacity 16 or 17.
    let row = |x: f32| Sparse { dims: 17, indexes: (0..17).collect(), values: vec![x; 17] }.request();
    let mut steps = vec!["first 17".into(), format!("first {}", row(1.0)), "second 17 16:3f800000".into()];
    steps.extend([format!("second {}", row(1.0)), format!("second {}", row(-1.0))]);
    steps.extend(ends);
    step_runs(&steps, 4, cases);
    // An infinity beside others.
    let mut steps = rows_of("first", 2, &[1.0, f32::INFINITY]);
    steps.push("sum".into());
    step_runs(&steps, 3, cases);
}
