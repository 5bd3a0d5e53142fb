//! The order of sparse vectors, held to the dense vectors: mirrored when it is turned round, and fit for sorting.

use super::{sparse, INF};
use oxlanyard::SVectOwned;
use std::cmp::Ordering;

const NAN: f32 = f32::NAN;

const SMALLEST: f32 = f32::from_bits(1);

/// All vectors of such dims of which each place is empty or has one of these values.
fn all(dims: u32, values: &[f32]) -> Vec<SVectOwned> {
    let mut lists = vec![vec![]];
    for place in 0..dims {
        for k in 0..lists.len() {
            for &value in values {
                let mut list: Vec<(u32, f32)> = lists[k].clone();
                list.push((place, value));
                lists.push(list);
            }
        }
    }
    lists.iter().map(|list| sparse(dims, list)).collect()
}

/// The value at each place, in Rust's own floats.
fn dense(vector: &SVectOwned) -> Vec<f32> {
    let vector = vector.as_borrowed();
    let mut places = vec![0.0; vector.dims() as usize];
    for (&index, &value) in vector.indexes().iter().zip(vector.values()) {
        places[index as usize] = value;
    }
    places
}

/// Vectors of equal dims compare as their dense vectors do in Rust's lists of floats. Turned round the answer is
/// mirrored, and they are equal where it says so.
#[test]
fn is_that_of_the_dense_vectors() {
    for (dims, values) in
        [(1, &[1.0, -1.0, SMALLEST, -SMALLEST, f32::MAX, INF, -INF, NAN][..]), (3, &[1.0, -2.0, INF, NAN])]
    {
        let vectors = all(dims, values);
        for a in &vectors {
            for b in &vectors {
                let order = a.partial_cmp(b);
                assert_eq!(order, dense(a).partial_cmp(&dense(b)), "{a:?} {b:?}");
                assert_eq!(b.partial_cmp(a), order.map(Ordering::reverse), "{a:?} {b:?}");
                assert_eq!(a == b, order == Some(Ordering::Equal), "{a:?} {b:?}");
            }
        }
    }
}

/// A NaN that decides, on the left and on the right, with an entry of the other side at its index, behind it, or none; and
/// one behind what decides.
#[test]
fn nan_decides_or_does_not_matter() {
    let (none, nan, one) = (sparse(8, &[]), sparse(8, &[(3, NAN)]), sparse(8, &[(5, 1.0)]));
    for (a, b) in [(&nan, &one), (&nan, &none), (&nan, &nan)] {
        assert_eq!((a.partial_cmp(b), b.partial_cmp(a)), (None, None));
    }
    for behind in [sparse(8, &[(2, 1.0), (3, NAN)]), sparse(8, &[(2, 1.0), (7, NAN)])] {
        for b in [&none, &nan, &one] {
            assert_eq!(behind.partial_cmp(b), Some(Ordering::Greater));
            assert_eq!(b.partial_cmp(&behind), Some(Ordering::Less));
        }
    }
}

/// Numbers that look random, the same in each run.
struct Random(u64);

impl Random {
    fn below(&mut self, n: usize) -> usize {
        self.0 = self.0.wrapping_mul(6_364_136_223_846_793_005).wrapping_add(1_442_695_040_888_963_407);
        (self.0 >> 33) as usize % n
    }

    fn shuffle<T>(&mut self, list: &mut [T]) {
        for k in (1..list.len()).rev() {
            list.swap(k, self.below(k + 1));
        }
    }
}

/// Vectors without NaN, each of them twice, in many orders: they sort to one sequence, in which each stands beside its
/// twin and behind all that are less.
#[test]
fn without_nan_sorts_to_one_sequence() {
    let once = all(3, &[1.0, -1.0, SMALLEST, -SMALLEST, INF, -INF, f32::MAX]);
    let mut vectors: Vec<&SVectOwned> = once.iter().chain(&once).collect();
    let mut random = Random(1);
    let mut first: Option<Vec<Vec<f32>>> = None;
    for _ in 0..50 {
        random.shuffle(&mut vectors);
        vectors.sort_by(|a, b| a.partial_cmp(b).expect("equal dims, no NaN"));
        let sorted: Vec<Vec<f32>> = vectors.iter().map(|v| dense(v)).collect();
        assert!(sorted.chunks(2).all(|twins| twins[0] == twins[1]));
        assert!(sorted.windows(3).step_by(2).all(|w| w[1] < w[2]));
        assert_eq!(*first.get_or_insert_with(|| sorted.clone()), sorted);
    }
}
