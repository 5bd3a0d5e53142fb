//! Eigen's SparseVector.
use super::Eigen;
use crate::cases::{in_turn, same};
use crate::data::{Pair, Sparse, DIMS};
use crate::timing::{Side, EIGEN};
use oxlanyard::{SVectOwned, ThreeSums};
use std::ffi::c_void;
use std::hint::black_box;
use std::rc::Rc;

extern "C" {
    fn peer_eigen_vector(dims: u32, indexes: *const u32, values: *const f32, n: usize) -> *mut c_void;
    fn peer_eigen_drop(v: *mut c_void);
    fn peer_eigen_merge(which: i32, a: *const c_void, b: *const c_void) -> usize;
    fn peer_eigen_answer(which: i32, a: *const c_void, b: *const c_void, i: *mut u32, v: *mut f32) -> usize;
    fn peer_eigen_fold(which: i32, a: *const c_void, b: *const c_void, sums: *mut f32);
}

struct Vector(*mut c_void);

impl Vector {
    fn new(v: &Sparse) -> Rc<Self> {
        // SAFETY: the pointers are those of lists of this length.
        let vector = unsafe { peer_eigen_vector(DIMS, v.indexes.as_ptr(), v.values.as_ptr(), v.indexes.len()) };
        Rc::new(Vector(vector))
    }
}

impl Drop for Vector {
    fn drop(&mut self) {
        // SAFETY: the vector was made by `new`, and is used by no one.
        unsafe { peer_eigen_drop(self.0) }
    }
}

/// Eigen's sum, or its three.
fn fold(call: Eigen, a: &Vector, b: &Vector) -> [f32; 3] {
    let mut sums = [0.0; 3];
    // SAFETY: both vectors are Eigen's, and no call has more than three sums.
    unsafe { peer_eigen_fold(call as i32, a.0, b.0, sums.as_mut_ptr()) };
    sums
}

/// Stops if Eigen's answer is not ours: to the bit where each value comes of one operation, else to rounding.
fn compared(pair: &Pair, call: Eigen, a: &Vector, b: &Vector) {
    let new = |v: &Sparse| SVectOwned::new_checked(DIMS, v.indexes.clone(), v.values.clone()).unwrap();
    let (x, y) = (new(&pair.a), new(&pair.b));
    let (x, y) = (x.as_borrowed(), y.as_borrowed());
    let ours = match call {
        Eigen::Add => x.operator_add(y).unwrap(),
        Eigen::Sub => x.operator_sub(y).unwrap(),
        Eigen::Mul => x.operator_mul(y).unwrap(),
        Eigen::Dot => return close([-x.operator_dot(y).unwrap(), 0.0, 0.0], fold(call, a, b)),
        Eigen::L2 => return close([x.operator_l2(y).unwrap(), 0.0, 0.0], fold(call, a, b)),
        Eigen::ThreeSums => {
            let ThreeSums { xy, x2, y2 } = x.three_sums(y).unwrap();
            return close([xy, x2, y2], fold(call, a, b));
        }
    };
    let room = pair.a.indexes.len() + pair.b.indexes.len();
    let (mut i, mut v) = (vec![0; room], vec![0.0; room]);
    // SAFETY: both vectors are Eigen's, and an answer has no more entries than both together.
    let n = unsafe { peer_eigen_answer(call as i32, a.0, b.0, i.as_mut_ptr(), v.as_mut_ptr()) };
    same((ours.indexes(), ours.values()), (&i[..n], &v[..n]));
}

fn close(ours: [f32; 3], its: [f32; 3]) {
    let near = |(x, y): (&f32, &f32)| (x - y).abs() <= 1e-3 * x.abs().max(y.abs());
    assert!(ours.iter().zip(&its).all(near), "ours {ours:?}, Eigen {its:?}");
}

pub fn eigen(pairs: &[Pair], call: Eigen) -> Option<Side<'static>> {
    let vectors: Vec<_> = pairs.iter().map(|p| (Vector::new(&p.a), Vector::new(&p.b))).collect();
    for (pair, (a, b)) in pairs.iter().zip(&vectors) {
        compared(pair, call, a, b);
    }
    let mut turn = in_turn(vectors);
    Some(if matches!(call, Eigen::Add | Eigen::Sub | Eigen::Mul) {
        Side::new(EIGEN, move || {
            let (a, b) = turn();
            // SAFETY: the vectors are Eigen's.
            black_box(unsafe { peer_eigen_merge(call as i32, a.0, b.0) });
        })
    } else {
        Side::new(EIGEN, move || {
            let (a, b) = turn();
            black_box(fold(call, &a, &b));
        })
    })
}
