//! What is written to lent lists is written without allocating. The owned forms allocate, so that the count can be seen
//! to count.

use oxlanyard::{Aggregate, BVectBorrowed, Refusal, SVectBorrowed, State};
use std::alloc::{GlobalAlloc, Layout, System};
use std::cell::Cell;

thread_local! {
    static ALLOCATED: Cell<usize> = const { Cell::new(0) };
}

struct Counting;

// SAFETY: all is handed on to the system's allocator; only a number of this thread is changed besides.
unsafe impl GlobalAlloc for Counting {
    unsafe fn alloc(&self, layout: Layout) -> *mut u8 {
        ALLOCATED.set(ALLOCATED.get() + 1);
        System.alloc(layout)
    }

    unsafe fn alloc_zeroed(&self, layout: Layout) -> *mut u8 {
        ALLOCATED.set(ALLOCATED.get() + 1);
        System.alloc_zeroed(layout)
    }

    unsafe fn realloc(&self, pointer: *mut u8, layout: Layout, size: usize) -> *mut u8 {
        ALLOCATED.set(ALLOCATED.get() + 1);
        System.realloc(pointer, layout, size)
    }

    unsafe fn dealloc(&self, pointer: *mut u8, layout: Layout) {
        System.dealloc(pointer, layout)
    }
}

#[global_allocator]
static COUNTING: Counting = Counting;

/// How often a part allocates.
fn allocations(part: impl FnOnce() -> Result<(), Refusal>) -> usize {
    let before = ALLOCATED.get();
    part().unwrap();
    ALLOCATED.get() - before
}

#[test]
fn vectors_in_lent_lists() {
    let (mut out, mut i, mut v) = ([0; 2], [0; 4], [0.0; 4]);
    let bits = || {
        let (a, b) = (BVectBorrowed::new_checked(65, &[5, 1])?, BVectBorrowed::new_checked(65, &[3, 1])?);
        BVectBorrowed::zero_into(65, &mut out)?;
        a.operator_and_into(b, &mut out)?;
        a.operator_or_into(b, &mut out)?;
        a.operator_xor_into(b, &mut out)?;
        a.subvector_into(1.., &mut out)?;
        a.operator_dot(b)?;
        a.operator_hamming(b)?;
        a.operator_jaccard(b)?;
        a.operator_jaccard_or_nan(b)?;
        assert!(a.get(64)? && a != b && a < b);
        assert!(a.subvector_into(66.., &mut out).is_err());
        Ok(())
    };
    assert_eq!(allocations(bits), 0);
    let sparse = || {
        let (a, b) =
            (SVectBorrowed::new_checked(8, &[1, 4], &[1.0, 2.0])?, SVectBorrowed::new_checked(8, &[4], &[1.0])?);
        a.operator_add_into(b, &mut i, &mut v)?;
        a.operator_sub_into(b, &mut i, &mut v)?;
        a.operator_mul_into(b, &mut i, &mut v)?;
        a.subvector_into(2.., &mut i, &mut v)?;
        a.operator_dot(b)?;
        a.operator_l2(b)?;
        a.three_sums(b)?;
        assert!(a != b && a > b);
        Ok(())
    };
    assert_eq!(allocations(sparse), 0);
    let owned = || SVectBorrowed::new_checked(8, &[1], &[1.0])?.operator_add(SVectBorrowed::zero(8)?).map(drop);
    assert_eq!(allocations(owned), 2);
}

#[test]
fn states_in_lent_lists() {
    let (mut i, mut v, mut j, mut w) = ([0; 16], [0.0; 16], [0; 32], [0.0; 32]);
    let (mut oi, mut ov) = ([0; 16], [0.0; 16]);
    let states = || {
        let row = SVectBorrowed::new_checked(1000, &[3, 7], &[1.0, 2.0])?;
        let mut state = State::new(&mut i, &mut v);
        state.row(row)?;
        state.row(row)?;
        let mut moved = state.as_borrowed().move_to(15, &mut j, &mut w)?;
        moved.combine(&state)?;
        moved.sum_into(&mut oi, &mut ov)?;
        moved.average_into(&mut oi, &mut ov)?;
        Ok(())
    };
    assert_eq!(allocations(states), 0);
    let mut aggregate = Aggregate::new();
    let row = SVectBorrowed::new_checked(1000, &[3, 7], &[1.0, 2.0]).unwrap();
    assert_eq!(allocations(|| aggregate.row(row).map(drop)), 2);
    assert_eq!(allocations(|| aggregate.row(row).map(drop)), 0);
}
