//! The room of add and sub: the smaller of both lengths together and dims.

use super::{entries, refused, sparse};
use oxlanyard::{Reason, SVectBorrowed, SVectOwned};
use std::collections::{BTreeMap, BTreeSet};

/// What add (or sub) of valid vectors comes to, entry by entry, and the indexes of both.
fn summed(a: SVectBorrowed, b: SVectBorrowed, is_sub: bool) -> (Vec<(u32, f32)>, usize) {
    let left: BTreeMap<u32, f32> = entries(a).into_iter().collect();
    let right: BTreeMap<u32, f32> = entries(b).into_iter().collect();
    let both: BTreeSet<u32> = left.keys().chain(right.keys()).copied().collect();
    let sum = |i: u32| match (left.get(&i), right.get(&i)) {
        (Some(x), Some(y)) => Some(if is_sub { x - y } else { x + y }).filter(|z| *z != 0.0),
        (None, Some(y)) => Some(if is_sub { -y } else { *y }),
        (x, None) => x.copied(),
    };
    (both.iter().filter_map(|&i| Some((i, sum(i)?))).collect(), both.len())
}

/// Lends lists of n and m places for add or sub, with a few places behind them. Below the room nothing changes, and from
/// it on nothing but the front does.
fn lend(a: SVectBorrowed, b: SVectBorrowed, is_sub: bool, (n, m): (usize, usize)) {
    let room = (a.indexes().len() + b.indexes().len()).min(a.dims() as usize);
    let (mut i, mut v) = (vec![7; n + 2], vec![7.5; m + 2]);
    let call = if is_sub { SVectBorrowed::operator_sub_into } else { SVectBorrowed::operator_add_into };
    let answer = call(a, b, &mut i[..n], &mut v[..m]);
    if n < room || m < room {
        assert_eq!(refused(answer), (Reason::Room, room));
        assert_eq!((i, v), (vec![7; n + 2], vec![7.5; m + 2]));
        return;
    }
    let (sum, turns) = summed(a, b, is_sub);
    let done = answer.unwrap();
    assert_eq!((entries(done.vector), done.turns, done.vector.dims()), (sum.clone(), turns, a.dims()));
    let (mut its_i, mut its_v): (Vec<u32>, Vec<f32>) = sum.into_iter().unzip();
    its_i.resize(n + 2, 7);
    its_v.resize(m + 2, 7.5);
    assert_eq!((i, v), (its_i, its_v));
}

/// Every two vectors of up to 4 dims, with every room up to one more than both lengths together. At even indexes they
/// cancel in a sum, and at odd ones in a difference.
#[test]
fn every_room_of_small_sums() {
    let values = |i: u32, is_right: bool| if is_right && i % 2 == 0 { -1.0 } else { 1.0 };
    for dims in 1..=4 {
        let vectors = |is_right| -> Vec<SVectOwned> {
            let of = |set: u32| (0..dims).filter(move |i| set >> i & 1 == 1).map(move |i| (i, values(i, is_right)));
            (0..1 << dims).map(|set| sparse(dims, &of(set).collect::<Vec<_>>())).collect()
        };
        let (lefts, rights) = (vectors(false), vectors(true));
        for (a, b) in lefts.iter().flat_map(|a| rights.iter().map(move |b| (a.as_borrowed(), b.as_borrowed()))) {
            let most = a.indexes().len() + b.indexes().len() + 1;
            for (n, m) in (0..=most).flat_map(|n| (0..=most).map(move |m| (n, m))) {
                lend(a, b, false, (n, m));
                lend(a, b, true, (n, m));
            }
        }
    }
}

/// Long vectors whose lengths together are below dims, at dims and above: their room, one less in either list, and up to
/// what was asked for before. An owned answer takes lists of that room, and no longer ones.
#[test]
fn room_of_long_sums() {
    let dims = 600;
    let of = |keep: fn(u32) -> bool, value: f32| {
        sparse(dims, &(0..dims).filter(|&i| keep(i)).map(|i| (i, value + i as f32)).collect::<Vec<_>>())
    };
    let vectors = [
        of(|_| true, 1.0),
        of(|_| true, 0.5),
        of(|i| i % 2 == 0, 1.0),
        of(|i| i % 2 == 1, 2.0),
        of(|i| i < 300, 3.0),
        of(|i| i >= 300, 4.0),
        of(|i| i >= 250, 1.0),
        of(|i| i % 64 == 5, -1.0),
        of(|i| i == 599, 1.0),
        of(|i| i == 0, 1.0),
        of(|_| false, 1.0),
    ];
    for (a, b) in vectors.iter().flat_map(|a| vectors.iter().map(move |b| (a.as_borrowed(), b.as_borrowed()))) {
        let both = a.indexes().len() + b.indexes().len();
        let room = both.min(dims as usize);
        for is_sub in [false, true] {
            let less = room.saturating_sub(1);
            for lent in [(room, room), (less, room), (room, less), (room + 1, room), ((room + both) / 2, both)] {
                lend(a, b, is_sub, lent);
            }
            let owned = if is_sub { a.operator_sub(b) } else { a.operator_add(b) }.unwrap();
            assert_eq!(entries(owned.as_borrowed()), summed(a, b, is_sub).0);
            let (i, v) = owned.into_lists();
            assert_eq!((i.capacity(), v.capacity()), (room, room));
        }
    }
}

/// Badges: dims 40, and two full vectors.
#[test]
fn forty_places_for_two_full_badges() {
    let full = |value| sparse(40, &(0..40).map(|i| (i, value)).collect::<Vec<_>>());
    let (a, b) = (full(1.0), full(2.0));
    let (a, b) = (a.as_borrowed(), b.as_borrowed());
    let (mut i, mut v) = ([7; 40], [7.5; 40]);
    assert_eq!(refused(a.operator_add_into(b, &mut i[..39], &mut v)), (Reason::Room, 40));
    assert_eq!(refused(a.operator_sub_into(b, &mut i, &mut v[..39])), (Reason::Room, 40));
    assert_eq!((i, v), ([7; 40], [7.5; 40]));
    assert_eq!(a.operator_add_into(b, &mut i, &mut v).unwrap().vector.values(), [3.0; 40]);
    assert_eq!(a.operator_sub_into(b, &mut i, &mut v).unwrap().vector.values(), [-1.0; 40]);
    assert_eq!(a.operator_sub_into(a, &mut i, &mut v).unwrap().turns, 40);
}
