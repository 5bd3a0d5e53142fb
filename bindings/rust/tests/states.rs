//! States and aggregates through the safe types. Figures are of document 01 and crates/test_aggregate/stdout.

use oxlanyard::{capacity, Aggregate, Header, Reason, Refusal, SVectBorrowed, SVectOwned, State, StateBorrowed};

/// That this compiles says that aggregates and states go to other threads.
const _: fn() = || {
    fn sent<T: Send>() {}
    sent::<Aggregate>();
    sent::<State<'_>>();
    sent::<StateBorrowed<'_>>();
};

fn refused<T: std::fmt::Debug>(answer: Result<T, Refusal>) -> (Reason, usize) {
    let refusal = answer.unwrap_err();
    (refusal.reason, refusal.place)
}

/// A row of `n` ones at 0, 10, 20, ..
fn tens(n: u32) -> SVectOwned {
    SVectOwned::new_checked(1000, (0..n).map(|k| 10 * k).collect(), vec![1.0; n as usize]).unwrap()
}

fn a() -> SVectBorrowed<'static> {
    SVectBorrowed::new_checked(8, &[1, 4], &[1.0, -2.0]).unwrap()
}

fn b() -> SVectBorrowed<'static> {
    SVectBorrowed::new_checked(8, &[4, 6], &[2.0, 0.5]).unwrap()
}

/// P11.
#[test]
fn capacities() {
    assert_eq!([0, 17, 1000].map(|n| capacity(1000, n)), [16, 32, 1000]);
    assert_eq!(capacity(10, 0), 10);
}

/// The lines `row A and B`: the entries at 4 cancel. Around the state nothing changes.
#[test]
fn a_state_in_lent_lists() {
    let (mut i, mut v) = ([7; 12], [7.5; 12]);
    let mut state = State::new(&mut i[1..11], &mut v[1..9]);
    assert_eq!((state.count(), state.dims(), state.len(), state.capacity()), (0, None, 0, 0));
    assert_eq!(state.header(), Header([0, 8, 0, 0, 0, 0, 0]));
    assert!(state.is_empty());
    assert_eq!(state.row(a()), Ok(2));
    assert_eq!(state.row(b()), Ok(2));
    assert_eq!((state.count(), state.dims(), state.len(), state.capacity()), (2, Some(8), 2, 8));
    assert_eq!(state.header(), Header([0, 8, 1, 8, 2, 8, 2]));
    let (sum, average) = (state.sum().unwrap(), state.average().unwrap());
    assert_eq!((sum.dims(), sum.indexes(), sum.values()), (8, &[1, 6][..], &[1.0, 0.5][..]));
    assert_eq!((average.dims(), average.indexes(), average.values()), (8, &[1, 6][..], &[0.5, 0.25][..]));
    assert_eq!((i[0], i[1], i[2], &i[9..]), (7, 1, 6, &[7, 7, 7][..]));
    assert_eq!((v[0], v[1], v[2], &v[9..]), (7.5, 1.0, 0.5, &[7.5, 7.5, 7.5][..]));
}

/// P12: a state grows where it must, and is then fed the same row.
#[test]
fn refusals_of_a_state() {
    let (mut i, mut v) = ([7; 16], [7.5; 16]);
    assert_eq!(refused(State::new(&mut i[..15], &mut v).row(tens(1).as_borrowed())), (Reason::Room, 16));
    assert_eq!((i, v), ([7; 16], [7.5; 16]));
    let mut state = State::new(&mut i, &mut v);
    assert_eq!(refused(state.sum()), (Reason::NotBegun, 0));
    assert_eq!(refused(state.average()), (Reason::NotBegun, 0));
    assert_eq!(refused(state.as_borrowed().move_to(1, &mut [], &mut [])), (Reason::NotBegun, 0));
    state.row(tens(10).as_borrowed()).unwrap();
    let before = state.header();
    assert_eq!(refused(state.row(tens(7).as_borrowed())), (Reason::Need, 32));
    assert_eq!(refused(state.row(a())), (Reason::Differ, 0));
    let (mut new_i, mut new_v) = ([7; 40], [7.5; 40]);
    let borrowed = state.as_borrowed();
    assert_eq!(refused(borrowed.move_to(6, &mut new_i, &mut new_v)), (Reason::NotNeeded, 0));
    assert_eq!(refused(borrowed.move_to(1001, &mut new_i, &mut new_v)), (Reason::Dims, 0));
    assert_eq!(refused(borrowed.move_to(7, &mut new_i[..31], &mut new_v)), (Reason::Room, 32));
    assert_eq!((new_i, new_v, state.header()), ([7; 40], [7.5; 40], before));
    let mut moved = state.as_borrowed().move_to(7, &mut new_i, &mut new_v).unwrap();
    assert_eq!(moved.header(), Header([0, 40, 1, 1000, 10, 32, 1]));
    assert_eq!(moved.row(tens(7).as_borrowed()), Ok(10));
    assert_eq!((moved.count(), moved.len(), state.count()), (2, 10, 1));
    assert_eq!((&new_i[32..], &new_v[32..]), (&[7; 8][..], &[7.5; 8][..]));
}

/// P13, with an entry on either side.
#[test]
fn what_is_written_to_lent_lists() {
    let mut state = Aggregate::new();
    let values = [1.0, f32::from_bits(1), 2.0];
    let row = SVectBorrowed::new_checked(8, &[1, 3, 5], &values).unwrap();
    state.row(row).unwrap();
    state.row(SVectBorrowed::zero(8).unwrap()).unwrap();
    let (mut i, mut v) = ([7; 4], [7.5; 4]);
    assert_eq!(refused(state.average_into(&mut i[..2], &mut v)), (Reason::Room, 3));
    assert_eq!(refused(state.sum_into(&mut i, &mut v[..2])), (Reason::Room, 3));
    assert_eq!((i, v), ([7; 4], [7.5; 4]));
    let average = state.average_into(&mut i, &mut v).unwrap();
    assert_eq!((average.indexes(), average.values()), (&[1, 5][..], &[0.5, 1.0][..]));
    assert_eq!((i, v), ([1, 5, 7, 7], [0.5, 1.0, 7.5, 7.5]));
    assert_eq!(state.sum_into(&mut i, &mut v).unwrap(), row);
    assert_eq!((i[3], v[3]), (7, 7.5));
}

/// A header and its lists come back from where they were kept; what does not fit is refused.
#[test]
fn states_are_resumed() {
    let (mut i, mut v) = ([7; 20], [7.5; 20]);
    let mut state = State::new(&mut i[2..10], &mut v[2..10]);
    state.row(a()).unwrap();
    let Header(mut kept) = state.header();
    kept[0] = 2;
    let mut state = State::resume(Header(kept), &mut i, &mut v).unwrap();
    state.row(b()).unwrap();
    assert_eq!(state.sum().unwrap().indexes(), [1, 6]);
    let Header(kept) = state.header();
    let with = |at: usize, number: u64| {
        let mut h = kept;
        h[at] = number;
        Header(h)
    };
    assert_eq!(refused(State::resume(with(1, 19), &mut i, &mut v)), (Reason::Room, 19));
    assert_eq!(refused(State::resume(with(0, u64::MAX), &mut i, &mut v)), (Reason::Room, 8));
    let wrong = [with(2, 0), with(2, 2), with(3, 9), with(3, 8 << 32), with(4, 9), with(5, 7), with(6, 0)];
    for header in wrong {
        assert_eq!(refused(State::resume(header, &mut i, &mut v)), (Reason::State, 0), "{header:?}");
    }
    // Any count but 0 is one.
    for count in [1, 1 << 24, 1 + (1 << 32), u64::MAX] {
        assert_eq!(State::resume(with(6, count), &mut i, &mut v).unwrap().count(), count);
    }
    let (none, wrong) = (Header([2, 8, 0, 0, 0, 0, 0]), Header([2, 8, 2, 0, 0, 0, 0]));
    assert_eq!(State::resume(none, &mut i, &mut v).unwrap().dims(), None);
    assert_eq!(refused(State::resume(wrong, &mut i, &mut v)), (Reason::State, 0));
    // The entries count too: here they do not rise.
    i[3] = 1;
    assert_eq!(refused(State::resume(Header(kept), &mut i, &mut v)), (Reason::State, 0));
}

/// An aggregate of every third, fifth and seventh place grows from nothing to its dims, and loses nothing.
#[test]
fn an_aggregate_grows() {
    let mut aggregate = Aggregate::default();
    assert_eq!((aggregate.count(), aggregate.dims(), aggregate.capacity()), (0, None, 0));
    assert_eq!(refused(aggregate.sum()), (Reason::NotBegun, 0));
    let mut totals = vec![0.0; 1000];
    let mut seen = Vec::new();
    for (step, n) in [(3, 10), (5, 7), (7, 20), (3, 200), (5, 200), (7, 142)] {
        let row = SVectOwned::new_checked(1000, (0..n).map(|k| k * step).collect(), vec![2.0; n as usize]).unwrap();
        aggregate.row(row.as_borrowed()).unwrap();
        row.indexes().iter().for_each(|&index| totals[index as usize] += 2.0);
        seen.push(aggregate.capacity());
    }
    assert_eq!(seen, [16, 32, 64, 256, 512, 1000]);
    let sum = aggregate.sum().unwrap();
    let full: Vec<u32> = (0..1000).filter(|&index| totals[index as usize] != 0.0).collect();
    assert_eq!(sum.indexes(), full);
    assert!(sum.indexes().iter().zip(sum.values()).all(|(&index, &value)| totals[index as usize] == value));
    assert_eq!((aggregate.count(), aggregate.header().0[6]), (6, 6));
}

#[test]
fn combining() {
    let (mut first, mut second, none) = (Aggregate::new(), Aggregate::new(), Aggregate::new());
    assert_eq!(first.combine(&none), Ok(0));
    second.row(b()).unwrap();
    // A first without rows takes the second.
    assert_eq!(first.combine(&second), Ok(2));
    assert_eq!((first.count(), first.dims(), first.capacity()), (1, Some(8), 8));
    first.row(a()).unwrap();
    assert_eq!(first.combine(second.as_borrowed()), Ok(2));
    assert_eq!((first.count(), first.sum().unwrap().values()), (3, &[1.0, 2.0, 1.0][..]));
    assert_eq!(first.combine(&none), Ok(0));

    // With a state in lent lists, and growing: 10 entries and 7 are NEED 32.
    let (mut i, mut v) = ([0; 16], [0.0; 16]);
    let mut state = State::new(&mut i, &mut v);
    state.row(tens(7).as_borrowed()).unwrap();
    let mut wide = Aggregate::new();
    wide.row(tens(10).as_borrowed()).unwrap();
    assert_eq!(refused(state.combine(&wide)), (Reason::Need, 32));
    assert_eq!(wide.combine(&state), Ok(10));
    assert_eq!((wide.count(), wide.capacity(), wide.sum().unwrap().values()[6..8].to_vec()), (2, 32, vec![2.0, 1.0]));
    assert_eq!(refused(wide.combine(&first)), (Reason::Differ, 0));
    assert_eq!((wide.count(), wide.capacity()), (2, 32));
}

/// Counts go past 16,777,216, up to the end of `u64`. What would pass that is refused, and changes nothing.
#[test]
fn counts_go_to_the_end_of_u64() {
    let mut doubled = Aggregate::new();
    doubled.row(SVectBorrowed::zero(8).unwrap()).unwrap();
    for _ in 0..63 {
        let before = doubled.clone();
        doubled.row(a()).unwrap();
        assert_eq!(doubled.count(), before.count() + 1);
        doubled = before;
        doubled.combine(&doubled.clone()).unwrap();
    }
    assert_eq!(doubled.count(), 1 << 63);
    assert_eq!(refused(doubled.combine(&doubled.clone())), (Reason::Count, 0));
    assert_eq!((doubled.count(), doubled.len()), (1 << 63, 0));

    let (mut i, mut v) = ([7; 10], [7.5; 10]);
    State::new(&mut i, &mut v).row(a()).unwrap();
    let header = |count| Header([0, 10, 1, 8, 2, 8, count]);
    let (mut other_i, mut other_v) = (i, v);
    let mut state = State::resume(header(u64::MAX - 5), &mut i, &mut v).unwrap();
    let five = State::resume(header(5), &mut other_i, &mut other_v).unwrap();
    assert_eq!(state.combine(&five), Ok(2));
    assert_eq!((state.count(), state.sum().unwrap().values()), (u64::MAX, &[2.0, -4.0][..]));
    let message = state.row(b()).unwrap_err().to_string();
    assert_eq!(message, "the count of rows would pass 18446744073709551615 (COUNT, 11)");
    assert_eq!(refused(state.row(SVectBorrowed::zero(8).unwrap())), (Reason::Count, 0));
    assert_eq!(refused(state.combine(&five)), (Reason::Count, 0));
    assert_eq!(state.header(), header(u64::MAX));
    // The float nearest to the count is 2^64.
    let divisor = 18_446_744_073_709_551_616.0;
    assert_eq!(state.average().unwrap().values(), [2.0 / divisor, -4.0 / divisor]);
    assert_eq!((i[0], i[1], i[8], v[0], v[1], v[8]), (1, 4, 7, 2.0, -4.0, 7.5));
}

/// The average divides by the count rounded to the nearest `f32`, ties to even, as Rust's `as f32` is.
#[test]
fn averages_divide_by_the_nearest_float() {
    let (mut i, mut v) = ([7; 8], [7.5; 8]);
    let row = SVectBorrowed::new_checked(8, &[1, 4], &[33_554_436.0, 1.0]).unwrap();
    State::new(&mut i, &mut v).row(row).unwrap();
    let mut check = |count: u64, divisor: f32| {
        assert_eq!(count as f32, divisor);
        let state = State::resume(Header([0, 8, 1, 8, 2, 8, count]), &mut i, &mut v).unwrap();
        assert_eq!(state.average().unwrap().values(), [33_554_436.0 / divisor, 1.0 / divisor], "{count}");
    };
    let known = [
        (16_777_215, 16_777_215.0),
        (16_777_216, 16_777_216.0),
        (16_777_217, 16_777_216.0),
        (16_777_218, 16_777_218.0),
        (16_777_219, 16_777_220.0),
        (33_554_434, 33_554_432.0),
        (33_554_438, 33_554_440.0),
        (u64::MAX, 18_446_744_073_709_551_616.0),
    ];
    known.into_iter().for_each(|(count, divisor)| check(count, divisor));
    // Every power of two, every tie beside it, and the numbers around both.
    for power in 1..64 {
        for tie in 1..=power.min(41) {
            let count = (1u64 << power) + (1 << (power - tie));
            for near in [count - 1, count, count + 1] {
                check(near, near as f32);
            }
        }
    }
}
