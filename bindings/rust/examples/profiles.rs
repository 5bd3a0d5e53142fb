//! Seller profiles, built by 1, 2, 4 and 8 threads and put together in three ways: the same bits each time.
//!
//! A row says how many tickets a sale moved, by the kind of event; whole numbers, some of them taken back. Each thread
//! has its own part of one pair of lists, so that no row is copied and nothing is locked. For rows of whole numbers,
//! whose magnitudes at each place add up to at most 16,777,216, the theorem of crates/dealing says what is seen here.
//!
//!     cargo run --release --example profiles

use oxlanyard::{capacity, Aggregate, Reason, Refusal, SVectBorrowed, SVectOwned, State, StateBorrowed};
use std::process::ExitCode;
use std::thread;

const DIMS: u32 = 1000;
const ROWS: u32 = 6000;

/// Rows of up to 24 kinds, with 1 to 50 tickets each, every eighth sale taken back.
fn rows() -> Vec<SVectOwned> {
    let mut seed = 1_u32;
    let mut below = move |n: u32| {
        seed = seed.wrapping_mul(1_664_525).wrapping_add(1_013_904_223);
        (seed >> 8) % n
    };
    let row = |_| {
        let mut indexes: Vec<u32> = (0..24).map(|_| below(DIMS)).collect();
        indexes.sort_unstable();
        indexes.dedup();
        let sign = if below(8) == 0 { -1.0 } else { 1.0 };
        let values = indexes.iter().map(|_| sign * (1 + below(50)) as f32).collect();
        SVectOwned::new_checked(DIMS, indexes, values).expect("indexes rise and no value is zero")
    };
    (0..ROWS).map(row).collect()
}

/// Feeds rows to a state that starts in front of these lists and moves further back whenever it must grow.
fn feed<'a>(rows: &[SVectOwned], mut i: &'a mut [u32], mut v: &'a mut [f32]) -> Result<State<'a>, Refusal> {
    let mut part = |length: usize| {
        let (first, rest) = std::mem::take(&mut i).split_at_mut(length);
        let (second, more) = std::mem::take(&mut v).split_at_mut(length);
        (i, v) = (rest, more);
        (first, second)
    };
    let (indexes, values) = part(capacity(DIMS, 24));
    let mut state = State::new(indexes, values);
    for row in rows.iter().map(SVectOwned::as_borrowed) {
        match state.row(row) {
            Ok(_) => {}
            Err(Refusal { reason: Reason::Need, place }) => {
                let (indexes, values) = part(place);
                state = state.as_borrowed().move_to(row.len() as usize, indexes, values)?;
                state.row(row)?;
            }
            Err(refusal) => return Err(refusal),
        }
    }
    Ok(state)
}

/// Feeds the rows by so many threads, each in its part of one pair of lists.
fn build(rows: &[SVectOwned], threads: usize) -> Result<Vec<Aggregate>, Refusal> {
    // From 32 on a state doubles until it holds every place, so that its regions take less than this together.
    let room = 3 * DIMS as usize;
    let (mut indexes, mut values) = (vec![0; threads * room], vec![0.0; threads * room]);
    let parts = indexes.chunks_mut(room).zip(values.chunks_mut(room));
    let shares = rows.chunks(rows.len().div_ceil(threads));
    thread::scope(|scope| {
        let work: Vec<_> = shares.zip(parts).map(|(share, (i, v))| scope.spawn(move || feed(share, i, v))).collect();
        let states = work.into_iter().map(|thread| thread.join().expect("no thread panics"));
        states.map(|state| state.and_then(|state| merged(Aggregate::new(), &state))).collect()
    })
}

/// The first state with the second added to it.
fn merged<'o>(mut a: Aggregate, b: impl Into<StateBorrowed<'o>>) -> Result<Aggregate, Refusal> {
    a.combine(b)?;
    Ok(a)
}

fn left_to_right(states: Vec<Aggregate>) -> Result<Aggregate, Refusal> {
    states.iter().try_fold(Aggregate::new(), merged)
}

fn right_to_left(states: Vec<Aggregate>) -> Result<Aggregate, Refusal> {
    states.into_iter().rev().try_fold(Aggregate::new(), |right, left| merged(left, &right))
}

fn balanced(mut states: Vec<Aggregate>) -> Result<Aggregate, Refusal> {
    while states.len() > 1 {
        let pair = |pair: &[Aggregate]| pair[1..].iter().try_fold(pair[0].clone(), merged);
        states = states.chunks(2).map(pair).collect::<Result<_, _>>()?;
    }
    Ok(states.swap_remove(0))
}

/// The bits of a vector in short: how many entries, the first two, and a hash of all (FNV-1a).
fn bits(vector: SVectBorrowed<'_>) -> String {
    let entries = || vector.indexes().iter().zip(vector.values()).map(|(index, value)| (*index, value.to_bits()));
    let words = entries().flat_map(|(index, bits)| [index, bits]);
    let hash =
        words.fold(0xcbf2_9ce4_8422_2325_u64, |hash, word| (hash ^ u64::from(word)).wrapping_mul(0x100_0000_01b3));
    let first: Vec<String> = entries().take(2).map(|(index, bits)| format!("{index}:{bits:08x}")).collect();
    format!("{} entries {} .. {hash:016x}", vector.len(), first.join(" "))
}

/// The sum in plain whole numbers, one place at a time.
fn plain(rows: &[SVectOwned]) -> SVectOwned {
    let mut totals = vec![0_i64; DIMS as usize];
    for row in rows {
        row.indexes().iter().zip(row.values()).for_each(|(&index, &value)| totals[index as usize] += value as i64);
    }
    let full = (0..DIMS).filter(|&index| totals[index as usize] != 0);
    let (indexes, values) = full.map(|index| (index, totals[index as usize] as f32)).unzip();
    SVectOwned::new_checked(DIMS, indexes, values).expect("no total that is kept is zero")
}

fn main() -> Result<ExitCode, Refusal> {
    let rows = rows();
    let expected = bits(plain(&rows).as_borrowed());
    println!("{ROWS} rows, added up as whole numbers: sum {expected}");
    let trees =
        [("left to right", left_to_right as fn(_) -> _), ("right to left", right_to_left), ("balanced", balanced)];
    let mut seen = Vec::new();
    for threads in [1, 2, 4, 8] {
        for (name, tree) in trees {
            let total: Aggregate = tree(build(&rows, threads)?)?;
            let (sum, average) = (bits(total.sum()?.as_borrowed()), bits(total.average()?.as_borrowed()));
            println!("{threads} threads, {name}: count {}\n  sum     {sum}\n  average {average}", total.count());
            seen.push((total.count(), sum, average));
        }
    }
    let same = seen.iter().all(|one| *one == seen[0] && (one.0, &one.1) == (ROWS.into(), &expected));
    println!("{}", if same { "the same bits each time" } else { "NOT the same bits each time" });
    Ok(if same { ExitCode::SUCCESS } else { ExitCode::FAILURE })
}
