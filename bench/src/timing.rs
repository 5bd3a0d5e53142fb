//! Times the sides of a case in turn, round by round, so that a drift of the machine hits all alike.
use std::time::Duration;

const ROUNDS: usize = 101;

/// A side runs about so long in each round.
const BLOCK: Duration = Duration::from_millis(1);

/// How long this thread has had a processor. What other programs take is not in it; what the kernel does for the thread
/// is. No call here waits for anything, so that on a quiet machine it is the time on the wall.
fn now() -> Duration {
    #[repr(C)]
    struct Time {
        seconds: i64,
        nanoseconds: i64,
    }
    extern "C" {
        fn clock_gettime(clock: i32, time: *mut Time) -> i32;
    }
    const OF_THREAD: i32 = 3;
    let mut time = Time { seconds: 0, nanoseconds: 0 };
    // SAFETY: the time is ours, and has the form that Linux gives it on machines of 64 bits.
    let failed = unsafe { clock_gettime(OF_THREAD, &mut time) };
    assert_eq!(failed, 0, "the clock of the thread cannot be read");
    Duration::new(time.seconds as u64, time.nanoseconds as u32)
}

/// One side of a case.
pub struct Side<'a> {
    pub name: &'static str,
    /// Makes so many calls, and says how long they took.
    run: Box<dyn FnMut(u64) -> Duration + 'a>,
}

pub const OURS: &str = "ours";
pub const RUST: &str = "Rust";
pub const EIGEN: &str = "Eigen";
/// Ours, with an answer that is allocated for each call, as the Rust's is.
pub const OWNED: &str = "owned";
/// A plain copy of the answer.
pub const COPY: &str = "copy";
/// The other one of two calls of ours that do the same work.
pub const TWIN: &str = "twin";

impl<'a> Side<'a> {
    /// Calls in a row, all of it timed.
    pub fn new(name: &'static str, mut call: impl FnMut() + 'a) -> Self {
        let run = move |calls| {
            let start = now();
            for _ in 0..calls {
                call();
            }
            now() - start
        };
        Side { name, run: Box::new(run) }
    }

    /// Each call is timed alone; what puts the data back after it is not timed.
    pub fn undone<T: 'a>(
        name: &'static str,
        mut data: T,
        mut call: impl FnMut(&mut T) + 'a,
        mut back: impl FnMut(&mut T) + 'a,
    ) -> Self {
        let run = move |calls| {
            let mut spent = Duration::ZERO;
            for _ in 0..calls {
                let start = now();
                call(&mut data);
                spent += now() - start;
                back(&mut data);
            }
            spent
        };
        Side { name, run: Box::new(run) }
    }

    pub fn once(&mut self) {
        (self.run)(1);
    }

    /// How many calls fill a block.
    fn calls(&mut self) -> u64 {
        let mut calls = 1;
        loop {
            let spent = (self.run)(calls);
            if spent * 2 >= BLOCK {
                return ((calls as f64 * BLOCK.as_secs_f64() / spent.as_secs_f64()) as u64).max(1);
            }
            calls *= 2;
        }
    }
}

/// A median, and the quartiles around it.
#[derive(Clone, Copy)]
pub struct Spread {
    pub median: f64,
    pub low: f64,
    pub high: f64,
}

fn spread(mut numbers: Vec<f64>) -> Spread {
    numbers.sort_by(f64::total_cmp);
    let at = |share: f64| numbers[((numbers.len() - 1) as f64 * share).round() as usize];
    Spread { median: at(0.5), low: at(0.25), high: at(0.75) }
}

/// The nanoseconds of a call on each side, round by round.
pub struct Rounds(Vec<Vec<f64>>);

impl Rounds {
    pub fn of(sides: &mut [Side]) -> Self {
        let calls: Vec<u64> = sides.iter_mut().map(Side::calls).collect();
        let mut rounds = vec![vec![]; sides.len()];
        for round in 0..ROUNDS {
            for k in 0..sides.len() {
                // Every second round goes backwards.
                let k = if round % 2 == 0 { k } else { sides.len() - 1 - k };
                rounds[k].push((sides[k].run)(calls[k]).as_secs_f64() * 1e9 / calls[k] as f64);
            }
        }
        Rounds(rounds)
    }

    pub fn median(&self, side: usize) -> f64 {
        spread(self.0[side].clone()).median
    }

    /// One side's time by another's: the median of the rounds' ratios.
    pub fn ratio(&self, side: usize, other: usize) -> Spread {
        spread(self.0[side].iter().zip(&self.0[other]).map(|(a, b)| a / b).collect())
    }
}
