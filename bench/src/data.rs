//! The data that every side gets: made by splitmix64 from a fixed seed.

pub const DIMS: u32 = 1_048_575;
pub const BITS: u32 = 65_535;

/// A sparse vector of DIMS dims.
pub struct Sparse {
    pub indexes: Vec<u32>,
    pub values: Vec<f32>,
}

pub struct Pair {
    pub a: Sparse,
    pub b: Sparse,
}

impl Sparse {
    pub fn negated(&self) -> Sparse {
        Sparse { indexes: self.indexes.clone(), values: self.values.iter().map(|x| -x).collect() }
    }
}

pub struct Maker {
    state: u64,
    pool: Vec<u32>,
}

impl Maker {
    pub fn new(seed: u64) -> Self {
        Maker { state: seed, pool: (0..DIMS).collect() }
    }

    fn next(&mut self) -> u64 {
        self.state = self.state.wrapping_add(0x9e37_79b9_7f4a_7c15);
        let mut z = self.state;
        z = (z ^ (z >> 30)).wrapping_mul(0xbf58_476d_1ce4_e5b9);
        z = (z ^ (z >> 27)).wrapping_mul(0x94d0_49bb_1331_11eb);
        z ^ (z >> 31)
    }

    /// Puts n different indexes, chosen at random, in front of the pool.
    fn draw(&mut self, n: usize) {
        for k in 0..n {
            let other = k + (self.next() % (self.pool.len() - k) as u64) as usize;
            self.pool.swap(k, other);
        }
    }

    /// A value with a fraction; never zero.
    fn value(&mut self) -> f32 {
        loop {
            let value = (self.next() as i32) as f32 / 65_536.0;
            if value != 0.0 {
                return value;
            }
        }
    }

    /// A whole number of small magnitude; never zero. Sums of a few are exact.
    fn whole(&mut self) -> f32 {
        (1 + self.next() % 1000) as f32 * if self.next() & 1 == 0 { 1.0 } else { -1.0 }
    }

    fn of(&mut self, mut indexes: Vec<u32>, value: fn(&mut Self) -> f32) -> Sparse {
        indexes.sort_unstable();
        let values = indexes.iter().map(|_| value(self)).collect();
        Sparse { indexes, values }
    }

    fn pair_by(&mut self, n: usize, percent: usize, value: fn(&mut Self) -> f32) -> Pair {
        let both = n * percent / 100;
        self.draw(2 * n - both);
        let (a, b) = (self.pool[..n].to_vec(), self.pool[n - both..2 * n - both].to_vec());
        Pair { a: self.of(a, value), b: self.of(b, value) }
    }

    /// Two vectors of n entries each; so many percent of them are at the same indexes.
    pub fn pair(&mut self, n: usize, percent: usize) -> Pair {
        self.pair_by(n, percent, Self::value)
    }

    /// The same with whole numbers.
    pub fn whole_pair(&mut self, n: usize, percent: usize) -> Pair {
        self.pair_by(n, percent, Self::whole)
    }

    /// At least two pairs, and some 128,000 entries in all: no branch predictor learns them by heart.
    pub fn pairs(&mut self, n: usize, percent: usize) -> Vec<Pair> {
        (0..(64_000 / n).max(2)).map(|_| self.pair(n, percent)).collect()
    }

    fn vector_by(&mut self, n: usize, value: fn(&mut Self) -> f32) -> Sparse {
        self.draw(n);
        let indexes = self.pool[..n].to_vec();
        self.of(indexes, value)
    }

    pub fn vector(&mut self, n: usize) -> Sparse {
        self.vector_by(n, Self::value)
    }

    /// So many vectors that together they have some 128,000 entries, at least two.
    pub fn vectors(&mut self, n: usize) -> Vec<Sparse> {
        (0..(128_000 / n).max(2)).map(|_| self.vector(n)).collect()
    }

    pub fn whole_vector(&mut self, n: usize) -> Sparse {
        self.vector_by(n, Self::whole)
    }

    /// A row of n entries of whole numbers; half of them are at indexes of the state.
    pub fn row(&mut self, state: &Sparse, n: usize) -> Sparse {
        let mut taken = std::collections::BTreeSet::new();
        while taken.len() < n / 2 {
            taken.insert(state.indexes[(self.next() % state.indexes.len() as u64) as usize]);
        }
        while taken.len() < n {
            taken.insert((self.next() % DIMS as u64) as u32);
        }
        self.of(taken.into_iter().collect(), Self::whole)
    }

    /// The words of BITS random bits.
    pub fn bits(&mut self) -> Vec<u64> {
        let mut words: Vec<u64> = (0..BITS.div_ceil(64)).map(|_| self.next()).collect();
        *words.last_mut().unwrap() >>= 1;
        words
    }
}
