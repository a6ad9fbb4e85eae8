//! A small generator of pseudo-random numbers (SplitMix64), so that a seed names a case; and the cases of a test.

use std::fmt::Display;

pub struct Random(u64);

impl Random {
    pub fn new(seed: u64) -> Random {
        Random(seed)
    }

    pub fn number(&mut self) -> u64 {
        self.0 = self.0.wrapping_add(0x9e37_79b9_7f4a_7c15);
        let mut z = self.0;
        z = (z ^ (z >> 30)).wrapping_mul(0xbf58_476d_1ce4_e5b9);
        z = (z ^ (z >> 27)).wrapping_mul(0x94d0_49bb_1331_11eb);
        z ^ (z >> 31)
    }

    /// A number below n.
    pub fn below(&mut self, n: u64) -> u64 {
        self.number() % n
    }

    /// True once in n.
    pub fn once_in(&mut self, n: u64) -> bool {
        self.below(n) == 0
    }

    pub fn pick<'a, T>(&mut self, from: &'a [T]) -> &'a T {
        &from[self.below(from.len() as u64) as usize]
    }

    /// So many random words.
    pub fn words(&mut self, n: usize) -> Vec<u64> {
        (0..n).map(|_| self.number()).collect()
    }

    /// So many random numbers of 16 bits.
    pub fn numbers(&mut self, n: usize) -> Vec<u16> {
        (0..n).map(|_| self.number() as u16).collect()
    }

    /// So many random bytes.
    pub fn bytes(&mut self, n: usize) -> Vec<u8> {
        self.words(n.div_ceil(8)).into_iter().flat_map(u64::to_le_bytes).take(n).collect()
    }
}

struct Named<T: Display>(T);

impl<T: Display> Drop for Named<T> {
    fn drop(&mut self) {
        if std::thread::panicking() {
            println!("failed in this case: {}", self.0);
        }
    }
}

/// One case of a test: its name is printed where it fails.
pub fn case(name: impl Display, work: impl FnOnce()) {
    let _named = Named(name);
    work();
}

/// So many cases, each with a seed of its own, from a fixed one on. With `CASES=n` in the environment there are n times as many.
pub fn seeds(first: u64, count: u64, mut work: impl FnMut(&mut Random)) {
    let times = std::env::var("CASES").map_or(1, |n| n.parse().expect("CASES is a number"));
    for seed in first..first + times * count {
        case(format_args!("seed {seed}"), || work(&mut Random::new(seed)));
    }
}
