//! A source of random numbers, written down so that a seed means the same rows everywhere.
//! It is splitmix64: a counter by a fixed odd step, and two multiplications that mix it.

use super::points::beside;

pub struct Random(u64);

impl Random {
    pub fn new(seed: u64) -> Random {
        Random(seed)
    }

    pub fn next(&mut self) -> u64 {
        self.0 = self.0.wrapping_add(0x9e37_79b9_7f4a_7c15);
        let mut z = self.0;
        z = (z ^ (z >> 30)).wrapping_mul(0xbf58_476d_1ce4_e5b9);
        z = (z ^ (z >> 27)).wrapping_mul(0x94d0_49bb_1331_11eb);
        z ^ (z >> 31)
    }

    /// A whole number from 0 to n - 1.
    pub fn below(&mut self, n: u64) -> u64 {
        self.next() % n
    }

    pub fn one_in(&mut self, n: u64) -> bool {
        self.below(n) == 0
    }

    /// A whole number from a to b.
    pub fn whole(&mut self, a: i32, b: i32) -> i32 {
        a + self.below((b - a + 1) as u64) as i32
    }

    /// A number from a to b, evenly spread.
    pub fn between(&mut self, a: f64, b: f64) -> f64 {
        let unit = (self.next() >> 11) as f64 / (1u64 << 53) as f64;
        (a + (b - a) * unit).clamp(a, b)
    }

    pub fn within(&mut self, range: (f64, f64)) -> f64 {
        self.between(range.0, range.1)
    }

    pub fn of<A: Copy>(&mut self, list: &[A]) -> A {
        list[self.below(list.len() as u64) as usize]
    }

    /// x moved by up to n units in its last place.
    pub fn near(&mut self, x: f64, n: i32) -> f64 {
        let units = self.whole(-n, n);
        beside(x, i64::from(units))
    }

    pub fn shuffle<A>(&mut self, list: &mut [A]) {
        for i in (1..list.len()).rev() {
            let j = self.below(i as u64 + 1) as usize;
            list.swap(i, j);
        }
    }
}
