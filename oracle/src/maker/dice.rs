//! The maker's own source of chance: a 64-bit counter, mixed (splitmix64). No clock, no system.
//! The same seed always gives the same throws.

use crate::point::Number;

pub struct Dice {
    state: u64,
}

impl Dice {
    pub fn new(seed: u64) -> Dice {
        Dice { state: seed }
    }

    pub fn bits(&mut self) -> u64 {
        self.state = self.state.wrapping_add(0x9e37_79b9_7f4a_7c15);
        let mut mixed = self.state;
        mixed = (mixed ^ (mixed >> 30)).wrapping_mul(0xbf58_476d_1ce4_e5b9);
        mixed = (mixed ^ (mixed >> 27)).wrapping_mul(0x94d0_49bb_1331_11eb);
        mixed ^ (mixed >> 31)
    }

    /// One of 0 to `count` − 1; 0 where there is none.
    pub fn below(&mut self, count: usize) -> usize {
        match count {
            0 => 0,
            _ => (self.bits() % count as u64) as usize,
        }
    }

    /// One of `low` to `high`.
    pub fn between(&mut self, low: Number, high: Number) -> Number {
        low + self.below((high - low + 1) as usize) as Number
    }

    /// True once in `count` throws.
    pub fn once_in(&mut self, count: usize) -> bool {
        self.below(count) == 0
    }

    pub fn pick<T: Clone>(&mut self, list: &[T]) -> T {
        list[self.below(list.len())].clone()
    }

    pub fn shuffle<T>(&mut self, list: &mut [T]) {
        for k in (1..list.len()).rev() {
            list.swap(k, self.below(k + 1));
        }
    }

    /// A number that some reader may stumble over.
    pub fn edge_number(&mut self) -> Number {
        let edges: [Number; 12] = [
            -1,
            128,
            255,
            256,
            65_536,
            65_537,
            131_073,
            -65_537,
            Number::from(i32::MAX),
            Number::from(i32::MIN),
            1 << 24,
            -131_073,
        ];
        self.pick(&edges)
    }
}
