//! What the tests of the verdict share: chance, the differences of two lists, and how many ways they
//! lead. Nothing here knows of a direction.

// Each file of tests uses its own part of this.
#![allow(dead_code)]

use oracle::point::{cross, dot, minus, Number, Point, ORIGIN};

/// A plain generator of chance for the tests (a linear congruence).
pub struct Chance(pub u64);

impl Chance {
    pub fn below(&mut self, count: u64) -> u64 {
        self.0 = self.0.wrapping_mul(6_364_136_223_846_793_005);
        self.0 = self.0.wrapping_add(1_442_695_040_888_963_407);
        (self.0 >> 33) % count
    }

    pub fn between(&mut self, low: Number, high: Number) -> Number {
        low + Number::from(self.below((high - low + 1) as u64))
    }

    pub fn list(&mut self, reach: Number, count: u64) -> Vec<Point> {
        let corner = |c: &mut Chance| [0; 3].map(|_: Number| c.between(-reach, reach));
        (0..count).map(|_| corner(self)).collect()
    }
}

/// All differences a − b, each once.
pub fn differences(first: &[Point], second: &[Point]) -> Vec<Point> {
    let of = |&a: &Point| second.iter().map(move |&b| minus(a, b));
    let mut all: Vec<Point> = first.iter().flat_map(of).collect();
    all.sort_unstable();
    all.dedup();
    all
}

/// Three points of these that are independent, or as many as there are.
pub fn independent(points: &[Point]) -> Vec<Point> {
    let mut found: Vec<Point> = Vec::new();
    for &p in points {
        let leads_out = match found[..] {
            [] => p != ORIGIN,
            [u] => cross(u, p) != ORIGIN,
            [u, v] => dot(cross(u, v), p) != 0,
            _ => false,
        };
        if leads_out {
            found.push(p);
        }
    }
    found
}
