//! Pairs of pieces by kind, for the time of one verdict: boxes, some of them turned about the upright, and round hulls.

use crate::limits::*;
use crate::proved::verdict;
use crate::scenes::{cuboid, round, Random, WIDTH};

/// How many pairs of a kind are asked about.
const PAIRS: usize = 1000;

pub const KINDS: [&str; 5] = [
    "apart by boxes",
    "separate, boxes meet",
    "touching",
    "penetrating",
    "flat, in one plane",
];
const FLAT: usize = 4;

/// Two lists of placed corners.
pub type Pair = (Vec<i32>, Vec<i32>);

/// The pairs of every kind, in the order of `KINDS`.
pub fn by_kind(make: fn(&mut Random, bool) -> Vec<i32>) -> Vec<Vec<Pair>> {
    let mut random = Random::new();
    let mut kinds = vec![Vec::new(); KINDS.len()];
    while kinds.iter().any(|pairs| pairs.len() < PAIRS) {
        let flat = kinds[FLAT].len() < PAIRS;
        let pair = near(
            make(&mut random, flat),
            make(&mut random, flat),
            flat,
            &mut random,
        );
        let kind = if flat { FLAT } else { kind_of(&pair) };
        if kinds[kind].len() < PAIRS {
            kinds[kind].push(pair);
        }
    }
    kinds
}

/// A box of any size; flat, it is a sheet.
pub fn any_box(random: &mut Random, flat: bool) -> Vec<i32> {
    let size = [0; 3].map(|_| WIDTH / 4 + random.below(WIDTH));
    let numbers = cuboid(if flat { [size[0], size[1], 0] } else { size }, 8);
    // About half of them are turned about the upright; their corners fall on whole steps.
    let (a, b) = (1 + random.below(8), random.below(2) * random.about(8));
    let turned = |c: &[i32]| [(a * c[0] - b * c[1]) / 8, (b * c[0] + a * c[1]) / 8, c[2]];
    if b == 0 {
        return numbers;
    }
    numbers.chunks_exact(3).flat_map(turned).collect()
}

/// A round hull of 8 corners up to as many as a shape may have; flat, it is a disc.
pub fn any_hull(random: &mut Random, flat: bool) -> Vec<i32> {
    let corners = 8 + random.below(CORNERS as i32 - 7) as usize;
    let mut numbers = round(WIDTH / 4 + random.below(WIDTH), corners, random);
    if flat {
        numbers.iter_mut().skip(2).step_by(3).for_each(|z| *z = 0);
    }
    numbers
}

/// The second piece is moved so that a plane has one piece on each side and a corner of each in it: then they touch. Of four
/// such pairs one stays so; the second piece of the others is drawn back or pushed in, by up to an eighth of a width times d.
fn near(first: Vec<i32>, second: Vec<i32>, flat: bool, random: &mut Random) -> Pair {
    let upright = if flat { 0 } else { random.about(3) };
    let d = [1 + random.below(3), random.about(3), upright];
    let a = farthest(&first, d);
    let b = farthest(&second, d.map(|x| -x));
    let push = random.below(4).min(1) * random.about(WIDTH / 8);
    let shift = [0, 1, 2].map(|axis| a[axis] - b[axis] + push * d[axis]);
    let second = second
        .iter()
        .zip(shift.iter().cycle())
        .map(|(x, by)| x + by)
        .collect();
    (first, second)
}

fn farthest(numbers: &[i32], d: [i32; 3]) -> &[i32] {
    let along = |c: &&[i32]| c.iter().zip(d).map(|(x, by)| x * by).sum::<i32>();
    numbers.chunks_exact(3).max_by_key(along).unwrap()
}

/// Which of the first four kinds a pair is.
fn kind_of((first, second): &Pair) -> usize {
    let ends = |numbers: &[i32], axis: usize| {
        let on_axis = || numbers.iter().skip(axis).step_by(3);
        (*on_axis().min().unwrap(), *on_axis().max().unwrap())
    };
    let apart = (0..3).any(|axis| {
        let ((low, high), (other_low, other_high)) = (ends(first, axis), ends(second, axis));
        high < other_low || other_high < low
    });
    if apart {
        APART.into()
    } else {
        verdict(first, second).into()
    }
}
