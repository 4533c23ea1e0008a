//! The verdict of two corner lists by document 01's definition as W5 and W6 amend it, every candidate tried.
//! Witnesses that an answer carries are checked here against the same definition and its bounds.

use crate::candidates::{candidates, distinct, factors};
use crate::point::{dot, minus, plus, times, Number, Point, ORIGIN};

pub const DIRECTION_BOUND: Number = 1 << 39;
pub const WEIGHT_BOUND: Number = 1 << 57;
pub const MOST_PAIRS: usize = 4;
/// The cube of a gap has so many corners; W6 numbers them from 0.
pub const CUBE_CORNERS: usize = 8;

#[derive(Clone, Copy, PartialEq, Eq, Debug)]
pub enum Verdict {
    Separate,
    Touching,
    Penetrating,
}

impl Verdict {
    /// Document 01's number of the verdict.
    pub fn number(self) -> Number {
        match self {
            Verdict::Separate => 1,
            Verdict::Touching => 2,
            Verdict::Penetrating => 3,
        }
    }
}

/// A corner of the first list, one of the second, one of the gap's cube, and the weight of their difference.
#[derive(Clone, Copy, PartialEq, Eq, Debug)]
pub struct Weighed {
    pub first: Number,
    pub second: Number,
    pub cube: Number,
    pub weight: Number,
}

/// W6's cube from −g to g: of corner c of 0 to 7, x is −g or g by 4, y by 2, z by 1.
pub fn cube_corner(gap: Number, c: usize) -> Point {
    [4, 2, 1].map(|bit| if c & bit == 0 { -gap } else { gap })
}

/// The first list as W6 treats it: each corner plus each of the eight cube corners, these running fastest.
pub fn widened(gap: Number, first: &[Point]) -> Vec<Point> {
    let eight = |&a: &Point| (0..CUBE_CORNERS).map(move |c| plus(a, cube_corner(gap, c)));
    first.iter().flat_map(eight).collect()
}

/// The least and the greatest d·p of a list.
fn span(d: Point, points: &[Point]) -> Option<(Number, Number)> {
    let values = || points.iter().map(|&p| dot(d, p));
    values().min().zip(values().max())
}

/// d·a < d·b for all a, b: the greatest d·a is below the least d·b. The first list is widened already.
pub fn is_below(d: Point, first: &[Point], second: &[Point]) -> bool {
    let spans = span(d, first).zip(span(d, second));
    spans.is_none_or(|((_, a), (b, _))| a < b)
}

/// d·a ≤ d·b for all a, b: the greatest d·a is at most the least d·b.
pub fn is_not_above(d: Point, first: &[Point], second: &[Point]) -> bool {
    let spans = span(d, first).zip(span(d, second));
    spans.is_none_or(|((_, a), (b, _))| a <= b)
}

/// d·a < d·b for at least one pair, which no zero d has: the least d·a is below the greatest d·b.
pub fn is_below_once(d: Point, first: &[Point], second: &[Point]) -> bool {
    let spans = span(d, first).zip(span(d, second));
    spans.is_some_and(|((a, _), (_, b))| a < b)
}

pub fn direction_in_bounds(d: Point) -> bool {
    d.iter().all(|&k| k.abs() <= DIRECTION_BOUND)
}

/// The difference that a pair names, where its three corners exist; with no gap it names cube corner 0.
fn difference(pair: &Weighed, gap: Number, first: &[Point], second: &[Point]) -> Option<Point> {
    let &a = first.get(usize::try_from(pair.first).ok()?)?;
    let &b = second.get(usize::try_from(pair.second).ok()?)?;
    let c = usize::try_from(pair.cube).ok()?;
    let named = c < CUBE_CORNERS && (gap > 0 || c == 0);
    named.then(|| minus(plus(a, cube_corner(gap, c)), b))
}

/// One to four pairs of corners that exist, weights 1 to 2^57, weighted differences summing to zero.
/// The first list is as it was handed in; the cube corners are the pairs' own.
pub fn is_balance(pairs: &[Weighed], gap: Number, first: &[Point], second: &[Point]) -> bool {
    if pairs.is_empty() || pairs.len() > MOST_PAIRS {
        return false;
    }
    let mut sum = ORIGIN;
    for pair in pairs {
        match difference(pair, gap, first, second) {
            Some(difference) if (1..=WEIGHT_BOUND).contains(&pair.weight) => {
                sum = plus(sum, times(pair.weight, difference));
            }
            _ => return false,
        }
    }
    sum == ORIGIN
}

/// Two lists under trial: what a direction tells, with the differences that refuted lately at hand.
struct Trial<'a> {
    gap: Number,
    first: &'a [Point],
    second: &'a [Point],
    refuters: Vec<Point>,
    /// The greatest d·(a − b) that would still tell something: 0, and −1 once touching is known.
    telling: Number,
}

const REFUTERS_KEPT: usize = 8;

impl Trial<'_> {
    /// Of the widened first list and the second, the difference that lies highest along d: the highest
    /// corner of the first, the cube's on the side to which d points, the lowest of the second.
    fn highest(&self, d: Point) -> Option<Point> {
        let &a = self.first.iter().max_by_key(|&&a| dot(d, a))?;
        let &b = self.second.iter().min_by_key(|&&b| dot(d, b))?;
        let c = d.map(|k| self.gap * k.signum());
        Some(minus(plus(a, c), b))
    }

    /// The verdict that d shows, where it shows one: all below, or none above and not all level.
    fn shown(&mut self, d: Point) -> Option<Verdict> {
        let telling = self.telling;
        if let Some(k) = self.refuters.iter().position(|&p| dot(d, p) > telling) {
            self.refuters.swap(0, k);
            return None;
        }
        let top = self.highest(d)?;
        if dot(d, top) > telling {
            self.refuters.insert(0, top);
            self.refuters.truncate(REFUTERS_KEPT);
            return None;
        }
        if dot(d, top) < 0 {
            return Some(Verdict::Separate);
        }
        let bottom = self.highest(times(-1, d))?;
        (dot(d, bottom) < 0).then_some(Verdict::Touching)
    }
}

/// The verdict, and the candidate direction that shows it where it is separate or touching.
/// The factors are those of the lists as they were handed in: widening adds the axes, which are in already.
pub fn decide(gap: Number, first: &[Point], second: &[Point]) -> (Verdict, Point) {
    let first = distinct(first);
    let second = distinct(second);
    let factors = factors(&first, &second);
    let mut trial = Trial {
        gap,
        first: &first,
        second: &second,
        refuters: Vec::new(),
        telling: 0,
    };
    let mut found = (Verdict::Penetrating, ORIGIN);
    for candidate in candidates(&factors) {
        for d in [candidate, times(-1, candidate)] {
            match trial.shown(d) {
                Some(Verdict::Separate) => return (Verdict::Separate, d),
                Some(verdict) => {
                    found = (verdict, d);
                    trial.telling = -1;
                }
                None => {}
            }
        }
    }
    found
}
