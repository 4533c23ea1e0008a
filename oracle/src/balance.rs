//! One to four weighted differences that sum to zero, for two lists that meet: the answerer's witness.
//! Corners are struck out while the rest still meets; at most five are left (Kirchberger's theorem).

use crate::point::{cross, divisor, dot, minus, Number, Point, ORIGIN};
use crate::verdict::{decide, widened, Verdict, Weighed, CUBE_CORNERS};

/// Of two lists that meet, so many corners at most are needed to meet.
const MOST_LEFT: usize = 5;

/// Corner numbers of the two lists that are still in.
#[derive(Clone)]
struct Kept {
    first: Vec<usize>,
    second: Vec<usize>,
}

impl Kept {
    fn len(&self) -> usize {
        self.first.len() + self.second.len()
    }

    /// Without `size` of the kept corners from number `start` on, counted through both lists.
    fn without(&self, start: usize, size: usize) -> Kept {
        let stays = |k: usize| k < start || k >= start + size;
        let cut = self.first.len();
        let chosen = |list: &[usize], base: usize| {
            let numbered = list.iter().enumerate();
            let left = numbered.filter(|(k, _)| stays(base + k));
            left.map(|(_, &corner)| corner).collect()
        };
        Kept {
            first: chosen(&self.first, 0),
            second: chosen(&self.second, cut),
        }
    }

    fn meets(&self, gap: Number, first: &[Point], second: &[Point]) -> bool {
        let a = chosen(first, &self.first);
        let b = chosen(second, &self.second);
        !a.is_empty() && !b.is_empty() && decide(gap, &a, &b).0 != Verdict::Separate
    }
}

fn chosen(list: &[Point], corners: &[usize]) -> Vec<Point> {
    corners.iter().map(|&i| list[i]).collect()
}

/// Strikes out corners, many at once and then one by one, while what is left still meets.
fn struck_out(gap: Number, first: &[Point], second: &[Point]) -> Kept {
    let mut kept = Kept {
        first: (0..first.len()).collect(),
        second: (0..second.len()).collect(),
    };
    let mut size = kept.len().next_power_of_two();
    while size > 0 {
        let mut start = 0;
        while start < kept.len() {
            let fewer = kept.without(start, size);
            if fewer.meets(gap, first, second) {
                kept = fewer;
            } else {
                start += size;
            }
        }
        size /= 2;
    }
    kept
}

/// Positive weights, in lowest terms, that bring these differences to zero, where there are any.
fn weights(p: &[Point]) -> Option<Vec<Number>> {
    let raw = match *p {
        [a] if a == ORIGIN => vec![1],
        [a, b] if cross(a, b) == ORIGIN => {
            let k = a.iter().position(|&n| n != 0)?;
            vec![b[k], -a[k]]
        }
        [a, b, c] if dot(a, cross(b, c)) == 0 => {
            let normal = cross(a, b);
            let k = normal.iter().position(|&n| n != 0)?;
            vec![cross(b, c)[k], cross(c, a)[k], normal[k]]
        }
        [a, b, c, d] => vec![
            dot(b, cross(c, d)),
            -dot(a, cross(c, d)),
            dot(a, cross(b, d)),
            -dot(a, cross(b, c)),
        ],
        _ => return None,
    };
    let common = raw.iter().fold(0, |all, &w| divisor(all, w));
    let positive = raw.iter().all(|&w| w > 0);
    let negative = raw.iter().all(|&w| w < 0);
    (positive || negative).then(|| raw.iter().map(|w| w.abs() / common).collect())
}

/// A balance of two lists that meet with this gap. Two that do not have none. Corners are struck out
/// first with the whole cube at each of the first list, then of what is left, widened, point by point.
pub fn balance(gap: Number, first: &[Point], second: &[Point]) -> Option<Vec<Weighed>> {
    let few = struck_out(gap, first, second);
    let cubes = if gap == 0 { 1 } else { CUBE_CORNERS };
    let wide: Vec<Point> = widened(gap, &chosen(first, &few.first))
        .into_iter()
        .step_by(CUBE_CORNERS / cubes)
        .collect();
    let few_second = chosen(second, &few.second);
    let kept = struck_out(0, &wide, &few_second);
    if kept.len() > MOST_LEFT {
        return None;
    }
    let mut all = Vec::new();
    for &a in &kept.first {
        for &b in &kept.second {
            let pair = Weighed {
                first: few.first[a / cubes] as Number,
                second: few.second[b] as Number,
                cube: (a % cubes) as Number,
                weight: 0,
            };
            all.push((pair, minus(wide[a], few_second[b])));
        }
    }
    (1u32..1 << all.len())
        .filter(|subset| subset.count_ones() <= 4)
        .find_map(|subset| {
            let chosen: Vec<_> = (0..all.len())
                .filter(|k| subset >> k & 1 == 1)
                .map(|k| all[k])
                .collect();
            let differences: Vec<Point> = chosen.iter().map(|&(_, p)| p).collect();
            let weights = weights(&differences)?;
            let weighed =
                |(&(pair, _), weight): (&(Weighed, Point), Number)| Weighed { weight, ..pair };
            Some(chosen.iter().zip(weights).map(weighed).collect())
        })
}
