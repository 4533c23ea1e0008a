//! Point lists of every kind: points, segments, flat sets, boxes, clouds and full hulls.
//! Coordinates stay within the reach asked for; small reaches make touching common.

use super::dice::Dice;
use crate::desk::CORNERS;
use crate::point::{Number, Point};

fn cloud_corner(dice: &mut Dice, reach: Number) -> Point {
    [0; 3].map(|_: Number| dice.between(-reach, reach))
}

/// `count` corners anywhere within reach.
pub fn cloud(dice: &mut Dice, reach: Number, count: usize) -> Vec<Point> {
    (0..count).map(|_| cloud_corner(dice, reach)).collect()
}

/// Points at small multiples of two whole vectors from a base: a flat set, a line or a point.
fn flat(dice: &mut Dice, reach: Number, count: usize) -> Vec<Point> {
    let short = (reach / 4).max(1);
    let base = cloud_corner(dice, (reach - 2 * short).max(0));
    let along = cloud_corner(dice, short);
    let across = match dice.below(3) {
        0 => along,
        1 => dice.pick(&[[1, 0, 0], [0, 1, 0], [0, 0, 1]]),
        _ => cloud_corner(dice, short),
    };
    let corner = |dice: &mut Dice| {
        let (s, t) = (dice.between(-1, 1), dice.between(-1, 1));
        // Where the reach is 1 the sum can leave it; then the set may not be flat, which is no harm.
        [0, 1, 2].map(|k: usize| (base[k] + s * along[k] + t * across[k]).clamp(-reach, reach))
    };
    (0..count).map(|_| corner(dice)).collect()
}

/// A box from one corner to another, z running fastest.
pub fn block(low: Point, high: Point) -> Vec<Point> {
    (0..8)
        .map(|k: usize| {
            let bit = |axis: usize| {
                if k >> (2 - axis) & 1 == 1 {
                    high[axis]
                } else {
                    low[axis]
                }
            };
            [bit(0), bit(1), bit(2)]
        })
        .collect()
}

/// A box with one corner at the origin or around it.
fn some_block(dice: &mut Dice, reach: Number) -> Vec<Point> {
    let high = [0; 3].map(|_: Number| dice.between(1, reach));
    let low = if dice.once_in(2) {
        [0; 3]
    } else {
        high.map(|h| -h)
    };
    block(low, high)
}

/// More than half of the corners that a shape may have, often all of them.
pub fn many(dice: &mut Dice) -> usize {
    if dice.once_in(2) {
        CORNERS
    } else {
        CORNERS - dice.below(CORNERS / 2)
    }
}

/// `count` corners near a ball's surface, so that most of them are corners of the hull.
pub fn ball(dice: &mut Dice, reach: Number, count: usize) -> Vec<Point> {
    let mut corners = Vec::new();
    while corners.len() < count {
        let raw = cloud_corner(dice, 1000);
        let size = raw.iter().map(|k| k * k).sum::<Number>().isqrt();
        if size > 100 {
            corners.push(raw.map(|k| k * reach / size));
        }
    }
    corners
}

/// Some corners repeated, and the order mixed: the same hull, said in another way.
fn mixed(dice: &mut Dice, mut corners: Vec<Point>) -> Vec<Point> {
    while corners.len() < CORNERS && dice.once_in(3) {
        corners.push(dice.pick(&corners));
    }
    dice.shuffle(&mut corners);
    corners
}

/// A list of corners of any kind, within ±`reach` (at least 1).
pub fn any(dice: &mut Dice, reach: Number) -> Vec<Point> {
    let corners = match dice.below(16) {
        0 => cloud(dice, reach, 1),
        1 | 2 => cloud(dice, reach, 2),
        3 => cloud(dice, reach, 3),
        4 | 5 => {
            let count = dice.pick(&[2, 3, 4, 6]);
            flat(dice, reach, count)
        }
        6..=8 => some_block(dice, reach),
        9 => {
            let [w, d, h] = [0; 3].map(|_: Number| dice.between(1, reach));
            vec![[0, 0, 0], [w, 0, 0], [0, d, 0], [0, 0, h]]
        }
        10 => {
            let [w, d, h] = [0; 3].map(|_: Number| dice.between(1, reach));
            let side = |y| [[0, y, 0], [w, y, 0], [0, y, h]];
            [side(0), side(d)].concat()
        }
        11 => vec![cloud_corner(dice, reach); 4],
        _ => {
            let count = dice.pick(&[4, 5, 6, 8, 12]);
            cloud(dice, reach, count)
        }
    };
    if dice.once_in(2) {
        mixed(dice, corners)
    } else {
        corners
    }
}

/// The corners as numbers, three a corner.
pub fn numbers(corners: &[Point]) -> Vec<Number> {
    corners.concat()
}
