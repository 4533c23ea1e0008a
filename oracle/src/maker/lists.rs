//! Pairs of corner lists: tiny and degenerate, boxes that share a face, edge or corner, flat ones in one plane, hulls brought
//! into contact and then nudged, numbers at the ends, and lists to refuse; half of them with a gap, and set apart by it.

use super::dice::Dice;
use super::script::Script;
use super::shapes::{any, ball, block, cloud, many, numbers};
use crate::desk::{CORNERS, GAP_LIMIT};
use crate::point::{cross, dot, minus, plus, times, Number, Point, AXES};

const LIMIT: Number = 131_072;

pub fn stretch(script: &mut Script, dice: &mut Dice) {
    for _ in 0..20 {
        let gap = if dice.once_in(2) { 0 } else { gap(dice) };
        let (first, second) = match dice.below(26) {
            0..=3 => set_apart(dice, gap, tiny),
            4..=5 => set_apart(dice, gap, |dice| (any(dice, 3), any(dice, 3))),
            6..=9 => set_apart(dice, gap, boxes),
            10..=13 => contact(dice, gap, false),
            14 => contact(dice, gap, true),
            15..=16 => extreme(dice),
            17 => set_apart(dice, gap, crossed),
            18..=23 => set_apart(dice, gap, flats),
            _ => {
                refused(script, dice);
                continue;
            }
        };
        tell(script, gap, &first, &second);
        if dice.once_in(6) {
            tell(script, gap, &second, &first);
        }
    }
}

/// A gap of a step or two, of a millimetre and its neighbours, the greatest and its neighbour, or any.
pub fn gap(dice: &mut Dice) -> Number {
    match dice.below(4) {
        0 => dice.pick(&[1, 2]),
        1 => dice.pick(&[63, 64, 65]),
        2 => dice.pick(&[GAP_LIMIT - 1, GAP_LIMIT]),
        _ => dice.between(0, GAP_LIMIT),
    }
}

fn tell(script: &mut Script, gap: Number, first: &[Point], second: &[Point]) {
    tell_numbers(script, gap, &numbers(first), &numbers(second));
}

fn tell_numbers(script: &mut Script, gap: Number, first: &[Number], second: &[Number]) {
    let mut all = vec![gap, first.len() as Number];
    all.extend(first);
    all.push(second.len() as Number);
    all.extend(second);
    script.tell("lists", &all);
}

type Lists = (Vec<Point>, Vec<Point>);

/// Two lists, the second moved by the gap along some axes: what met before meets a face, an edge or a
/// corner of the cube then; now and then a step more or less.
fn set_apart(dice: &mut Dice, gap: Number, lists: impl Fn(&mut Dice) -> Lists) -> Lists {
    let (first, second) = lists(dice);
    if gap == 0 {
        return (first, second);
    }
    let mut shift = [0; 3].map(|_: Number| dice.pick(&[0, 0, gap, -gap]));
    if dice.once_in(3) {
        shift[dice.below(3)] += dice.pick(&[-1, 1]);
    }
    (first, moved(second, shift))
}

/// The corners moved, and kept within the range.
fn moved(list: Vec<Point>, shift: Point) -> Vec<Point> {
    let kept = |b: Point| plus(b, shift).map(|k| k.clamp(-LIMIT, LIMIT));
    list.into_iter().map(kept).collect()
}

/// Up to six corners each on a grid of at most 3 × 3 × 3.
fn tiny(dice: &mut Dice) -> Lists {
    let grid = dice.between(1, 2);
    let list = |dice: &mut Dice| {
        let count = 1 + dice.below(6);
        let corner = |dice: &mut Dice| [0; 3].map(|_: Number| dice.between(0, grid));
        (0..count).map(|_| corner(dice)).collect()
    };
    (list(dice), list(dice))
}

/// Two boxes that on each axis are apart, share an end, overlap or are alike; perhaps both sheared.
fn boxes(dice: &mut Dice) -> Lists {
    let size = dice.pick(&[2, 64, 4_096]);
    let mut low = [0; 3];
    let mut high = [0; 3];
    for axis in 0..3 {
        (low[axis], high[axis]) = match dice.below(8) {
            0 => (size + 1, 2 * size),
            1 | 2 => (size, 2 * size),
            3 => (-size, 0),
            4 => (size / 2, 3 * size),
            5 => (-size, size - 1),
            6 => (size - 1, size),
            _ => (0, size),
        };
    }
    let mut first = block([0; 3], [size; 3]);
    let mut second = block(low, high);
    if dice.once_in(2) {
        let factors = [0; 3].map(|_: Number| dice.between(-2, 2));
        let shear = |[x, y, z]: Point| {
            let y = y + factors[0] * x;
            let z = z + factors[1] * x + factors[2] * y;
            [x, y, z]
        };
        first = first.into_iter().map(shear).collect();
        second = second.into_iter().map(shear).collect();
    }
    (first, second)
}

/// Corners at small multiples of some ways from the origin: all ends of a stretch along each, or any.
fn spread(dice: &mut Dice, ways: &[Point]) -> Vec<Point> {
    let sum = |along: &[Number]| {
        let parts = ways.iter().zip(along).map(|(&way, &k)| times(k, way));
        parts.fold([0; 3], plus)
    };
    if dice.once_in(3) {
        let count = 1 + dice.below(5);
        let any =
            |dice: &mut Dice| -> Vec<Number> { ways.iter().map(|_| dice.between(-2, 2)).collect() };
        return (0..count).map(|_| sum(&any(dice))).collect();
    }
    let ends: Vec<[Number; 2]> = ways
        .iter()
        .map(|_| {
            let low = dice.between(-2, 1);
            [low, dice.between(low, 2)]
        })
        .collect();
    (0..1usize << ways.len())
        .map(|k| {
            let chosen = ends.iter().enumerate().map(|(i, end)| end[k >> i & 1]);
            sum(&chosen.collect::<Vec<Number>>())
        })
        .collect()
}

/// Sheets, segments and points of one plane or one line, over each other, side by side or apart; or
/// of planes that cross, or with a body among them; now and then one step out of the plane.
fn flats(dice: &mut Dice) -> Lists {
    let reach = dice.pick(&[1, 2, 5, 1_000, 20_000]);
    let mut ways = cloud(dice, reach, 3);
    if dice.once_in(3) {
        ways = vec![[reach, 0, 0], [0, reach, 0], [0, 0, reach]];
        dice.shuffle(&mut ways);
    }
    let (first, second) = match dice.below(10) {
        0..=4 => (&ways[..2], &ways[..2]),
        5..=6 => (&ways[..1], &ways[..1]),
        7 => (&ways[..2], &ways[1..]),
        8 => (&ways[..2], &ways[2..]),
        _ => (&ways[..3], &ways[..2]),
    };
    let first = spread(dice, first);
    let mut second = spread(dice, second);
    if dice.once_in(8) {
        let axis = dice.below(3);
        for corner in &mut second {
            corner[axis] += 1;
        }
    }
    (first, second)
}

/// A direction in which the first list, or the cube of a gap, may be highest at a corner, an edge or a face.
fn towards(dice: &mut Dice, gap: Number, first: &[Point], second: &[Point]) -> Point {
    let edge = |dice: &mut Dice, list: &[Point]| minus(dice.pick(list), dice.pick(list));
    match dice.below(if gap == 0 { 4 } else { 7 }) {
        0 => cross(edge(dice, first), edge(dice, first)),
        1 => cross(edge(dice, second), edge(dice, second)),
        2 => cross(edge(dice, first), edge(dice, second)),
        3 => cloud(dice, 9, 1)[0],
        4 => times(dice.pick(&[-1, 1]), dice.pick(&AXES)),
        5 => cross(edge(dice, first), dice.pick(&AXES)),
        _ => cross(edge(dice, second), dice.pick(&AXES)),
    }
}

/// A point of the cube that lies highest along d: a corner, or any of an edge or a face.
fn of_cube(dice: &mut Dice, gap: Number, d: Point) -> Point {
    d.map(|k| match k.signum() {
        0 => dice.between(-gap, gap),
        side => side * gap,
    })
}

/// Half way between two corners that lie highest along d; even coordinates make it whole.
fn highest(list: &[Point], d: Point) -> Point {
    let top = list.iter().map(|&a| dot(d, a)).max().unwrap_or(0);
    let there: Vec<Point> = list.iter().copied().filter(|&a| dot(d, a) == top).collect();
    let last = there.len() - 1;
    [0, 1, 2].map(|k: usize| (there[0][k] + there[last][k]) / 2)
}

/// Two lists, the second moved so that both are level in some direction, then perhaps nudged.
fn contact(dice: &mut Dice, gap: Number, full: bool) -> Lists {
    let reach = dice.pick(&[2, 3, 5, 20, 1_000, 30_000]);
    let even = |list: Vec<Point>| -> Vec<Point> { list.into_iter().map(|a| times(2, a)).collect() };
    let list = |dice: &mut Dice| {
        if full {
            let count = many(dice);
            ball(dice, reach, count)
        } else {
            any(dice, reach)
        }
    };
    let first = even(list(dice));
    let second = even(list(dice));
    let d = towards(dice, gap, &first, &second);
    let from = plus(highest(&first, d), of_cube(dice, gap, d));
    let to = highest(&second, times(-1, d));
    let mut shift = minus(from, to);
    if dice.once_in(2) {
        shift[dice.below(3)] += dice.pick(&[-1, 1]);
    }
    (first, moved(second, shift))
}

/// Points at the very ends of the range.
fn extreme(dice: &mut Dice) -> Lists {
    let ends = [-LIMIT, 1 - LIMIT, LIMIT - 1, LIMIT, 0, 1, 65_536, -65_536];
    let list = |dice: &mut Dice| {
        let count = dice.pick(&[1, 2, 3, 4, 4, 8, 12, 32, CORNERS]);
        let span = dice.pick(&[2, 4, 8]);
        let corner = |dice: &mut Dice| {
            [0; 3].map(|_: Number| {
                if dice.once_in(5) {
                    dice.between(-LIMIT, LIMIT)
                } else {
                    ends[dice.below(span)]
                }
            })
        };
        (0..count).map(|_| corner(dice)).collect()
    };
    (list(dice), list(dice))
}

/// Two edges that cross at a point, each with a body behind it, perhaps one step apart.
fn crossed(dice: &mut Dice) -> Lists {
    let reach = dice.pick(&[3, 10, 1_000]);
    let [u, v, w] = [0; 3].map(|_: Number| cloud(dice, reach, 1)[0]);
    let normal = cross(u, v);
    let side = if dot(normal, w) > 0 { 1 } else { -1 };
    let mut first = vec![u, times(-1, u)];
    let mut second = vec![v, times(-1, v)];
    let bodies = dice.below(4);
    if bodies & 1 == 1 {
        first.push(times(side, w));
    }
    if bodies & 2 == 2 {
        second.push(times(-side, w));
    }
    if dice.once_in(3) {
        let axis = dice.below(3);
        for corner in &mut second {
            corner[axis] += 1;
        }
    }
    (first, second)
}

/// Lists whose length or whose numbers are out of range, or both; and a gap that may be as well.
pub fn refused(script: &mut Script, dice: &mut Dice) {
    let list = |dice: &mut Dice| -> Vec<Number> {
        let length = match dice.below(3) {
            0 => dice.pick(&[0, 1, 2, 4, 5, 95, 97, 98, 191, 193, 194, 195, 198, 384]),
            _ => 3 * (1 + dice.below(CORNERS)),
        };
        let mut numbers: Vec<Number> = (0..length).map(|_| dice.between(-3, 3)).collect();
        if dice.once_in(2) && !numbers.is_empty() {
            let end = [
                LIMIT,
                -LIMIT,
                LIMIT + 1,
                -LIMIT - 1,
                Number::from(i32::MAX),
                Number::from(i32::MIN),
            ];
            let k = dice.below(numbers.len());
            numbers[k] = dice.pick(&end);
        }
        numbers
    };
    let (first, second) = (list(dice), list(dice));
    let gap = any_gap(dice);
    tell_numbers(script, gap, &first, &second);
}

/// A gap in range or out of it.
pub fn any_gap(dice: &mut Dice) -> Number {
    match dice.below(4) {
        0 => dice.pick(&[-1, GAP_LIMIT + 1]),
        1 => dice.edge_number(),
        2 => 0,
        _ => gap(dice),
    }
}
