//! The verdict by cones of differences, worked out exactly and with no direction in it, against the
//! candidate directions: thousands of small cases of every dimension, and the flat ones by name.

mod shared;

use oracle::point::{cross, dot, minus, plus, times, Number, Point, ORIGIN};
use oracle::verdict::{decide, is_below, is_below_once, is_not_above, widened, Verdict};
use shared::{differences, independent, Chance};

fn det(u: Point, v: Point, w: Point) -> Number {
    dot(cross(u, v), w)
}

/// Is t = α u + β v with α, β ≥ 0, where u and v are independent?
fn between_two(t: Point, u: Point, v: Point) -> bool {
    let normal = cross(u, v);
    normal != ORIGIN
        && dot(normal, t) == 0
        && dot(cross(t, v), normal) >= 0
        && dot(cross(u, t), normal) >= 0
}

/// Is t = α u + β v + γ w with α, β, γ ≥ 0, where u, v and w are independent? (Cramer's rule.)
fn between_three(t: Point, u: Point, v: Point, w: Point) -> bool {
    let all = det(u, v, w);
    all != 0 && det(t, v, w) * all >= 0 && det(u, t, w) * all >= 0 && det(u, v, t) * all >= 0
}

/// Is t a sum of the points, each with a weight of 0 or more? Then it is one of at most three
/// independent ones (Carathéodory).
fn in_cone(t: Point, points: &[Point]) -> bool {
    let ray = |&u: &Point| cross(u, t) == ORIGIN && dot(u, t) > 0;
    if t == ORIGIN || points.iter().any(ray) {
        return true;
    }
    for (i, &u) in points.iter().enumerate() {
        for (j, &v) in points[..i].iter().enumerate() {
            let third = |&w: &Point| between_three(t, u, v, w);
            if between_two(t, u, v) || points[..j].iter().any(third) {
                return true;
            }
        }
    }
    false
}

/// The verdict by the differences alone. Some weighted sum of them is zero exactly where the opposite
/// of one is in their cone. And by Farkas' lemma the opposite of p is there exactly where no d has
/// d·q ≤ 0 for all q and d·p < 0: so penetrating is that the opposite of every one is there.
fn by_cones(first: &[Point], second: &[Point]) -> Verdict {
    let all = differences(first, second);
    let opposed = |&&p: &&Point| in_cone(times(-1, p), &all);
    match all.iter().filter(opposed).count() {
        0 => Verdict::Separate,
        count if count == all.len() => Verdict::Penetrating,
        _ => Verdict::Touching,
    }
}

/// 0 to 3: how many independent ways lead from one of the differences to the others.
fn dimension(first: &[Point], second: &[Point]) -> usize {
    let all = differences(first, second);
    let ways: Vec<Point> = all.iter().map(|&p| minus(p, all[0])).collect();
    independent(&ways).len()
}

/// The two ways agree, in both orders of the lists, and the direction shows its verdict.
fn agree(first: &[Point], second: &[Point]) -> Verdict {
    agree_at(0, first, second)
}

/// The same with a gap. The cones are of the differences of the widened first list, written out; that the
/// second list could be widened instead, as in the other order, is a fact of its own.
fn agree_at(gap: Number, first: &[Point], second: &[Point]) -> Verdict {
    let right = by_cones(&widened(gap, first), second);
    for (first, second) in [(first, second), (second, first)] {
        let (verdict, d) = decide(gap, first, second);
        assert_eq!(verdict, right, "{gap} {first:?} {second:?}");
        let wide = widened(gap, first);
        let shown = match verdict {
            Verdict::Separate => is_below(d, &wide, second),
            Verdict::Touching => is_not_above(d, &wide, second) && is_below_once(d, &wide, second),
            Verdict::Penetrating => d == ORIGIN,
        };
        assert!(shown, "{gap} {first:?} {second:?}: {d:?}");
    }
    right
}

/// Two lists whose differences lie in a space of so many ways or fewer, or beside it.
fn lists_of(chance: &mut Chance, ways: u64, beside: bool) -> [Vec<Point>; 2] {
    let reach = chance.between(1, 3);
    let along = chance.list(reach, ways);
    let base = chance.list(2, 1)[0];
    let mut list = |base: Point| -> Vec<Point> {
        let count = 1 + chance.below(5);
        let corner = |chance: &mut Chance| {
            let step = |p: Point, &way: &Point| plus(p, times(chance.between(-2, 2), way));
            along.iter().fold(base, step)
        };
        (0..count).map(|_| corner(chance)).collect()
    };
    let first = list(base);
    let aside = if beside { [0, 0, 1] } else { ORIGIN };
    let second = list(plus(base, aside));
    [first, second]
}

/// Twelve thousand pairs: for each dimension of the difference, every verdict that it can have.
#[test]
fn random_lists_of_every_dimension() {
    let mut chance = Chance(23);
    let mut seen = [[0; 3]; 4];
    for round in 0..12_000 {
        let [first, second] = lists_of(&mut chance, round % 4, round % 17 == 0);
        let verdict = agree(&first, &second);
        seen[dimension(&first, &second)][verdict.number() as usize - 1] += 1;
    }
    // A single difference is zero, and penetrating, or not, and separate.
    assert_eq!(seen[0][1], 0);
    let [[apart, _, one], others @ ..] = seen;
    for count in [apart, one].iter().chain(others.iter().flatten()) {
        assert!(*count >= 100, "{seen:?}");
    }
}

/// Lists of every dimension with a gap, the second moved by the gap along some axes: the difference is
/// solid, whatever the lists are, and every verdict is common.
#[test]
fn random_lists_with_a_gap() {
    let mut chance = Chance(29);
    let mut seen = [[0; 3]; 4];
    for round in 0..600 {
        let [first, second] = lists_of(&mut chance, round % 4, round % 17 == 0);
        let gap = chance.between(1, 4);
        let shift = [0; 3].map(|_: Number| gap * chance.between(-1, 1));
        let mut second = moved(&second[..second.len().min(3)], shift);
        if chance.below(3) == 0 {
            second = moved(&second, chance.list(1, 1)[0]);
        }
        let first = &first[..first.len().min(3)];
        assert_eq!(dimension(&widened(gap, first), &second), 3);
        let verdict = agree_at(gap, first, &second);
        seen[dimension(first, &second)][verdict.number() as usize - 1] += 1;
    }
    for count in seen.iter().flatten() {
        assert!(*count >= 3, "{seen:?}");
    }
}

/// Every two sets of one to three points of a square of nine, in a plane that no axis lies in: sheets,
/// segments and points of one plane, all the ways in which they can lie.
#[test]
fn every_triangle_segment_and_point_of_one_plane() {
    let square: Vec<Point> = (0..9)
        .map(|k| [k % 3, k / 3, k % 3 + 2 * (k / 3)])
        .collect();
    let mut sets: Vec<Vec<Point>> = Vec::new();
    for i in 0..9 {
        sets.push(vec![square[i]]);
        for j in 0..i {
            sets.push(vec![square[i], square[j]]);
            sets.extend((0..j).map(|k| vec![square[i], square[j], square[k]]));
        }
    }
    let mut seen = [0; 3];
    for (i, first) in sets.iter().enumerate() {
        for second in &sets[..=i] {
            seen[agree(first, second).number() as usize - 1] += 1;
        }
    }
    assert!(seen.iter().all(|&count| count > 500), "{seen:?}");
}

const SHEET: [Point; 4] = [[0, 0, 0], [4, 0, 0], [0, 4, 0], [4, 4, 0]];

fn moved(list: &[Point], offset: Point) -> Vec<Point> {
    list.iter().map(|&p| plus(p, offset)).collect()
}

/// The flat cases by name.
#[test]
fn flat_cases_by_name() {
    use Verdict::{Penetrating, Separate, Touching};
    let sheet = |offset| moved(&SHEET, offset);
    let upright = vec![[2, -1, -2], [2, 5, -2], [2, -1, 2], [2, 5, 2]];
    let block: Vec<Point> = [sheet([0, 0, 0]), sheet([0, 0, 4])].concat();
    let x = vec![[-10, 0, 0], [10, 0, 0]];
    let y = vec![[0, -10, 0], [0, 10, 0]];
    let cases = [
        ("P on P", vec![ORIGIN], vec![ORIGIN], Penetrating),
        ("P beside P", vec![ORIGIN], vec![[0, 0, 1]], Separate),
        ("crossed segments", x.clone(), y.clone(), Penetrating),
        ("raised", x.clone(), moved(&y, [0, 0, 1]), Separate),
        (
            "crossed at an end",
            x.clone(),
            moved(&y, [10, 0, 0]),
            Touching,
        ),
        (
            "an end on a segment",
            x.clone(),
            moved(&y, [0, 10, 0]),
            Touching,
        ),
        (
            "end to end, at an angle",
            x.clone(),
            moved(&y, [10, 10, 0]),
            Touching,
        ),
        (
            "end to end on a line",
            x.clone(),
            moved(&x, [20, 0, 0]),
            Touching,
        ),
        (
            "over each other on a line",
            x.clone(),
            moved(&x, [19, 0, 0]),
            Penetrating,
        ),
        ("the same segment", x.clone(), x.clone(), Penetrating),
        (
            "apart on a line",
            x.clone(),
            moved(&x, [21, 0, 0]),
            Separate,
        ),
        (
            "a point in a segment",
            x.clone(),
            vec![[3, 0, 0]],
            Penetrating,
        ),
        ("a point on an end", x.clone(), vec![[-10, 0, 0]], Touching),
        (
            "a point past an end",
            x.clone(),
            vec![[-11, 0, 0]],
            Separate,
        ),
        (
            "a point in a sheet",
            sheet([0; 3]),
            vec![[1, 2, 0]],
            Penetrating,
        ),
        (
            "a point on its edge",
            sheet([0; 3]),
            vec![[0, 2, 0]],
            Touching,
        ),
        (
            "a point on its corner",
            sheet([0; 3]),
            vec![[4, 4, 0]],
            Touching,
        ),
        ("a point over it", sheet([0; 3]), vec![[1, 2, 1]], Separate),
        (
            "sheets that share an area",
            sheet([0; 3]),
            sheet([3, 3, 0]),
            Penetrating,
        ),
        ("the same sheet", sheet([0; 3]), sheet([0; 3]), Penetrating),
        (
            "sheets that share an edge",
            sheet([0; 3]),
            sheet([4, 0, 0]),
            Touching,
        ),
        (
            "sheets that share a corner",
            sheet([0; 3]),
            sheet([4, 4, 0]),
            Touching,
        ),
        (
            "sheets apart in one plane",
            sheet([0; 3]),
            sheet([5, 0, 0]),
            Separate,
        ),
        (
            "sheets on each other",
            sheet([0; 3]),
            sheet([0, 0, 1]),
            Separate,
        ),
        (
            "a sheet through a sheet",
            sheet([0; 3]),
            upright.clone(),
            Penetrating,
        ),
        (
            "on edge on a sheet",
            sheet([0; 3]),
            moved(&upright, [0, 0, 2]),
            Touching,
        ),
        (
            "a sheet through a block",
            block.clone(),
            moved(&upright, [0, 0, 2]),
            Penetrating,
        ),
        (
            "a sheet on a block",
            block.clone(),
            sheet([1, 1, 4]),
            Touching,
        ),
        (
            "a sheet in a block",
            block.clone(),
            sheet([1, 1, 3]),
            Penetrating,
        ),
        ("a sheet over a block", block, sheet([1, 1, 5]), Separate),
    ];
    for (name, first, second, verdict) in cases {
        assert_eq!(agree(&first, &second), verdict, "{name}");
    }
}
