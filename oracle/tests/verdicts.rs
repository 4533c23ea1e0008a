//! The candidate family against searches and certificates that know nothing of it: wide direction
//! searches on tiny grids, and balances, which prove meeting and, shifted all ways, penetrating.

mod shared;

use oracle::balance::balance;
use oracle::point::{minus, plus, times, Number, Point, AXES, ORIGIN};
use oracle::verdict::{cube_corner, decide, is_balance, is_below, is_below_once};
use oracle::verdict::{is_not_above, widened, Verdict, Weighed};
use shared::{differences, independent, Chance};

/// For each direction of a cube of directions, the least and greatest value over the set.
fn spans(set: &[Point], width: Number) -> Vec<(i64, i64)> {
    let mut spans = Vec::new();
    for x in -width..=width {
        for y in -width..=width {
            for z in -width..=width {
                let value = |p: &Point| (x * p[0] + y * p[1] + z * p[2]) as i64;
                let least = set.iter().map(value).min().expect("a set has points");
                let most = set.iter().map(value).max().expect("a set has points");
                spans.push((least, most));
            }
        }
    }
    spans
}

/// The verdict by all directions of the cube: the first below, or nowhere above and below somewhere.
fn by_spans(first: &[(i64, i64)], second: &[(i64, i64)]) -> Verdict {
    let mut touching = false;
    for (a, b) in first.iter().zip(second) {
        if a.1 < b.0 {
            return Verdict::Separate;
        }
        touching |= a.1 <= b.0 && a.0 < b.1;
    }
    if touching {
        Verdict::Touching
    } else {
        Verdict::Penetrating
    }
}

fn compare(sets: &[Vec<Point>], width: Number, pairs: impl Iterator<Item = (usize, usize)>) {
    compare_at(0, sets, sets, width, pairs);
}

/// Of each pair the first is of the one family and widened by the gap, the second of the other. How often each verdict is seen.
fn compare_at(
    gap: Number,
    firsts: &[Vec<Point>],
    seconds: &[Vec<Point>],
    width: Number,
    pairs: impl Iterator<Item = (usize, usize)>,
) -> [usize; 3] {
    let widths: Vec<_> = firsts.iter().map(|set| widened(gap, set)).collect();
    let wide_spans: Vec<_> = widths.iter().map(|set| spans(set, width)).collect();
    let spans: Vec<_> = seconds.iter().map(|set| spans(set, width)).collect();
    let mut seen = [0; 3];
    for (i, j) in pairs {
        let (verdict, d) = decide(gap, &firsts[i], &seconds[j]);
        let by_all = by_spans(&wide_spans[i], &spans[j]);
        assert_eq!(verdict, by_all, "{gap} {:?} {:?}", firsts[i], seconds[j]);
        match verdict {
            Verdict::Separate => assert!(is_below(d, &widths[i], &seconds[j])),
            Verdict::Touching => assert!(shows_touching(d, &widths[i], &seconds[j])),
            Verdict::Penetrating => assert_eq!(d, ORIGIN),
        }
        seen[verdict.number() as usize - 1] += 1;
    }
    seen
}

/// d·a ≤ d·b for all a, b, and d·a < d·b for at least one pair.
fn shows_touching(d: Point, first: &[Point], second: &[Point]) -> bool {
    is_not_above(d, first, second) && is_below_once(d, first, second)
}

fn grid(side: Number) -> Vec<Point> {
    let mut grid = Vec::new();
    for x in 0..side {
        for y in 0..side {
            grid.extend((0..side).map(|z| [x, y, z]));
        }
    }
    grid
}

/// Every non-empty set of corners of the unit cube.
fn smallest_sets() -> Vec<Vec<Point>> {
    let grid = grid(2);
    let of_bits = |bits: u32| {
        let chosen = (0..8).filter(|k| bits >> k & 1 == 1);
        chosen.map(|k| grid[k]).collect()
    };
    (1..256u32).map(of_bits).collect()
}

#[test]
fn every_pair_of_sets_on_the_smallest_grid() {
    let sets = smallest_sets();
    let count = sets.len();
    let pairs = (0..count).flat_map(|i| (0..count).map(move |j| (i, j)));
    compare(&sets, 4, pairs);
}

/// The same sets with a gap, the second moved so that the cube's face, edge or corner is where they meet.
#[test]
fn sets_on_the_smallest_grid_with_a_gap() {
    let sets = smallest_sets();
    let mut chance = Chance(3);
    for gap in 1..=3 {
        let mut seen = [0; 3];
        for shift in [[1, 0, 0], [-1, 1, 0], [1, 1, -1], [0, 0, 0]] {
            let shift = shift.map(|k| if k < 0 { -gap - 1 } else { k * (gap + 1) });
            let moved = |set: &Vec<Point>| set.iter().map(|&p| plus(p, shift)).collect();
            let seconds: Vec<Vec<Point>> = sets.iter().map(moved).collect();
            let count = sets.len() as u64;
            let any = |_| (chance.below(count) as usize, chance.below(count) as usize);
            let pairs: Vec<_> = (0..4_000).map(any).collect();
            let those = compare_at(gap, &sets, &seconds, 4, pairs.into_iter());
            seen = [0, 1, 2].map(|k: usize| seen[k] + those[k]);
        }
        assert!(seen.iter().all(|&count| count > 500), "{seen:?}");
    }
}

/// On the grid of 27: all sets of up to two points with each other, and many larger ones.
#[test]
fn sets_on_the_grid_of_27() {
    let grid = grid(3);
    let mut sets: Vec<Vec<Point>> = grid.iter().map(|&p| vec![p]).collect();
    for i in 0..grid.len() {
        sets.extend((0..i).map(|j| vec![grid[i], grid[j]]));
    }
    let small = sets.len();
    let mut chance = Chance(1);
    for _ in 0..600 {
        let count = 3 + chance.below(5);
        let points = (0..count).map(|_| grid[chance.below(27) as usize]);
        sets.push(points.collect());
    }
    let all = sets.len() as u64;
    let among = (0..small).flat_map(|i| (0..small).map(move |j| (i, j)));
    let mut pairs: Vec<(usize, usize)> = among.collect();
    pairs.retain(|_| chance.below(4) == 0);
    for _ in 0..40_000 {
        pairs.push((chance.below(all) as usize, chance.below(all) as usize));
    }
    compare(&sets, 8, pairs.into_iter());
}

/// Whole positive weights whose weighted differences sum to zero, whatever their size.
fn sums_to_zero(pairs: &[Weighed], gap: Number, first: &[Point], second: &[Point]) -> bool {
    let term = |pair: &Weighed| {
        let a = plus(
            first[pair.first as usize],
            cube_corner(gap, pair.cube as usize),
        );
        times(pair.weight, minus(a, second[pair.second as usize]))
    };
    !pairs.is_empty()
        && pairs.iter().all(|pair| pair.weight > 0)
        && pairs.iter().map(term).fold(ORIGIN, plus) == ORIGIN
}

/// Ways that lead everywhere in the space of the differences: the axes, or, where all differences lie
/// in a plane, on a line or in a point, two of them, one or none.
fn ways(gap: Number, first: &[Point], second: &[Point]) -> Vec<Point> {
    let ways = independent(&differences(&widened(gap, first), second));
    if ways.len() == AXES.len() {
        return AXES.to_vec();
    }
    ways
}

/// A small step in each of these ways, forward and back, still meets: in the space of the
/// differences the origin is inside.
fn is_inside(gap: Number, first: &[Point], second: &[Point], reach: Number) -> bool {
    // No face of the difference comes nearer to the origin than 1 in its own numbers.
    let ways = ways(gap, first, second);
    let step_size: Number = if ways == AXES { 1 } else { 12 * reach };
    let scale = 64 * reach * reach * step_size;
    let scaled = |list: &[Point]| -> Vec<Point> { list.iter().map(|&p| times(scale, p)).collect() };
    let (first, second, gap) = (scaled(first), scaled(second), scale * gap);
    ways.into_iter()
        .flat_map(|way| [way, times(-1, way)])
        .all(|step| {
            let moved: Vec<Point> = first.iter().map(|&a| plus(a, step)).collect();
            balance(gap, &moved, &second)
                .is_some_and(|pairs| sums_to_zero(&pairs, gap, &moved, &second))
        })
}

/// Each verdict carries a certificate that proves it without any word about candidates.
fn certify(gap: Number, first: &[Point], second: &[Point], reach: Number) -> Verdict {
    let (verdict, d) = decide(gap, first, second);
    let wide = widened(gap, first);
    let meets = || {
        let pairs = balance(gap, first, second).expect("lists that meet have a balance");
        let kept = is_balance(&pairs, gap, first, second);
        assert!(kept, "{gap} {first:?} {second:?}");
    };
    match verdict {
        Verdict::Separate => {
            assert!(is_below(d, &wide, second), "{gap} {first:?} {second:?}");
            assert_eq!(balance(gap, first, second), None);
        }
        Verdict::Touching => {
            assert!(
                shows_touching(d, &wide, second),
                "{gap} {first:?} {second:?}"
            );
            meets();
        }
        Verdict::Penetrating => {
            meets();
            assert!(
                is_inside(gap, first, second, reach),
                "{gap} {first:?} {second:?}"
            );
        }
    }
    verdict
}

/// Lists within reach, the second moved by as much again; with a gap of up to `gap`, by that as well.
fn certify_many(
    chance: &mut Chance,
    gap: Number,
    reach: Number,
    most: u64,
    rounds: usize,
) -> [usize; 3] {
    let mut seen = [0; 3];
    for _ in 0..rounds {
        let (m, n) = (1 + chance.below(most), 1 + chance.below(most));
        let gap = chance.between(gap.min(1), gap);
        let first = chance.list(reach, m);
        let mut second = chance.list(reach, n);
        let apart = [0; 3].map(|_: Number| gap * chance.between(-1, 1));
        let shift = plus(apart, chance.list(reach, 1)[0]);
        for corner in &mut second {
            *corner = plus(*corner, shift);
        }
        let verdict = certify(gap, &first, &second, 2 * reach + gap);
        seen[verdict.number() as usize - 1] += 1;
    }
    seen
}

#[test]
fn certificates_for_small_lists() {
    let mut chance = Chance(7);
    for reach in [1, 2, 3, 6] {
        let seen = certify_many(&mut chance, 0, reach, 8, 500);
        assert!(seen.iter().all(|&count| count > 0), "{seen:?}");
    }
}

#[test]
fn certificates_with_a_gap() {
    let mut chance = Chance(31);
    for (gap, reach) in [(1, 1), (3, 2), (6, 3), (64, 40)] {
        let seen = certify_many(&mut chance, gap, reach, 5, 50);
        assert!(seen[0] > 0 && seen[2] > 0, "{seen:?}");
    }
    certify_many(&mut chance, 300, 100, 6, 4);
}

#[test]
fn certificates_for_larger_lists() {
    let mut chance = Chance(11);
    certify_many(&mut chance, 0, 100, 12, 60);
    certify_many(&mut chance, 0, 1000, 32, 3);
    certify_many(&mut chance, 0, 1000, 64, 1);
}

/// Some minutes: `cargo test --release --offline -- --ignored`.
#[test]
#[ignore = "takes minutes"]
fn certificates_for_very_many_lists() {
    let mut chance = Chance(13);
    for reach in [1, 2, 3, 4, 10, 50] {
        certify_many(&mut chance, 0, reach, 6, 20_000);
        certify_many(&mut chance, 0, reach, 12, 2_000);
    }
    certify_many(&mut chance, 0, 1000, 32, 100);
    certify_many(&mut chance, 0, 1000, 64, 20);
    for (gap, reach) in [(1, 1), (3, 2), (64, 10), (300, 100)] {
        certify_many(&mut chance, gap, reach, 6, 5_000);
        certify_many(&mut chance, gap, reach, 12, 500);
    }
}

/// Directions and weights keep their bounds at the very ends of the range, with the greatest gap too.
#[test]
fn bounds_at_the_ends() {
    let mut chance = Chance(17);
    for round in 0..600 {
        let gap = if round % 2 == 0 { 0 } else { 4_096 };
        let end = |c: &mut Chance| [0; 3].map(|_: Number| [-131_072, 131_072][c.below(2) as usize]);
        let near = |c: &mut Chance| [0; 3].map(|_: Number| c.between(-131_072, 131_072));
        let list = |c: &mut Chance| -> Vec<Point> {
            (0..1 + c.below(6))
                .map(|_| if c.below(2) == 0 { end(c) } else { near(c) })
                .collect()
        };
        let (first, second) = (list(&mut chance), list(&mut chance));
        let (verdict, d) = decide(gap, &first, &second);
        assert!(d.iter().all(|k| k.abs() <= 1 << 38));
        if verdict != Verdict::Separate {
            let pairs = balance(gap, &first, &second).expect("lists that meet have a balance");
            assert!(is_balance(&pairs, gap, &first, &second));
        }
    }
}
