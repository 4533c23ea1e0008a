//! The finite family of directions that decides every pair of corner lists: cross products of edges.
//! The README says why it suffices; the tests below try it against wide searches and balances.

use crate::point::{cross, dot, minus, primitive, Point, AXES, ORIGIN};
use std::cmp::Ordering;

/// The points without repetitions.
pub fn distinct(points: &[Point]) -> Vec<Point> {
    let mut sorted = points.to_vec();
    sorted.sort_unstable();
    sorted.dedup();
    sorted
}

/// Do all points lie on one closed side of the plane through `through` with this normal?
fn one_sided(points: &[Point], normal: Point, through: Point) -> bool {
    let level = dot(normal, through);
    let mut above = false;
    let mut below = false;
    for &p in points {
        match dot(normal, p).cmp(&level) {
            Ordering::Greater => above = true,
            Ordering::Less => below = true,
            Ordering::Equal => {}
        }
        if above && below {
            return false;
        }
    }
    true
}

/// The normal of the plane that all points lie in, where they lie in one and not on one line.
fn plane(points: &[Point]) -> Option<Point> {
    let (&origin, rest) = points.split_first()?;
    let along = minus(*rest.first()?, origin);
    let normals = rest.iter().map(|&p| cross(along, minus(p, origin)));
    let normal = normals.into_iter().find(|&n| n != ORIGIN)?;
    let level = dot(normal, origin);
    let flat = points.iter().all(|&p| dot(normal, p) == level);
    flat.then(|| primitive(normal))
}

/// Is there a plane through both points that has the whole set on one side? Every edge of a hull
/// that is not flat lies in such a plane. A set on one line keeps all its pairs.
fn bordering(points: &[Point], p: Point, q: Point) -> bool {
    let along = minus(q, p);
    let mut on_one_line = true;
    for &r in points {
        let normal = cross(along, minus(r, p));
        if normal != ORIGIN {
            on_one_line = false;
            if one_sided(points, normal, p) {
                return true;
            }
        }
    }
    on_one_line
}

/// The lines along which the hull of distinct points can have an edge (some more are no harm).
pub fn edge_directions(points: &[Point]) -> Vec<Point> {
    let plane = plane(points);
    let mut directions = Vec::new();
    for (i, &p) in points.iter().enumerate() {
        for &q in &points[i + 1..] {
            // Within a plane the border is a line: the plane on edge through both points.
            let edge = match plane {
                Some(normal) => one_sided(points, cross(normal, minus(q, p)), p),
                None => bordering(points, p, q),
            };
            if edge {
                directions.push(primitive(minus(q, p)));
            }
        }
    }
    distinct(&directions)
}

/// The axes first, then the edges of both lists: the factors of every candidate direction.
pub fn factors(first: &[Point], second: &[Point]) -> Vec<Point> {
    let mut edges = edge_directions(first);
    edges.extend(edge_directions(second));
    let mut all = AXES.to_vec();
    all.extend(distinct(&edges).into_iter().filter(|e| !AXES.contains(e)));
    all
}

/// Every candidate, one of each pair of opposite ones, none of them zero; the axes come first.
pub fn candidates(factors: &[Point]) -> impl Iterator<Item = Point> + '_ {
    factors
        .iter()
        .enumerate()
        .flat_map(|(i, &u)| factors[..i].iter().map(move |&v| cross(u, v)))
        .filter(|&d| d != ORIGIN)
}
