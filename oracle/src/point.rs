//! Points and directions of whole numbers, and the few products that document 01's definitions use.
//! Numbers are 128 bits wide, so that no product of placed corners comes near the end.

use std::cmp::Ordering;

pub type Number = i128;
pub type Point = [Number; 3];

pub const ORIGIN: Point = [0, 0, 0];
pub const AXES: [Point; 3] = [[1, 0, 0], [0, 1, 0], [0, 0, 1]];

pub fn plus(a: Point, b: Point) -> Point {
    [a[0] + b[0], a[1] + b[1], a[2] + b[2]]
}

pub fn minus(a: Point, b: Point) -> Point {
    [a[0] - b[0], a[1] - b[1], a[2] - b[2]]
}

pub fn times(factor: Number, a: Point) -> Point {
    [factor * a[0], factor * a[1], factor * a[2]]
}

pub fn dot(a: Point, b: Point) -> Number {
    a[0] * b[0] + a[1] * b[1] + a[2] * b[2]
}

pub fn cross(a: Point, b: Point) -> Point {
    [
        a[1] * b[2] - a[2] * b[1],
        a[2] * b[0] - a[0] * b[2],
        a[0] * b[1] - a[1] * b[0],
    ]
}

pub fn divisor(mut a: Number, mut b: Number) -> Number {
    while b != 0 {
        (a, b) = (b, a % b);
    }
    a.abs()
}

/// The shortest whole direction along the same line, its first number that is not zero above zero.
pub fn primitive(a: Point) -> Point {
    let common = divisor(divisor(a[0], a[1]), a[2]);
    if common == 0 {
        return ORIGIN;
    }
    let sign = if a.cmp(&ORIGIN) == Ordering::Less {
        -1
    } else {
        1
    };
    let unit = sign * common;
    [a[0] / unit, a[1] / unit, a[2] / unit]
}

/// A flat list of numbers, three a point, as points.
pub fn points(numbers: &[Number]) -> Vec<Point> {
    numbers
        .chunks_exact(3)
        .map(|three| [three[0], three[1], three[2]])
        .collect()
}
