//! The 24 turns, read off document 01's own words: a permutation by name and a row of signs.
//! "yxz with −++" (turn 21) sends (x, y, z) to (−y, x, z).

use crate::point::{Number, Point};

pub const TURNS: Number = 24;

const PERMUTATIONS: [&str; 6] = ["xyz", "yzx", "zxy", "xzy", "zyx", "yxz"];
const FIRST_SIGNS: [&str; 4] = ["+++", "+--", "-+-", "--+"];
const LAST_SIGNS: [&str; 4] = ["---", "-++", "+-+", "++-"];

/// The corner after a turn 0 to 23.
pub fn turned(turn: usize, corner: Point) -> Point {
    let permutation = turn / 4;
    let rows = if permutation < 3 {
        FIRST_SIGNS
    } else {
        LAST_SIGNS
    };
    let signs = rows[turn % 4].bytes();
    let mut result = [0; 3];
    for (k, (name, sign)) in PERMUTATIONS[permutation].bytes().zip(signs).enumerate() {
        let value: Number = corner[usize::from(name - b'x')];
        result[k] = if sign == b'-' { -value } else { value };
    }
    result
}

#[cfg(test)]
mod tests {
    use super::*;
    use crate::point::{cross, dot, AXES};

    #[test]
    fn every_turn_is_a_rotation_and_no_two_are_equal() {
        let images: Vec<[Point; 3]> = (0..24).map(|t| AXES.map(|e| turned(t, e))).collect();
        for (t, [x, y, z]) in images.iter().enumerate() {
            assert_eq!(cross(*x, *y), *z, "turn {t}");
            assert_eq!((dot(*x, *x), dot(*y, *y), dot(*x, *y)), (1, 1, 0));
            assert!(!images[..t].contains(&images[t]));
        }
        assert_eq!(turned(21, [1, 2, 3]), [-2, 1, 3]);
        assert_eq!(turned(0, [1, 2, 3]), [1, 2, 3]);
    }
}
