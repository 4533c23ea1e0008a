//! Blanks: the corners of a box, a wedge or a corner piece of given width, depth and height.
//! Each corner is written as document 01 lists it, and only then scaled by the three sizes.

use crate::floats::steps;
use crate::point::Number;
use crate::refusals::{lowest, FLOAT_RANGE, NOT_FINITE, NOT_WHOLE, NO_SIZE, SHORT_ROOM};

#[derive(Clone, Copy, PartialEq, Eq, Debug)]
pub enum Blank {
    Box,
    Wedge,
    Corner,
}

impl Blank {
    pub const ALL: [Blank; 3] = [Blank::Box, Blank::Wedge, Blank::Corner];

    pub fn word(self) -> &'static str {
        match self {
            Blank::Box => "box",
            Blank::Wedge => "wedge",
            Blank::Corner => "corner",
        }
    }

    /// The corners of the blank of size 1, 1, 1, in order.
    fn pattern(self) -> &'static [[Number; 3]] {
        match self {
            Blank::Box => &[
                [0, 0, 0],
                [0, 0, 1],
                [0, 1, 0],
                [0, 1, 1],
                [1, 0, 0],
                [1, 0, 1],
                [1, 1, 0],
                [1, 1, 1],
            ],
            Blank::Wedge => &[
                [0, 0, 0],
                [1, 0, 0],
                [0, 0, 1],
                [0, 1, 0],
                [1, 1, 0],
                [0, 1, 1],
            ],
            Blank::Corner => &[[0, 0, 0], [1, 0, 0], [0, 1, 0], [0, 0, 1]],
        }
    }

    /// How many numbers are written.
    pub fn numbers(self) -> usize {
        3 * self.pattern().len()
    }

    /// The corner numbers for sizes in steps.
    pub fn corners(self, sizes: [Number; 3]) -> Vec<Number> {
        let scaled = |corner: &[Number; 3]| {
            let [x, y, z] = *corner;
            [x * sizes[0], y * sizes[1], z * sizes[2]]
        };
        self.pattern().iter().flat_map(scaled).collect()
    }

    /// The corner numbers for sizes as float patterns, written to room of so many cells.
    pub fn written(self, patterns: [u32; 3], room: usize) -> Result<Vec<Number>, Number> {
        let read = patterns.map(steps);
        let some = |refusal: Number| read.contains(&Err(refusal));
        lowest(&[
            (SHORT_ROOM, room < self.numbers()),
            (NOT_FINITE, some(NOT_FINITE)),
            (NOT_WHOLE, some(NOT_WHOLE)),
            (FLOAT_RANGE, some(FLOAT_RANGE)),
            (
                NO_SIZE,
                read.iter().any(|size| size.is_ok_and(|steps| steps <= 0)),
            ),
        ])?;
        Ok(self.corners(read.map(|size| size.unwrap_or_default())))
    }
}

#[cfg(test)]
mod tests {
    use super::*;

    #[test]
    fn corners_in_order() {
        let sizes = [1.0f32, 2.0, 3.0].map(f32::to_bits);
        let wedge = Blank::Wedge.written(sizes, 18);
        let expected = vec![
            0, 0, 0, 64, 0, 0, 0, 0, 192, 0, 128, 0, 64, 128, 0, 0, 128, 192,
        ];
        assert_eq!(wedge, Ok(expected));
        let cube = Blank::Box.written(sizes, 24).expect("room for a box");
        assert_eq!(cube[3..6], [0, 0, 192]);
        assert_eq!(cube[12..15], [64, 0, 0]);
        assert_eq!(Blank::Box.written(sizes, 23), Err(13));
    }

    #[test]
    fn the_lowest_refusal() {
        let of = |sizes: [f32; 3]| Blank::Corner.written(sizes.map(f32::to_bits), 12).err();
        assert_eq!(of([1.0, -1.0, 1.0]), Some(19));
        assert_eq!(of([1.0, -0.0, 1.0]), Some(19));
        assert_eq!(of([-2000.0, 0.0, 1.0]), Some(18));
        assert_eq!(of([-2000.0, 0.1, 1.0]), Some(17));
        assert_eq!(of([f32::NAN, 0.1, -1.0]), Some(16));
        assert_eq!(of([1.0, 1.0, 1.0]), None);
    }
}
