//! The refusals by number, and the rule that the lowest number that applies is given. There a call lists
//! its numbers with their conditions in any order; a request's own order, where it has one, replaces the rule.

use crate::point::Number;

pub const DISORDER: Number = 1;
pub const SHAPE_NUMBER: Number = 2;
pub const LIST_LENGTH: Number = 3;
pub const CORNER_RANGE: Number = 4;
pub const ALREADY_LOADED: Number = 5;
pub const NOT_LOADED: Number = 6;
pub const PLACE_NUMBER: Number = 7;
pub const ALREADY_TAKEN: Number = 8;
pub const PLACE_EMPTY: Number = 9;
pub const TURN_NUMBER: Number = 10;
pub const OFFSET_RANGE: Number = 11;
pub const SAME_PLACE: Number = 12;
pub const SHORT_ROOM: Number = 13;
pub const LENGTH_FORM: Number = 14;
pub const LENGTH_RANGE: Number = 15;
pub const NOT_FINITE: Number = 16;
pub const NOT_WHOLE: Number = 17;
pub const FLOAT_RANGE: Number = 18;
pub const NO_SIZE: Number = 19;
pub const PLACED_RANGE: Number = 20;
pub const FILE_LENGTH: Number = 21;
pub const NO_TRIANGLES: Number = 22;
pub const MANY_CORNERS: Number = 23;
pub const GAP_REFUSED: Number = 24;
/// Of OFF texts (request W7), whose numbers are no floats; 22 there is that a text has no corners.
pub const NUMBER_RANGE: Number = FLOAT_RANGE;
pub const COMMA: Number = 25;
pub const BAD_TEXT: Number = 26;

/// Refuses by the lowest of the numbers whose condition holds.
pub fn lowest(conditions: &[(Number, bool)]) -> Result<(), Number> {
    let applying = conditions.iter().filter(|(_, applies)| *applies);
    match applying.map(|(number, _)| *number).min() {
        Some(number) => Err(number),
        None => Ok(()),
    }
}

/// Refuses by the first of the numbers whose condition holds, in the order given.
pub fn first(conditions: &[(Number, bool)]) -> Result<(), Number> {
    match conditions.iter().find(|(_, applies)| *applies) {
        Some((number, _)) => Err(*number),
        None => Ok(()),
    }
}
