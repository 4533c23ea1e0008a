//! Every refusal 1 to 20 and 24, alone and together with its neighbours: each word of a command is drawn
//! good or bad by itself, so that the lowest number has to win over all the others.

use super::dice::Dice;
use super::floats;
use super::lists;
use super::script::Script;
use super::spoils::{some_shape, some_taken, Undo};
use super::texts;
use crate::desk::{CORNERS, PLACES, SHAPES};
use crate::point::Number;

pub fn stretch(script: &mut Script, dice: &mut Dice) {
    begin(script, dice);
    for _ in 0..30 {
        if dice.once_in(5) {
            let undo = Undo::disorder(script, dice);
            command(script, dice);
            command(script, dice);
            undo.say(script);
        } else {
            command(script, dice);
        }
    }
}

/// A desk with a few shapes and pieces, so that good numbers exist for every word.
pub fn begin(script: &mut Script, dice: &mut Dice) {
    script.start_afresh();
    if dice.once_in(2) {
        script.tell("gap", &[lists::any_gap(dice)]);
    }
    if dice.once_in(3) {
        script.tell("gap", &[dice.between(0, 3)]);
    }
    script.say("load 0 0 0 0");
    script.say("load 31 0 0 0 2 0 0 0 2 0 0 0 2");
    script.say("load 7 0 0 0 0 0 2 0 2 0 0 2 2 2 0 0 2 0 2 2 2 0 2 2 2");
    let last = PLACES as Number - 1;
    script.tell("place", &[last, 31, 0, 0, 0, 0]);
    script.say("place 0 7 0 1 0 0");
    let turn = dice.between(0, 23);
    script.tell(
        "place",
        &[dice.between(1, last - 1), 0, turn, 1, 1, dice.between(0, 3)],
    );
}

fn command(script: &mut Script, dice: &mut Dice) {
    match dice.below(20) {
        0 => floats::blank(script, dice),
        1 => texts::one_length(script, dice),
        2 => floats::scan(script, dice),
        3 => floats::show(script, dice),
        4 => lists::refused(script, dice),
        _ => desk_command(script, dice),
    }
}

/// A command or question of the desk, good or bad.
pub fn desk_command(script: &mut Script, dice: &mut Dice) {
    match dice.below(16) {
        0..=3 => load(script, dice),
        4..=7 => place(script, dice),
        8..=10 => shift(script, dice),
        11 => {
            let place = place_number(script, dice);
            script.tell("remove", &[place]);
        }
        12 | 13 => pair(script, dice),
        14 => script.tell("gap", &[lists::any_gap(dice)]),
        _ => contacts(script, dice),
    }
}

/// A number that is good, or one past either end, or far off.
fn near(dice: &mut Dice, count: usize) -> Number {
    match dice.below(5) {
        0 => dice.pick(&[-1, count as Number]),
        1 => dice.edge_number(),
        _ => dice.below(count) as Number,
    }
}

fn shape_number(script: &Script, dice: &mut Dice) -> Number {
    if dice.once_in(3) {
        near(dice, SHAPES)
    } else {
        some_shape(script, dice) as Number
    }
}

fn place_number(script: &Script, dice: &mut Dice) -> Number {
    if dice.once_in(2) {
        near(dice, PLACES)
    } else {
        some_taken(script, dice) as Number
    }
}

fn offset(dice: &mut Dice) -> [Number; 3] {
    let mut offset = [0; 3].map(|_: Number| dice.between(-2, 2));
    if dice.once_in(3) {
        let ends = [65_536, -65_536, 65_537, -65_537, 131_072];
        offset[dice.below(3)] = if dice.once_in(3) {
            dice.edge_number()
        } else {
            dice.pick(&ends)
        };
    }
    offset
}

fn turn(dice: &mut Dice) -> Number {
    if dice.once_in(3) {
        dice.pick(&[
            -1,
            24,
            25,
            255,
            256,
            Number::from(i32::MIN),
            Number::from(i32::MAX),
        ])
    } else {
        dice.between(0, 23)
    }
}

fn load(script: &mut Script, dice: &mut Dice) {
    let mut told = vec![shape_number(script, dice)];
    let length = match dice.below(3) {
        0 => dice.pick(&[0, 1, 2, 4, 95, 97, 191, 193, 194, 195, 196, 240]),
        1 => dice.pick(&[3, 96, 99, 3 * CORNERS]),
        _ => 3 * (1 + dice.below(6)),
    };
    told.extend((0..length).map(|_| dice.between(-3, 3)));
    if length > 0 && dice.once_in(2) {
        let ends = [65_536, -65_536, 65_537, -65_537, 131_072, -131_072];
        let k = 1 + dice.below(length);
        told[k] = if dice.once_in(3) {
            dice.edge_number()
        } else {
            dice.pick(&ends)
        };
    }
    script.tell("load", &told);
}

fn place(script: &mut Script, dice: &mut Dice) {
    let place = place_number(script, dice);
    let shape = shape_number(script, dice);
    let turn = turn(dice);
    let [x, y, z] = offset(dice);
    script.tell("place", &[place, shape, turn, x, y, z]);
}

fn shift(script: &mut Script, dice: &mut Dice) {
    let place = place_number(script, dice);
    let turn = turn(dice);
    let [x, y, z] = offset(dice);
    script.tell("move", &[place, turn, x, y, z]);
}

fn pair(script: &mut Script, dice: &mut Dice) {
    let first = place_number(script, dice);
    let second = if dice.once_in(3) {
        first
    } else {
        place_number(script, dice)
    };
    script.tell("pair", &[first, second]);
}

/// Room for exactly the listing, for one cell less, or for none.
fn contacts(script: &mut Script, dice: &mut Dice) {
    let rows = script.desk().contacts(usize::MAX).unwrap_or_default();
    let needed = 3 * rows.len() as Number;
    let room = dice.pick(&[needed, (needed - 1).max(0), 0, needed / 2]);
    script.tell("room", &[room]);
    script.say("contacts");
    script.whole_room();
}
