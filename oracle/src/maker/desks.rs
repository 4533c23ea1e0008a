//! Long runs on crowded small desks: shapes of a few steps at offsets of a few steps, so that pieces touch,
//! overlap and part all the time; half of them with a gap; now and then all flat, far ends, full hulls, a full desk.

use super::dice::Dice;
use super::lists::any_gap;
use super::script::Script;
use super::shapes::{any, ball, block, many, numbers};
use crate::desk::{turn_cell, Part, CORNERS, GAP_LIMIT, PLACES, SHAPES};
use crate::point::{Number, Point};

/// How a desk is laid out: a gap, shapes within reach, offsets at multiples of a unit.
struct Layout {
    gap: Number,
    reach: Number,
    unit: Number,
    spread: Number,
    most_places: usize,
    /// Every shape is flat and lies in the plane z = 0, most often.
    flat: bool,
}

fn layout(dice: &mut Dice) -> Layout {
    let (reach, unit, spread) = match dice.below(10) {
        0 => (1, 1, 1),
        1 | 2 => (2, 1, 1),
        3 | 4 => (3, 1, 2),
        5 | 6 => (64, 32, 2),
        7 => (20, 1, 10),
        8 => (4_096, 2_048, 2),
        _ => (65_536, 32_768, 1),
    };
    let most_places = dice.pick(&[2, 3, 4, 5, 6, 8, 8, 12, 16, 24]);
    let flat = dice.once_in(4);
    // What is flat is solid with a gap, so flat desks have one less often.
    let gap: Number = match dice.below(if flat { 9 } else { 3 }) {
        0 => dice.pick(&[1, 2]),
        1 => dice.pick(&[unit, 2 * unit, reach]),
        _ => 0,
    };
    Layout {
        gap: gap.min(GAP_LIMIT),
        reach,
        unit,
        spread,
        most_places,
        flat,
    }
}

fn offset(dice: &mut Dice, layout: &Layout) -> [Number; 3] {
    [0, 1, 2].map(|axis: usize| {
        if layout.flat && axis == 2 && !dice.once_in(10) {
            return 0;
        }
        let whole = layout.unit * dice.between(-layout.spread, layout.spread);
        let nudged = if dice.once_in(6) {
            whole + dice.pick(&[-1, 1])
        } else {
            whole
        };
        nudged.clamp(-65_536, 65_536)
    })
}

fn shape(dice: &mut Dice, layout: &Layout) -> Vec<Point> {
    let corners = match dice.below(12) {
        0 => block([0; 3], [layout.reach; 3]),
        1 => vec![[0; 3]],
        2 if dice.once_in(8) => {
            let count = many(dice);
            ball(dice, layout.reach.max(20), count)
        }
        _ => any(dice, layout.reach),
    };
    if layout.flat {
        return corners.into_iter().map(|[x, y, _]| [x, y, 0]).collect();
    }
    corners
}

pub fn stretch(script: &mut Script, dice: &mut Dice) {
    script.start_afresh();
    let layout = layout(dice);
    set_gap(script, layout.gap);
    for _ in 0..2 + dice.below(6) {
        load(script, dice, &layout);
    }
    let length = dice.pick(&[20, 60, 120, 240]);
    for _ in 0..length {
        one_command(script, dice, &layout);
    }
    questions(script, dice);
    if dice.once_in(30) {
        full_desk(script, dice);
    }
}

/// Sets the gap, where it is not the one that the desk has.
fn set_gap(script: &mut Script, gap: Number) {
    if script.desk().gap() != gap {
        script.tell("gap", &[gap]);
    }
}

fn load(script: &mut Script, dice: &mut Dice, layout: &Layout) {
    let mut told = vec![dice.below(SHAPES) as Number];
    told.extend(numbers(&shape(dice, layout)));
    script.tell("load", &told);
}

fn loaded(script: &Script) -> Vec<Number> {
    let shapes = (0..SHAPES).filter(|&shape| script.desk().loaded(shape));
    shapes.map(|shape| shape as Number).collect()
}

/// Turns 3, 21 and 22 keep what is flat in its plane; the others stand some of it on edge.
fn turn(dice: &mut Dice, layout: &Layout) -> Number {
    if dice.once_in(2) {
        0
    } else if layout.flat && !dice.once_in(4) {
        dice.pick(&[3, 21, 22])
    } else {
        dice.between(0, 23)
    }
}

fn place(script: &mut Script, dice: &mut Dice, layout: &Layout) {
    let places = if layout.most_places < 8 { 8 } else { PLACES };
    let place = dice.below(places) as Number;
    let shape = dice.pick(&loaded(script));
    let turn = turn(dice, layout);
    let [x, y, z] = offset(dice, layout);
    script.tell("place", &[place, shape, turn, x, y, z]);
}

fn one_command(script: &mut Script, dice: &mut Dice, layout: &Layout) {
    let taken = script.desk().taken_places();
    if taken.is_empty() && dice.once_in(8) {
        // Taken or refused, what counts is the gap that was set last.
        script.tell("gap", &[any_gap(dice)]);
        set_gap(script, layout.gap);
    } else if loaded(script).is_empty() {
        load(script, dice, layout);
    } else if taken.len() < 2 || (taken.len() < layout.most_places && dice.once_in(3)) {
        place(script, dice, layout);
    } else {
        with_pieces(script, dice, layout, &taken);
    }
}

/// A command on a desk that holds at least two pieces.
fn with_pieces(script: &mut Script, dice: &mut Dice, layout: &Layout, taken: &[usize]) {
    let piece = dice.pick(taken) as Number;
    match dice.below(40) {
        0..=13 => {
            let turn = turn(dice, layout);
            let [x, y, z] = offset(dice, layout);
            script.tell("move", &[piece, turn, x, y, z]);
        }
        14..=19 => nudge(script, dice, piece as usize),
        20..=22 => script.tell("remove", &[piece]),
        23..=26 => script.tell("pair", &[piece, dice.pick(taken) as Number]),
        27..=31 => near_pair(script, dice),
        32..=34 => script.say("contacts"),
        35 => script.say("tallies"),
        36 => script.say("rows"),
        37 if dice.once_in(3) => script.say("marks"),
        37 if dice.once_in(3) => script.tell("gap", &[any_gap(dice)]),
        37 if dice.once_in(3) => emptied(script, dice, taken),
        38 if dice.once_in(2) => script.say("report"),
        39 => load(script, dice, layout),
        _ => place(script, dice, layout),
    }
}

/// All pieces are taken away, and another gap is set: of a step more or less, or any.
fn emptied(script: &mut Script, dice: &mut Dice, taken: &[usize]) {
    for &place in taken {
        script.tell("remove", &[place as Number]);
    }
    let gap = script.desk().gap();
    let any = any_gap(dice);
    script.tell("gap", &[dice.pick(&[gap + 1, gap - 1, any])]);
}

/// A pair whose boxes are not apart, in either order, where there is one.
fn near_pair(script: &mut Script, dice: &mut Dice) {
    let mut rows = script.desk().rows().unwrap_or_default();
    rows.retain(|&(_, _, row)| row != 0);
    if rows.is_empty() {
        return;
    }
    let (low, high, _) = dice.pick(&rows);
    let mut pair = [low as Number, high as Number];
    dice.shuffle(&mut pair);
    script.tell("pair", &pair);
}

/// The same pose but for one step, or for nothing at all.
fn nudge(script: &mut Script, dice: &mut Dice, place: usize) {
    let desk = script.desk();
    let turn = desk.cell(Part::Places, turn_cell(place));
    let mut offset = desk.offset(place);
    let axis = dice.below(3);
    offset[axis] = (offset[axis] + dice.between(-1, 1)).clamp(-65_536, 65_536);
    let [x, y, z] = offset;
    script.tell("move", &[place as Number, turn, x, y, z]);
}

pub fn questions(script: &mut Script, dice: &mut Dice) {
    let all = ["contacts", "rows", "tallies", "marks", "report"];
    for question in all {
        if dice.once_in(2) {
            script.say(question);
        }
    }
}

/// Takes all places, in any order, with the shapes that are loaded.
fn fill(script: &mut Script, dice: &mut Dice, layout: &Layout) {
    let mut places: Vec<Number> = (0..PLACES as Number).collect();
    dice.shuffle(&mut places);
    let shapes = loaded(script);
    for place in places {
        let [x, y, z] = offset(dice, layout);
        let turn = dice.between(0, 23);
        script.tell("place", &[place, dice.pick(&shapes), turn, x, y, z]);
    }
}

/// All places taken by boxes, room for the whole listing or not, and then some moves.
fn full_desk(script: &mut Script, dice: &mut Dice) {
    script.start_afresh();
    let mut told = vec![0];
    told.extend(numbers(&block([0; 3], [4; 3])));
    script.tell("load", &told);
    let layout = Layout {
        gap: 0,
        reach: 4,
        unit: 2,
        spread: 3,
        most_places: PLACES,
        flat: false,
    };
    fill(script, dice, &layout);
    for question in ["contacts", "rows", "marks", "room 30", "contacts"] {
        script.say(question);
    }
    script.whole_room();
    for _ in 0..20 {
        let [x, y, z] = offset(dice, &layout);
        script.tell("move", &[dice.below(PLACES) as Number, 0, x, y, z]);
    }
    script.say("tallies");
    script.say("marks");
}

/// The largest desk there is: all shapes loaded with as many corners as they may have, all places taken, then a run on it. The pieces
/// lie so far apart that a hundred pairs or two have boxes that meet: of such hulls the judge tries a hundred thousand directions a pair.
pub fn full_hulls(script: &mut Script, dice: &mut Dice) {
    script.start_afresh();
    let layout = Layout {
        gap: dice.pick(&[0, 1, 20, 64]),
        reach: 1_000,
        unit: 100,
        spread: 80,
        most_places: PLACES,
        flat: false,
    };
    set_gap(script, layout.gap);
    for shape in 0..SHAPES as Number {
        let mut told = vec![shape];
        told.extend(numbers(&ball(dice, layout.reach, CORNERS)));
        script.tell("load", &told);
    }
    fill(script, dice, &layout);
    for _ in 0..60 {
        one_command(script, dice, &layout);
    }
    questions(script, dice);
}
