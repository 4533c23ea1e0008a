//! Desks spoiled one cell at a time, in cells that mean something and in cells that mean nothing;
//! desks put in order by hand with rows that lie; marks lent too short or too long.

use super::desks;
use super::dice::Dice;
use super::refusals::{begin, desk_command};
use super::script::Script;
use crate::desk::{count_cell, held_cell, number_cell, offset_cell, turn_cell, Desk, Part};
use crate::desk::{AXIS_MARKS, CORNERS, GAP_CELL, GAP_LIMIT, MARKS, MARK_CELLS};
use crate::desk::{NO_ROW, PLACES, SHAPES};
use crate::point::Number;

/// What brings a spoiled desk back.
pub enum Undo {
    Cell(Part, usize, Number),
    Lend(usize),
}

impl Undo {
    pub fn say(self, script: &mut Script) {
        match self {
            Undo::Cell(part, cell, value) => script.spoil(part, cell, value),
            Undo::Lend(cells) => script.tell("lend", &[cells as Number]),
        }
    }

    fn spoil(script: &mut Script, part: Part, cell: usize, value: Number) -> Undo {
        let old = script.desk().cell(part, cell);
        script.spoil(part, cell, value);
        Undo::Cell(part, cell, old)
    }

    fn lend(script: &mut Script, dice: &mut Dice) -> Undo {
        let old = script.desk().lent;
        let cells = dice.pick(&[
            0,
            1,
            AXIS_MARKS - 1,
            AXIS_MARKS,
            MARKS / 2,
            2 * AXIS_MARKS,
            MARKS - 1,
            MARKS + 1,
            MARK_CELLS - 1,
            MARK_CELLS,
        ]);
        script.tell("lend", &[cells as Number]);
        Undo::Lend(old)
    }

    /// Something that is not in order, whatever the desk holds.
    pub fn disorder(script: &mut Script, dice: &mut Dice) -> Undo {
        match dice.below(6) {
            0 => Undo::lend(script, dice),
            1 => {
                let cell = dice.below(4);
                let tally = script.desk().cell(Part::Book, cell);
                Undo::spoil(script, Part::Book, cell, tally + 1)
            }
            2 => Undo::spoil(script, Part::Marks, AXIS_MARKS - 1, 0),
            3 => Undo::spoil(script, Part::Rows, (PLACES + 1) * dice.below(PLACES), 2),
            4 => Undo::spoil(script, Part::Book, GAP_CELL, GAP_LIMIT + 1),
            _ => {
                let cell = count_cell(dice.below(SHAPES));
                Undo::spoil(script, Part::Shapes, cell, CORNERS as Number + 1)
            }
        }
    }
}

pub fn some_taken(script: &Script, dice: &mut Dice) -> usize {
    let taken = script.desk().taken_places();
    taken.get(dice.below(taken.len())).copied().unwrap_or(0)
}

pub fn some_shape(script: &Script, dice: &mut Dice) -> usize {
    let loaded: Vec<usize> = (0..SHAPES)
        .filter(|&shape| script.desk().loaded(shape))
        .collect();
    loaded.get(dice.below(loaded.len())).copied().unwrap_or(0)
}

pub fn stretch(script: &mut Script, dice: &mut Dice) {
    begin(script, dice);
    for _ in 0..20 {
        match dice.below(40) {
            0..=3 => lying_row(script, dice),
            4..=6 => stray_row(script, dice),
            7 => placed_by_hand(script, dice),
            8 => no_such_cell(script, dice),
            9 => cleared(script, dice),
            _ => one_cell(script, dice),
        }
    }
}

/// Spoils one cell, tries some commands, and mostly puts the cell right again.
fn one_cell(script: &mut Script, dice: &mut Dice) {
    let undo = match dice.below(24) {
        0 | 1 => count(script, dice),
        2..=4 => corner(script, dice),
        5..=8 => held_or_turn(script, dice),
        9..=11 => offset(script, dice),
        12..=15 => rows(script, dice),
        16..=18 => book(script, dice),
        19..=21 => marks(script, dice),
        _ => Undo::lend(script, dice),
    };
    tried(script, dice);
    if script.desk().in_order() && dice.once_in(2) {
        return;
    }
    undo.say(script);
    if !script.desk().in_order() {
        begin(script, dice);
    }
}

/// Asks and commands a desk that may be out of order; a fresh start only where that is refused.
fn tried(script: &mut Script, dice: &mut Dice) {
    let questions = ["contacts", "tallies", "contacts", "rows", "marks", "report"];
    script.say(dice.pick(&questions));
    for _ in 0..1 + dice.below(2) {
        desk_command(script, dice);
    }
    if script.desk().lent != MARKS && dice.once_in(2) {
        script.say("fresh");
    }
}

/// A fresh start mends whatever is spoiled but the length of the marks.
fn cleared(script: &mut Script, dice: &mut Dice) {
    Undo::disorder(script, dice);
    rows(script, dice);
    book(script, dice);
    marks(script, dice);
    script.say("contacts");
    script.say("fresh");
    script.say("marks");
    script.say("rows");
    begin(script, dice);
}

/// A count; corners that come to mean something by it are written first.
fn count(script: &mut Script, dice: &mut Dice) -> Undo {
    let shape = if dice.once_in(2) {
        some_shape(script, dice)
    } else {
        dice.below(SHAPES)
    };
    let old = script.desk().count(shape);
    let end = dice.pick(&[i32::MIN, i32::MAX]);
    let new = dice.pick(&[
        0,
        1,
        (old - 1).max(0),
        old + 1,
        CORNERS as Number,
        CORNERS as Number + 1,
        255,
        -old,
        -1,
        end.into(),
    ]);
    if new <= CORNERS as Number {
        for k in 3 * old..3 * new {
            let value = dice.between(-1, 2);
            script.spoil(Part::Shapes, number_cell(shape, k as usize), value);
        }
    }
    Undo::spoil(script, Part::Shapes, count_cell(shape), new)
}

/// A corner number of a loaded shape, or one past its count.
fn corner(script: &mut Script, dice: &mut Dice) -> Undo {
    let shape = some_shape(script, dice);
    let count = script.desk().count(shape) as usize;
    let within = match dice.below(3) {
        0 => dice.below(3 * CORNERS),
        _ => dice.below(3 * count),
    };
    let ends = [i32::MAX, i32::MIN].map(Number::from);
    let value = dice.pick(&[65_536, 65_537, -65_537, 0, 1, 2, -1, ends[0], ends[1]]);
    Undo::spoil(script, Part::Shapes, number_cell(shape, within), value)
}

fn some_place(script: &Script, dice: &mut Dice) -> usize {
    if dice.once_in(3) {
        dice.below(PLACES)
    } else {
        some_taken(script, dice)
    }
}

/// The turn of a place, or its shape plus one; a minus does not go unseen.
fn held_or_turn(script: &mut Script, dice: &mut Dice) -> Undo {
    let place = some_place(script, dice);
    let end = Number::from(dice.pick(&[i32::MIN, i32::MAX]));
    let cell = if dice.once_in(2) {
        turn_cell(place)
    } else {
        held_cell(place)
    };
    let old = script.desk().cell(Part::Places, cell);
    let value = if cell == turn_cell(place) {
        dice.pick(&[24, 24, 25, 255, 0, 1, 23, -1, -old, end])
    } else {
        dice.pick(&[0, 1, 2, 8, 32, 33, 255, -1, -old, end])
    };
    Undo::spoil(script, Part::Places, cell, value)
}

fn offset(script: &mut Script, dice: &mut Dice) -> Undo {
    let cell = offset_cell(some_place(script, dice), dice.below(3));
    let value = dice.pick(&[0, 1, 2, 65_536, 65_537, -65_537]);
    let end = dice.pick(&[i32::MIN, i32::MAX]);
    let chosen = if dice.once_in(6) { end.into() } else { value };
    Undo::spoil(script, Part::Places, cell, chosen)
}

/// A row of two pieces, of a piece with itself, of the wrong order, or of an empty place.
fn rows(script: &mut Script, dice: &mut Dice) -> Undo {
    let (p, q) = (some_place(script, dice), some_place(script, dice));
    let cell = if dice.once_in(4) {
        p.max(q) * PLACES + p.min(q)
    } else {
        p.min(q) * PLACES + p.max(q)
    };
    let value = dice.pick(&[0, 1, 2, 3, 4, 254, 255]);
    Undo::spoil(script, Part::Rows, cell, value)
}

/// A cell of the book. A gap in range leaves the desk in order, its rows as they were.
fn book(script: &mut Script, dice: &mut Dice) -> Undo {
    if dice.once_in(3) {
        let old = script.desk().gap();
        let value = dice.pick(&[0, 1, 2, old + 1, 64, GAP_LIMIT, GAP_LIMIT + 1, 1 << 16]);
        return Undo::spoil(script, Part::Book, GAP_CELL, value);
    }
    let cell = dice.below(16);
    let old = script.desk().cell(Part::Book, cell);
    let value = dice.pick(&[0, old + 1, (old - 1).max(0), Number::from(i32::MAX)]);
    Undo::spoil(script, Part::Book, cell, value)
}

/// A mark among those in use, in the tail, or past the axes.
fn marks(script: &mut Script, dice: &mut Dice) -> Undo {
    let used = 2 * script.desk().taken_places().len();
    let axis = dice.below(3);
    let cell = match dice.below(8) {
        0 => axis * AXIS_MARKS + dice.below(AXIS_MARKS),
        1 => (axis * AXIS_MARKS + used).min(MARKS - 1),
        2 => MARKS + dice.below(MARK_CELLS - MARKS),
        3 => MARKS - 1,
        _ => axis * AXIS_MARKS + dice.below(used),
    };
    let neighbour = script.desk().cell(Part::Marks, (cell + 1) % MARKS);
    let value = dice.pick(&[0, 1, neighbour, 65_535, 65_534, AXIS_MARKS as Number]);
    Undo::spoil(script, Part::Marks, cell, value)
}

/// A row that lies while the tallies go with it: the desk is in order, and stays so till a move.
fn lying_row(script: &mut Script, dice: &mut Dice) {
    let rows = script.desk().rows().unwrap_or_default();
    if rows.is_empty() {
        return;
    }
    let (low, high, old) = dice.pick(&rows);
    let new = (old + 1 + dice.below(3) as Number) % 4;
    let tally = |verdict: Number| script.desk().cell(Part::Book, verdict as usize);
    let (less, more) = (tally(old) - 1, tally(new) + 1);
    script.spoil(Part::Rows, low * PLACES + high, new);
    script.say("tallies");
    script.spoil(Part::Book, old as usize, less);
    script.spoil(Part::Book, new as usize, more);
    script.say("contacts");
    script.tell("pair", &[low as Number, high as Number]);
    desks::questions(script, dice);
    for _ in 0..3 {
        desk_command(script, dice);
    }
    if dice.once_in(2) {
        let turn = dice.between(0, 23);
        script.tell("move", &[high as Number, turn, 0, 0, 1]);
    }
    script.say("rows");
}

/// A pair without a verdict, or a verdict where there is no pair, with tallies that go along.
fn stray_row(script: &mut Script, dice: &mut Dice) {
    let rows = script.desk().rows().unwrap_or_default();
    if rows.is_empty() {
        return;
    }
    let (low, high, old) = dice.pick(&rows);
    let (cell, tally, change) = if dice.once_in(2) {
        let (p, q) = (some_taken(script, dice), dice.below(PLACES));
        let cell = p.max(q) * PLACES + p.min(q);
        let verdict = dice.pick(&[0, 1, 2, 3]);
        script.spoil(Part::Rows, cell, verdict);
        (cell, verdict, 1)
    } else {
        let cell = low * PLACES + high;
        script.spoil(Part::Rows, cell, dice.pick(&[4, 5, 254, 255]));
        (cell, old, -1)
    };
    let counted = script.desk().cell(Part::Book, tally as usize);
    script.spoil(Part::Book, tally as usize, counted + change);
    tried(script, dice);
    script.spoil(Part::Book, tally as usize, counted);
    script.spoil(Part::Rows, cell, if change < 0 { old } else { NO_ROW });
    script.say("tallies");
}

/// A piece placed cell by cell: in order only once the last cell is written.
fn placed_by_hand(script: &mut Script, dice: &mut Dice) {
    let before = script.desk().clone();
    let mut after = before.clone();
    let place = dice.below(PLACES);
    let shape = some_shape(script, dice) as Number;
    let offset = [0; 3].map(|_: Number| dice.between(-2, 2));
    let turn = dice.between(0, 23);
    if after.place(place as Number, shape, turn, offset).is_err() {
        return;
    }
    // Turn and offset mean nothing yet; what they held before is not to be leant on.
    let mut cells = changed_cells(&before, &after);
    cells.push((Part::Places, held_cell(place)));
    dice.shuffle(&mut cells);
    cells.splice(0..0, turn_and_offset(place));
    for (part, cell) in cells {
        script.spoil(part, cell, after.cell(part, cell));
        if dice.once_in(12) {
            command_that_keeps(script, dice);
        }
    }
    script.say("contacts");
    script.tell("remove", &[place as Number]);
    script.say("tallies");
}

/// Turn and offset, which are written even where they seem to hold the value already.
fn turn_and_offset(place: usize) -> Vec<(Part, usize)> {
    let mut cells = vec![(Part::Places, turn_cell(place))];
    cells.extend((0..3).map(|axis| (Part::Places, offset_cell(place, axis))));
    cells
}

fn changed_cells(before: &Desk, after: &Desk) -> Vec<(Part, usize)> {
    let mut cells = Vec::new();
    for part in [Part::Rows, Part::Book, Part::Marks] {
        let differs = |&cell: &usize| before.cell(part, cell) != after.cell(part, cell);
        cells.extend((0..part.cells()).filter(differs).map(|cell| (part, cell)));
    }
    cells
}

fn command_that_keeps(script: &mut Script, dice: &mut Dice) {
    let questions = [
        "contacts",
        "tallies",
        "pair 0 127",
        "load 32 0",
        "remove 128",
    ];
    script.say(dice.pick(&questions));
}

/// Cells that are not there and values that do not fit: no command.
fn no_such_cell(script: &mut Script, dice: &mut Dice) {
    for part in Part::ALL {
        let cells = part.cells() as Number;
        let cell = dice.pick(&[-1, cells, cells + 1, Number::from(i32::MAX)]);
        script.say(&format!("spoil {} {cell} 0", part.word()));
        let value: Number = match part {
            Part::Shapes | Part::Places => dice.pick(&[1 << 31, -1 - (1 << 31)]),
            Part::Marks => dice.pick(&[-1, 65_536]),
            Part::Book => dice.pick(&[-1, 1 << 31]),
            _ => dice.pick(&[-1, 256]),
        };
        script.say(&format!("spoil {} 0 {value}", part.word()));
    }
    script.tell("lend", &[MARK_CELLS as Number + 1]);
    script.say("lend -1");
    script.say("room -1");
    script.say("spoil tallies 0 0");
    script.say("tallies");
}
