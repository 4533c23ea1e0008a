//! Floats of every class for scanned points and blanks, and steps to show: payloads, infinities,
//! subnormals, minus zero, the largest finite, whole steps and their nearest neighbours.

use super::dice::Dice;
use super::script::Script;
use crate::blanks::Blank;
use crate::floats::shown;
use crate::point::Number;

pub fn stretch(script: &mut Script, dice: &mut Dice) {
    for _ in 0..30 {
        match dice.below(3) {
            0 => scan(script, dice),
            1 => blank(script, dice),
            _ => show(script, dice),
        }
    }
}

const ONE_STEP: u32 = 0x3c80_0000;

/// The pattern of a whole number of steps within what can be shown.
fn whole(dice: &mut Dice, reach: Number) -> u32 {
    let steps = dice.between(-reach, reach);
    shown(steps).unwrap_or_default()
}

/// A pattern that is a whole number of steps, mostly of a good size.
pub fn good(dice: &mut Dice) -> u32 {
    match dice.below(6) {
        0 => dice.pick(&[0x4480_0000, 0xc480_0000, 0x0000_0000, 0x8000_0000]),
        1 => whole(dice, 65_536),
        2 => whole(dice, 64),
        3 => ONE_STEP,
        _ => whole(dice, 4_096) & 0x7fff_ffff,
    }
}

/// A pattern of any class.
pub fn any(dice: &mut Dice) -> u32 {
    let noise = dice.bits() as u32;
    match dice.below(12) {
        0 => 0x7f80_0000 | noise,
        1 => dice.pick(&[0x7f80_0000, 0xff80_0000, 0x7fc0_0000, 0xff80_0001]),
        2 => noise & 0x807f_ffff,
        3 => dice.pick(&[0x0000_0001, 0x8000_0001, 0x007f_ffff, 0x0080_0000]),
        4 => dice.pick(&[0x7f7f_ffff, 0xff7f_ffff, 0x4480_0001, 0x447f_ffff]),
        5 => whole(dice, 65_536) ^ 1,
        6 => whole(dice, 65_536).wrapping_add(dice.pick(&[1, 0xffff_ffff])),
        7 => whole(dice, 131_072),
        8 => noise % 0x0280_0000 + 0x4400_0000,
        9 => noise,
        10 => (noise & 0x807f_0000) | 0x4400_0000,
        _ => ONE_STEP | (noise & 0x8000_0000),
    }
}

/// Three patterns, most often all good but one.
fn three(dice: &mut Dice) -> [u32; 3] {
    let mut patterns = [0; 3].map(|_: u32| good(dice));
    match dice.below(4) {
        0 => {}
        1 => patterns = patterns.map(|_| any(dice)),
        _ => patterns[dice.below(3)] = any(dice),
    }
    patterns
}

fn hex(dice: &mut Dice, patterns: [u32; 3]) -> String {
    let words = patterns.map(|pattern| {
        if dice.once_in(8) {
            format!("{pattern:08X}")
        } else {
            format!("{pattern:08x}")
        }
    });
    words.join(" ")
}

pub fn scan(script: &mut Script, dice: &mut Dice) {
    let patterns = three(dice);
    let words = hex(dice, patterns);
    script.say(&format!("scan {words}"));
}

/// A blank, sometimes with room that is just enough or one cell short.
pub fn blank(script: &mut Script, dice: &mut Dice) {
    let blank = dice.pick(&Blank::ALL);
    let mut patterns = three(dice);
    if dice.once_in(2) {
        patterns = patterns.map(|pattern| pattern & 0x7fff_ffff);
    }
    let words = hex(dice, patterns);
    let short = dice.once_in(3);
    if short {
        let needed = blank.numbers() as Number;
        let room = dice.pick(&[0, needed - 1, needed, needed + 1]);
        script.tell("room", &[room]);
    }
    script.say(&format!("blank {} {words}", blank.word()));
    if short {
        script.whole_room();
    }
}

pub fn show(script: &mut Script, dice: &mut Dice) {
    let steps = match dice.below(5) {
        0 => dice.pick(&[131_072, -131_072, 131_073, -131_073, 0, 1, -1]),
        1 => dice.edge_number(),
        2 => 1 << dice.below(18),
        3 => dice.between(-200, 200),
        _ => dice.between(-140_000, 140_000),
    };
    script.tell("show", &[steps]);
}
