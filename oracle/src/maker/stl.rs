//! Files of scanned triangles: few and many corners, repeated ones, counts and lengths that lie, floats of every
//! class; single steps at the triangles and beside them; and the fixed files, loaded on desks that stand well or not.

use super::dice::Dice;
use super::floats;
use super::scanner::{counting, hex};
use super::script::Script;
use crate::desk::CORNERS;
use crate::files;
use crate::point::Number;
use crate::stl::{FIRST, TRIANGLE};

pub fn stretch(script: &mut Script, dice: &mut Dice) {
    script.start_afresh();
    for _ in 0..20 {
        match dice.below(6) {
            0 | 1 => step(script, dice),
            2 => load(script, dice),
            _ => whole(script, dice),
        }
    }
    script.start_afresh();
}

/// Corners drawn from a pool, which decides how many of them are distinct.
fn corners(dice: &mut Dice) -> Vec<[u32; 3]> {
    let size = match dice.below(4) {
        0 => CORNERS + dice.below(3) - 1,
        _ => 1 + dice.below(6),
    };
    let pool: Vec<[u32; 3]> = (0..size)
        .map(|_| [0; 3].map(|_: u32| floats::good(dice)))
        .collect();
    // As many as the pool has come in its own order, so that most files reach the last of it.
    let more = dice.below(8);
    let mut corners: Vec<[u32; 3]> = pool.clone();
    corners.extend((0..more).map(|_| dice.pick(&pool)));
    for _ in 0..dice.pick(&[0, 0, 0, 1, 2]) {
        let k = dice.below(corners.len());
        corners[k][dice.below(3)] = floats::any(dice);
    }
    corners
}

/// A file that is good in length and count, or not.
fn file(dice: &mut Dice) -> Vec<u8> {
    let corners = corners(dice);
    let right = corners.len().div_ceil(3) as u32;
    let count = match dice.below(12) {
        0 => right.wrapping_add(dice.pick(&[1, u32::MAX, 256, 0x8000_0000])),
        1 => dice.pick(&[0, right | 0x0001_0000, right.swap_bytes()]),
        _ => right,
    };
    let mut file = counting(count, &corners);
    for byte in unread(&file) {
        file[byte] = dice.bits() as u8;
    }
    match dice.below(12) {
        0 => file.truncate(dice.below(file.len() + 1)),
        1 => file.extend([0; TRIANGLE].iter().take(1 + dice.below(TRIANGLE))),
        2 => file.truncate(dice.pick(&[0, 80, FIRST - 1, FIRST])),
        3 => {
            file.truncate(FIRST);
            file[FIRST - 4..].fill(0);
        }
        _ => {}
    }
    file
}

/// The positions of the header, the normals and the attributes.
fn unread(file: &[u8]) -> Vec<usize> {
    let apart = |at: usize| {
        at < FIRST - 4 || (at >= FIRST && !(12..48).contains(&((at - FIRST) % TRIANGLE)))
    };
    (0..file.len()).filter(|&at| apart(at)).collect()
}

fn digits(dice: &mut Dice, file: &[u8]) -> String {
    if dice.once_in(8) {
        hex(file).to_uppercase()
    } else {
        hex(file)
    }
}

/// A whole file, now and then with room for a few cells more or less than it may take.
fn whole(script: &mut Script, dice: &mut Dice) {
    let file = file(dice);
    let words = digits(dice, &file);
    let short = dice.once_in(4);
    if short {
        let triples = dice.below(CORNERS + 2) as Number;
        script.tell("room", &[(3 * triples - 1).max(0) + dice.between(0, 2)]);
    }
    script.say(&format!("stl {words}"));
    if short {
        script.say("room 8192");
    }
}

fn step(script: &mut Script, dice: &mut Dice) {
    let file = file(dice);
    let at = match dice.below(5) {
        0 => dice.below(file.len() + 60),
        1 => dice.pick(&[0, FIRST - 1, FIRST + 1, file.len(), i32::MAX as usize]),
        _ => FIRST + TRIANGLE * dice.below(1 + file.len() / TRIANGLE),
    };
    let words = digits(dice, &file);
    script.say(&format!("triangle {at} {words}"));
}

/// One of the fixed files, at a number that is often free, on a desk that is mostly in order.
fn load(script: &mut Script, dice: &mut Dice) {
    let name = match dice.below(9) {
        0 => String::from("missing"),
        _ => String::from(dice.pick(&files::names())),
    };
    let shape = dice.pick(&[0, 1, 2, 3, 31, 32, -1]);
    let lent = dice.once_in(6);
    if lent {
        script.say("lend 383");
    }
    script.say(&format!("load-stl {shape} {name}.stl"));
    if lent {
        script.say("lend 384");
    }
}
