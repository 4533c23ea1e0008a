//! Typed lengths, menu lines and lines that are no command: forms and near misses, binary bytes,
//! numbers of forty digits, lists of thousands, lines of the greatest length and beyond it.

use super::dice::Dice;
use super::script::Script;
use crate::point::Number;
use crate::words::LONGEST_LINE;

pub fn lengths(script: &mut Script, dice: &mut Dice) {
    for _ in 0..30 {
        one_length(script, dice);
    }
}

fn digits(dice: &mut Dice, count: usize) -> String {
    (0..count)
        .map(|_| dice.pick(&['0', '1', '2', '4', '5', '9', '0']))
        .collect()
}

/// A text that has the form, is near the limit, or misses by a little or by much.
pub fn one_length(script: &mut Script, dice: &mut Dice) {
    let separator = dice.pick(&[",", "."]);
    let count = 1 + dice.below(4);
    let parts = 1 + dice.below(2);
    let text = match dice.below(10) {
        0 => digits(dice, count),
        1..=3 => digits(dice, count) + separator + &digits(dice, parts),
        4 => format!("102{}{separator}{}", dice.below(8), digits(dice, parts)),
        5 => {
            let (count, parts) = (dice.below(6), dice.below(4));
            digits(dice, count) + separator + &digits(dice, parts)
        }
        6 => format!("1024{separator}{:02}", dice.below(3)),
        7 => {
            let length = dice.below(7);
            let bytes = b"0129,.- +eE'";
            let text = (0..length).map(|_| char::from(dice.pick(bytes)));
            text.collect()
        }
        8 => {
            let bad = [
                "1 024", "-1", "+1", "1,5 ", " 1", "1e3", "1,5mm", "0x10", "1,-5",
            ];
            String::from(dice.pick(&bad))
        }
        _ => {
            binary_length(script, dice);
            return;
        }
    };
    script.say(&format!("length {text}"));
}

fn binary_length(script: &mut Script, dice: &mut Dice) {
    let mut line = b"length ".to_vec();
    let count = dice.below(6);
    line.extend(binary(dice, count));
    script.say_bytes(&line);
}

/// Bytes of every value but 10.
fn binary(dice: &mut Dice, count: usize) -> Vec<u8> {
    let byte = |dice: &mut Dice| match dice.bits() as u8 {
        10 => b'0',
        byte => byte,
    };
    (0..count).map(|_| byte(dice)).collect()
}

pub fn menus(script: &mut Script, dice: &mut Dice) {
    for _ in 0..20 {
        let (translated, english) = (menu_text(dice), menu_text(dice));
        let k = match dice.below(8) {
            0 => dice.pick(&[Number::from(i32::MAX), 1_000, 255]),
            _ => dice.between(0, 5),
        };
        script.say(&format!("line {k} {translated} {english}"));
    }
}

/// Up to six short lines, often empty, as hex digits.
fn menu_text(dice: &mut Dice) -> String {
    let mut bytes = Vec::new();
    for _ in 0..dice.below(10) {
        match dice.below(3) {
            0 => bytes.push(dice.bits() as u8),
            1 => bytes.push(dice.pick(b"abc ,")),
            _ => bytes.push(10),
        }
    }
    if bytes.is_empty() {
        return String::from("-");
    }
    let upper = dice.once_in(6);
    let pair = |byte: &u8| {
        if upper {
            format!("{byte:02X}")
        } else {
            format!("{byte:02x}")
        }
    };
    bytes.iter().map(pair).collect()
}

const BAD_LINES: [&str; 48] = [
    "?",
    "frsh",
    "FRESH",
    "fresh ",
    " fresh",
    "fresh fresh",
    "fresh\r",
    "fresh\0",
    "load",
    "load ",
    "load 0 1 2 x",
    "load 0  1 2 3",
    "place",
    "place 0 0 0 0 0",
    "place 0 0 0 0 0 0 0",
    "place 0 0 0 0 0 0 ",
    "place 0,0 0 0 0 0 0",
    "move 0 0 0 0",
    "move 0 0 0 0 0 0",
    "remove",
    "remove 1 2",
    "remove 2147483648",
    "remove -2147483649",
    "remove 99999999999",
    "remove 00000000000",
    "remove 1.0",
    "remove 0x1",
    "remove +1",
    "remove -",
    "pair 0",
    "pair 0 1 2",
    "gap",
    "gap 0 0",
    "gap 2147483648",
    "lists",
    "lists 0",
    "lists 0 0",
    "lists 0 3 0 0 0 3 0 0",
    "lists 0 3 0 0 0 3 0 0 0 0",
    "lists 0 -3 0 0 0 3 0 0 0",
    "lists 0 2147483647 0",
    "scan 00000000 00000000",
    "scan 0 0 0",
    "scan 0000000g 00000000 00000000",
    "blank 00000000 00000000 00000000",
    "blank ball 3f800000 3f800000 3f800000",
    "line -1 - -",
    "show",
];

/// Lines that look odd and are commands all the same.
const ODD_LINES: [&str; 14] = [
    "length",
    "length ",
    "length  ",
    "remove -0",
    "remove 0000000000",
    "pair -0 00",
    "show -0",
    "show 0000131072",
    "gap -0",
    "gap 0000004097",
    "lists 0 0 0",
    "lists -2147483648 0 3 0 0 0",
    "line 0 - -",
    "scan 3FC00000 BFC00000 3fC0fFff",
];

pub fn lines(script: &mut Script, dice: &mut Dice) {
    for _ in 0..20 {
        match dice.below(12) {
            0..=4 => script.say(dice.pick(&BAD_LINES)),
            5 | 6 => script.say(dice.pick(&ODD_LINES)),
            7 => {
                let count = 1 + dice.below(30);
                script.say_bytes(&binary(dice, count));
            }
            8 => cut_up(script, dice),
            9 => {
                let many = dice.pick(&[10, 11, 20, 40]);
                script.say(&format!("remove {}", digits(dice, many)));
            }
            10 => script.say_bytes(dice.pick(&[b"".as_slice(), b"#", b"# fresh", b"#fresh \xff"])),
            _ => script.say("tallies"),
        }
    }
    if dice.once_in(8) {
        long_lines(script, dice);
    }
}

/// A good line with one byte dropped, doubled or changed.
fn cut_up(script: &mut Script, dice: &mut Dice) {
    let good = [
        "load 3 0 0 0 1 0 0",
        "place 2 3 0 0 0 0",
        "move 2 1 0 0 1",
        "pair 2 0",
        "contacts",
        "lists 1 3 0 0 0 3 1 1 1",
        "gap 64",
        "line 1 610a62 630a64",
        "blank box 3f800000 3f800000 3f800000",
        "spoil book 9 0",
    ];
    let mut line = dice.pick(&good).as_bytes().to_vec();
    let k = dice.below(line.len());
    match dice.below(3) {
        0 => {
            line.remove(k);
        }
        1 => line.insert(k, line[k]),
        _ => line[k] = binary(dice, 1)[0],
    }
    script.say_bytes(&line);
}

/// Lines one byte under the greatest length, at it, and one past it, some with thousands of numbers.
pub fn long_lines(script: &mut Script, dice: &mut Dice) {
    let (start, spaced) =
        dice.pick(&[("length ", false), ("line 10 - ", false), ("load 1 ", true)]);
    for length in LONGEST_LINE - 1..=LONGEST_LINE + 1 {
        let mut line = start.as_bytes().to_vec();
        while line.len() < length {
            let gap = spaced && line[line.len() - 1] != b' ' && line.len() + 1 < length;
            line.push(if gap { b' ' } else { b'1' });
        }
        script.say_bytes(&line);
    }
    script.say("tallies");
}

/// A line of a megabyte: one answer, and the next line is read as ever.
pub fn megabyte(script: &mut Script) {
    let mut line = b"load 1".to_vec();
    while line.len() < 1 << 20 {
        line.extend(b" 1");
    }
    script.say_bytes(&line);
    script.say("tallies");
}
