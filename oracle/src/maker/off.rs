//! OFF texts: good ones in every layout, numbers near the ends of the range and between two steps, faces and comments,
//! texts spoiled in a place or two; the fixed files, loaded; and shapes written, saved and read back.

use super::dice::Dice;
use super::scanner::hex;
use super::script::Script;
use crate::desk::{CORNERS, NUMBER_LIMIT};
use crate::off::decimal;
use crate::off_texts;
use crate::point::Number;

pub fn stretch(script: &mut Script, dice: &mut Dice) {
    script.start_afresh();
    for _ in 0..20 {
        match dice.below(8) {
            0 => load(script, dice),
            1 | 2 => there_and_back(script, dice),
            _ => whole(script, dice),
        }
    }
    script.start_afresh();
}

/// A number in steps: small, anywhere in the range, near its ends.
fn steps(dice: &mut Dice) -> Number {
    match dice.below(4) {
        0 => dice.between(-130, 130),
        1 => 64 * dice.between(-1_024, 1_024),
        2 => dice.pick(&[1, -1]) * (NUMBER_LIMIT - dice.between(0, 65)),
        _ => dice.between(-NUMBER_LIMIT, NUMBER_LIMIT),
    }
}

fn zeros(dice: &mut Dice) -> String {
    let most = dice.pick(&[2, 2, 6, 40]);
    "0".repeat(dice.below(most))
}

/// A number's text: mostly one of a shape, the shortest or with zeros to spare, and now and then no such number.
fn number(dice: &mut Dice, faulty: bool) -> String {
    let word = decimal(steps(dice));
    if faulty && dice.once_in(20) {
        let digits = dice.bits() % 1_000_000;
        return match dice.below(6) {
            0 => format!("{}.{digits:06}", dice.below(1_030)),
            1 => format!("{}.{digits:07}", dice.below(1_030)),
            2 => decimal(NUMBER_LIMIT + dice.between(0, 3)),
            3 => format!("{digits}{digits}{digits}"),
            4 => format!("{}{}", dice.pick(&["+", "--", ".", "e"]), word),
            _ => word + dice.pick(&[".", "e1", "-", ".5.5", ","]),
        };
    }
    let (sign, size) = match word.strip_prefix('-') {
        Some(size) => ("-", size),
        None if word == "0" && dice.once_in(2) => ("-", "0"),
        None => ("", &word[..]),
    };
    if !dice.once_in(4) {
        return format!("{sign}{size}");
    }
    let spare = match size.split_once('.') {
        Some((_, part)) => "0".repeat(dice.below(7 - part.len())),
        None => dice.pick(&["", ".0", ".000000"]).into(),
    };
    format!("{sign}{}{size}{spare}", zeros(dice))
}

/// The words of a text with faces that name its corners.
fn words(dice: &mut Dice) -> Vec<String> {
    let faulty = dice.once_in(2);
    let corners = match dice.below(5) {
        0 => CORNERS + dice.below(3) - 1,
        1 => dice.below(2),
        _ => 1 + dice.below(8),
    };
    let faces = dice.pick(&[0, 0, 1, 2, 6]);
    let mut words = vec![
        String::from("OFF"),
        format!("{}{corners}", zeros(dice)),
        format!("{}{faces}", zeros(dice)),
        format!("{}{}", dice.below(100), "9".repeat(dice.below(30))),
    ];
    words.extend((0..3 * corners).map(|_| number(dice, faulty)));
    for _ in 0..faces {
        let count = if corners == 0 { 0 } else { dice.below(6) };
        words.push(format!("{}{count}", zeros(dice)));
        for _ in 0..count {
            let index = dice.below(corners);
            let past = faulty && dice.once_in(30);
            words.push(if past { corners } else { index }.to_string());
        }
    }
    words
}

/// What stands between two words: white space, and comments that end at byte 10.
fn between(dice: &mut Dice) -> Vec<u8> {
    let mut bytes = Vec::new();
    for _ in 0..1 + dice.pick(&[0, 0, 0, 1, 3]) {
        match dice.below(12) {
            0 => bytes.extend(b"#\n"),
            1 => {
                bytes.push(b'#');
                bytes.extend((0..dice.below(9)).map(|_| dice.pick(b" ,#.x19\r\0\xff")));
                bytes.push(10);
            }
            _ => bytes.push(dice.pick(b"  \t\n\n\r")),
        }
    }
    bytes
}

/// The words one behind the other, plain or in many ways, with an end, a comment or nothing behind the last.
fn text(dice: &mut Dice) -> Vec<u8> {
    let plain = dice.once_in(3);
    let mut bytes = Vec::new();
    if !plain && dice.once_in(3) {
        bytes.extend(between(dice));
    }
    for (k, word) in words(dice).into_iter().enumerate() {
        if k > 0 {
            match plain {
                true => bytes.push(if k % 3 == 1 { 10 } else { 32 }),
                false => bytes.extend(between(dice)),
            }
        }
        bytes.extend(word.bytes());
    }
    bytes.extend(
        dice.pick(&["", "\n", "\r\n", " # end, of all", "#", "#\n"])
            .bytes(),
    );
    bytes
}

/// A byte or two changed, put in or left out; or the text cut short, or another behind it.
fn spoiled(dice: &mut Dice, mut text: Vec<u8>) -> Vec<u8> {
    for _ in 0..dice.pick(&[0, 0, 0, 1, 2]) {
        let at = dice.below(text.len() + 1);
        let byte = match dice.below(4) {
            0 => dice.bits() as u8,
            _ => dice.pick(b"0123456789.-# \n\t\r,+eO"),
        };
        match dice.below(6) {
            0 => text.truncate(at),
            1 => text.insert(at, byte),
            2 if at < text.len() => {
                text.remove(at);
            }
            3 => {
                let more = text.clone();
                text.extend(more.iter().take(at));
            }
            _ if at < text.len() => text[at] = byte,
            _ => text.push(byte),
        }
    }
    text
}

/// A whole text, now and then with room for a few cells more or less than it may take.
fn whole(script: &mut Script, dice: &mut Dice) {
    let good = text(dice);
    let bytes = spoiled(dice, good);
    let short = dice.once_in(4);
    if short {
        let triples = dice.below(CORNERS + 2) as Number;
        script.tell("room", &[(3 * triples - 1).max(0) + dice.between(0, 2)]);
    }
    script.say(&format!("off {}", hex(&bytes)));
    if short {
        script.whole_room();
    }
}

/// One of the fixed files, at a number that is often free, on a desk that is mostly in order.
fn load(script: &mut Script, dice: &mut Dice) {
    let name = match dice.below(9) {
        0 => String::from("missing"),
        _ => String::from(dice.pick(&off_texts::names())),
    };
    let shape = dice.pick(&[0, 1, 2, 3, 31, 32, -1]);
    let lent = dice.once_in(6);
    if lent {
        script.say("lend 767");
    }
    script.say(&format!("load-off {shape} {name}.off"));
    if lent {
        script.tell("write", &[shape]);
        script.say("lend 768");
    }
}

/// A shape loaded, written and saved, and the file loaded and written again; now and then with room of a few bytes.
fn there_and_back(script: &mut Script, dice: &mut Dice) {
    let count = match dice.below(4) {
        0 => 1 + dice.below(CORNERS),
        _ => 1 + dice.below(6),
    };
    let shape = dice.between(4, 30);
    let mut numbers = vec![shape];
    numbers.extend((0..3 * count).map(|_| steps(dice)));
    script.tell("load", &numbers);
    let short = dice.once_in(4);
    if short {
        script.tell("room", &[dice.between(12, 2_600)]);
    }
    let written = dice.pick(&[shape, shape, shape, 3, 32, 31]);
    script.tell("write", &[written]);
    if short {
        script.whole_room();
    }
    let name = dice.pick(&["made-1.off", "made-2.off"]);
    script.say(&format!("save-off {written} {name}"));
    let other = dice.between(4, 30);
    script.say(&format!("load-off {other} {name}"));
    script.tell("write", &[other]);
}
