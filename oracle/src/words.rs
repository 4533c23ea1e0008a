//! Reading a command line: one space between words, numbers that fit 32 bits, hex in either case.
//! A line that is no command reads as `None`, whatever its numbers would have been refused for.

use crate::blanks::Blank;
use crate::desk::Part;
use crate::lengths::digits;
use crate::point::Number;

pub const LONGEST_LINE: usize = 16_384;
pub const ROOM_CELLS: usize = 32_768;

#[derive(Debug, PartialEq, Eq)]
pub enum Command {
    Fresh,
    Load {
        shape: Number,
        numbers: Vec<Number>,
    },
    Place {
        place: Number,
        shape: Number,
        turn: Number,
        offset: [Number; 3],
    },
    Move {
        place: Number,
        turn: Number,
        offset: [Number; 3],
    },
    Remove {
        place: Number,
    },
    Pair {
        first: Number,
        second: Number,
    },
    Gap(Number),
    Lists {
        gap: Number,
        first: Vec<Number>,
        second: Vec<Number>,
    },
    Contacts,
    Rows,
    Tallies,
    Marks,
    Length(Vec<u8>),
    Scan([u32; 3]),
    Show(Number),
    Blank(Blank, [u32; 3]),
    Line {
        k: usize,
        translated: Vec<u8>,
        english: Vec<u8>,
    },
    Stl(Vec<u8>),
    Triangle {
        at: usize,
        file: Vec<u8>,
    },
    LoadStl {
        shape: Number,
        path: Vec<u8>,
    },
    Off(Vec<u8>),
    Write(Number),
    LoadOff {
        shape: Number,
        path: Vec<u8>,
    },
    SaveOff {
        shape: Number,
        path: Vec<u8>,
    },
    Report,
    Spoil {
        part: Part,
        cell: usize,
        value: Number,
    },
    Lend(usize),
    Room(usize),
}

/// A line as it was cut at byte 10, without the one byte 13 that may end it.
pub fn bare(line: &[u8]) -> &[u8] {
    line.strip_suffix(b"\r").unwrap_or(line)
}

/// A line of no bytes and a remark, however long it is, get no answer.
pub fn passed_over(line: &[u8]) -> bool {
    matches!(bare(line), [] | [b'#', ..])
}

/// The command that a line says, if it says one.
pub fn read(line: &[u8]) -> Option<Command> {
    if line.len() > LONGEST_LINE {
        return None;
    }
    if line == b"length" {
        return Some(Command::Length(Vec::new()));
    }
    if let Some(text) = line.strip_prefix(b"length ") {
        return Some(Command::Length(text.to_vec()));
    }
    if let Some(rest) = line.strip_prefix(b"load-stl ") {
        let (shape, path) = shape_and_path(rest)?;
        return Some(Command::LoadStl { shape, path });
    }
    if let Some(rest) = line.strip_prefix(b"load-off ") {
        let (shape, path) = shape_and_path(rest)?;
        return Some(Command::LoadOff { shape, path });
    }
    if let Some(rest) = line.strip_prefix(b"save-off ") {
        let (shape, path) = shape_and_path(rest)?;
        return Some(Command::SaveOff { shape, path });
    }
    let mut words = line.split(|&byte| byte == b' ');
    let name = words.next()?;
    let rest: Vec<&[u8]> = words.collect();
    match name {
        b"fresh" => alone(&rest, Command::Fresh),
        b"contacts" => alone(&rest, Command::Contacts),
        b"rows" => alone(&rest, Command::Rows),
        b"tallies" => alone(&rest, Command::Tallies),
        b"marks" => alone(&rest, Command::Marks),
        b"report" => alone(&rest, Command::Report),
        b"scan" => Some(Command::Scan(patterns(&rest)?)),
        b"blank" => blank(&rest),
        b"line" => menu_line(&rest),
        b"stl" => Some(Command::Stl(only_text(&rest)?)),
        b"off" => Some(Command::Off(only_text(&rest)?)),
        b"triangle" => triangle(&rest),
        b"spoil" => spoil(&rest),
        b"lists" => lists(&numbers(&rest)?),
        _ => numbered(name, &numbers(&rest)?),
    }
}

/// The commands whose words are all numbers.
fn numbered(name: &[u8], numbers: &[Number]) -> Option<Command> {
    Some(match (name, numbers) {
        (b"load", [shape, numbers @ ..]) => Command::Load {
            shape: *shape,
            numbers: numbers.to_vec(),
        },
        (b"place", &[place, shape, turn, x, y, z]) => Command::Place {
            place,
            shape,
            turn,
            offset: [x, y, z],
        },
        (b"move", &[place, turn, x, y, z]) => Command::Move {
            place,
            turn,
            offset: [x, y, z],
        },
        (b"remove", &[place]) => Command::Remove { place },
        (b"gap", &[gap]) => Command::Gap(gap),
        (b"pair", &[first, second]) => Command::Pair { first, second },
        (b"write", &[shape]) => Command::Write(shape),
        (b"show", &[steps]) => Command::Show(steps),
        (b"lend", &[cells]) => Command::Lend(up_to(Part::Marks.cells(), cells)?),
        (b"room", &[cells]) => Command::Room(up_to(ROOM_CELLS, cells)?),
        _ => return None,
    })
}

fn alone(rest: &[&[u8]], command: Command) -> Option<Command> {
    rest.is_empty().then_some(command)
}

fn up_to(most: usize, number: Number) -> Option<usize> {
    usize::try_from(number).ok().filter(|&n| n <= most)
}

/// An optional minus and 1 to 10 digits, within 32 bits signed.
fn number(word: &[u8]) -> Option<Number> {
    let value = match word.strip_prefix(b"-") {
        Some(size) => -digits(size, 1, 10)?,
        None => digits(word, 1, 10)?,
    };
    i32::try_from(value).ok().map(Number::from)
}

fn numbers(words: &[&[u8]]) -> Option<Vec<Number>> {
    words.iter().map(|word| number(word)).collect()
}

fn nibble(byte: u8) -> Option<u8> {
    char::from(byte)
        .to_digit(16)
        .and_then(|n| u8::try_from(n).ok())
}

fn pattern(word: &[u8]) -> Option<u32> {
    if word.len() != 8 {
        return None;
    }
    word.iter()
        .try_fold(0, |sum, &byte| Some(sum << 4 | u32::from(nibble(byte)?)))
}

fn patterns(words: &[&[u8]]) -> Option<[u32; 3]> {
    match words {
        [x, y, z] => Some([pattern(x)?, pattern(y)?, pattern(z)?]),
        _ => None,
    }
}

/// Bytes as pairs of hex digits; `-` for none.
fn text(word: &[u8]) -> Option<Vec<u8>> {
    if word == b"-" {
        return Some(Vec::new());
    }
    if word.is_empty() || word.len() % 2 == 1 {
        return None;
    }
    word.chunks_exact(2)
        .map(|two| Some(nibble(two[0])? << 4 | nibble(two[1])?))
        .collect()
}

fn blank(words: &[&[u8]]) -> Option<Command> {
    let (kind, sizes) = words.split_first()?;
    let blank = Blank::ALL
        .into_iter()
        .find(|b| b.word().as_bytes() == *kind)?;
    Some(Command::Blank(blank, patterns(sizes)?))
}

fn menu_line(words: &[&[u8]]) -> Option<Command> {
    let [k, translated, english] = words else {
        return None;
    };
    Some(Command::Line {
        k: usize::try_from(number(k)?).ok()?,
        translated: text(translated)?,
        english: text(english)?,
    })
}

fn only_text(words: &[&[u8]]) -> Option<Vec<u8>> {
    match words {
        [file] => text(file),
        _ => None,
    }
}

fn triangle(words: &[&[u8]]) -> Option<Command> {
    let [at, file] = words else {
        return None;
    };
    Some(Command::Triangle {
        at: usize::try_from(number(at)?).ok()?,
        file: text(file)?,
    })
}

/// A number, one space, and a path of all bytes after it.
fn shape_and_path(rest: &[u8]) -> Option<(Number, Vec<u8>)> {
    let space = rest.iter().position(|&byte| byte == b' ')?;
    Some((number(&rest[..space])?, rest[space + 1..].to_vec()))
}

fn spoil(words: &[&[u8]]) -> Option<Command> {
    let [name, cell, value] = words else {
        return None;
    };
    let part = Part::ALL
        .into_iter()
        .find(|p| p.word().as_bytes() == *name)?;
    let cell = up_to(part.cells() - 1, number(cell)?)?;
    let value = number(value)?;
    part.fits(value)
        .then_some(Command::Spoil { part, cell, value })
}

/// A gap and two lists, each after the count of its numbers; a count that is not kept is no command.
fn lists(numbers: &[Number]) -> Option<Command> {
    let (&gap, rest) = numbers.split_first()?;
    let (first, rest) = counted(rest)?;
    let (second, rest) = counted(rest)?;
    rest.is_empty()
        .then_some(Command::Lists { gap, first, second })
}

fn counted(numbers: &[Number]) -> Option<(Vec<Number>, &[Number])> {
    let (&count, rest) = numbers.split_first()?;
    let count = up_to(rest.len(), count)?;
    let (list, rest) = rest.split_at(count);
    Some((list.to_vec(), rest))
}

#[cfg(test)]
mod tests {
    use super::*;

    #[test]
    fn lines_that_are_no_command() {
        let lines: [&[u8]; 32] = [
            b"Fresh",
            b"fresh ",
            b" fresh",
            b"fresh\r",
            b"fresh 1",
            b"place 0 0 0 0 0",
            b"place 0 0 0 0  0 0",
            b"place\t0 0 0 0 0 0",
            b"move 0 0 0 0 2147483648",
            b"move 0 0 0 0 00000000001",
            b"remove +1",
            b"remove -",
            b"remove --1",
            b"remove 1.",
            b"remove",
            b"load",
            b"scan 0 0 0",
            b"scan 0000000g 00000000 00000000",
            b"line -1 - -",
            b"line 0 6 -",
            b"line 0  6b",
            b"gap",
            b"gap ",
            b"gap 1 1",
            b"gap 2mm",
            b"lists 0",
            b"lists 0 3 0 0 0 -1",
            b"lists 3 0 0 0 3 0 0 0",
            b"lists 0 3 0 0 3 0 0 0",
            b"spoil marks 784 0",
            b"spoil rows 0 256",
            b"lend 785",
        ];
        for line in lines {
            assert_eq!(read(line), None, "{}", String::from_utf8_lossy(line));
        }
        let mut long = b"length ".to_vec();
        long.resize(LONGEST_LINE, b'1');
        assert!(read(&long).is_some());
        long.push(b'1');
        assert_eq!(read(&long), None);
    }

    #[test]
    fn lines_with_a_byte_13() {
        assert_eq!(bare(b"fresh\r"), b"fresh");
        assert_eq!(bare(b"fresh\r\r"), b"fresh\r");
        assert_eq!(bare(b"\rfresh"), b"\rfresh");
        assert!(passed_over(b"\r") && passed_over(b"#\r") && !passed_over(b"\r\r"));
        let mut long = b"#".to_vec();
        long.resize(2 * LONGEST_LINE, b' ');
        assert!(passed_over(&long));
    }

    #[test]
    fn lines_that_are_commands() {
        assert_eq!(
            read(b"remove -2147483648"),
            Some(Command::Remove { place: -1 << 31 })
        );
        assert_eq!(
            read(b"remove 0000000007"),
            Some(Command::Remove { place: 7 })
        );
        assert_eq!(read(b"remove -0"), Some(Command::Remove { place: 0 }));
        assert_eq!(read(b"gap 4097"), Some(Command::Gap(4097)));
        assert_eq!(read(b"length  1"), Some(Command::Length(b" 1".to_vec())));
        assert_eq!(read(b"length "), Some(Command::Length(Vec::new())));
        assert_eq!(
            read(b"scan 3FC00000 3fc00000 FFFFffff"),
            Some(Command::Scan([0x3fc0_0000, 0x3fc0_0000, 0xffff_ffff]))
        );
        assert_eq!(
            read(b"lists -7 0 1 5"),
            Some(Command::Lists {
                gap: -7,
                first: vec![],
                second: vec![5]
            })
        );
        assert_eq!(
            read(b"line 2 4B0a -"),
            Some(Command::Line {
                k: 2,
                translated: vec![0x4b, 10],
                english: vec![]
            })
        );
    }
}
