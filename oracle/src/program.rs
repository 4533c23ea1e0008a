//! What the desk program must answer to each line, as far as the documents pin the answer down.
//! Witnesses and the report's wording may vary: there the lists, or the contacts, are handed on.

use crate::balance::balance;
use crate::desk::{lists_refusal, Desk, Row};
use crate::floats::{shown, three_steps};
use crate::folder::Folder;
use crate::lengths;
use crate::menus;
use crate::off;
use crate::point::{points, Number, Point};
use crate::refusals::{lowest, SHORT_ROOM};
use crate::stl;
use crate::verdict::{decide, Verdict};
use crate::words::{bare, read, Command, ROOM_CELLS};
use std::fmt::Write;

/// Two lists of placed corners whose verdict is asked for, and the gap by which the first is widened.
#[derive(Debug, PartialEq, Eq)]
pub struct Question {
    pub gap: Number,
    pub first: Vec<Point>,
    pub second: Vec<Point>,
}

/// What must be answered.
#[derive(Debug, PartialEq, Eq)]
pub enum Expected {
    /// This line and no other.
    Line(String),
    /// The verdict of these lists, with witnesses.
    Verdict(Question),
    /// Several lines for people, the last of them `end`.
    Report(Vec<Row>),
}

/// The desk program as the judge keeps it: the desk, the room that is lent, and the files.
pub struct Program {
    pub desk: Desk,
    pub room: usize,
    folder: Folder,
}

impl Default for Program {
    fn default() -> Program {
        Program {
            desk: Desk::default(),
            room: ROOM_CELLS,
            folder: Folder::default(),
        }
    }
}

type Answer = Result<Expected, Number>;

/// `load-stl`, `load-off` and `save-off` have room of their own: as much as any shape takes.
const OWN_ROOM: usize = usize::MAX;

/// What is answered to a line that says no command, or names a file that cannot be had.
fn no_command() -> Expected {
    Expected::Line(String::from("?"))
}

/// `0` and the numbers, with one space between.
fn done(numbers: &[Number]) -> Answer {
    let mut line = String::from("0");
    for number in numbers {
        // Writing to a string cannot fail.
        let _ = write!(line, " {number}");
    }
    Ok(Expected::Line(line))
}

/// `0`, how many, and the numbers.
fn counted(count: usize, numbers: &[Number]) -> Answer {
    let mut all = vec![count as Number];
    all.extend(numbers);
    done(&all)
}

fn listed(rows: &[Row]) -> Answer {
    let three = |&(low, high, verdict): &Row| [low as Number, high as Number, verdict];
    let numbers: Vec<Number> = rows.iter().flat_map(three).collect();
    counted(rows.len(), &numbers)
}

fn hex(bytes: &[u8]) -> String {
    if bytes.is_empty() {
        return String::from("-");
    }
    bytes.iter().map(|byte| format!("{byte:02x}")).collect()
}

impl Program {
    /// Takes in a line that is not passed over, and says what must be answered.
    pub fn told(&mut self, line: &[u8]) -> Expected {
        let Some(command) = read(bare(line)) else {
            return no_command();
        };
        match self.run(command) {
            Ok(expected) => expected,
            Err(refusal) => Expected::Line(refusal.to_string()),
        }
    }

    fn run(&mut self, command: Command) -> Answer {
        let desk = &mut self.desk;
        match command {
            Command::Fresh => accepted(desk.start_afresh()),
            Command::Load { shape, numbers } => accepted(desk.load(shape, &numbers)),
            Command::Place {
                place,
                shape,
                turn,
                offset,
            } => accepted(desk.place(place, shape, turn, offset)),
            Command::Move {
                place,
                turn,
                offset,
            } => done(&[desk.shift(place, turn, offset)?]),
            Command::Remove { place } => accepted(desk.remove(place)),
            Command::Gap(gap) => accepted(desk.set_gap(gap)),
            Command::Pair { first, second } => {
                let (first, second) = desk.pair(first, second)?;
                let gap = desk.gap();
                Ok(Expected::Verdict(Question { gap, first, second }))
            }
            Command::Lists { gap, first, second } => lists(gap, &first, &second),
            Command::Contacts => listed(&desk.contacts(self.room)?),
            Command::Rows => listed(&desk.rows()?),
            Command::Tallies => done(&desk.tallies()?),
            Command::Marks => done(&desk.marks()?),
            Command::Report => Ok(Expected::Report(desk.contacts(ROOM_CELLS)?)),
            Command::Length(text) => done(&[lengths::steps(&text)?]),
            Command::Scan(patterns) => done(&three_steps(patterns)?),
            Command::Show(steps) => Ok(Expected::Line(format!("0 {:08x}", shown(steps)?))),
            Command::Blank(blank, sizes) => {
                counted(blank.numbers(), &blank.written(sizes, self.room)?)
            }
            Command::Line {
                k,
                translated,
                english,
            } => menu_line(k, &translated, &english),
            Command::Stl(file) => {
                let numbers = stl::corners(&file, self.room)?;
                counted(numbers.len(), &numbers)
            }
            Command::Triangle { at, file } => match stl::step(&file, at)? {
                Some(numbers) => done(&numbers),
                None => Ok(Expected::Line(String::from("0 none"))),
            },
            Command::LoadStl { shape, path } => match self.folder.read(&path) {
                Some(file) => accepted(desk.load(shape, &stl::corners(&file, OWN_ROOM)?)),
                None => Ok(no_command()),
            },
            Command::Off(text) => {
                let numbers = off::corners(&text, self.room)?;
                counted(numbers.len(), &numbers)
            }
            Command::LoadOff { shape, path } => match self.folder.read(&path) {
                Some(text) => accepted(desk.load(shape, &off::corners(&text, OWN_ROOM)?)),
                None => Ok(no_command()),
            },
            Command::Write(shape) => {
                let text = off::text(&desk.shape(shape)?);
                lowest(&[(SHORT_ROOM, self.room < text.len())])?;
                Ok(Expected::Line(format!("0 {}", hex(&text))))
            }
            Command::SaveOff { shape, path } => {
                let text = off::text(&desk.shape(shape)?);
                match self.folder.save(&path, text) {
                    true => done(&[]),
                    false => Ok(no_command()),
                }
            }
            Command::Spoil { part, cell, value } => {
                desk.put(part, cell, value);
                done(&[])
            }
            Command::Lend(cells) => {
                desk.lent = cells;
                done(&[])
            }
            Command::Room(cells) => {
                self.room = cells;
                done(&[])
            }
        }
    }
}

/// `0` alone, or the refusal.
fn accepted(result: Result<(), Number>) -> Answer {
    result.and_then(|()| done(&[]))
}

fn lists(gap: Number, first: &[Number], second: &[Number]) -> Answer {
    lists_refusal(gap, first, second)?;
    Ok(Expected::Verdict(Question {
        gap,
        first: points(first),
        second: points(second),
    }))
}

fn menu_line(k: usize, translated: &[u8], english: &[u8]) -> Answer {
    let part = menus::line(k, translated, english);
    let line = format!("0 {}:{}", part.text, hex(part.bytes));
    Ok(Expected::Line(line))
}

/// A whole answer to the verdict of two lists, its witnesses found by search.
fn verdict_answer(asked: &Question) -> String {
    let Question { gap, first, second } = asked;
    let (verdict, direction) = decide(*gap, first, second);
    let mut line = format!("0 {}", verdict.number());
    for component in direction {
        let _ = write!(line, " {component}");
    }
    let pairs = match verdict {
        Verdict::Separate => Vec::new(),
        _ => balance(*gap, first, second).unwrap_or_default(),
    };
    let _ = write!(line, " {}", pairs.len());
    for pair in pairs {
        let corners = [pair.first, pair.second, pair.cube];
        for number in corners.into_iter().chain([pair.weight]) {
            let _ = write!(line, " {number}");
        }
    }
    line
}

fn report(contacts: &[Row]) -> String {
    let mut lines = String::new();
    for &(low, high, verdict) in contacts {
        let what = if verdict == 2 { "touch" } else { "overlap" };
        let _ = writeln!(lines, "places {low} and {high} {what}");
    }
    let fit = if contacts.is_empty() { "can" } else { "cannot" };
    let _ = writeln!(lines, "contacts: {}", contacts.len());
    let _ = writeln!(lines, "the shelf {fit} be fired");
    lines + "end"
}

/// One answer that is right.
pub fn answer(expected: &Expected) -> String {
    match expected {
        Expected::Line(line) => line.clone(),
        Expected::Verdict(asked) => verdict_answer(asked),
        Expected::Report(contacts) => report(contacts),
    }
}
