//! A script under way: its lines, and the desk as it stands after them, so that makers can aim.
//! Lines past the wished count are dropped, so that every stretch may end where it likes.

use crate::desk::{Desk, Part, MARKS};
use crate::point::Number;
use crate::program::Program;
use crate::words::{passed_over, ROOM_CELLS};

pub struct Script {
    lines: Vec<u8>,
    program: Program,
    wished: usize,
    written: usize,
}

impl Script {
    pub fn new(wished: usize) -> Script {
        Script {
            lines: Vec::new(),
            program: Program::default(),
            wished,
            written: 0,
        }
    }

    pub fn full(&self) -> bool {
        self.written >= self.wished
    }

    pub fn desk(&self) -> &Desk {
        &self.program.desk
    }

    pub fn note(&mut self, words: &str) {
        self.lines.extend(format!("# {words}\n").as_bytes());
    }

    pub fn say_bytes(&mut self, line: &[u8]) {
        if self.full() {
            return;
        }
        self.lines.extend(line);
        self.lines.push(10);
        if !passed_over(line) {
            self.written += 1;
            self.program.told(line);
        }
    }

    pub fn say(&mut self, line: &str) {
        self.say_bytes(line.as_bytes());
    }

    /// A word and numbers.
    pub fn tell(&mut self, word: &str, numbers: &[Number]) {
        let mut line = String::from(word);
        for number in numbers {
            line += &format!(" {number}");
        }
        self.say(&line);
    }

    pub fn spoil(&mut self, part: Part, cell: usize, value: Number) {
        self.say(&format!("spoil {} {cell} {value}", part.word()));
    }

    /// A desk that takes commands again, whatever was lent and spoiled before.
    pub fn start_afresh(&mut self) {
        if self.desk().lent != MARKS {
            self.tell("lend", &[MARKS as Number]);
        }
        if self.program.room != ROOM_CELLS {
            self.whole_room();
        }
        self.say("fresh");
    }

    /// All of the room, as before the first line.
    pub fn whole_room(&mut self) {
        self.tell("room", &[ROOM_CELLS as Number]);
    }

    /// The script; its last line can be left without an end.
    pub fn bytes(mut self, cut_short: bool) -> Vec<u8> {
        if cut_short {
            self.lines.pop();
        }
        self.lines
    }
}
