//! Makes seeded command scripts: the same seed, count and kind always give the same bytes.
//! Each kind writes short stretches of commands; `all` goes from kind to kind.

mod desks;
mod dice;
mod floats;
mod lists;
mod off;
mod refusals;
pub mod scanner;
mod script;
mod shapes;
mod spoils;
mod stl;
mod texts;

use dice::Dice;
use script::Script;

#[derive(Clone, Copy, PartialEq, Eq, Debug)]
pub enum Kind {
    All,
    Lists,
    Desk,
    Refusals,
    Spoils,
    Floats,
    Stl,
    Text,
    Menus,
    Lines,
    Full,
    Off,
}

impl Kind {
    pub const ALL: [Kind; 12] = [
        Kind::All,
        Kind::Lists,
        Kind::Desk,
        Kind::Refusals,
        Kind::Spoils,
        Kind::Floats,
        Kind::Text,
        Kind::Menus,
        Kind::Lines,
        Kind::Full,
        Kind::Stl,
        Kind::Off,
    ];

    pub fn word(self) -> &'static str {
        match self {
            Kind::All => "all",
            Kind::Lists => "lists",
            Kind::Desk => "desk",
            Kind::Refusals => "refusals",
            Kind::Spoils => "spoils",
            Kind::Floats => "floats",
            Kind::Stl => "stl",
            Kind::Text => "text",
            Kind::Menus => "menus",
            Kind::Lines => "lines",
            Kind::Full => "full",
            Kind::Off => "off",
        }
    }
}

/// How often `all` turns to each kind.
const SHARES: [Kind; 16] = [
    Kind::Desk,
    Kind::Desk,
    Kind::Desk,
    Kind::Lists,
    Kind::Lists,
    Kind::Refusals,
    Kind::Refusals,
    Kind::Spoils,
    Kind::Spoils,
    Kind::Spoils,
    Kind::Floats,
    Kind::Stl,
    Kind::Text,
    Kind::Menus,
    Kind::Lines,
    Kind::Off,
];

/// A script of exactly `count` commands; comments come on top.
pub fn make(seed: u64, count: usize, kind: Kind) -> Vec<u8> {
    let mut dice = Dice::new(seed);
    let mut script = Script::new(count);
    script.note(&format!("oracle make {seed} {count} {}", kind.word()));
    if matches!(kind, Kind::All | Kind::Lines) {
        texts::long_lines(&mut script, &mut dice);
    }
    if kind == Kind::Lines {
        texts::megabyte(&mut script);
    }
    while !script.full() {
        let stretch = match kind {
            Kind::All => dice.pick(&SHARES),
            one => one,
        };
        write_stretch(stretch, &mut script, &mut dice);
    }
    script.bytes(kind == Kind::Lines)
}

fn write_stretch(kind: Kind, script: &mut Script, dice: &mut Dice) {
    match kind {
        Kind::All | Kind::Desk => desks::stretch(script, dice),
        Kind::Lists => lists::stretch(script, dice),
        Kind::Refusals => refusals::stretch(script, dice),
        Kind::Spoils => spoils::stretch(script, dice),
        Kind::Floats => floats::stretch(script, dice),
        Kind::Stl => stl::stretch(script, dice),
        Kind::Text => texts::lengths(script, dice),
        Kind::Menus => texts::menus(script, dice),
        Kind::Lines => texts::lines(script, dice),
        Kind::Full => desks::full_hulls(script, dice),
        Kind::Off => off::stretch(script, dice),
    }
}
