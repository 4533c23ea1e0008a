//! The fixed files of scanned triangles: every refusal of them with its neighbours, and files that are taken.
//! And the commands that read them, in hex from the line and, by `load-stl`, from the folder they are written to.

use crate::desk::CORNERS;
use crate::folder::LONGEST_FILE;
use crate::maker::scanner::{corner, counting, file, hex, row};
use crate::stl::{FIRST, TRIANGLE};
use std::fs;
use std::io;
use std::path::Path;

/// Up to so many distinct corners are tried: past the limit of any request.
const MOST_TRIED: usize = 66;

const NAN: u32 = 0x7fc0_0000;
const MINUS_INFINITY: u32 = 0xff80_0000;
/// 0.1 mm, between two steps.
const BETWEEN: u32 = 0x3dcc_cccd;
/// 2000 mm.
const BEYOND: u32 = 0x44fa_0000;
const MINUS_ZERO: u32 = 0x8000_0000;

type Case = (&'static str, Vec<u8>);

fn put(mut corners: Vec<[u32; 3]>, changes: &[(usize, usize, u32)]) -> Vec<u8> {
    for &(corner, axis, word) in changes {
        corners[corner][axis] = word;
    }
    file(&corners)
}

/// Files whose length and count do not go together, or that have no triangle.
fn of_length() -> Vec<Case> {
    let one = file(&row(3));
    let longer = |more: &[u8]| [&one, more].concat();
    let lies = |count: u32| counting(count, &row(3));
    vec![
        ("empty", Vec::new()),
        ("headless", one[..FIRST - 1].to_vec()),
        ("none", counting(0, &[])),
        ("count-only", counting(1, &[])),
        ("count-none", lies(0)),
        ("count-two", lies(2)),
        // 50 times this is 50 in 32 bits.
        ("count-wraps", lies(0x8000_0001)),
        ("count-backwards", lies(0x0100_0000)),
        ("count-all", lies(u32::MAX)),
        ("byte-less", one[..one.len() - 1].to_vec()),
        ("byte-more", longer(&[0])),
        ("triangle-more", longer(&[0; TRIANGLE])),
        ("text", b"solid cup\nendsolid cup\n".repeat(4)),
        ("one", one),
    ]
}

/// Floats that no corner may have: alone, and one refusal before another.
fn of_floats() -> Vec<Case> {
    let many = || row(CORNERS + 3);
    vec![
        ("nan", put(row(3), &[(2, 2, NAN)])),
        ("infinite", put(row(3), &[(0, 0, MINUS_INFINITY)])),
        ("between", put(row(3), &[(1, 1, BETWEEN)])),
        ("beyond", put(row(3), &[(0, 2, BEYOND)])),
        (
            "between-then-nan",
            put(row(9), &[(0, 0, BETWEEN), (8, 2, NAN)]),
        ),
        (
            "beyond-then-between",
            put(row(9), &[(0, 0, BEYOND), (8, 2, BETWEEN)]),
        ),
        (
            "nan-then-beyond",
            put(row(9), &[(0, 0, NAN), (8, 2, BEYOND)]),
        ),
        ("many-then-nan", put(many(), &[(CORNERS + 2, 2, NAN)])),
        (
            "many-then-between",
            put(many(), &[(CORNERS + 2, 2, BETWEEN)]),
        ),
        ("many-then-beyond", put(many(), &[(CORNERS + 2, 2, BEYOND)])),
        ("step-past-reach", put(row(3), &[(0, 0, 0x4480_0080)])),
        (
            "reach",
            file(&[
                corner(65_536, -65_536, 0),
                corner(0, 65_536, 1),
                corner(0, 0, -65_536),
            ]),
        ),
    ]
}

/// Corners that are repeated, and as many as a shape may have or more.
fn of_corners() -> Vec<Case> {
    let (most, many) = (row(CORNERS), row(CORNERS + 1));
    let again = |corners: &[[u32; 3]], last: [u32; 3]| file(&[corners, corners, &[last]].concat());
    let zeros = [
        [0, MINUS_ZERO, 0],
        [0, 0, 0],
        [MINUS_ZERO, MINUS_ZERO, MINUS_ZERO],
    ];
    vec![
        ("point", file(&row(1))),
        ("point-twice", file(&[corner(5, 6, 7); 6])),
        ("zeros", file(&zeros)),
        ("segment", file(&row(2))),
        (
            "turned-about",
            file(&[row(3), row(3).into_iter().rev().collect()].concat()),
        ),
        ("fewer", file(&row(CORNERS - 1))),
        ("most", file(&most)),
        ("most-again", again(&most, most[0])),
        ("many", file(&many)),
        ("most-then-one", again(&most, many[CORNERS])),
        ("in space", file(&row(4))),
    ]
}

/// Files too long for a line: one point in as many triangles as fit, all that fits, a byte more.
fn long() -> Vec<Case> {
    let count = (LONGEST_FILE - FIRST) / TRIANGLE;
    let mut longest = vec![0; FIRST + TRIANGLE * count];
    longest[FIRST - 4..FIRST].copy_from_slice(&(count as u32).to_le_bytes());
    vec![
        ("longest", longest),
        ("mebibyte", vec![0; LONGEST_FILE]),
        ("byte-past-mebibyte", vec![0; LONGEST_FILE + 1]),
    ]
}

fn short() -> Vec<Case> {
    [of_length(), of_floats(), of_corners()].concat()
}

/// The names of all files.
pub fn names() -> Vec<&'static str> {
    let all = [short(), long()].concat();
    all.into_iter().map(|(name, _)| name).collect()
}

/// Writes every file to a folder that is there.
pub fn write(folder: &Path) -> io::Result<()> {
    for (name, bytes) in [short(), long()].concat() {
        fs::write(folder.join(format!("{name}.stl")), bytes)?;
    }
    Ok(())
}

/// Steps at the triangles, beside them, past the last, and far away.
fn steps(lines: &mut Vec<String>, bytes: &[u8]) {
    let last = bytes.len().saturating_sub(TRIANGLE);
    for at in [
        FIRST,
        last,
        0,
        FIRST - 1,
        FIRST + 1,
        last + 1,
        bytes.len(),
        2_147_483_647,
    ] {
        lines.push(format!("triangle {at} {}", hex(bytes)));
    }
}

/// Room that is just enough, too little, and none.
fn rooms(lines: &mut Vec<String>) {
    let find = |wanted: &str| short().into_iter().find(|(name, _)| *name == wanted);
    for (name, room) in [
        ("one", 9),
        ("one", 8),
        ("one", 0),
        ("most", 3 * CORNERS),
        ("most", 3 * CORNERS - 1),
        ("many", 0),
        ("between", 0),
        ("none", 0),
        ("empty", 0),
    ] {
        let bytes = find(name).map(|(_, bytes)| bytes).unwrap_or_default();
        lines.push(format!("room {room}"));
        lines.push(format!("stl {}", hex(&bytes)));
    }
    lines.push(String::from("load-stl 0 most.stl"));
    lines.push(String::from("room 8192"));
}

/// Each file loaded on a fresh desk; what was loaded stands beside a point and beside itself, turned.
fn loads(lines: &mut Vec<String>) {
    for name in names() {
        lines.push(format!("# {name}.stl"));
        let told = [
            "fresh",
            &format!("load-stl 31 {name}.stl"),
            "load 0 65 7 -1",
            "place 0 0 0 0 0 0",
            "place 1 31 0 0 0 0",
            "place 2 31 21 64 1 0",
            "rows",
            "pair 1 0",
            "pair 1 2",
        ];
        lines.extend(told.map(String::from));
    }
}

/// The reader's refusal comes before the load's, and both after a line that is no command.
const ORDER: &str = "\
# The file comes first, then the desk, then the shape's number and whether it is loaded.
fresh
load-stl 32 one.stl
load-stl -1 many.stl
load-stl 2147483647 none.stl
load-stl 7 one.stl
load-stl 7 one.stl
load-stl 7 between.stl
load-stl -0 ./one.stl
lend 383
load-stl 8 one.stl
load-stl 8 empty.stl
load-stl 8 many.stl
load-stl 32 nan.stl
load-stl 8 missing.stl
lend 384
spoil book 9 1
load-stl 8 one.stl
load-stl 8 beyond.stl
spoil book 9 0
load-stl 8 one.stl
# What is no file, or no path; a path has all bytes after one space.
load-stl 9 in space.stl
load-stl 10 in  space.stl
load-stl 10  one.stl
load-stl 10 one.stl 
load-stl 10 missing.stl
load-stl 10 .
load-stl 10 missing/one.stl
load-stl 10 one.stl/
load-stl 10 /dev/null
load-stl 10 /dev/zero
load-stl 10 one.stl\0
load-stl 10 one\0.stl
load-stl 10 \0
load-stl 10 
load-stl 10
load-stl
load-stl 
load-stl  one.stl
load-stl x one.stl
load-stl 2147483648 one.stl
load-stl +1 one.stl
load-stl one.stl
Load-stl 10 one.stl
load_stl 10 one.stl
load-stl10 one.stl
load-stl 10 one.stl
tallies
# Words that are not hex, not a position, or too many.
stl
stl 
stl -
stl --
stl 0
stl 0g
stl - -
stl -  
stl 00 00
STL -
triangle
triangle 0
triangle 0 
triangle - 0
triangle 0 -
triangle 84 -
triangle -0 -
triangle -1 -
triangle 2147483647 -
triangle 2147483648 -
triangle 00000000084 -
triangle x -
triangle 0 0
triangle 0 - -
triangle  0 -
triangle - -
";

/// The commands that read the files.
pub fn script() -> Vec<u8> {
    let mut lines = Vec::new();
    for (name, bytes) in short() {
        lines.push(format!("# {name}"));
        lines.push(format!("stl {}", hex(&bytes)));
        lines.push(format!("stl {}", hex(&bytes).to_uppercase()));
        steps(&mut lines, &bytes);
    }
    lines.push(format!("# 1 to {MOST_TRIED} distinct corners."));
    for count in 1..=MOST_TRIED {
        lines.push(format!("stl {}", hex(&file(&row(count)))));
    }
    lines.push(String::from(
        "# Less room, and all of it again; load-stl has its own.",
    ));
    rooms(&mut lines);
    loads(&mut lines);
    let mut script = (lines.join("\n") + "\n").into_bytes();
    script.extend(ORDER.bytes());
    script.extend(long_path());
    script
}

/// A path longer than any system takes.
fn long_path() -> Vec<u8> {
    let mut line = b"load-stl 11 ".to_vec();
    line.extend(b"./".repeat(3_000));
    line.extend(b"one.stl\n");
    line
}
