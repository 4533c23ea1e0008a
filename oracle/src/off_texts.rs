//! The fixed OFF texts of request W7: every refusal with its neighbours, every order of two, and texts that are taken.
//! And the commands on them: in hex from the line, by `load-off` from a folder, and shapes written, saved and read back.

use crate::desk::{CORNERS, NUMBER_LIMIT, SHAPES};
use crate::folder::LONGEST_FILE;
use crate::maker::scanner::hex;
use crate::off::text;
use crate::point::{points, Number};
use std::fs;
use std::io;
use std::path::Path;

/// Up to so many corners are tried: past the limit.
const MOST_TRIED: usize = CORNERS + 2;

/// Numbers have so many digits, and more; 39 are the most that 128 bits hold.
const MOST_DIGITS: usize = 40;

/// Every step is written from minus this to this.
const EVERY_STEP: Number = 200;

/// The text in which words, bytes and comments are changed: three corners, three faces, one of them of none.
const PLAIN: &str = "OFF\n3 3 4\n1.5 2 -3\n0 0 0.25\n-7 8 9\n3 0 1 2\n0\n2 1 1\n";

/// Words for the place of a number, good ones and near misses.
const WORDS: [&str; 48] = [
    "0",
    "-0",
    "00",
    "1",
    "2",
    "3",
    "-1",
    "+1",
    ".5",
    "-.5",
    "1.",
    "-1.",
    ".",
    "-",
    "--1",
    "-+1",
    "1-",
    "1.5",
    "-1.5",
    "01.50",
    "1.5.5",
    "1..5",
    "1.-5",
    "1e3",
    "1E3",
    "1.5e0",
    "0x1",
    "0.1",
    "-0.1",
    "0.015625",
    "-0.015625",
    "0.0156250",
    "0.015624",
    "0.000001",
    "0.0000001",
    "1.0000000",
    "1.000000",
    "1024",
    "-1024",
    "1024.000000",
    "1024.000001",
    "1024.015625",
    "-1024.015625",
    "1025",
    "-4096.1",
    "nan",
    "inf",
    "OFF",
];

type Text = (&'static str, Vec<u8>);

fn off(text: &[u8]) -> String {
    format!("off {}", hex(text))
}

/// A text of so many corners, no two of them equal, their numbers short.
fn row(count: usize) -> String {
    let corner = |k: usize| format!("{k} {}.5 -{}\n", k % 5, k);
    let corners: String = (0..count).map(corner).collect();
    format!("OFF\n{count} 0 0\n{corners}")
}

/// The texts that are read by their names, too.
fn named() -> Vec<Text> {
    let of = |text: &str| text.as_bytes().to_vec();
    vec![
        ("p", of("OFF\n1 0 0\n0 0 0\n")),
        ("plain", of(PLAIN)),
        ("plain-cr", of(&PLAIN.replace('\n', "\r\n"))),
        ("plain-tabs", of(&PLAIN.replace([' ', '\n'], "\t"))),
        ("plain-old", of(&PLAIN.replace('\n', "\r"))),
        ("plain-open", of(PLAIN.trim_end())),
        ("plain-wide", of(&PLAIN.replace([' ', '\n'], " \n\r \t"))),
        ("noted", of("# a bowl, of three corners\nOFF # x, y, z\n1 0 0#,\n#\n0 0 0 # the end, without one")),
        ("noted-cr", of("OFF # ends at byte 10, not at 13\r1 0 0 ,\n1 0 0 0 0 0")),
        ("blank", Vec::new()),
        ("note-only", of("# OFF 1 0 0 0 0 0")),
        ("kind-colour", of("COFF\n1 0 0\n0 0 0 255 0 0 255\n")),
        ("kind-texture", of("STOFF\n1 0 0\n0 0 0 0 0\n")),
        ("kind-binary", of("OFF BINARY\n\0\0\0\u{1}\0\0\0\0\0\0\0\0")),
        ("kind-small", of("off\n1 0 0\n0 0 0\n")),
        ("headless", of("1 0 0\n0 0 0\n")),
        ("byte-order", of("\u{feff}OFF\n1 0 0\n0 0 0\n")),
        ("comma", of("OFF\n1 0 0\n1,5 0 0\n")),
        ("comma-behind", of("OFF\n1 0 0\n0 0 0\n,")),
        ("coloured", of(&PLAIN.replace("3 0 1 2", "3 0 1 2 255 0 0"))),
        ("last-coloured", of(&(String::from(PLAIN.trim_end()) + " 0.5 0.5 0.5\n"))),
        ("behind", of(&(String::from(PLAIN) + "0\n"))),
        ("face-short", of(&PLAIN.replace("3 3 4", "3 4 4"))),
        ("face-past", of(&PLAIN.replace("3 0 1 2", "3 0 1 3"))),
        ("no-corners", of("OFF\n0 0 0\n")),
        ("no-corners-but-faces", of("OFF 0 3 0 0 0 0")),
        ("between", of("OFF\n1 0 0\n0.1 0 0\n")),
        ("beyond", of("OFF\n1 0 0\n0 0 1024.015625\n")),
        ("reach", of("OFF\n2 0 0\n1024 -1024 0\n-1023.984375 1023.984375 0.015625\n")),
        ("repeated", of("OFF\n4 0 0\n1 2 3\n1.0 2.0 3.0\n-0 0 -0.0\n0 0 0\n")),
        ("fewer", of(&row(CORNERS - 1))),
        ("most", of(&row(CORNERS))),
        ("many", of(&row(CORNERS + 1))),
        ("replaced", of(&row(CORNERS + 1))),
        ("in space", of("OFF 4 1 6 0 0 0 1 0 0 0 1 0 0 0 1 4 0 1 2 3")),
    ]
}

/// A text with as much behind it as is needed for so many bytes.
fn filled(text: &str, fill: &str, length: usize) -> Vec<u8> {
    let mut bytes = text.as_bytes().to_vec();
    while bytes.len() + fill.len() <= length {
        bytes.extend(fill.bytes());
    }
    bytes.resize(length, b' ');
    bytes
}

/// Files too long for a line: a comment and a list of faces that fill a file, and a byte more.
fn long() -> Vec<Text> {
    let faces = (LONGEST_FILE - 1_000) / "3 0 1 2\n".len();
    let mut many = format!("OFF\n3 {faces} 0\n0 0 0 1 0 0 0 1 0\n");
    many += &"3 0 1 2\n".repeat(faces);
    let note = |length| filled("OFF 1 0 0 0 0 0 #", ", and so on", length);
    vec![
        ("longest-note", note(LONGEST_FILE)),
        ("longest-faces", filled(&many, "# filled\n", LONGEST_FILE)),
        ("byte-past-longest", note(LONGEST_FILE + 1)),
    ]
}

/// The names of all files.
pub fn names() -> Vec<&'static str> {
    let all = [named(), long()].concat();
    all.into_iter().map(|(name, _)| name).collect()
}

/// Writes every file to a folder that is there.
pub fn write(folder: &Path) -> io::Result<()> {
    for (name, bytes) in [named(), long()].concat() {
        fs::write(folder.join(format!("{name}.off")), bytes)?;
    }
    Ok(())
}

/// Each word at each place where a number stands: the counts, a corner's three, a face's n, an index.
fn each_word(lines: &mut Vec<String>) {
    for word in WORDS {
        for text in [
            format!("OFF {word} 0 0 1 2 3"),
            format!("OFF 1 {word} 0 1 2 3 0"),
            format!("OFF 1 0 {word} 1 2 3"),
            format!("OFF 1 0 0 {word} 2 3"),
            format!("OFF 1 0 0 1 {word} 3"),
            format!("OFF 1 0 0 1 2 {word}"),
            format!("OFF 2 1 0 1 2 3 4 5 6 {word} 1"),
            format!("OFF 2 1 0 1 2 3 4 5 6 2 0 {word}"),
        ] {
            lines.push(off(text.as_bytes()));
        }
    }
}

/// Numbers of many digits, at each place: zeros before, nines, and the powers of two at which machine numbers end.
fn long_numbers(lines: &mut Vec<String>) {
    for count in 1..=MOST_DIGITS {
        let (zeros, nines) = ("0".repeat(count), "9".repeat(count));
        for text in [
            format!(
                "OFF {zeros}1 {zeros} {nines} {zeros}7.5 -{zeros}7 {zeros}.{}",
                &zeros[..count.min(6)]
            ),
            format!("OFF 1 1 {nines} 1 2 3 {zeros}1 {zeros}"),
            format!("OFF {nines} 0 0 1 2 3"),
            format!("OFF 1 {nines} 0 1 2 3 1 0"),
            format!("OFF 1 1 0 1 2 3 {nines} 0"),
            format!("OFF 1 1 0 1 2 3 1 {nines}"),
            format!("OFF 1 0 0 {nines} 2 3"),
            format!("OFF 1 0 0 -{nines}.5 2 3"),
            format!("OFF 1 0 0 {nines}.1 2 3"),
            format!("OFF 1 0 0 1.{nines} 2 3"),
            format!("OFF 1 0 0 1.{zeros} 2 3"),
        ] {
            lines.push(off(text.as_bytes()));
        }
    }
    for power in [8, 16, 31, 32, 33, 63, 64, 65] {
        for more in [0u128, 1, 2] {
            let number = (1u128 << power) + more;
            for text in [
                format!("OFF {number} 0 0 1 2 3"),
                format!("OFF 1 {number} 0 1 2 3 0"),
                format!("OFF 1 1 0 1 2 3 {number} 0"),
                format!("OFF 1 1 0 1 2 3 1 {number}"),
                format!("OFF 1 0 0 {number} 2 3"),
                format!("OFF 1 0 {number} 1 2 3"),
            ] {
                lines.push(off(text.as_bytes()));
            }
        }
    }
}

/// Every byte between two words and within one; comments, commas and ends at every place of a text.
fn each_place(lines: &mut Vec<String>) {
    let plain = PLAIN.as_bytes();
    let put = |at: usize, bytes: &[u8]| off(&[&plain[..at], bytes, &plain[at..]].concat());
    for byte in 0..=255u8 {
        lines.push(put("OFF\n3".len(), &[byte]));
        lines.push(put("OFF\n3 3 4\n1".len(), &[byte]));
    }
    for at in 0..=plain.len() {
        for bytes in [&b"# 1, 2\n"[..], b"#", b",", b" ", b"\r", b"0", b"\0"] {
            lines.push(put(at, bytes));
        }
        lines.push(off(&plain[..at]));
        if let Some((_, behind)) = plain[at..].split_first() {
            lines.push(off(&[&plain[..at], behind].concat()));
        }
    }
}

/// What gives each refusal, in the request's order: comma, bad text, between, beyond, none or many corners.
/// A text with every choice of them, the fault of the later number in front, then behind; with room and without.
fn each_order(lines: &mut Vec<String>) {
    for room in [0, 3 * CORNERS] {
        lines.push(format!("room {room}"));
        for faults in 0..32 {
            let has = |fault: usize| faults >> fault & 1 == 1;
            let mut words: Vec<String> = Vec::new();
            for (fault, word) in [(3, "2000"), (2, "0.1"), (1, "1e3"), (0, "1,5")] {
                words.extend(has(fault).then(|| String::from(word)));
            }
            let count = if has(4) { CORNERS + 1 } else { 2 };
            let good = vec![String::from("1"); 3 * count - words.len()];
            for all in [[&words[..], &good].concat(), [&good[..], &words].concat()] {
                lines.push(off(format!("OFF {count} 0 0 {}", all.join(" ")).as_bytes()));
            }
        }
        for text in [
            "OFF 0 0 0",
            "OFF 0 0 0 1",
            "OFF 0 0 0 ,",
            "OFF 0 1 0 0",
            "OFF 0 0 0 #,",
            "",
        ] {
            lines.push(off(text.as_bytes()));
        }
    }
    for room in [8, 9, 0] {
        lines.push(format!("room {room}"));
        lines.push(off(PLAIN.as_bytes()));
    }
    for room in [3 * CORNERS - 1, 3 * CORNERS] {
        lines.push(format!("room {room}"));
        lines.push(off(row(CORNERS).as_bytes()));
    }
    lines.push(String::from("room 0"));
    lines.push(String::from("load-off 0 most.off"));
    lines.push(String::from("room 32768"));
}

fn numbers(list: &[Number]) -> String {
    list.iter().map(|number| format!(" {number}")).collect()
}

/// A list loaded, written, saved, read back and written again, and the judge's own text of it read from the line.
fn there_and_back(lines: &mut Vec<String>, list: &[Number]) {
    lines.push(String::from("fresh"));
    lines.push(format!("load 0{}", numbers(list)));
    lines.push(String::from("write 0"));
    lines.push(String::from("save-off 0 saved.off"));
    lines.push(String::from("load-off 1 saved.off"));
    lines.push(String::from("write 1"));
    lines.push(off(&text(&points(list))));
}

/// Every step near zero, the ends of the range, numbers of every length; 1 to 64 corners.
fn writes(lines: &mut Vec<String>) {
    let near = (-EVERY_STEP..=EVERY_STEP).collect::<Vec<_>>();
    let ends = (NUMBER_LIMIT - 70..=NUMBER_LIMIT).flat_map(|n| [n, -n]);
    let places = (0..=16).flat_map(|k| {
        [
            1 << k,
            -(1 << k),
            (1 << k) - 1,
            640 * (k + 1),
            6_400 * k - 64 / 2,
        ]
    });
    let mut all: Vec<Number> = near.into_iter().chain(ends).chain(places).collect();
    all.retain(|n| n.abs() <= NUMBER_LIMIT);
    while !all.len().is_multiple_of(3) {
        all.push(0);
    }
    for list in all.chunks(3 * CORNERS) {
        there_and_back(lines, list);
    }
    for count in 1..=CORNERS {
        let list: Vec<Number> = (0..3 * count).map(|k| 64 * (k % 7) as Number).collect();
        there_and_back(lines, &list);
    }
    // The longest text that there is.
    there_and_back(lines, &[1 - NUMBER_LIMIT; 3 * CORNERS]);
}

/// Room that is just enough for a text, a byte too little, and none.
fn write_rooms(lines: &mut Vec<String>) {
    lines.push(String::from("fresh"));
    for (shape, list) in [
        vec![0; 3],
        vec![1, -96, 640],
        vec![1 - NUMBER_LIMIT; 3 * CORNERS],
    ]
    .into_iter()
    .enumerate()
    {
        lines.push(format!("load {shape}{}", numbers(&list)));
        let enough = text(&points(&list)).len();
        for room in [enough, enough - 1, 0, enough + 1] {
            lines.push(format!("room {room}"));
            lines.push(format!("write {shape}"));
        }
    }
    for told in [
        "room 0",
        "write 3",
        "write 32",
        "save-off 2 saved.off",
        "load-off 3 saved.off",
        "lend 767",
        "write 2",
        "write 3",
        "write 32",
        "lend 768",
        "room 32768",
        "write 3",
    ] {
        lines.push(String::from(told));
    }
}

/// Each file loaded on a fresh desk, written, and laid beside itself.
fn loads(lines: &mut Vec<String>) {
    for name in names() {
        lines.push(format!("# {name}.off"));
        let told = [
            "fresh",
            &format!("load-off 31 {name}.off"),
            "write 31",
            "place 1 31 0 0 0 0",
            "place 2 31 21 64 1 0",
            "rows",
        ];
        lines.extend(told.map(String::from));
    }
}

const ORDER: &str = "\
# The file comes first, then the desk, then the shape's number and whether it is loaded.
fresh
load-off 32 p.off
load-off -1 many.off
load-off 2147483647 blank.off
load-off 7 p.off
load-off 7 p.off
load-off 7 between.off
load-off -0 ./plain.off
lend 767
load-off 8 p.off
load-off 8 comma.off
load-off 32 beyond.off
load-off 8 missing.off
save-off 7 saved.off
save-off 32 missing/saved.off
lend 768
spoil book 9 1
load-off 8 p.off
load-off 8 no-corners.off
save-off 7 saved.off
write 7
write 8
write 32
spoil book 9 0
load-off 8 p.off
# An OFF text is no STL, and the other way round.
load-off 9 one.stl
load-off 9 mebibyte.stl
load-off 9 byte-past-mebibyte.stl
load-stl 9 p.off
load-stl 9 longest-note.off
# What is no file, or no path; a path has all bytes after one space.
load-off 9 in space.off
load-off 10 in  space.off
load-off 10  p.off
load-off 10 p.off 
load-off 10 missing.off
load-off 10 .
load-off 10 missing/p.off
load-off 10 p.off/
load-off 10 /dev/null
load-off 10 /dev/zero
load-off 10 p.off\0
load-off 10 \0
load-off 10 
load-off 10
load-off
load-off 
load-off  p.off
load-off x p.off
load-off 2147483648 p.off
load-off +1 p.off
load-off p.off
Load-off 10 p.off
load_off 10 p.off
load-off10 p.off
load-off 10 p.off
write 10
# A shape is written where it is loaded; a shape that is not, or no number, is refused before the path is looked at.
write 0
write 1
write 31
write 32
write -1
write 2147483647
write -0
write 07
write
write 
write x
write 0 0
write 2147483648
Write 0
save-off 0 saved-0.off
load-off 11 saved-0.off
write 11
load-off 12 ./saved-0.off
save-off 1 saved-1.off
load-off 13 saved-1.off
save-off 31 saved-0.off
save-off 32 saved-0.off
save-off -1 missing/saved.off
save-off 1 missing/saved.off
load-off 13 saved-0.off
# One that is there is replaced, by a shorter text and by a longer one; it can be replaced again.
save-off 7 saved-0.off
load-off 14 saved-0.off
write 14
save-off 0 saved-0.off
load-off 15 saved-0.off
save-off 0 replaced.off
load-off 16 replaced.off
save-off 7 ./replaced.off
load-off 17 replaced.off
write 17
save-off 7 saved.stl
load-off 19 saved.stl
load-stl 19 saved.stl
# Where nothing can be written; nothing was changed there.
save-off 0 missing/saved.off
save-off 0 .
save-off 0 ..
save-off 0 /
save-off 0 examples
save-off 0 examples/
save-off 0 examples/saved.off
load-off 20 examples/saved.off
load-off 21 examples/../examples/saved.off
save-off 0 p.off/
save-off 0 p.off/saved.off
save-off 0 new.off/
load-off 22 new.off
load-off 22 p.off
save-off 0 saved\0.off
save-off 0 \0
save-off 0 
save-off 0
save-off
save-off 
save-off  saved.off
save-off x saved.off
save-off 2147483648 saved.off
save-off +1 saved.off
save-off saved.off
Save-off 0 saved.off
save_off 0 saved.off
save-off0 saved.off
save-off -0 a name with spaces.off
load-off 23 a name with spaces.off
save-off 0  leading.off
load-off 24  leading.off
load-off 25 leading.off
# The file beside is written first, and is never one that is there.
save-off 0 half.off.part
save-off 7 half.off
load-off 26 half.off
load-off 26 half.off.part
save-off 0 part
save-off 0 .part
load-off 27 .part
save-off 0 half.off.part
# Words that are not hex, or too many.
off
off 
off -
off --
off 4
off 4g
off - -
off -  
off 4f 46
OFF -
tallies
";

/// A path longer than any system takes, and the longest beside which there is another.
fn long_paths(lines: &mut Vec<String>) {
    let path =
        |length: usize| "./".repeat(length / 2 - 6) + &"/".repeat(length % 2) + "new-file.off";
    for length in [4_089, 4_090, 4_091, 4_095, 4_096, 6_000] {
        lines.push(format!("save-off 0 {}", path(length)));
        lines.push(String::from("load-off 28 new-file.off"));
        lines.push(format!("load-off 29 {}", path(length)));
    }
}

/// The commands on the texts.
pub fn script() -> Vec<u8> {
    let mut lines = Vec::new();
    for (name, bytes) in named() {
        lines.push(format!("# {name}"));
        lines.push(off(&bytes));
        lines.push(format!("off {}", hex(&bytes).to_uppercase()));
    }
    lines.push(format!("# 1 to {MOST_TRIED} corners."));
    for count in 1..=MOST_TRIED {
        lines.push(off(row(count).as_bytes()));
    }
    lines.push(String::from(
        "# Words that are numbers and words that are none, each at each place.",
    ));
    each_word(&mut lines);
    lines.push(format!(
        "# Numbers of 1 to {MOST_DIGITS} digits, and those at which machine numbers end."
    ));
    long_numbers(&mut lines);
    lines.push(String::from(
        "# Every byte between words and within one; comments, commas and ends at every place.",
    ));
    each_place(&mut lines);
    lines.push(String::from("# Two refusals and more in one text, the later one in front and behind, with room and without."));
    each_order(&mut lines);
    lines.push(String::from("# The files, by their names."));
    loads(&mut lines);
    lines.push(String::from(
        "# Shapes written, saved, read back and written again.",
    ));
    writes(&mut lines);
    write_rooms(&mut lines);
    lines.extend(ORDER.lines().map(String::from));
    long_paths(&mut lines);
    // All numbers but the last are taken by files and shapes of every kind.
    lines.push(format!("write {}", SHAPES - 1));
    (lines.join("\n") + "\n").into_bytes()
}
