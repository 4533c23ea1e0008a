//! The fixed files of scanned triangles: what each must be answered, written out by hand from request W2,
//! read from the line and from a folder; and what no file is.

use oracle::desk::CORNERS;
use oracle::files;
use oracle::maker::scanner::hex;
use oracle::maker::{make, Kind};
use oracle::program::{answer, Program};
use oracle::words::passed_over;
use std::fs;
use std::path::{Path, PathBuf};

/// A folder of its own, with every file; it is gone at the end.
struct Folder(PathBuf);

impl Folder {
    fn new(name: &str) -> Folder {
        let path = std::env::temp_dir().join(format!("oracle-{}-{name}", std::process::id()));
        fs::create_dir_all(&path).expect("a folder of our own");
        files::write(&path).expect("files can be written there");
        Folder(path)
    }
}

impl Drop for Folder {
    fn drop(&mut self) {
        let _ = fs::remove_dir_all(&self.0);
    }
}

fn told(program: &mut Program, line: &str) -> String {
    answer(&program.told(line.as_bytes()))
}

/// The refusal of each file, or how many corners it has.
fn right() -> Vec<(&'static str, Result<usize, u32>)> {
    vec![
        ("empty", Err(21)),
        ("headless", Err(21)),
        ("none", Err(22)),
        ("count-only", Err(21)),
        ("count-none", Err(21)),
        ("count-two", Err(21)),
        ("count-wraps", Err(21)),
        ("count-backwards", Err(21)),
        ("count-all", Err(21)),
        ("byte-less", Err(21)),
        ("byte-more", Err(21)),
        ("triangle-more", Err(21)),
        ("text", Err(21)),
        ("one", Ok(3)),
        ("nan", Err(16)),
        ("infinite", Err(16)),
        ("between", Err(17)),
        ("beyond", Err(18)),
        ("between-then-nan", Err(16)),
        ("beyond-then-between", Err(17)),
        ("nan-then-beyond", Err(16)),
        ("many-then-nan", Err(16)),
        ("many-then-between", Err(17)),
        ("many-then-beyond", Err(18)),
        ("step-past-reach", Err(18)),
        ("reach", Ok(3)),
        ("point", Ok(1)),
        ("point-twice", Ok(1)),
        ("zeros", Ok(1)),
        ("segment", Ok(2)),
        ("turned-about", Ok(3)),
        ("fewer", Ok(CORNERS - 1)),
        ("most", Ok(CORNERS)),
        ("most-again", Ok(CORNERS)),
        ("many", Err(23)),
        ("most-then-one", Err(23)),
        ("in space", Ok(4)),
        ("longest", Ok(1)),
        ("mebibyte", Err(21)),
    ]
}

fn bytes_of(folder: &Path, name: &str) -> Vec<u8> {
    fs::read(folder.join(format!("{name}.stl"))).expect("a file that was written")
}

#[test]
fn every_file_from_the_line() {
    let folder = Folder::new("line");
    for (name, outcome) in right() {
        let words = hex(&bytes_of(&folder.0, name));
        let found = told(&mut Program::default(), &format!("stl {words}"));
        match outcome {
            _ if words.len() > 16_000 => assert_eq!(found, "?", "{name}"),
            Err(number) => assert_eq!(found, number.to_string(), "{name}"),
            Ok(count) => {
                assert!(
                    found.starts_with(&format!("0 {} ", 3 * count)),
                    "{name}: {found}"
                );
                assert_eq!(found.split(' ').count(), 2 + 3 * count, "{name}");
            }
        }
    }
}

#[test]
fn every_file_from_the_folder() {
    let folder = Folder::new("folder");
    let at = |name: &str| format!("{}/{name}.stl", folder.0.display());
    for (name, outcome) in right() {
        let mut program = Program::default();
        let found = told(&mut program, &format!("load-stl 3 {}", at(name)));
        let count = outcome.unwrap_or(0);
        let right = outcome.map_or_else(|number| number.to_string(), |_| String::from("0"));
        assert_eq!(found, right, "{name}");
        assert_eq!(program.desk.count(3), count as i128, "{name}");
    }
    let named: Vec<&str> = right().into_iter().map(|(name, _)| name).collect();
    assert_eq!(
        files::names(),
        [&named[..], &["byte-past-mebibyte"]].concat()
    );
    let mut program = Program::default();
    for path in [
        at("byte-past-mebibyte"),
        at("missing"),
        at("one") + "\0",
        at("one") + " ",
    ] {
        assert_eq!(
            told(&mut program, &format!("load-stl 3 {path}")),
            "?",
            "{path}"
        );
    }
}

#[test]
fn the_reader_refuses_before_the_desk_does() {
    let folder = Folder::new("order");
    let mut program = Program::default();
    let mut hold = |line: &str, right: &str| {
        let line = line.replace("AT", &folder.0.display().to_string());
        assert_eq!(told(&mut program, &line), right, "{line}");
    };
    hold("room 0", "0");
    hold("load-stl 0 AT/most.stl", "0");
    hold("load-stl 0 AT/most.stl", "5");
    hold("load-stl 0 AT/many.stl", "23");
    hold("load-stl 32 AT/one.stl", "2");
    hold("load-stl 32 AT/none.stl", "22");
    hold("lend 383", "0");
    hold("load-stl 32 AT/one.stl", "1");
    hold("load-stl 32 AT/text.stl", "21");
    hold("load-stl 1 AT", "?");
    hold("load-stl 1", "?");
    hold("load-stl 1 ", "?");
    hold("load-stl 2147483648 AT/one.stl", "?");
}

#[test]
fn steps_by_their_positions() {
    let folder = Folder::new("steps");
    let mut program = Program::default();
    let mut hold = |line: &str, name: &str, right: &str| {
        let line = format!("{line} {}", hex(&bytes_of(&folder.0, name)));
        assert_eq!(told(&mut program, &line), right, "{line}");
    };
    hold("triangle 84", "one", "0 0 0 0 64 7 -1 128 14 -2 134");
    hold("triangle 85", "one", "0 none");
    hold("triangle 134", "one", "0 none");
    hold("triangle 0", "one", "0 none");
    hold("triangle -1", "one", "?");
    hold("triangle 0", "none", "22");
    hold("triangle 84", "none", "22");
    hold("triangle 84", "byte-more", "21");
    hold("triangle 84", "between-then-nan", "17");
    hold("triangle 184", "between-then-nan", "16");
    hold(
        "triangle 134",
        "between-then-nan",
        "0 192 21 -3 256 28 -4 320 0 -5 184",
    );
    hold("triangle 234", "between-then-nan", "0 none");
}

#[test]
fn every_refusal_of_files_is_reached() {
    let script = make(2, 1_000, Kind::Stl);
    let mut program = Program::default();
    let lines = script.split(|&byte| byte == 10);
    let answers: Vec<String> = lines
        .filter(|line| !passed_over(line))
        .map(|line| answer(&program.told(line)))
        .collect();
    for word in ["0 none", "13", "16", "17", "18", "21", "22", "23"] {
        let count = answers.iter().filter(|found| *found == word).count();
        assert!(count >= 5, "{word} is reached {count} times");
    }
}
