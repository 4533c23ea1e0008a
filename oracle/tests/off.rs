//! The fixed OFF texts: what each must be answered, written out by hand from request W7, read from the line and from a folder;
//! shapes saved and read back; what cannot be saved; and that the judge leaves no file behind.

use oracle::desk::CORNERS;
use oracle::maker::scanner::hex;
use oracle::maker::{make, Kind};
use oracle::off_texts;
use oracle::program::{answer, Program};
use oracle::words::passed_over;
use std::fs;
use std::path::PathBuf;

/// A folder of its own, with every file; it is gone at the end.
struct Folder(PathBuf);

impl Folder {
    fn new(name: &str) -> Folder {
        let path = std::env::temp_dir().join(format!("oracle-{}-off-{name}", std::process::id()));
        fs::create_dir_all(&path).expect("a folder of our own");
        off_texts::write(&path).expect("files can be written there");
        Folder(path)
    }

    fn at(&self, name: &str) -> String {
        format!("{}/{name}", self.0.display())
    }
}

impl Drop for Folder {
    fn drop(&mut self) {
        let _ = fs::remove_dir_all(&self.0);
    }
}

fn told(program: &mut Program, line: &str) -> String {
    answer(&program.told(line.as_bytes()))
}

/// The refusal of each text, or how many corners it has.
fn right() -> Vec<(&'static str, Result<usize, u32>)> {
    vec![
        ("p", Ok(1)),
        ("plain", Ok(3)),
        ("plain-cr", Ok(3)),
        ("plain-tabs", Ok(3)),
        ("plain-old", Ok(3)),
        ("plain-open", Ok(3)),
        ("plain-wide", Ok(3)),
        ("noted", Ok(1)),
        ("noted-cr", Ok(1)),
        ("blank", Err(26)),
        ("note-only", Err(26)),
        ("kind-colour", Err(26)),
        ("kind-texture", Err(26)),
        ("kind-binary", Err(26)),
        ("kind-small", Err(26)),
        ("headless", Err(26)),
        ("byte-order", Err(26)),
        ("comma", Err(25)),
        ("comma-behind", Err(25)),
        ("coloured", Err(26)),
        ("last-coloured", Err(26)),
        ("behind", Err(26)),
        ("face-short", Err(26)),
        ("face-past", Err(26)),
        ("no-corners", Err(22)),
        ("no-corners-but-faces", Err(22)),
        ("between", Err(17)),
        ("beyond", Err(18)),
        ("reach", Ok(2)),
        ("repeated", Ok(4)),
        ("fewer", Ok(CORNERS - 1)),
        ("most", Ok(CORNERS)),
        ("many", Err(23)),
        ("replaced", Err(23)),
        ("in space", Ok(4)),
        ("longest-note", Ok(1)),
        ("longest-faces", Ok(3)),
    ]
}

#[test]
fn every_text_from_the_line() {
    let folder = Folder::new("line");
    for (name, outcome) in right() {
        let bytes = fs::read(folder.at(&format!("{name}.off"))).expect("a file that was written");
        let words = hex(&bytes);
        let found = told(&mut Program::default(), &format!("off {words}"));
        match outcome {
            _ if words.len() > 16_000 => assert_eq!(found, "?", "{name}"),
            Err(number) => assert_eq!(found, number.to_string(), "{name}"),
            Ok(count) => {
                let start = format!("0 {} ", 3 * count);
                assert!(found.starts_with(&start), "{name}: {found}");
                assert_eq!(found.split(' ').count(), 2 + 3 * count, "{name}");
            }
        }
    }
    let mut program = Program::default();
    let plain = hex(b"OFF 2 1 0 1.5 2 -3 0 0 0.015625 2 0 1");
    assert_eq!(
        told(&mut program, &format!("off {plain}")),
        "0 6 96 128 -192 0 0 1"
    );
    assert_eq!(told(&mut program, "room 5"), "0");
    assert_eq!(told(&mut program, &format!("off {plain}")), "13");
    assert_eq!(told(&mut program, "off -"), "26");
}

#[test]
fn every_file_from_the_folder() {
    let folder = Folder::new("folder");
    for (name, outcome) in right() {
        let mut program = Program::default();
        let line = format!("load-off 3 {}", folder.at(&format!("{name}.off")));
        let right = outcome.map_or_else(|number| number.to_string(), |_| String::from("0"));
        assert_eq!(told(&mut program, &line), right, "{name}");
        assert_eq!(
            program.desk.count(3),
            outcome.unwrap_or(0) as i128,
            "{name}"
        );
    }
    let named: Vec<&str> = right().into_iter().map(|(name, _)| name).collect();
    assert_eq!(
        off_texts::names(),
        [&named[..], &["byte-past-longest"]].concat()
    );
    let mut program = Program::default();
    for name in [
        "byte-past-longest.off",
        "missing.off",
        "p.off\0",
        "p.off ",
        "",
        ".",
    ] {
        let line = format!("load-off 3 {}", folder.at(name));
        assert_eq!(told(&mut program, &line), "?", "{name}");
    }
}

#[test]
fn the_reader_refuses_before_the_desk_does_and_the_desk_before_the_path() {
    let folder = Folder::new("order");
    let mut program = Program::default();
    let mut hold = |line: &str, right: &str| {
        let line = line.replace("AT", &folder.0.display().to_string());
        assert_eq!(told(&mut program, &line), right, "{line}");
    };
    hold("room 0", "0");
    hold("load-off 0 AT/most.off", "0");
    hold("load-off 0 AT/most.off", "5");
    hold("load-off 0 AT/many.off", "23");
    hold("load-off 32 AT/p.off", "2");
    hold("load-off 32 AT/comma.off", "25");
    hold("write 0", "13");
    hold("write 1", "6");
    hold("write 32", "2");
    hold("save-off 0 AT/saved.off", "0");
    hold("save-off 1 AT/missing/saved.off", "6");
    hold("save-off -1 AT/missing/saved.off", "2");
    hold("save-off 0 AT/missing/saved.off", "?");
    hold("lend 767", "0");
    hold("load-off 32 AT/p.off", "1");
    hold("load-off 32 AT/blank.off", "26");
    hold("write 32", "1");
    hold("save-off 32 AT", "1");
    hold("save-off 32", "?");
    hold("load-off 1 AT", "?");
    hold("load-off 2147483648 AT/p.off", "?");
}

#[test]
fn what_is_saved_is_found_again_and_nowhere_else() {
    let folder = Folder::new("saved");
    let before = fs::read(folder.at("most.off")).expect("a file that was written");
    let mut program = Program::default();
    let mut hold = |line: &str, right: &str| {
        let line = line.replace("AT", &folder.0.display().to_string());
        assert_eq!(told(&mut program, &line), right, "{line}");
    };
    let text = format!("0 {}", hex(b"OFF\n2 0 0\n0.015625 -1.5 10\n0 0 1024\n"));
    hold("load 0 1 -96 640 0 0 65536", "0");
    hold("write 0", &text);
    hold("load-off 1 AT/saved.off", "?");
    hold("save-off 0 AT/saved.off", "0");
    hold("load-off 1 AT/./saved.off", "0");
    hold("write 1", &text);
    hold("save-off 0 AT/most.off", "0");
    hold("load-off 2 AT/most.off", "0");
    hold("write 2", &text);
    hold("load-stl 3 AT/most.off", "21");
    hold("save-off 0 AT/p.off.part", "0");
    hold("save-off 0 AT/p.off", "?");
    hold("load-off 3 AT/p.off", "0");
    hold("write 3", &format!("0 {}", hex(b"OFF\n1 0 0\n0 0 0\n")));
    for path in [
        "AT",
        "AT/",
        "AT/.",
        "AT/..",
        "AT/p.off/",
        "AT/p.off/x",
        "AT/new/",
        "AT/a\0b",
        "",
    ] {
        hold(&format!("save-off 0 {path}"), "?");
    }
    let long = "/".repeat(4_090 - folder.0.as_os_str().len() - "/x".len());
    hold(&format!("save-off 0 AT{long}/x"), "0");
    hold(&format!("save-off 0 AT{long}//x"), "?");
    hold("load-off 4 AT/x", "0");
    assert_eq!(
        fs::read(folder.at("most.off")).expect("still there"),
        before
    );
    assert!(!PathBuf::from(folder.at("saved.off")).exists());
}

#[test]
fn every_refusal_of_texts_is_reached() {
    let script = make(2, 2_000, Kind::Off);
    let mut program = Program::default();
    let lines = script.split(|&byte| byte == 10);
    let answers: Vec<String> = lines
        .filter(|line| !passed_over(line))
        .map(|line| answer(&program.told(line)))
        .collect();
    for word in ["1", "2", "5", "6", "13", "17", "18", "22", "23", "25", "26"] {
        let count = answers.iter().filter(|found| *found == word).count();
        assert!(count >= 5, "{word} is reached {count} times");
    }
    let good = answers
        .iter()
        .filter(|found| found.starts_with("0 "))
        .count();
    assert!(good >= 400, "{good} are taken");
}
