//! The command line of the judge: judge answers, make or print scripts, answer a script.
//! Exit status 0: done, and nothing wrong; 1: some answer is wrong; 2: not understood, or unreadable.

use oracle::bench;
use oracle::files;
use oracle::judge::{judge, next_line, Manner};
use oracle::maker::{make, Kind};
use oracle::off_texts;
use oracle::program::{answer, Program};
use oracle::words::passed_over;
use std::fs::File;
use std::io::{self, BufRead, BufReader, BufWriter, Write};
use std::path::Path;
use std::process::ExitCode;

const USAGE: &str = "\
oracle judge [--search] [--show N] COMMANDS ANSWERS   judge each answer; - is standard input
oracle answer COMMANDS                                answer by the judge's own model
oracle make SEED COUNT [KIND]                         write a seeded script of COUNT commands
oracle bench                                          write the fixed script of bench pieces
oracle files                                          write the fixed script of scanned files
oracle files FOLDER                                   write the files that it names to a folder
oracle off                                            write the fixed script of OFF texts
oracle off FOLDER                                     write the files that it names to a folder
";

fn main() -> ExitCode {
    let words: Vec<String> = std::env::args().skip(1).collect();
    let words: Vec<&str> = words.iter().map(String::as_str).collect();
    match run(&words) {
        Ok(Some(0)) => ExitCode::SUCCESS,
        Ok(Some(_)) => ExitCode::from(1),
        Ok(None) => {
            let kinds: Vec<&str> = Kind::ALL.iter().map(|kind| kind.word()).collect();
            eprintln!("{USAGE}KIND is one of: {}", kinds.join(", "));
            ExitCode::from(2)
        }
        Err(error) => {
            eprintln!("oracle: {error}");
            ExitCode::from(2)
        }
    }
}

/// How many answers are wrong; `None` where the words are not understood.
fn run(words: &[&str]) -> io::Result<Option<usize>> {
    let mut out = BufWriter::new(io::stdout().lock());
    let wrong = match words {
        ["judge", rest @ ..] => judge_files(rest, &mut out)?,
        ["answer", commands] => Some(answer_all(opened(commands)?, &mut out)?),
        ["bench"] => Some(written(&bench::script(), &mut out)?),
        ["files"] => Some(written(&files::script(), &mut out)?),
        ["files", folder] => {
            files::write(Path::new(folder))?;
            Some(0)
        }
        ["off"] => Some(written(&off_texts::script(), &mut out)?),
        ["off", folder] => {
            off_texts::write(Path::new(folder))?;
            Some(0)
        }
        ["make", seed, count] => made(seed, count, Kind::All.word(), &mut out)?,
        ["make", seed, count, kind] => made(seed, count, kind, &mut out)?,
        _ => None,
    };
    out.flush()?;
    Ok(wrong)
}

fn opened(name: &str) -> io::Result<Box<dyn BufRead>> {
    if name == "-" {
        return Ok(Box::new(BufReader::new(io::stdin())));
    }
    let named = |error| io::Error::other(format!("{name}: {error}"));
    Ok(Box::new(BufReader::new(File::open(name).map_err(named)?)))
}

fn judge_files(words: &[&str], out: &mut impl Write) -> io::Result<Option<usize>> {
    let mut manner = Manner {
        search: false,
        shown: 10,
    };
    let mut rest = words;
    loop {
        match rest {
            ["--search", after @ ..] => {
                manner.search = true;
                rest = after;
            }
            ["--show", count, after @ ..] => {
                let Ok(count) = count.parse() else {
                    return Ok(None);
                };
                manner.shown = count;
                rest = after;
            }
            [commands, answers] => {
                let outcome = judge(opened(commands)?, opened(answers)?, &manner, out)?;
                return Ok(Some(outcome.wrong));
            }
            _ => return Ok(None),
        }
    }
}

fn answer_all(mut commands: impl BufRead, out: &mut impl Write) -> io::Result<usize> {
    let mut program = Program::default();
    while let Some(line) = next_line(&mut commands)? {
        if !passed_over(&line) {
            writeln!(out, "{}", answer(&program.told(&line)))?;
        }
    }
    Ok(0)
}

fn made(seed: &str, count: &str, kind: &str, out: &mut impl Write) -> io::Result<Option<usize>> {
    let kind = Kind::ALL.into_iter().find(|k| k.word() == kind);
    match (seed.parse(), count.parse(), kind) {
        (Ok(seed), Ok(count), Some(kind)) => Ok(Some(written(&make(seed, count, kind), out)?)),
        _ => Ok(None),
    }
}

fn written(script: &[u8], out: &mut impl Write) -> io::Result<usize> {
    out.write_all(script)?;
    Ok(0)
}
