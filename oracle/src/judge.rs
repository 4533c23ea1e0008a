//! Holds each answer against what must be answered, and says in words what is wrong with it.
//! A witness is believed where it proves its verdict; everything else is searched for.

use crate::point::{Number, Point, ORIGIN};
use crate::program::{Expected, Program, Question};
use crate::verdict::{
    decide, direction_in_bounds, is_balance, is_below, is_below_once, is_not_above, widened,
    Weighed,
};
use crate::words::passed_over;
use std::io::{self, BufRead, Write};

/// How far to go, and how much to say.
pub struct Manner {
    /// The verdict is searched for even where the witnesses prove it.
    pub search: bool,
    /// So many disagreements are shown.
    pub shown: usize,
}

/// What the answers came to.
#[derive(Debug, PartialEq, Eq)]
pub struct Outcome {
    pub judged: usize,
    pub wrong: usize,
}

/// An answer to the verdict of two lists, taken apart.
struct Claim {
    verdict: Number,
    direction: Point,
    pairs: Vec<Weighed>,
}

/// Decimal numbers with one space between, none written in another way than the plain one.
fn plain_numbers(answer: &[u8]) -> Option<Vec<Number>> {
    let text = std::str::from_utf8(answer).ok()?;
    let number = |word: &str| {
        let number: Number = word.parse().ok()?;
        (number.to_string() == word).then_some(number)
    };
    text.split(' ').map(number).collect()
}

fn claim(answer: &[u8]) -> Option<Claim> {
    let numbers = plain_numbers(answer)?;
    let [0, verdict, x, y, z, count, ref rest @ ..] = numbers[..] else {
        return None;
    };
    let fours = rest.chunks_exact(4);
    let whole = fours.remainder().is_empty() && (rest.len() / 4) as Number == count;
    whole.then(|| Claim {
        verdict,
        direction: [x, y, z],
        pairs: fours
            .map(|four| Weighed {
                first: four[0],
                second: four[1],
                cube: four[2],
                weight: four[3],
            })
            .collect(),
    })
}

/// What is wrong with the witnesses of a claim, given its verdict.
fn witness_fault(claim: &Claim, asked: &Question) -> Option<&'static str> {
    let Question { gap, first, second } = asked;
    let wide = widened(*gap, first);
    let d = claim.direction;
    if claim.verdict == 1 && !claim.pairs.is_empty() {
        return Some("a separate pair carries no weights");
    }
    if claim.verdict == 3 && d != ORIGIN {
        return Some("a penetrating pair carries no direction");
    }
    if !direction_in_bounds(d) {
        return Some("the direction is beyond 2^39");
    }
    if claim.verdict == 1 && !is_below(d, &wide, second) {
        return Some("the direction does not part the lists");
    }
    if claim.verdict == 2 && !is_not_above(d, &wide, second) {
        return Some("the direction has some corner on the wrong side");
    }
    if claim.verdict == 2 && !is_below_once(d, &wide, second) {
        return Some("the direction is zero or has all corners level");
    }
    if claim.verdict != 1 && !is_balance(&claim.pairs, *gap, first, second) {
        return Some("the weighted differences are no balance");
    }
    None
}

/// What should have stood there, where the answer to the verdict of two lists is wrong.
fn verdict_fault(answer: &[u8], asked: &Question, search: bool) -> Option<String> {
    let right = || decide(asked.gap, &asked.first, &asked.second).0;
    let Some(claim) = claim(answer) else {
        let verdict = right().number();
        return Some(format!("0 {verdict} dx dy dz N a b c w .."));
    };
    if let Some(fault) = witness_fault(&claim, asked) {
        return Some(format!("0 {} ..: {fault}", right().number()));
    }
    // A parting direction proves separate; a balance and a direction not level prove touching.
    let proved = matches!(claim.verdict, 1 | 2);
    if proved && !search {
        return None;
    }
    let verdict = right();
    (verdict.number() != claim.verdict).then(|| format!("0 {} ..", verdict.number()))
}

/// A refusal or `?` is one line; a report goes on up to its line `end`.
fn report_fault(first: &[u8], answers: &mut impl BufRead) -> io::Result<Option<String>> {
    let one_line = first == b"?" || plain_numbers(first).is_some();
    let mut last = first.to_vec();
    while !one_line && last != b"end" {
        match next_line(answers)? {
            Some(line) => last = line,
            None => break,
        }
    }
    let fault = String::from("several lines, the last of them `end`");
    Ok((last != b"end").then_some(fault))
}

/// The next line without its byte 10; the last line may lack it.
pub fn next_line(lines: &mut impl BufRead) -> io::Result<Option<Vec<u8>>> {
    let mut line = Vec::new();
    if lines.read_until(10, &mut line)? == 0 {
        return Ok(None);
    }
    if line.last() == Some(&10) {
        line.pop();
    }
    Ok(Some(line))
}

/// Bytes as they can be shown on one line of moderate length.
fn readable(bytes: &[u8]) -> String {
    const MOST: usize = 240;
    let shown: String = bytes[..bytes.len().min(MOST)].escape_ascii().to_string();
    if bytes.len() > MOST {
        format!("{shown}.. ({} bytes)", bytes.len())
    } else {
        shown
    }
}

/// Judges all answers, and writes what is wrong and the count.
pub fn judge(
    mut commands: impl BufRead,
    mut answers: impl BufRead,
    manner: &Manner,
    out: &mut impl Write,
) -> io::Result<Outcome> {
    let mut program = Program::default();
    let mut outcome = Outcome {
        judged: 0,
        wrong: 0,
    };
    let mut line_number = 0;
    while let Some(line) = next_line(&mut commands)? {
        line_number += 1;
        if passed_over(&line) {
            continue;
        }
        outcome.judged += 1;
        let expected = program.told(&line);
        let answer = next_line(&mut answers)?;
        if let Some(fault) = fault(&expected, answer.as_deref(), &mut answers, manner.search)? {
            outcome.wrong += 1;
            if outcome.wrong <= manner.shown {
                writeln!(out, "line {line_number}: {}", readable(&line))?;
                match answer {
                    Some(answer) => writeln!(out, "  answer:   {}", readable(&answer))?,
                    None => writeln!(out, "  no answer")?,
                }
                writeln!(out, "  expected: {}", readable(fault.as_bytes()))?;
            }
        }
    }
    if let Some(answer) = next_line(&mut answers)? {
        outcome.wrong += 1;
        writeln!(out, "after the last command: {}", readable(&answer))?;
    }
    writeln!(
        out,
        "judged {} commands, {} wrong",
        outcome.judged, outcome.wrong
    )?;
    Ok(outcome)
}

/// What should have been answered, where something else was or nothing.
fn fault(
    expected: &Expected,
    answer: Option<&[u8]>,
    answers: &mut impl BufRead,
    search: bool,
) -> io::Result<Option<String>> {
    let Some(answer) = answer else {
        return Ok(Some(String::from("an answer")));
    };
    match expected {
        Expected::Line(line) => Ok((answer != line.as_bytes()).then(|| line.clone())),
        Expected::Verdict(asked) => Ok(verdict_fault(answer, asked, search)),
        Expected::Report(_) => report_fault(answer, answers),
    }
}
