//! Scripts of every kind, answered by the judge's own model, are found right to the last line;
//! and every answer that is changed, dropped or added is found wrong.

mod shared;

use oracle::judge::{judge, Manner, Outcome};
use oracle::maker::{make, Kind};
use oracle::program::{answer, Expected, Program};
use oracle::verdict::{decide, widened};
use oracle::words::passed_over;
use shared::{differences, independent};

fn commands(script: &[u8]) -> Vec<&[u8]> {
    let lines = script.split(|&byte| byte == 10);
    lines.filter(|line| !passed_over(line)).collect()
}

/// What must be answered to each command, and one right answer.
fn answered(script: &[u8]) -> Vec<(Expected, String)> {
    let mut program = Program::default();
    let mut all = Vec::new();
    for line in commands(script) {
        let expected = program.told(line);
        let right = answer(&expected);
        all.push((expected, right));
    }
    all
}

fn judged(script: &[u8], answers: &str, search: bool) -> Outcome {
    let manner = Manner { search, shown: 3 };
    let mut words = Vec::new();
    let outcome = judge(script, answers.as_bytes(), &manner, &mut words);
    outcome.expect("nothing here can fail to be read or written")
}

fn joined<'a>(answers: impl Iterator<Item = &'a String>) -> String {
    answers.map(|line| format!("{line}\n")).collect()
}

#[test]
fn the_judge_agrees_with_its_own_answers() {
    for (seed, kind) in (1..).zip(Kind::ALL) {
        let count = if kind == Kind::Full { 60 } else { 1_000 };
        let script = make(seed, count, kind);
        let answers = answered(&script);
        let text = joined(answers.iter().map(|(_, right)| right));
        for search in [false, true] {
            let right = Outcome {
                judged: count,
                wrong: 0,
            };
            assert_eq!(judged(&script, &text, search), right, "{}", kind.word());
        }
    }
}

#[test]
fn the_same_seed_makes_the_same_script() {
    let script = make(5, 300, Kind::All);
    assert_eq!(script, make(5, 300, Kind::All));
    assert_ne!(script, make(6, 300, Kind::All));
}

#[test]
fn every_refusal_is_reached() {
    let script = make(2, 3_000, Kind::Refusals);
    let answers = answered(&script);
    for refusal in (1..=20).chain([24]) {
        let word = refusal.to_string();
        let count = answers.iter().filter(|(_, right)| *right == word).count();
        assert!(count >= 5, "refusal {refusal} is reached {count} times");
    }
}

/// With and without a gap; and the verdicts that a gap alone makes are common too.
#[test]
fn verdicts_that_the_gap_makes_are_common() {
    for (kind, count) in [(Kind::Lists, 1_000), (Kind::Desk, 3_000)] {
        let mut seen = [[0; 4]; 4];
        for (expected, _) in answered(&make(8, count, kind)) {
            let Expected::Verdict(asked) = expected else {
                continue;
            };
            let at = |gap| decide(gap, &asked.first, &asked.second).0.number() as usize;
            if asked.gap > 0 {
                seen[at(0)][at(asked.gap)] += 1;
            }
        }
        let enough = [(1, 1), (1, 2), (1, 3), (3, 3)].map(|(i, j)| seen[i][j] >= 10);
        assert_eq!(enough, [true; 4], "{}: {seen:?}", kind.word());
        // A wider piece is never farther away.
        assert_eq!([seen[2][1], seen[3][1], seen[3][2]], [0; 3]);
    }
}

#[test]
fn lists_of_all_three_verdicts_are_common() {
    let answers = answered(&make(3, 600, Kind::Lists));
    for verdict in ["0 1 ", "0 2 ", "0 3 "] {
        let those = answers.iter().filter(|(_, line)| line.starts_with(verdict));
        assert!(those.count() > 60, "{verdict}");
    }
}

/// Lists and desks bring pieces whose differences lie in one plane through the origin.
#[test]
fn flat_pairs_that_touch_and_that_penetrate_are_common() {
    for (kind, count) in [(Kind::Lists, 600), (Kind::Desk, 3_000)] {
        let answers = answered(&make(3, count, kind));
        for verdict in ["0 2 ", "0 3 "] {
            let flat = |expected: &Expected| match expected {
                Expected::Verdict(asked) => {
                    let wide = widened(asked.gap, &asked.first);
                    independent(&differences(&wide, &asked.second)).len() < 3
                }
                _ => false,
            };
            let those = answers.iter().filter(|(_, line)| line.starts_with(verdict));
            let flat = those.filter(|(expected, _)| flat(expected)).count();
            assert!(flat >= 10, "{}: {flat} of {verdict}", kind.word());
        }
    }
}

#[test]
fn a_changed_line_is_found() {
    let script = make(4, 120, Kind::All);
    let answers = answered(&script);
    for k in 0..answers.len() {
        if matches!(answers[k].0, Expected::Report(_)) {
            continue;
        }
        for change in [changed_first, changed_last, padded] {
            let mut lines: Vec<String> = answers.iter().map(|(_, a)| a.clone()).collect();
            lines[k] = change(&lines[k]);
            let still_right =
                free_weight(&answers[k]) && change(&answers[k].1) == changed_last(&answers[k].1);
            let outcome = judged(&script, &joined(lines.iter()), false);
            assert_eq!(outcome.wrong, usize::from(!still_right), "{}", lines[k]);
        }
    }
}

/// A balance of one pair has the difference zero: every weight in bounds is as good as another.
fn free_weight((expected, right): &(Expected, String)) -> bool {
    let count = right.split(' ').nth(5);
    matches!(expected, Expected::Verdict(_)) && count == Some("1")
}

fn changed_first(line: &str) -> String {
    format!("7{line}")
}

/// The last byte is changed: a number, a hex digit, or the last weight of a balance.
fn changed_last(line: &str) -> String {
    let (start, last) = line.split_at(line.len() - 1);
    let other = if last == "5" { "6" } else { "5" };
    format!("{start}{other}")
}

fn padded(line: &str) -> String {
    format!("{line} ")
}

#[test]
fn missing_and_surplus_answers_are_found() {
    let script = b"fresh\ntallies\nreport\ntallies";
    let answers = "0\n0 0 0 0 0\nnothing touches\nend\n0 0 0 0 0\n";
    assert_eq!(judged(script, answers, false).wrong, 0);
    assert_eq!(
        judged(script, &answers[..answers.len() - 1], false).wrong,
        0
    );
    assert_eq!(judged(script, &format!("{answers}0\n"), false).wrong, 1);
    assert_eq!(judged(script, "0\n0 0 0 0 0\nend\n", false).wrong, 1);
    assert_eq!(judged(script, "0\n0 0 0 0 0\nnever ends\n", false).wrong, 2);
    assert_eq!(judged(script, "", false).wrong, 4);
    assert_eq!(judged(b"", "", false).wrong, 0);
}

#[test]
fn witnesses_are_held_to_the_definition() {
    let apart = "lists 0 3 0 0 0 3 0 0 1";
    let crossed = "lists 0 6 -1 0 0 1 0 0 6 0 -1 0 0 1 0";
    // Two sheets in one plane that share an edge, and two that share a quarter.
    let beside = "lists 0 12 0 0 0 2 0 0 0 2 0 2 2 0 12 2 0 0 4 0 0 2 2 0 4 2 0";
    let over = "lists 0 12 0 0 0 2 0 0 0 2 0 2 2 0 12 1 1 0 3 1 0 1 3 0 3 3 0";
    // The crossed segments with a corner each, below and above: they touch.
    let touching = "lists 0 9 -1 0 0 1 0 0 0 0 -1 9 0 -1 0 0 1 0 0 0 1";
    let on_itself = "lists 0 3 5 6 7 3 5 6 7";
    let inside = "lists 0 12 0 0 0 4 0 0 0 4 0 0 0 4 3 1 1 1";
    let cases = [
        (apart, "0 1 0 0 1 0", 0),
        (apart, "0 1 5 -7 549755813888 0", 0),
        (apart, "0 1 0 0 549755813889 0", 1),
        (apart, "0 1 0 0 -1 0", 1),
        (apart, "0 1 0 0 0 0", 1),
        (apart, "0 1 0 0 1 1 0 0 0 1", 1),
        (apart, "0 2 0 0 1 1 0 0 0 1", 1),
        (apart, "0 3 0 0 0 1 0 0 0 1", 1),
        (apart, "0 1 0 0 1", 1),
        (apart, "0 1 0 0 01 0", 1),
        (apart, "0 1 0 -0 1 0", 1),
        (crossed, "0 3 0 0 0 2 0 0 0 1 1 1 0 1", 0),
        (crossed, "0 2 0 0 1 2 0 0 0 1 1 1 0 1", 1),
        (crossed, "0 2 0 0 -1 2 0 0 0 1 1 1 0 1", 1),
        (crossed, "0 1 0 0 1 0", 1),
        (beside, "0 2 1 0 0 1 1 0 0 1", 0),
        (beside, "0 2 1 0 7 1 1 0 0 1", 0),
        (beside, "0 2 0 0 1 1 1 0 0 1", 1),
        (beside, "0 2 0 0 -1 1 1 0 0 1", 1),
        (beside, "0 2 -1 0 0 1 1 0 0 1", 1),
        (beside, "0 3 0 0 0 1 1 0 0 1", 1),
        (over, "0 3 0 0 0 2 0 0 0 1 3 0 0 1", 0),
        (over, "0 2 0 0 1 2 0 0 0 1 3 0 0 1", 1),
        (over, "0 2 1 0 0 2 0 0 0 1 3 0 0 1", 1),
        (on_itself, "0 3 0 0 0 1 0 0 0 1", 0),
        (on_itself, "0 2 0 0 1 1 0 0 0 1", 1),
        (touching, "0 2 0 0 1 2 0 0 0 1 1 1 0 1", 0),
        (touching, "0 2 0 0 9 2 1 0 0 7 0 1 0 7", 0),
        (touching, "0 2 0 0 -9 2 1 0 0 7 0 1 0 7", 1),
        (touching, "0 2 0 0 1 4 0 0 0 1 0 0 0 2 1 1 0 1 1 1 0 2", 0),
        (
            touching,
            "0 2 0 0 1 2 0 0 0 144115188075855872 1 1 0 144115188075855872",
            0,
        ),
        (
            touching,
            "0 2 0 0 1 2 0 0 0 144115188075855873 1 1 0 144115188075855873",
            1,
        ),
        (touching, "0 2 0 0 1 2 0 0 0 1 1 2 0 1", 1),
        (touching, "0 2 0 0 1 2 0 0 0 0 1 1 0 0", 1),
        (touching, "0 2 0 0 1 0", 1),
        (
            touching,
            "0 2 0 0 1 5 0 0 0 1 0 0 0 1 0 0 0 1 1 1 0 1 1 1 0 2",
            1,
        ),
        (touching, "0 2 0 0 0 2 0 0 0 1 1 1 0 1", 1),
        (touching, "0 2 1 0 0 2 0 0 0 1 1 1 0 1", 1),
        (touching, "0 3 0 0 0 2 0 0 0 1 1 1 0 1", 1),
        (touching, "0 1 0 0 1 0", 1),
        (inside, "0 3 0 0 0 4 0 0 0 1 1 0 0 1 2 0 0 1 3 0 0 1", 0),
        (inside, "0 3 0 0 1 4 0 0 0 1 1 0 0 1 2 0 0 1 3 0 0 1", 1),
        (inside, "0 3 0 0 0 4 0 0 0 1 1 0 0 1 2 0 0 1 3 0 0 2", 1),
        (inside, "0 3 0 0 0 3 0 0 0 1 1 0 0 1 2 0 0 1 3 0 0 1", 1),
        (inside, "0 2 1 1 1 4 0 0 0 1 1 0 0 1 2 0 0 1 3 0 0 1", 1),
        (inside, "?", 1),
        (inside, "3", 1),
    ];
    hold_claims(&cases);
}

/// Pairs name a cube corner: of 0 to 7, and 0 where there is no gap. The direction serves the widened list.
#[test]
fn witnesses_with_a_gap_are_held_to_the_definition() {
    // Two points two steps apart on x: with a gap of 2 a face of the cube, with 1 nothing, with 3 its inside.
    let face = "lists 2 3 0 0 0 3 2 0 0";
    let less = "lists 1 3 0 0 0 3 2 0 0";
    let more = "lists 3 3 0 0 0 3 2 0 0";
    // A corner of the cube on a point, and a point without a gap on a point.
    let corner = "lists 5 3 1 1 1 3 6 -4 6";
    let on_itself = "lists 0 3 5 6 7 3 5 6 7";
    let four = "0 3 0 0 0 4 0 0 0 1 0 0 3 1 0 0 5 5 0 0 6 5";
    let cases = [
        (face, "0 2 1 0 0 2 0 0 4 1 0 0 7 1", 0),
        (face, "0 2 1 0 0 2 0 0 5 3 0 0 6 3", 0),
        (face, "0 2 1 0 0 2 0 0 4 1 0 0 6 1", 1),
        (face, "0 2 1 0 0 2 0 0 0 1 0 0 3 1", 1),
        (face, "0 2 1 1 0 2 0 0 4 1 0 0 7 1", 1),
        (face, "0 2 0 0 0 2 0 0 4 1 0 0 7 1", 1),
        (face, "0 2 -1 0 0 2 0 0 4 1 0 0 7 1", 1),
        (face, "0 3 0 0 0 2 0 0 4 1 0 0 7 1", 1),
        (face, "0 1 1 0 0 0", 1),
        (face, "0 2 1 0 0 2 0 0 1 0 0 1", 1),
        (less, "0 1 1 0 0 0", 0),
        (less, "0 1 2 1 0 0", 0),
        (less, "0 1 1 1 0 0", 1),
        (less, "0 1 1 0 0 1 0 0 0 1", 1),
        (more, four, 0),
        (more, "0 2 1 0 0 4 0 0 0 1 0 0 3 1 0 0 5 5 0 0 6 5", 1),
        (more, "0 3 0 0 0 4 0 0 0 1 0 0 3 1 0 0 5 5 0 0 6 4", 1),
        (corner, "0 2 1 -1 1 1 0 0 5 1", 0),
        (corner, "0 2 7 -1 3 1 0 0 5 1", 0),
        (corner, "0 2 7 0 3 1 0 0 5 1", 0),
        (corner, "0 2 7 1 3 1 0 0 5 1", 1),
        (corner, "0 2 1 -1 1 1 0 0 4 1", 1),
        (corner, "0 2 1 -1 1 1 0 0 8 1", 1),
        (corner, "0 2 1 -1 1 1 0 0 -3 1", 1),
        (corner, "0 2 1 -1 1 1 0 0 13 1", 1),
        (on_itself, "0 3 0 0 0 1 0 0 0 1", 0),
        (on_itself, "0 3 0 0 0 1 0 0 1 1", 1),
        (on_itself, "0 3 0 0 0 1 0 0 7 1", 1),
        (on_itself, "0 3 0 0 0 1 0 0 1", 1),
    ];
    hold_claims(&cases);
}

fn hold_claims(cases: &[(&str, &str, usize)]) {
    for &(line, claim, wrong) in cases {
        for search in [false, true] {
            let outcome = judged(line.as_bytes(), claim, search);
            assert_eq!(outcome.wrong, wrong, "{line}: {claim}");
        }
    }
}
