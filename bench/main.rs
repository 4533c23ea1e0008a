//! Times a move on the proved desk and on an ordinary one, which must answer alike, and a verdict by kind of pair.
//! Everything is worked out from the desk's own limits, so that a larger kiln is measured by the same program.

mod desk;
#[allow(dead_code)]
mod limits {
    include!(env!("LIMITS"));
}
mod ordinary;
mod pairs;
mod proved;
mod scenes;

use desk::{row_at, Desk, Placement};
use limits::*;
use ordinary::Ordinary;
use pairs::Pair;
use scenes::Scene;
use std::hint::black_box;
use std::time::Instant;

/// How often everything is timed; the best counts.
const PASSES: usize = 7;

fn main() {
    println!("µs a move, best of {PASSES} passes; in brackets how many times ours the ordinary desk takes\n");
    println!("| scene | places | corners | ours | of it the order test | ordinary, trusts its buffers | ordinary, tests them too | rows 0, 1, 2, 3 at the end |");
    println!("|---|---|---|---|---|---|---|---|");
    for scene in scenes::all() {
        print_moves(&scene);
    }
    println!("\nns a verdict, best of {PASSES} passes; in brackets how many pairs\n");
    println!("| pair | boxes | hulls |");
    println!("|---|---|---|");
    let (boxes, hulls) = (
        pairs::by_kind(pairs::any_box),
        pairs::by_kind(pairs::any_hull),
    );
    for (kind, (boxes, hulls)) in pairs::KINDS.iter().zip(boxes.iter().zip(&hulls)) {
        let time = |pairs: &[Pair]| format!("{:.0} ({})", nanoseconds(pairs), pairs.len());
        println!("| {kind} | {} | {} |", time(boxes), time(hulls));
    }
}

fn print_moves(scene: &Scene) {
    let start = set_up(scene);
    let (marks, end) = compare(scene, &start);
    let mut ordinary = Ordinary::new();
    let [mut ours, mut order, mut trusting, mut testing] = [f64::INFINITY; 4];
    for _ in 0..PASSES {
        ours = ours.min(pass(scene, &start, |desk, _, q| {
            black_box(proved::move_piece(desk, q));
        }));
        order = order.min(pass(scene, &start, |desk, _, _| {
            assert!(proved::in_order(desk))
        }));
        trusting = trusting.min(pass(scene, &start, |desk, _, q| {
            ordinary.move_piece(desk, q)
        }));
        testing = testing.min(pass(scene, &start, |desk, i, q| {
            assert!(ordinary.tested_move(desk, &marks[i], q));
        }));
    }
    println!(
        "| {} | {} | {} | {ours:.2} | {order:.2} | {trusting:.2} ({:.1}) | {testing:.2} ({:.1}) | {:?} |",
        scene.name,
        scene.places,
        scene.corners,
        trusting / ours,
        testing / ours,
        &end.book[..TALLIES]
    );
}

/// The proved desk with a scene's pieces on it.
fn set_up(scene: &Scene) -> Box<Desk> {
    let mut desk = Desk::new();
    proved::start(&mut desk);
    for (number, corners) in (0..).zip(&scene.shapes) {
        proved::load(&mut desk, number, corners);
    }
    for piece in &scene.pieces {
        proved::place(&mut desk, piece);
    }
    desk
}

/// The microseconds of a move in one pass over the nudges.
fn pass(scene: &Scene, start: &Desk, mut step: impl FnMut(&mut Desk, usize, &Placement)) -> f64 {
    let mut desk = Box::new(start.clone());
    let clock = Instant::now();
    for (i, nudge) in scene.nudges.iter().enumerate() {
        step(&mut desk, i, nudge);
    }
    black_box(&desk);
    clock.elapsed().as_secs_f64() * 1e6 / scene.nudges.len() as f64
}

/// Goes through the nudges with all three desks, untimed, and stops where they differ; then every piece is taken away and put
/// back. Gives the marks before each nudge, which the ordinary desk is lent where it tests them, and the desk after the last.
fn compare(scene: &Scene, start: &Desk) -> (Vec<[u16; MARKS]>, Box<Desk>) {
    let [mut ours, mut trusting, mut testing] = [(); 3].map(|_| Box::new(start.clone()));
    let mut ordinary = Ordinary::new();
    let mut marks = Vec::new();
    for nudge in &scene.nudges {
        marks.push(ours.marks);
        let in_order = ordinary.tested_move(&mut testing, &ours.marks, nudge);
        assert!(in_order, "the ordinary desk finds its buffers in disorder");
        ordinary.move_piece(&mut trusting, nudge);
        proved::move_piece(&mut ours, nudge);
        same(&ours, &trusting);
        same(&ours, &testing);
    }
    let end = ours.clone();
    for piece in &scene.pieces {
        proved::remove(&mut ours, piece.place);
        ordinary.remove(&mut trusting, piece.place);
        same(&ours, &trusting);
        proved::place(&mut ours, piece);
        ordinary.place(&mut trusting, piece);
        same(&ours, &trusting);
    }
    assert!(proved::in_order(&ours), "the proved desk is not in order");
    (marks, end)
}

/// Stops where two desks differ in a row or a tally.
fn same(ours: &Desk, ordinary: &Desk) {
    for low in 0..PLACES {
        for high in low + 1..PLACES {
            let row = row_at(low, high);
            assert_eq!(
                ours.rows[row], ordinary.rows[row],
                "the row of places {low} and {high}"
            );
        }
    }
    assert_eq!(ours.book, ordinary.book, "the tallies");
}

/// The nanoseconds of a verdict.
fn nanoseconds(pairs: &[Pair]) -> f64 {
    let pass = |_| {
        let clock = Instant::now();
        for (first, second) in pairs {
            black_box(proved::verdict(first, second));
        }
        clock.elapsed().as_secs_f64() * 1e9 / pairs.len() as f64
    };
    (0..PASSES).map(pass).fold(f64::INFINITY, f64::min)
}
