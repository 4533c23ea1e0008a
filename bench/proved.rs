//! The proved desk: the functions of crate `bench_desk`, as its archive has them.
//! Their contracts ask nothing of a caller but what these types say; a slice is a pointer and a length.

use crate::desk::{Desk, Placement};
use crate::limits::*;

#[repr(C)]
struct Reply {
    number: u8,
    count: u32,
}

#[repr(C)]
struct VerdictReply {
    number: u8,
    verdict: u8,
}

type Shapes = [i32; SHAPES_LENGTH];
type Places = [i32; PLACES_LENGTH];
type Rows = [u8; ROWS];
type Book = [u32; BOOK];

#[rustfmt::skip]
extern "C" {
    fn bench_desk_start(s: &mut Shapes, p: &mut Places, r: &mut Rows, b: &mut Book, marks: *mut u16, length: usize) -> Reply;
    fn bench_desk_load(s: &mut Shapes, p: &Places, r: &Rows, b: &Book, marks: *const u16, length: usize, shape: i32, numbers: *const i32, many: usize) -> Reply;
    fn bench_desk_place(s: &Shapes, p: &mut Places, r: &mut Rows, b: &mut Book, marks: *mut u16, length: usize, place: i32, shape: i32, turn: i32, x: i32, y: i32, z: i32) -> Reply;
    fn bench_desk_move(s: &Shapes, p: &mut Places, r: &mut Rows, b: &mut Book, marks: *mut u16, length: usize, place: i32, turn: i32, x: i32, y: i32, z: i32) -> Reply;
    fn bench_desk_remove(s: &Shapes, p: &mut Places, r: &mut Rows, b: &mut Book, marks: *mut u16, length: usize, place: i32) -> Reply;
    fn bench_desk_in_order(s: &Shapes, p: &Places, r: &Rows, b: &Book, marks: *const u16, length: usize) -> bool;
    fn bench_desk_pair_of_lists(first: *const i32, many: usize, second: *const i32, other_many: usize) -> VerdictReply;
}

/// A command with the desk's buffers and its own numbers; its count. Nothing that is measured is refused: a refusal would
/// measure something else.
macro_rules! tell {
    ($command:ident, $desk:ident $(, $number:expr)*) => {{
        let Desk { shapes, places, rows, book, marks } = $desk;
        // Safe: every array has the length that its type says, and the marks are as many as is said.
        let reply = unsafe { $command(shapes, places, rows, book, marks.as_mut_ptr(), MARKS $(, $number)*) };
        assert_eq!(reply.number, DONE, "the proved desk refuses");
        reply.count
    }};
}

pub fn start(desk: &mut Desk) {
    tell!(bench_desk_start, desk);
}

pub fn load(desk: &mut Desk, shape: i32, numbers: &[i32]) {
    tell!(
        bench_desk_load,
        desk,
        shape,
        numbers.as_ptr(),
        numbers.len()
    );
}

pub fn place(desk: &mut Desk, q: &Placement) {
    let [x, y, z] = q.offset;
    tell!(
        bench_desk_place,
        desk,
        q.place as i32,
        q.shape,
        q.turn,
        x,
        y,
        z
    );
}

/// How many pairs of marks changed their order.
pub fn move_piece(desk: &mut Desk, q: &Placement) -> u32 {
    let [x, y, z] = q.offset;
    tell!(bench_desk_move, desk, q.place as i32, q.turn, x, y, z)
}

pub fn remove(desk: &mut Desk, place: usize) {
    tell!(bench_desk_remove, desk, place as i32);
}

pub fn in_order(desk: &Desk) -> bool {
    let marks = desk.marks.as_ptr();
    // Safe for the same reason.
    unsafe {
        bench_desk_in_order(
            &desk.shapes,
            &desk.places,
            &desk.rows,
            &desk.book,
            marks,
            MARKS,
        )
    }
}

/// The verdict of two lists of placed corners.
pub fn verdict(first: &[i32], second: &[i32]) -> u8 {
    let (a, b) = (first.as_ptr(), second.as_ptr());
    // Safe: a pointer and the length of what it points to, twice.
    let reply = unsafe { bench_desk_pair_of_lists(a, first.len(), b, second.len()) };
    assert_eq!(reply.number, DONE, "the pair question is refused");
    reply.verdict
}
