//! The ordinary desk, in plain Rust: after each change it places every piece's corners, finds all boxes and tests every pair afresh.
//! It keeps no marks. It comes in two forms: one trusts its buffers, one tests them before each move as the proved desk does.

use crate::desk::{row_at, Desk, Placement};
use crate::limits::*;
use crate::proved::verdict;

/// The 24 turns as matrices.
const TURN_MATRICES: [[[i32; 3]; 3]; TURNS] = turn_matrices();

const fn turn_matrices() -> [[[i32; 3]; 3]; TURNS] {
    const ORDERS: [[usize; 3]; 6] = [
        [0, 1, 2],
        [1, 2, 0],
        [2, 0, 1],
        [0, 2, 1],
        [2, 1, 0],
        [1, 0, 2],
    ];
    const SIGNS: [[i32; 3]; 4] = [[1, 1, 1], [1, -1, -1], [-1, 1, -1], [-1, -1, 1]];
    let mut matrices = [[[0; 3]; 3]; TURNS];
    let mut turn = 0;
    while turn < TURNS {
        let order = turn / 4;
        // The last three orders mirror, so their signs do as well.
        let mirrored = if order < 3 { 1 } else { -1 };
        let mut axis = 0;
        while axis < 3 {
            matrices[turn][axis][ORDERS[order][axis]] = mirrored * SIGNS[turn % 4][axis];
            axis += 1;
        }
        turn += 1;
    }
    matrices
}

/// A piece's least and greatest numbers on each axis.
#[derive(Clone, Copy)]
struct Bounds {
    low: [i32; 3],
    high: [i32; 3],
}

impl Bounds {
    const EMPTY: Bounds = Bounds {
        low: [i32::MAX; 3],
        high: [i32::MIN; 3],
    };

    /// Left at the first axis that parts the two.
    fn apart(&self, other: &Bounds) -> bool {
        (0..3).any(|axis| self.high[axis] < other.low[axis] || other.high[axis] < self.low[axis])
    }
}

/// A taken place: where it is, and its piece's box.
struct Piece {
    place: usize,
    bounds: Bounds,
}

/// Its memory between moves: room that is filled anew each time, so that no move has to ask for any.
pub struct Ordinary {
    pieces: Vec<Piece>,
    /// The placed corners of each place's piece, three numbers a corner, and how many numbers these are.
    corners: Vec<[i32; SHAPE_NUMBERS]>,
    lengths: [usize; PLACES],
}

impl Ordinary {
    pub fn new() -> Ordinary {
        Ordinary {
            pieces: Vec::with_capacity(PLACES),
            corners: vec![[0; SHAPE_NUMBERS]; PLACES],
            lengths: [0; PLACES],
        }
    }

    pub fn place(&mut self, desk: &mut Desk, q: &Placement) {
        let [x, y, z] = q.offset;
        *desk.at_mut(q.place) = [q.shape + 1, q.turn, x, y, z];
        self.place_all(desk);
        self.judge_all(desk);
    }

    pub fn remove(&mut self, desk: &mut Desk, place: usize) {
        desk.at_mut(place)[0] = 0;
        for other in 0..PLACES {
            desk.rows[row_at(place.min(other), place.max(other))] = NO_ROW;
        }
        self.place_all(desk);
        self.judge_all(desk);
    }

    /// A move by the desk that trusts its buffers.
    pub fn move_piece(&mut self, desk: &mut Desk, q: &Placement) {
        change(desk, q);
        self.place_all(desk);
        self.judge_all(desk);
    }

    /// A move by the desk that tests its buffers; false where they are not in order. The marks are lent, since it keeps none.
    /// What it placed for the test it does not place again: of all boxes only the moved one is found anew.
    pub fn tested_move(&mut self, desk: &mut Desk, marks: &[u16; MARKS], q: &Placement) -> bool {
        if !shapes_in_order(desk) || !places_in_order(desk) {
            return false;
        }
        self.place_all(desk);
        if !self.marks_in_order(marks) || !rows_in_order(desk) || !book_in_order(desk) {
            return false;
        }
        change(desk, q);
        let bounds = self.place_one(desk, q.place);
        for piece in self
            .pieces
            .iter_mut()
            .filter(|piece| piece.place == q.place)
        {
            piece.bounds = bounds;
        }
        self.judge_all(desk);
        true
    }

    fn place_all(&mut self, desk: &Desk) {
        self.pieces.clear();
        for place in (0..PLACES).filter(|place| desk.is_taken(*place)) {
            let bounds = self.place_one(desk, place);
            self.pieces.push(Piece { place, bounds });
        }
    }

    /// The corners of the piece at a place, turned and moved, and its box.
    fn place_one(&mut self, desk: &Desk, place: usize) -> Bounds {
        let &[held, turn, x, y, z] = desk.at(place);
        let corners = desk.corners(held as usize - 1);
        let matrix = &TURN_MATRICES[turn as usize];
        let offset = [x, y, z];
        let mut bounds = Bounds::EMPTY;
        let room = self.corners[place].chunks_exact_mut(3);
        for (corner, placed) in corners.chunks_exact(3).zip(room) {
            for axis in 0..3 {
                let [a, b, c] = matrix[axis];
                let value = a * corner[0] + b * corner[1] + c * corner[2] + offset[axis];
                placed[axis] = value;
                bounds.low[axis] = bounds.low[axis].min(value);
                bounds.high[axis] = bounds.high[axis].max(value);
            }
        }
        self.lengths[place] = corners.len();
        bounds
    }

    /// The row of every pair, and the tallies.
    fn judge_all(&self, desk: &mut Desk) {
        let mut tallies = [0; TALLIES];
        for (i, first) in self.pieces.iter().enumerate() {
            for second in &self.pieces[i + 1..] {
                let row = if first.bounds.apart(&second.bounds) {
                    APART
                } else {
                    verdict(self.numbers(first.place), self.numbers(second.place))
                };
                desk.rows[row_at(first.place, second.place)] = row;
                tallies[usize::from(row)] += 1;
            }
        }
        desk.book[..TALLIES].copy_from_slice(&tallies);
    }

    fn numbers(&self, place: usize) -> &[i32] {
        &self.corners[place][..self.lengths[place]]
    }

    /// Each axis's part holds the marks of the taken places, which rise, and then none.
    fn marks_in_order(&self, marks: &[u16; MARKS]) -> bool {
        let mut bounds = [None; PLACES];
        for piece in &self.pieces {
            bounds[piece.place] = Some(piece.bounds);
        }
        marks
            .chunks_exact(AXIS_MARKS)
            .enumerate()
            .all(|(axis, part)| {
                let (marks, tail) = part.split_at(2 * self.pieces.len());
                let mut before = None;
                let rising = marks.iter().all(|mark| {
                    let (place, side) = (usize::from(mark / 2), mark % 2);
                    let Some(Some(b)) = bounds.get(place) else {
                        return false;
                    };
                    let value = if side == 0 { b.low[axis] } else { b.high[axis] };
                    let key = Some((value, side, place));
                    let rises = before < key;
                    before = key;
                    rises
                });
                rising && tail.iter().all(|mark| *mark == NO_MARK)
            })
    }
}

fn change(desk: &mut Desk, q: &Placement) {
    desk.at_mut(q.place)[1] = q.turn;
    desk.at_mut(q.place)[2..].copy_from_slice(&q.offset);
}

fn within(reach: i32, numbers: &[i32]) -> bool {
    numbers
        .iter()
        .all(|number| (-reach..=reach).contains(number))
}

fn shapes_in_order(desk: &Desk) -> bool {
    (0..SHAPES).all(|shape| {
        (0..=CORNERS as i32).contains(&desk.shapes[shape * SHAPE_CELLS])
            && within(SHAPE_REACH, desk.corners(shape))
    })
}

fn places_in_order(desk: &Desk) -> bool {
    (0..PLACES)
        .filter(|place| desk.is_taken(*place))
        .all(|place| {
            let [held, turn, offset @ ..] = desk.at(place);
            (1..=SHAPES as i32).contains(held)
                && !desk.corners(*held as usize - 1).is_empty()
                && (0..TURNS as i32).contains(turn)
                && within(SHAPE_REACH, offset)
        })
}

/// Every pair of taken places has a verdict, and no other cell has one.
fn rows_in_order(desk: &Desk) -> bool {
    let taken: [bool; PLACES] = std::array::from_fn(|place| desk.is_taken(place));
    (0..PLACES).all(|low| {
        (0..PLACES).all(|high| {
            let row = desk.rows[row_at(low, high)];
            let pair = low < high && taken[low] && taken[high];
            if pair {
                row <= PENETRATING
            } else {
                row == NO_ROW
            }
        })
    })
}

fn book_in_order(desk: &Desk) -> bool {
    let (tallies, rest) = desk.book.split_at(TALLIES);
    let counted = |verdict| {
        desk.rows
            .iter()
            .map(|row| u32::from(*row == verdict))
            .sum::<u32>()
    };
    (0..)
        .zip(tallies)
        .all(|(verdict, tally)| *tally == counted(verdict))
        && rest.iter().all(|cell| *cell == 0)
}
