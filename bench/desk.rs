//! The buffers that a desk is lent, and how they are laid out; both desks work on the same ones.
//! Every length comes from the desk's own limits, so a larger kiln changes nothing here.

use crate::limits::*;

/// The desk: five buffers, as crate `desk_state` has them.
#[derive(Clone)]
pub struct Desk {
    pub shapes: [i32; SHAPES_LENGTH],
    pub places: [i32; PLACES_LENGTH],
    pub rows: [u8; ROWS],
    pub book: [u32; BOOK],
    pub marks: [u16; MARKS],
}

/// What a piece is put down with.
#[derive(Clone, Copy)]
pub struct Placement {
    pub place: usize,
    pub shape: i32,
    pub turn: i32,
    pub offset: [i32; 3],
}

/// Where the row of two places stands.
pub fn row_at(low: usize, high: usize) -> usize {
    low * PLACES + high
}

impl Desk {
    /// Buffers that nothing has been told yet.
    pub fn new() -> Box<Desk> {
        Box::new(Desk {
            shapes: [0; SHAPES_LENGTH],
            places: [0; PLACES_LENGTH],
            rows: [0; ROWS],
            book: [0; BOOK],
            marks: [0; MARKS],
        })
    }

    /// A shape's corners, three numbers each.
    pub fn corners(&self, shape: usize) -> &[i32] {
        let cells = &self.shapes[shape * SHAPE_CELLS..][..SHAPE_CELLS];
        &cells[1..][..3 * cells[0] as usize]
    }

    /// What stands at a place: its shape plus one, or 0; its turn; its offset.
    pub fn at(&self, place: usize) -> &[i32; PLACE_CELLS] {
        self.places[place * PLACE_CELLS..].first_chunk().unwrap()
    }

    pub fn at_mut(&mut self, place: usize) -> &mut [i32; PLACE_CELLS] {
        self.places[place * PLACE_CELLS..]
            .first_chunk_mut()
            .unwrap()
    }

    pub fn is_taken(&self, place: usize) -> bool {
        self.at(place)[0] != 0
    }
}
