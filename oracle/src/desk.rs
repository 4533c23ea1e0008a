//! A model of the desk: the lent parts cell by cell, and document 01's commands on them.
//! Order, boxes, marks, rows and counts are worked out afresh from the cells every time.

use crate::point::{plus, points, Number, Point};
use crate::refusals::*;
use crate::turns::{turned, TURNS};
use crate::verdict::decide;

pub const SHAPES: usize = 32;
/// Document 01 says 64 places and 32 corners; request W4 raised both.
pub const PLACES: usize = 128;
pub const CORNERS: usize = 64;
/// A shape has its count of corners, then three numbers for each corner that it may have.
pub const SHAPE_CELLS: usize = 1 + 3 * CORNERS;
/// A place has its shape plus one, or 0, then its turn and the three numbers of its offset.
pub const PLACE_CELLS: usize = 5;
pub const NUMBER_LIMIT: Number = 65_536;
pub const PLACED_LIMIT: Number = 131_072;
pub const AXIS_MARKS: usize = 2 * PLACES;
pub const MARKS: usize = 3 * AXIS_MARKS;
/// Of the marks buffer so many cells can be lent: some more than the desk wants.
pub const MARK_CELLS: usize = MARKS + 16;
pub const NO_MARK: Number = 65_535;
pub const NO_ROW: Number = 255;
pub const TALLIES: usize = 4;
/// W6: the gap is a cell of the book, of 0 to 4,096 steps.
pub const GAP_CELL: usize = 8;
pub const GAP_LIMIT: Number = 4_096;

/// The lent parts that `spoil` names.
#[derive(Clone, Copy, PartialEq, Eq, Debug)]
pub enum Part {
    Shapes,
    Places,
    Rows,
    Book,
    Marks,
}

impl Part {
    pub const ALL: [Part; 5] = [
        Part::Shapes,
        Part::Places,
        Part::Rows,
        Part::Book,
        Part::Marks,
    ];

    pub fn word(self) -> &'static str {
        match self {
            Part::Shapes => "shapes",
            Part::Places => "places",
            Part::Rows => "rows",
            Part::Book => "book",
            Part::Marks => "marks",
        }
    }

    pub fn cells(self) -> usize {
        match self {
            Part::Shapes => SHAPES * SHAPE_CELLS,
            Part::Places => PLACES * PLACE_CELLS,
            Part::Rows => PLACES * PLACES,
            Part::Book => 16,
            Part::Marks => MARK_CELLS,
        }
    }

    /// Does the value fit a cell of this part?
    pub fn fits(self, value: Number) -> bool {
        let range = match self {
            Part::Shapes | Part::Places => Number::from(i32::MIN)..=Number::from(i32::MAX),
            Part::Rows => 0..=Number::from(u8::MAX),
            Part::Book => 0..=Number::from(u32::MAX),
            Part::Marks => 0..=Number::from(u16::MAX),
        };
        range.contains(&value)
    }
}

/// The cell of a shape's count.
pub fn count_cell(shape: usize) -> usize {
    SHAPE_CELLS * shape
}

/// The cell of number k of a shape.
pub fn number_cell(shape: usize, k: usize) -> usize {
    count_cell(shape) + 1 + k
}

/// The cell of what a place holds: its shape plus one, or 0.
pub fn held_cell(place: usize) -> usize {
    PLACE_CELLS * place
}

pub fn turn_cell(place: usize) -> usize {
    held_cell(place) + 1
}

pub fn offset_cell(place: usize, axis: usize) -> usize {
    held_cell(place) + 2 + axis
}

/// A row of the desk: lower place, higher place, verdict.
pub type Row = (usize, usize, Number);

#[derive(Clone)]
pub struct Desk {
    parts: [Vec<Number>; 5],
    /// How many cells of the marks are lent.
    pub lent: usize,
}

impl Default for Desk {
    fn default() -> Desk {
        let mut desk = Desk {
            parts: Part::ALL.map(|part| vec![0; part.cells()]),
            lent: MARKS,
        };
        desk.clear();
        desk
    }
}

/// Is the number one of 0 to `count` − 1? Then here it is as an index.
fn index(number: Number, count: usize) -> Option<usize> {
    usize::try_from(number).ok().filter(|&n| n < count)
}

fn beyond(numbers: &[Number], limit: Number) -> bool {
    numbers.iter().any(|n| n.abs() > limit)
}

fn bad_length(numbers: &[Number]) -> bool {
    !numbers.len().is_multiple_of(3) || !(1..=CORNERS).contains(&(numbers.len() / 3))
}

fn bad_gap(gap: Number) -> bool {
    !(0..=GAP_LIMIT).contains(&gap)
}

/// The refusals of a gap and two lent lists of placed corners.
pub fn lists_refusal(gap: Number, first: &[Number], second: &[Number]) -> Result<(), Number> {
    lowest(&[
        (GAP_REFUSED, bad_gap(gap)),
        (LIST_LENGTH, bad_length(first) || bad_length(second)),
        (
            PLACED_RANGE,
            beyond(first, PLACED_LIMIT) || beyond(second, PLACED_LIMIT),
        ),
    ])
}

/// The least and the greatest value on an axis.
fn extent(corners: &[Point], axis: usize) -> [Number; 2] {
    let values = || corners.iter().map(|corner| corner[axis]);
    [
        values().min().unwrap_or_default(),
        values().max().unwrap_or_default(),
    ]
}

/// A mark as it is ordered: by value, then low before high, then the smaller place.
type Mark = (Number, usize, usize);

fn own_marks(place: usize, corners: &[Point], axis: usize) -> [Mark; 2] {
    let [low, high] = extent(corners, axis);
    [(low, 0, place), (high, 1, place)]
}

/// On some axis a high plus the gap is below the other's low. No mark is widened.
fn boxes_apart(gap: Number, first: &[Point], second: &[Point]) -> bool {
    (0..3).any(|axis| {
        let [first_low, first_high] = extent(first, axis);
        let [second_low, second_high] = extent(second, axis);
        first_high + gap < second_low || second_high + gap < first_low
    })
}

/// What a desk row must be: 0 where the boxes are apart, else the verdict; the first is at the lower place.
pub fn right_row(gap: Number, first: &[Point], second: &[Point]) -> Number {
    if boxes_apart(gap, first, second) {
        0
    } else {
        decide(gap, first, second).0.number()
    }
}

impl Desk {
    pub fn cell(&self, part: Part, cell: usize) -> Number {
        self.parts[part as usize][cell]
    }

    pub fn part(&self, part: Part) -> &[Number] {
        &self.parts[part as usize]
    }

    pub fn put(&mut self, part: Part, cell: usize, value: Number) {
        self.parts[part as usize][cell] = value;
    }

    /// No shapes, places or rows, tallies and gap 0, every mark 65,535. Cells that now mean nothing stay.
    fn clear(&mut self) {
        for shape in 0..SHAPES {
            self.put(Part::Shapes, count_cell(shape), 0);
        }
        for place in 0..PLACES {
            self.put(Part::Places, held_cell(place), 0);
        }
        self.parts[Part::Rows as usize].fill(NO_ROW);
        self.parts[Part::Book as usize].fill(0);
        self.parts[Part::Marks as usize][..MARKS].fill(NO_MARK);
    }

    /// What the cell of a shape's count says, in range or not.
    pub fn count(&self, shape: usize) -> Number {
        self.cell(Part::Shapes, count_cell(shape))
    }

    pub fn loaded(&self, shape: usize) -> bool {
        self.count(shape) != 0
    }

    fn held(&self, place: usize) -> Number {
        self.cell(Part::Places, held_cell(place))
    }

    fn turn(&self, place: usize) -> Number {
        self.cell(Part::Places, turn_cell(place))
    }

    pub fn taken(&self, place: usize) -> bool {
        self.held(place) != 0
    }

    pub fn taken_places(&self) -> Vec<usize> {
        (0..PLACES).filter(|&place| self.taken(place)).collect()
    }

    /// The numbers of a shape whose count is in range.
    fn shape_numbers(&self, shape: usize) -> &[Number] {
        let end = number_cell(shape, 3 * self.count(shape) as usize);
        &self.part(Part::Shapes)[number_cell(shape, 0)..end]
    }

    /// The corners of a shape, turned and moved.
    fn placed(&self, shape: usize, turn: usize, offset: Point) -> Vec<Point> {
        points(self.shape_numbers(shape))
            .into_iter()
            .map(|corner| plus(turned(turn, corner), offset))
            .collect()
    }

    /// The placed corners of a taken place whose numbers are in range.
    pub fn piece(&self, place: usize) -> Vec<Point> {
        let shape = self.held(place) - 1;
        self.placed(
            shape as usize,
            self.turn(place) as usize,
            self.offset(place),
        )
    }

    pub fn offset(&self, place: usize) -> Point {
        [0, 1, 2].map(|axis| self.cell(Part::Places, offset_cell(place, axis)))
    }

    fn shapes_in_range(&self) -> bool {
        (0..SHAPES).all(|shape| {
            (0..=CORNERS as Number).contains(&self.count(shape))
                && !beyond(self.shape_numbers(shape), NUMBER_LIMIT)
        })
    }

    fn places_in_range(&self) -> bool {
        self.taken_places().into_iter().all(|place| {
            let shape = index(self.held(place) - 1, SHAPES);
            shape.is_some_and(|shape| self.loaded(shape))
                && (0..TURNS).contains(&self.turn(place))
                && !beyond(&self.offset(place), NUMBER_LIMIT)
        })
    }

    /// The marks buffer as it must be: on each axis the sorted marks, then the tail.
    fn right_marks(&self) -> Vec<Number> {
        let pieces: Vec<(usize, Vec<Point>)> = self
            .taken_places()
            .into_iter()
            .map(|place| (place, self.piece(place)))
            .collect();
        let mut all = Vec::with_capacity(MARKS);
        for axis in 0..3 {
            let own = |(place, corners): &(usize, Vec<Point>)| own_marks(*place, corners, axis);
            let mut marks: Vec<Mark> = pieces.iter().flat_map(own).collect();
            marks.sort_unstable();
            all.extend(
                marks
                    .iter()
                    .map(|&(_, high, place)| (2 * place + high) as Number),
            );
            all.resize((axis + 1) * AXIS_MARKS, NO_MARK);
        }
        all
    }

    fn rows_where_they_belong(&self) -> bool {
        (0..PLACES * PLACES).all(|cell| {
            let (low, high) = (cell / PLACES, cell % PLACES);
            let row = self.cell(Part::Rows, cell);
            if low < high && self.taken(low) && self.taken(high) {
                row < TALLIES as Number
            } else {
                row == NO_ROW
            }
        })
    }

    /// What the cell of the gap says, in range or not.
    pub fn gap(&self) -> Number {
        self.cell(Part::Book, GAP_CELL)
    }

    /// The book as it must be: the tallies, the gap that it has, and 0 everywhere else.
    fn right_book(&self) -> Vec<Number> {
        let mut book = vec![0; Part::Book.cells()];
        book[GAP_CELL] = self.gap();
        for &row in self.part(Part::Rows) {
            if let Some(verdict) = index(row, TALLIES) {
                book[verdict] += 1;
            }
        }
        book
    }

    /// Document 01's "in order", with the length of the lent marks and W6's range of the gap.
    pub fn in_order(&self) -> bool {
        self.lent == MARKS
            && self.shapes_in_range()
            && self.places_in_range()
            && self.rows_where_they_belong()
            && self.part(Part::Book) == self.right_book()
            && !bad_gap(self.gap())
            && self.part(Part::Marks)[..MARKS] == self.right_marks()
    }

    fn ordered(&self) -> Result<(), Number> {
        lowest(&[(DISORDER, !self.in_order())])
    }

    /// Every pair of taken places with its row, in rising order; refused where not in order.
    pub fn rows(&self) -> Result<Vec<Row>, Number> {
        self.ordered()?;
        let taken = self.taken_places();
        let mut rows = Vec::new();
        for (k, &low) in taken.iter().enumerate() {
            for &high in &taken[k + 1..] {
                rows.push((low, high, self.cell(Part::Rows, low * PLACES + high)));
            }
        }
        Ok(rows)
    }

    pub fn tallies(&self) -> Result<Vec<Number>, Number> {
        self.ordered()?;
        Ok(self.part(Part::Book)[..TALLIES].to_vec())
    }

    pub fn marks(&self) -> Result<Vec<Number>, Number> {
        self.ordered()?;
        Ok(self.part(Part::Marks)[..MARKS].to_vec())
    }

    /// Rows 2 and 3, for room of so many cells.
    pub fn contacts(&self, room: usize) -> Result<Vec<Row>, Number> {
        let mut rows = self.rows()?;
        rows.retain(|&(_, _, verdict)| verdict >= 2);
        lowest(&[(SHORT_ROOM, room < 3 * rows.len())])?;
        Ok(rows)
    }

    pub fn start_afresh(&mut self) -> Result<(), Number> {
        lowest(&[(DISORDER, self.lent != MARKS)])?;
        self.clear();
        Ok(())
    }

    pub fn load(&mut self, shape: Number, numbers: &[Number]) -> Result<(), Number> {
        self.ordered()?;
        let known = index(shape, SHAPES);
        lowest(&[
            (SHAPE_NUMBER, known.is_none()),
            (LIST_LENGTH, bad_length(numbers)),
            (CORNER_RANGE, beyond(numbers, NUMBER_LIMIT)),
            (ALREADY_LOADED, known.is_some_and(|s| self.loaded(s))),
        ])?;
        let shape = known.unwrap_or_default();
        let count = (numbers.len() / 3) as Number;
        self.put(Part::Shapes, count_cell(shape), count);
        for (k, &number) in numbers.iter().enumerate() {
            self.put(Part::Shapes, number_cell(shape, k), number);
        }
        Ok(())
    }

    /// The corners of a loaded shape.
    pub fn shape(&self, shape: Number) -> Result<Vec<Point>, Number> {
        self.ordered()?;
        let known = index(shape, SHAPES);
        lowest(&[
            (SHAPE_NUMBER, known.is_none()),
            (NOT_LOADED, known.is_some_and(|s| !self.loaded(s))),
        ])?;
        Ok(points(self.shape_numbers(known.unwrap_or_default())))
    }

    fn placing_refusals(turn: Number, offset: Point) -> [(Number, bool); 2] {
        [
            (TURN_NUMBER, !(0..TURNS).contains(&turn)),
            (OFFSET_RANGE, beyond(&offset, NUMBER_LIMIT)),
        ]
    }

    pub fn place(
        &mut self,
        place: Number,
        shape: Number,
        turn: Number,
        offset: Point,
    ) -> Result<(), Number> {
        self.ordered()?;
        let known = index(place, PLACES);
        let shape_known = index(shape, SHAPES);
        let [bad_turn, bad_offset] = Desk::placing_refusals(turn, offset);
        lowest(&[
            (SHAPE_NUMBER, shape_known.is_none()),
            (NOT_LOADED, shape_known.is_some_and(|s| !self.loaded(s))),
            (PLACE_NUMBER, known.is_none()),
            (ALREADY_TAKEN, known.is_some_and(|p| self.taken(p))),
            bad_turn,
            bad_offset,
        ])?;
        let place = known.unwrap_or_default();
        self.put(Part::Places, held_cell(place), shape + 1);
        self.put_down(place, turn, offset);
        Ok(())
    }

    pub fn shift(&mut self, place: Number, turn: Number, offset: Point) -> Result<Number, Number> {
        self.ordered()?;
        let known = index(place, PLACES);
        let [bad_turn, bad_offset] = Desk::placing_refusals(turn, offset);
        lowest(&[
            (PLACE_NUMBER, known.is_none()),
            (PLACE_EMPTY, known.is_some_and(|p| !self.taken(p))),
            bad_turn,
            bad_offset,
        ])?;
        let place = known.unwrap_or_default();
        let before = self.piece(place);
        self.put_down(place, turn, offset);
        Ok(self.changed_orders(place, &before, &self.piece(place)))
    }

    pub fn remove(&mut self, place: Number) -> Result<(), Number> {
        self.ordered()?;
        let known = index(place, PLACES);
        lowest(&[
            (PLACE_NUMBER, known.is_none()),
            (PLACE_EMPTY, known.is_some_and(|p| !self.taken(p))),
        ])?;
        let place = known.unwrap_or_default();
        self.put(Part::Places, held_cell(place), 0);
        for other in 0..PLACES {
            self.put_row(place, other, NO_ROW);
        }
        self.keep_order();
        Ok(())
    }

    /// Sets the gap, while no place is taken; nothing else changes.
    pub fn set_gap(&mut self, gap: Number) -> Result<(), Number> {
        self.ordered()?;
        let in_use = (0..PLACES).any(|place| self.taken(place));
        lowest(&[(GAP_REFUSED, bad_gap(gap) || in_use)])?;
        self.put(Part::Book, GAP_CELL, gap);
        Ok(())
    }

    /// The placed corners of two different taken places.
    pub fn pair(&self, first: Number, second: Number) -> Result<(Vec<Point>, Vec<Point>), Number> {
        self.ordered()?;
        let known = [first, second].map(|place| index(place, PLACES));
        let empty = |place: &Option<usize>| place.is_some_and(|p| !self.taken(p));
        lowest(&[
            (PLACE_NUMBER, known.contains(&None)),
            (PLACE_EMPTY, known.iter().any(empty)),
            (SAME_PLACE, first == second),
        ])?;
        let [first, second] = known.map(|place| self.piece(place.unwrap_or_default()));
        Ok((first, second))
    }

    fn put_row(&mut self, place: usize, other: usize, verdict: Number) {
        let (low, high) = (place.min(other), place.max(other));
        self.put(Part::Rows, low * PLACES + high, verdict);
    }

    /// Stores turn and offset of a taken place, and works out its rows, the tallies and the marks.
    fn put_down(&mut self, place: usize, turn: Number, offset: Point) {
        self.put(Part::Places, turn_cell(place), turn);
        for (axis, &number) in offset.iter().enumerate() {
            self.put(Part::Places, offset_cell(place, axis), number);
        }
        for other in self.taken_places() {
            if other != place {
                let [low, high] = [place.min(other), place.max(other)].map(|p| self.piece(p));
                let row = right_row(self.gap(), &low, &high);
                self.put_row(place, other, row);
            }
        }
        self.keep_order();
    }

    fn keep_order(&mut self) {
        self.parts[Part::Book as usize] = self.right_book();
        let marks = self.right_marks();
        self.parts[Part::Marks as usize][..MARKS].copy_from_slice(&marks);
    }

    /// Over the three axes, the pairs (own mark, other's mark) whose order differs.
    fn changed_orders(&self, place: usize, before: &[Point], after: &[Point]) -> Number {
        let mut count = 0;
        for other in self.taken_places().into_iter().filter(|&p| p != place) {
            let others = self.piece(other);
            for axis in 0..3 {
                let old = own_marks(place, before, axis);
                let new = own_marks(place, after, axis);
                for theirs in own_marks(other, &others, axis) {
                    count += Number::from((old[0] < theirs) != (new[0] < theirs));
                    count += Number::from((old[1] < theirs) != (new[1] < theirs));
                }
            }
        }
        count
    }
}
