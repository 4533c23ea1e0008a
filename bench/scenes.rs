//! What is measured: shapes, where they stand, and how they are nudged. One seed makes all of it, so every run has the same.

use crate::desk::Placement;
use crate::limits::*;

/// How many nudges a pass has.
const NUDGES: usize = 10_000;
/// A piece's width, and the space between two in a row, in steps: 40 mm and 3 mm.
pub const WIDTH: i32 = 40 * STEPS;
const SPACE: i32 = 3 * STEPS;
const COLUMNS: i32 = 8;

/// Numbers that look random: xorshift, with 64 bits of state.
pub struct Random(u64);

impl Random {
    pub fn new() -> Random {
        Random(88_172_645_463_325_252)
    }

    /// One of 0 to n − 1.
    pub fn below(&mut self, n: i32) -> i32 {
        self.0 ^= self.0 << 13;
        self.0 ^= self.0 >> 7;
        self.0 ^= self.0 << 17;
        ((self.0 >> 32) % n as u64) as i32
    }

    /// One of −n to n.
    pub fn about(&mut self, n: i32) -> i32 {
        self.below(2 * n + 1) - n
    }
}

pub struct Scene {
    pub name: &'static str,
    pub places: usize,
    pub corners: usize,
    pub shapes: Vec<Vec<i32>>,
    pub pieces: Vec<Placement>,
    pub nudges: Vec<Placement>,
}

/// Every scene that is measured: 8, 16, 32, .. places up to all of them; 8 corners, 32, and as many as a shape may have.
pub fn all() -> Vec<Scene> {
    let mut corners = vec![8, 32, CORNERS];
    corners.dedup();
    let places: Vec<usize> = (3..).map(|k| 1 << k).take_while(|n| *n <= PLACES).collect();
    let mut scenes = Vec::new();
    for n in &corners {
        scenes.extend(places.iter().map(|p| in_rows(*p, *n)));
    }
    scenes.extend(corners.iter().map(|n| crowded(PLACES, *n)));
    scenes
}

/// Boxes in rows, with space between them: no nudge brings two boxes together.
fn in_rows(places: usize, corners: usize) -> Scene {
    let pieces: Vec<Placement> = (0..places)
        .map(|place| standing(place, 0, 0, WIDTH + SPACE))
        .collect();
    let shapes = vec![cuboid([WIDTH; 3], corners)];
    // Two numbers below 90 steps: a nudge is under 90·√2 steps, which is under 2 mm.
    let nudges = nudges(&pieces, |random| random.below(90));
    Scene {
        name: "rows",
        places,
        corners,
        shapes,
        pieces,
        nudges,
    }
}

/// Boxes and round pieces side by side: they touch, and nudges make them overlap.
fn crowded(places: usize, corners: usize) -> Scene {
    let mut random = Random::new();
    let shapes = vec![
        cuboid([WIDTH; 3], corners),
        round(WIDTH / 2, corners, &mut random),
    ];
    let pieces: Vec<Placement> = (0..places)
        .map(|place| {
            let shape = i32::from(random.below(3) == 0);
            // A box stands on its own corner, a round piece on its middle; only the round one is turned.
            let mut piece = standing(place, shape, shape * random.below(TURNS as i32), WIDTH);
            piece.offset = piece.offset.map(|number| number + shape * WIDTH / 2);
            piece
        })
        .collect();
    // Three numbers alone, so that faces meet again and again: 0, 30 or 60 steps.
    let nudges = nudges(&pieces, |random| 30 * random.below(3));
    Scene {
        name: "crowded",
        places,
        corners,
        shapes,
        pieces,
        nudges,
    }
}

fn standing(place: usize, shape: i32, turn: i32, pitch: i32) -> Placement {
    let at = place as i32;
    let middle = pitch * COLUMNS / 2;
    let offset = [
        at % COLUMNS * pitch - middle,
        at / COLUMNS * pitch - middle,
        0,
    ];
    Placement {
        place,
        shape,
        turn,
        offset,
    }
}

/// Each takes one piece to somewhere beside where it stood at first; heights stay.
fn nudges(pieces: &[Placement], mut by: impl FnMut(&mut Random) -> i32) -> Vec<Placement> {
    let mut random = Random::new();
    let mut nudge = |_| {
        let mut moved = pieces[random.below(pieces.len() as i32) as usize];
        moved.offset[0] += by(&mut random);
        moved.offset[1] += by(&mut random);
        moved
    };
    (0..NUDGES).map(&mut nudge).collect()
}

/// A box from the origin: its eight corners, and as many points on its edges as are still wanted, no two the same.
pub fn cuboid(size: [i32; 3], corners: usize) -> Vec<i32> {
    let mut numbers = Vec::new();
    for corner in 0..8 {
        numbers.extend([0, 1, 2].map(|axis| size[axis] * (corner >> axis & 1)));
    }
    let edges = 12;
    let parts = (corners as i32 - 8) / edges + 2;
    for point in 0..corners as i32 - 8 {
        let (edge, part) = (point % edges, point / edges + 1);
        let along = (edge / 4) as usize;
        let mut at = [0; 3];
        at[along] = size[along] * part / parts;
        at[(along + 1) % 3] = size[(along + 1) % 3] * (edge & 1);
        at[(along + 2) % 3] = size[(along + 2) % 3] * (edge >> 1 & 1);
        numbers.extend(at);
    }
    numbers
}

/// Points near a ball's surface, about its middle, one on each side of each axis among them.
pub fn round(radius: i32, corners: usize, random: &mut Random) -> Vec<i32> {
    let mut numbers = vec![radius, 0, 0, 0, radius, 0, 0, 0, radius];
    numbers.extend([-radius, 0, 0, 0, -radius, 0, 0, 0, -radius]);
    while numbers.len() < 3 * corners {
        let at = [0; 3].map(|_| f64::from(random.about(1000)));
        let length = at.iter().map(|x| x * x).sum::<f64>().sqrt();
        if length > 1.0 {
            numbers.extend(at.map(|x| (x / length * f64::from(radius)) as i32));
        }
    }
    numbers
}
