//! Binary STL as request W2 has it: the corners of a whole file, each once, and a single step through it.
//! The file is cut into its records first, all of them; only then are their floats looked at.

use crate::desk::CORNERS;
use crate::floats::three_steps;
use crate::point::{Number, Point};
use crate::refusals::{first, FILE_LENGTH, MANY_CORNERS, NO_TRIANGLES, SHORT_ROOM};

const HEADER: usize = 80;
/// Where the first triangle starts: behind the header and the count.
pub const FIRST: usize = HEADER + 4;
/// A normal, three corners, an attribute.
pub const TRIANGLE: usize = 12 + 36 + 2;

/// The bit patterns of a triangle's corners.
type Patterns = [[u32; 3]; 3];

fn word(bytes: &[u8]) -> u32 {
    bytes
        .iter()
        .rev()
        .fold(0, |sum, &byte| sum << 8 | u32::from(byte))
}

fn patterns(record: &[u8]) -> Patterns {
    let at = |corner: usize, axis: usize| 12 + 12 * corner + 4 * axis;
    [0, 1, 2]
        .map(|corner| [0, 1, 2].map(|axis| word(&record[at(corner, axis)..at(corner, axis) + 4])))
}

/// The triangles of a file, or 21, or 22.
fn triangles(file: &[u8]) -> Result<Vec<Patterns>, Number> {
    let Some((head, records)) = file.split_at_checked(FIRST) else {
        return Err(FILE_LENGTH);
    };
    let count = Number::from(word(&head[HEADER..]));
    let triangles: Vec<Patterns> = records.chunks_exact(TRIANGLE).map(patterns).collect();
    let whole = records.len().is_multiple_of(TRIANGLE) && triangles.len() as Number == count;
    first(&[(FILE_LENGTH, !whole), (NO_TRIANGLES, count == 0)])?;
    Ok(triangles)
}

/// All corners in steps, or the lowest refusal over all of them.
fn in_steps(corners: &[[u32; 3]]) -> Result<Vec<Point>, Number> {
    let read: Vec<Result<Point, Number>> = corners.iter().map(|&c| three_steps(c)).collect();
    match read.iter().filter_map(|corner| corner.err()).min() {
        Some(number) => Err(number),
        None => Ok(read.into_iter().flatten().collect()),
    }
}

/// The numbers of a file's distinct corners in order of first appearance, written to room of so many cells.
pub fn corners(file: &[u8], room: usize) -> Result<Vec<Number>, Number> {
    let mut distinct = Vec::new();
    for corner in in_steps(&triangles(file)?.concat())? {
        if !distinct.contains(&corner) {
            distinct.push(corner);
        }
    }
    first(&[
        (MANY_CORNERS, distinct.len() > CORNERS),
        (SHORT_ROOM, room < 3 * distinct.len()),
    ])?;
    Ok(distinct.concat())
}

/// The nine numbers of the triangle that starts at a position, and the position behind it; `None` where none starts.
pub fn step(file: &[u8], at: usize) -> Result<Option<[Number; 10]>, Number> {
    let triangles = triangles(file)?;
    let starts = (FIRST..file.len()).step_by(TRIANGLE);
    let Some((_, triangle)) = starts.zip(triangles).find(|(start, _)| *start == at) else {
        return Ok(None);
    };
    let mut answer = [(at + TRIANGLE) as Number; 10];
    answer[..9].copy_from_slice(&in_steps(&triangle)?.concat());
    Ok(Some(answer))
}

#[cfg(test)]
mod tests {
    use super::*;

    const NAN: f32 = f32::NAN;

    /// A file of these corners, three to a triangle, with a count that may lie.
    fn file(count: u32, corners: &[[f32; 3]]) -> Vec<u8> {
        let mut bytes = vec![b's'; HEADER];
        bytes.extend(count.to_le_bytes());
        for triangle in corners.chunks(3) {
            bytes.extend([0xff; 12]);
            bytes.extend(triangle.as_flattened().iter().flat_map(|f| f.to_le_bytes()));
            bytes.extend([0xff; 2]);
        }
        bytes
    }

    fn row(count: usize) -> Vec<[f32; 3]> {
        (0..count).map(|k| [k as f32, 0.0, 0.0]).collect()
    }

    #[test]
    fn lengths_and_counts() {
        let good = file(1, &row(3));
        assert_eq!(good.len(), 134);
        assert_eq!(corners(&good, 9), Ok(vec![0, 0, 0, 64, 0, 0, 128, 0, 0]));
        for length in 0..134 {
            assert_eq!(corners(&good[..length], 9), Err(21), "{length}");
        }
        assert_eq!(corners(&[&good[..], &[0]].concat(), 9), Err(21));
        for count in [0, 2, 0x0100_0001, u32::MAX] {
            assert_eq!(corners(&file(count, &row(3)), 9), Err(21), "{count}");
        }
        assert_eq!(corners(&file(0, &[]), 9), Err(22));
        assert_eq!(step(&file(0, &[]), 84), Err(22));
        assert_eq!(step(&good[..133], 84), Err(21));
    }

    #[test]
    fn the_order_of_refusals() {
        let mut many = row(3 * CORNERS);
        assert_eq!(corners(&file(CORNERS as u32, &many), 0), Err(23));
        many[0][1] = 2000.0;
        assert_eq!(corners(&file(CORNERS as u32, &many), 0), Err(18));
        many[1][2] = 0.1;
        assert_eq!(corners(&file(CORNERS as u32, &many), 0), Err(17));
        many[3 * CORNERS - 1][0] = NAN;
        assert_eq!(corners(&file(CORNERS as u32, &many), 0), Err(16));
        assert_eq!(corners(&file(CORNERS as u32 + 1, &many), 0), Err(21));
        assert_eq!(corners(&file(1, &row(3)), 8), Err(13));
    }

    #[test]
    fn corners_are_kept_once_by_their_steps() {
        let one = [-0.0, 0.0, 1.0];
        let same = [0.0, -0.0, 1.0];
        let other = [1.0, 0.0, 0.0];
        let of = |corners: &[[f32; 3]]| super::corners(&file(2, corners), 99);
        assert_eq!(
            of(&[one, other, same, other, one, same]),
            Ok(vec![0, 0, 64, 64, 0, 0])
        );
        assert_eq!(of(&[same; 6]), Ok(vec![0, 0, 64]));
    }

    #[test]
    fn single_steps() {
        let mut two = row(6);
        let bytes = file(2, &two);
        assert_eq!(
            step(&bytes, 84),
            Ok(Some([0, 0, 0, 64, 0, 0, 128, 0, 0, 134]))
        );
        assert_eq!(
            step(&bytes, 134),
            Ok(Some([192, 0, 0, 256, 0, 0, 320, 0, 0, 184]))
        );
        for at in (0..300).filter(|at| ![84, 134].contains(at)) {
            assert_eq!(step(&bytes, at), Ok(None), "{at}");
        }
        two[5][2] = NAN;
        two[4][0] = 0.1;
        let bytes = file(2, &two);
        assert_eq!(step(&bytes, 134), Err(16));
        assert_eq!(step(&bytes, 135), Ok(None));
        assert!(step(&bytes, 84).is_ok_and(|found| found.is_some()));
    }
}
