//! Files as the scanner writes them: header, count, triangles. The count can lie.
//! What a reader must not look at (header, normals, attributes) holds what would mislead it.

use crate::point::Number;

/// Whole steps as the pattern of a float; beyond what can be shown, the pattern of zero.
pub fn pattern(steps: Number) -> u32 {
    crate::floats::shown(steps).unwrap_or_default()
}

/// A corner of whole steps.
pub fn corner(x: Number, y: Number, z: Number) -> [u32; 3] {
    [x, y, z].map(pattern)
}

/// So many corners, no two of them equal.
pub fn row(count: usize) -> Vec<[u32; 3]> {
    let along = |k: usize| (k as Number, 7 * (k % 5) as Number);
    (0..count)
        .map(|k| corner(64 * along(k).0, along(k).1, -along(k).0))
        .collect()
}

/// A file of these corners, three to a triangle; where they are fewer, the last is repeated.
pub fn file(corners: &[[u32; 3]]) -> Vec<u8> {
    counting(corners.len().div_ceil(3) as u32, corners)
}

/// The same with another count.
pub fn counting(count: u32, corners: &[[u32; 3]]) -> Vec<u8> {
    // Many readers take a file that begins with `solid` for text; normals are no numbers.
    let mut file = vec![b' '; 80];
    file[..5].copy_from_slice(b"solid");
    file.extend(count.to_le_bytes());
    for triangle in corners.chunks(3) {
        file.extend([0xff; 12]);
        for k in 0..3 {
            let corner = triangle[k.min(triangle.len() - 1)];
            file.extend(corner.iter().flat_map(|word| word.to_le_bytes()));
        }
        file.extend([0xff; 2]);
    }
    file
}

/// The bytes in hex, `-` for none.
pub fn hex(file: &[u8]) -> String {
    if file.is_empty() {
        return String::from("-");
    }
    file.iter().map(|byte| format!("{byte:02x}")).collect()
}
