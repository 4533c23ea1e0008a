//! The fixed script of document 01's bench pieces, with each case named in a comment before it;
//! then source 002's boxes, and every text of up to three bytes over the bench alphabet.

const PIECES: &str = "\
# B is the box 64, 64, 64 steps; T the corner piece 64, 64, 64; P a single point at (0,0,0).
fresh
load 0 0 0 0 0 0 64 0 64 0 0 64 64 64 0 0 64 0 64 64 64 0 64 64 64
load 1 0 0 0 64 0 0 0 64 0 0 0 64
load 2 0 0 0
# Segments: (-10,0,0) to (10,0,0), and (0,-10,0) to (0,10,0).
load 3 -10 0 0 10 0 0
load 4 0 -10 0 0 10 0
# B at 0, B at (64,0,0): touching.
place 0 0 0 0 0 0
place 1 0 0 64 0 0
pair 0 1
pair 1 0
rows
# At (63,0,0): penetrating.
move 1 0 63 0 0
pair 0 1
rows
# At (65,0,0): row 0, verdict separate.
move 1 0 65 0 0
pair 0 1
rows
contacts
# B at (64,64,64): touching.
move 1 0 64 64 64
pair 0 1
rows
tallies
# T at 0, P at (22,21,21): touching.
fresh
load 1 0 0 0 64 0 0 0 64 0 0 0 64
load 2 0 0 0
place 0 1 0 0 0 0
place 1 2 0 22 21 21
pair 0 1
rows
# At (21,21,21): penetrating.
move 1 0 21 21 21
pair 0 1
rows
# At (22,21,22): separate by (1,1,1), though the boxes overlap.
move 1 0 22 21 22
pair 0 1
rows
# P on P: penetrating (W5). P at (0,0,1): separate.
place 2 2 0 22 21 22
pair 1 2
rows
move 2 0 22 21 23
pair 1 2
rows
lists 0 3 0 0 0 3 0 0 0
lists 0 3 0 0 0 3 0 0 1
# Segments crossed at z = 0: penetrating (W5); the second raised to z = 1: separate.
lists 0 6 -10 0 0 10 0 0 6 0 -10 0 0 10 0
lists 0 6 -10 0 0 10 0 0 6 0 -10 1 0 10 1
fresh
load 3 -10 0 0 10 0 0
load 4 0 -10 0 0 10 0
place 0 3 0 0 0 0
place 1 4 0 0 0 0
pair 0 1
rows
move 1 0 0 0 1
pair 0 1
rows
# Places 0, 1, 2 hold B at x = 0, 64, 32: 0 1 2, 0 2 3, 1 2 3.
fresh
load 0 0 0 0 0 0 64 0 64 0 0 64 64 64 0 0 64 0 64 64 64 0 64 64 64
place 0 0 0 0 0 0
place 1 0 0 64 0 0
place 2 0 0 32 0 0
contacts
rows
tallies
marks
report
# Move place 2 to x = 128: count 3, listing 0 1 2, 1 2 2.
move 2 0 128 0 0
contacts
rows
tallies
marks
report
# Turn 21 sends (x, y, z) to (-y, x, z).
remove 1
remove 2
load 5 1 2 3
place 1 5 21 0 0 0
lists 0 3 -2 1 3 3 -2 1 3
marks
# Source 002: A x 0..2 y 1..5, B x 3..5 y 4..6, C x 1..4 y 0..2, D x 6..7 y 3..7: only AC is left.
fresh
load 0 0 64 0 0 64 64 0 320 0 0 320 64 128 64 0 128 64 64 128 320 0 128 320 64
load 1 192 256 0 192 256 64 192 384 0 192 384 64 320 256 0 320 256 64 320 384 0 320 384 64
load 2 64 0 0 64 0 64 64 128 0 64 128 64 256 0 0 256 0 64 256 128 0 256 128 64
load 3 384 192 0 384 192 64 384 448 0 384 448 64 448 192 0 448 192 64 448 448 0 448 448 64
place 0 0 0 0 0 0
place 1 1 0 0 0 0
place 2 2 0 0 0 0
place 3 3 0 0 0 0
contacts
rows
tallies
marks
report
# A gap (W6): B at 0, B at (65,0,0), (66,0,0) and (67,0,0) with a gap of 2: penetrating, touching, row 0; then with none.
fresh
load 0 0 0 0 0 0 64 0 64 0 0 64 64 64 0 0 64 0 64 64 64 0 64 64 64
gap 2
place 0 0 0 0 0 0
place 1 0 0 65 0 0
pair 0 1
pair 1 0
rows
move 1 0 66 0 0
pair 0 1
pair 1 0
rows
move 1 0 67 0 0
pair 0 1
rows
marks
gap 0
remove 0
remove 1
gap 0
place 0 0 0 0 0 0
place 1 0 0 65 0 0
rows
# T at 0, P at (24,23,23) with a gap of 2: touching. At (23,23,23): penetrating. At (24,23,24): separate by (1,1,1). P on P: penetrating.
lists 2 12 0 0 0 64 0 0 0 64 0 0 0 64 3 24 23 23
lists 2 12 0 0 0 64 0 0 0 64 0 0 0 64 3 23 23 23
lists 2 12 0 0 0 64 0 0 0 64 0 0 0 64 3 24 23 24
lists 2 3 24 23 23 12 0 0 0 64 0 0 0 64 0 0 0 64
lists 2 3 0 0 0 3 0 0 0
# Typed lengths.
length 1,5
length 1.5
length 15
length 0,1
length 0,01
length 0001,5
length 1024
length 1024,01
length 1.500
length 1,
length ,5
length
length 00001
# Floats: 1.5, 0.1, 2000.0.
scan 3fc00000 00000000 80000000
scan 3dcccccd 00000000 00000000
scan 44fa0000 00000000 00000000
# Every class: payloads, infinities, subnormals, the largest finite, one ulp off a step.
scan 7fc00001 00000000 00000000
scan 00000000 ff800000 44fa0000
scan 00000001 00000000 44fa0000
scan 807fffff 7f800001 00000000
scan 7f7fffff 00000000 00000000
scan 3fc00001 00000000 00000000
scan 44800000 c4800000 3c800000
scan 44800001 00000000 00000000
scan 44800800 00000000 00000000
show 0
show 96
show -1
show 131072
show -131072
show 131073
show -2147483648
blank box 3f800000 40000000 40400000
blank wedge 3f800000 40000000 40400000
blank corner 3f800000 40000000 40400000
blank corner 3f800000 00000000 40400000
blank corner 3f800000 c4fa0000 80000000
room 23
blank box 3f800000 40000000 40400000
room 24
blank box 3f800000 40000000 40400000
room 32768
# Menu lines: translated, empty, missing, missing in both.
line 0 4c616465 4c6f6164
line 0 0a53 4c6f61640a506c
line 1 4c 4c6f61640a506c
line 5 4c 4c6f61640a506c
line 0 - -
";

const ALPHABET: &[u8] = b"019,.- ";

/// The script of the bench.
pub fn script() -> Vec<u8> {
    let mut script = PIECES.as_bytes().to_vec();
    script.extend(b"# Every text of up to three bytes over 0 1 9 , . - and space.\n");
    let mut texts: Vec<Vec<u8>> = vec![Vec::new()];
    for _ in 0..3 {
        for text in &texts.clone() {
            for &byte in ALPHABET {
                let mut longer = text.clone();
                longer.push(byte);
                texts.push(longer);
            }
        }
        texts.sort();
        texts.dedup();
    }
    for text in texts {
        script.extend(b"length ");
        script.extend(text);
        script.push(10);
    }
    script
}
