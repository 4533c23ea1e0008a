//! ASCII OFF as request W7 has it: a text becomes the corners of a shape, and a shape becomes a text.
//! Comments go first, then the text is cut into words, all of them; counts are compared as texts of digits, so none is too long.

use crate::desk::CORNERS;
use crate::point::{Number, Point};
use crate::refusals::{
    first, BAD_TEXT, COMMA, MANY_CORNERS, NOT_WHOLE, NO_TRIANGLES, NUMBER_RANGE, SHORT_ROOM,
};

/// A number has so many digits behind its point at most; as many has one step, 0.015625.
const DECIMALS: usize = 6;
const MILLION: Number = 1_000_000;
const STEPS: Number = 64;
/// The range of a shape's numbers, in millimetres.
const REACH: Number = 1_024;
/// A number beyond the range in any case, in the place of one that is too long to be worked out.
const FAR: Number = MILLION;

/// The text without its comments, each from a `#` up to byte 10, which stays, or to the end.
fn outside_comments(text: &[u8]) -> Vec<u8> {
    let mut kept = Vec::new();
    for line in text.split_inclusive(|&byte| byte == 10) {
        match line.iter().position(|&byte| byte == b'#') {
            Some(at) => {
                kept.extend(&line[..at]);
                kept.extend(line.iter().filter(|&&byte| byte == 10));
            }
            None => kept.extend(line),
        }
    }
    kept
}

fn words(text: &[u8]) -> Vec<&[u8]> {
    let words = text.split(|byte| [9, 10, 13, 32].contains(byte));
    words.filter(|word| !word.is_empty()).collect()
}

fn digits(word: &[u8]) -> bool {
    !word.is_empty() && word.iter().all(u8::is_ascii_digit)
}

/// What a word of digits says, or `most` where that is more; `None` where it is no such word.
fn up_to(most: usize, word: &[u8]) -> Option<usize> {
    let digit = |sum: usize, &byte: &u8| (10 * sum + usize::from(byte - b'0')).min(most);
    digits(word).then(|| word.iter().fold(0, digit))
}

/// A corner's number by its sign, its whole millimetres and the millionths behind the point.
#[derive(Clone, Copy, PartialEq, Eq, Debug)]
struct Decimal {
    sign: Number,
    whole: Number,
    millionths: Number,
}

impl Decimal {
    fn read(word: &[u8]) -> Option<Decimal> {
        let (sign, size) = match word.strip_prefix(b"-") {
            Some(size) => (-1, size),
            None => (1, word),
        };
        let mut parts = size.split(|&byte| byte == b'.');
        let whole = up_to(FAR as usize, parts.next()?)? as Number;
        let millionths = match parts.next() {
            None => 0,
            Some(part) if digits(part) && part.len() <= DECIMALS => {
                let filled = format!("{:0<DECIMALS$}", String::from_utf8_lossy(part));
                filled.parse().ok()?
            }
            Some(_) => return None,
        };
        parts.next().is_none().then_some(Decimal {
            sign,
            whole,
            millionths,
        })
    }

    /// A whole number of millimetres is always a whole number of steps.
    fn is_exact(self) -> bool {
        self.millionths * STEPS % MILLION == 0
    }

    fn is_beyond(self) -> bool {
        (self.whole, self.millionths) > (REACH, 0)
    }

    fn steps(self) -> Number {
        self.sign * (self.whole * STEPS + self.millionths * STEPS / MILLION)
    }
}

/// The numbers of all corners, where the words are those of an OFF text.
fn read(words: &[&[u8]]) -> Option<Vec<Decimal>> {
    let (&[off, corners, faces, edges], rest) = words.split_first_chunk::<4>()?;
    // A count of more than there are words cannot be kept, however large it is.
    let more = rest.len() + 1;
    let (corners, faces) = (up_to(more, corners)?, up_to(more, faces)?);
    if off != b"OFF" || !digits(edges) {
        return None;
    }
    let (numbers, mut rest) = rest.split_at_checked(3 * corners)?;
    let numbers: Option<Vec<Decimal>> = numbers.iter().map(|word| Decimal::read(word)).collect();
    for _ in 0..faces {
        let (count, behind) = rest.split_first()?;
        let (indices, behind) = behind.split_at_checked(up_to(more, count)?)?;
        let named = |word: &&[u8]| up_to(corners, word).is_some_and(|index| index < corners);
        if !indices.iter().all(named) {
            return None;
        }
        rest = behind;
    }
    numbers.filter(|_| rest.is_empty())
}

/// The numbers of a text's corners, as they come, written to room of so many cells.
pub fn corners(text: &[u8], room: usize) -> Result<Vec<Number>, Number> {
    let text = outside_comments(text);
    if text.contains(&b',') {
        return Err(COMMA);
    }
    let numbers = read(&words(&text)).ok_or(BAD_TEXT)?;
    first(&[
        (NOT_WHOLE, numbers.iter().any(|number| !number.is_exact())),
        (
            NUMBER_RANGE,
            numbers.iter().any(|number| number.is_beyond()),
        ),
        (NO_TRIANGLES, numbers.is_empty()),
        (MANY_CORNERS, numbers.len() > 3 * CORNERS),
        (SHORT_ROOM, room < numbers.len()),
    ])?;
    Ok(numbers.into_iter().map(Decimal::steps).collect())
}

/// Steps as the shortest decimal of their millimetres: what ends in zeros behind the point goes without them.
pub fn decimal(steps: Number) -> String {
    let millionths = steps.abs() * (MILLION / STEPS);
    let sign = if steps < 0 { "-" } else { "" };
    let long = format!("{sign}{}.{:06}", millionths / MILLION, millionths % MILLION);
    String::from(long.trim_end_matches('0').trim_end_matches('.'))
}

/// The text of a shape: its corners, a line each, and no faces.
pub fn text(corners: &[Point]) -> Vec<u8> {
    let mut text = format!("OFF\n{} 0 0\n", corners.len());
    for corner in corners {
        text += &(corner.map(decimal).join(" ") + "\n");
    }
    text.into_bytes()
}

#[cfg(test)]
mod tests {
    use super::*;

    fn of(text: &str) -> Result<Vec<Number>, Number> {
        corners(text.as_bytes(), 3 * CORNERS)
    }

    /// One corner, its x by this word.
    fn one(word: &str) -> Result<Number, Number> {
        of(&format!("OFF 1 0 0 {word} 0 0")).map(|numbers| numbers[0])
    }

    #[test]
    fn numbers_by_their_words() {
        let good = [
            ("0", 0),
            ("-0", 0),
            ("-0.000000", 0),
            ("1", 64),
            ("-1.5", -96),
            ("0.015625", 1),
            ("00000000000000000000000000000000000000007.25", 464),
            ("1024", 65_536),
            ("-1024.000000", -65_536),
            ("1023.984375", 65_535),
        ];
        for (word, steps) in good {
            assert_eq!(one(word), Ok(steps), "{word}");
        }
        for word in [
            "0.1",
            "0.015626",
            "0.0156",
            "123456789123456789123456789.1",
            "1024.000001",
        ] {
            assert_eq!(one(word), Err(17), "{word}");
        }
        for word in [
            "1024.015625",
            "-1025",
            "10240000000000000000000000000000000000000",
            "18446744073709551616",
        ] {
            assert_eq!(one(word), Err(18), "{word}");
        }
        for word in [
            "+1",
            ".5",
            "1.",
            "-",
            "-.5",
            "1e3",
            "1.0000000",
            "0.0156250",
            "1..5",
            "1.5.5",
            "--1",
            "1-",
            "0x1",
            "nan",
            "1\0",
            "\u{feff}1",
            "1_0",
            "-+1",
            ".",
            "1.-5",
        ] {
            assert_eq!(one(word), Err(26), "{word}");
        }
        assert_eq!(one("1,5"), Err(25));
    }

    #[test]
    fn the_layout() {
        let point = Ok(vec![0, 0, 0]);
        for text in [
            "OFF\n1 0 0\n0 0 0\n",
            "OFF 1 0 0 0 0 0",
            "\t\r\n OFF\r\n1\t0\r0\r\n0 0\t0\r\n\n",
            "#a, b\nOFF#, x\n1 0 0#\n#\n0 0 0 #",
            "OFF 1 0 999999999999999999999999999999999999 0 0 0",
            "OFF 0001 00 0 0 0 0",
            "OFF 1 1 0 0 0 0 3 0 0 0",
            "OFF 1 2 0 0 0 0 0 0",
            "OFF 1 1 0 0 0 0 01 00",
        ] {
            assert_eq!(of(text), point, "{text:?}");
        }
        for text in [
            "",
            " ",
            "#OFF",
            "OFF",
            "OFF 1 0",
            "OFF 1 0 0",
            "OFF 1 0 0 0 0",
            "OFF 1 0 0 0 0 0 0",
            "COFF 1 0 0 0 0 0",
            "STOFF 1 0 0 0 0 0",
            "off 1 0 0 0 0 0",
            "OFF1 0 0 0 0 0",
            "OFF -1 0 0",
            "OFF 1 0 -1 0 0 0",
            "OFF 1.0 0 0 0 0 0",
            "OFF 1 1 0 0 0 0",
            "OFF 1 1 0 0 0 0 1",
            "OFF 1 1 0 0 0 0 1 1",
            "OFF 1 1 0 0 0 0 1 -0",
            "OFF 1 1 0 0 0 0 1 0 0",
            "OFF 1 1 0 0 0 0 2 0",
            "OFF 1 1 0 0 0 0 1 0 255 0 0",
            "OFF 0 1 0 1 0",
            "OFF 18446744073709551617 0 0 0 0 0",
            "OFF 1 18446744073709551616 0 0 0 0",
            "OFF 1 1 0 0 0 0 36893488147419103233 0",
            "OFF 2 1 0 0 0 0 0 0 0 1 18446744073709551616",
            "OFF 1 0 x 0 0 0",
            "OFF 1 0 0 0 0 0\0",
            "OFF 1 0 0 0 0 0 x",
            "OFF 1 0 0 0\u{b}0 0",
            "\u{feff}OFF 1 0 0 0 0 0",
        ] {
            assert_eq!(of(text), Err(26), "{text:?}");
        }
        assert_eq!(
            of("OFF 2 1 0 1 2 3 1 2 3 2 1 0"),
            Ok(vec![64, 128, 192, 64, 128, 192])
        );
    }

    #[test]
    fn the_order_of_refusals() {
        let many = |last: &str| {
            format!(
                "OFF {0} 0 0{1} 0 0 {last}",
                CORNERS + 1,
                " 1 2 3".repeat(CORNERS)
            )
        };
        assert_eq!(corners(many("0").as_bytes(), 0), Err(23));
        assert_eq!(corners(many("2000").as_bytes(), 0), Err(18));
        assert_eq!(
            corners(many("0.1 #").replace(" 1 ", " 2000 ").as_bytes(), 0),
            Err(17)
        );
        assert_eq!(corners(many("0.1 x").as_bytes(), 0), Err(26));
        assert_eq!(corners(many("0.1 x,").as_bytes(), 0), Err(25));
        assert_eq!(corners(many("0.1 #,").as_bytes(), 0), Err(17));
        assert_eq!(corners(b"OFF 0 0 0", 0), Err(22));
        assert_eq!(corners(b"OFF 0 0 0 0", 0), Err(26));
        assert_eq!(corners(b"OFF 0 2 0 0 0 #", 0), Err(22));
        assert_eq!(corners(b",", 0), Err(25));
        assert_eq!(corners(b"OFF 1 0 0 0 0 0", 2), Err(13));
        assert_eq!(corners(b"OFF 1 0 0 0 0 0", 3), Ok(vec![0, 0, 0]));
    }

    #[test]
    fn every_number_of_a_shape_is_written_and_read_back() {
        let expected = [
            (0, "0"),
            (1, "0.015625"),
            (-1, "-0.015625"),
            (96, "1.5"),
            (-640, "-10"),
            (65_535, "1023.984375"),
        ];
        for (steps, word) in expected {
            assert_eq!(decimal(steps), word);
        }
        for steps in -65_536..=65_536 {
            let word = decimal(steps);
            assert_eq!(one(&word), Ok(steps), "{word}");
            // Shortest: with a digit less behind the point it says something else, or is no number.
            if word.contains('.') {
                assert_ne!(one(&word[..word.len() - 1]), Ok(steps), "{word}");
            }
        }
        assert_eq!(text(&[[0, 0, 0]]), b"OFF\n1 0 0\n0 0 0\n");
        assert_eq!(
            text(&[[1, -96, 640], [0, 0, 65_536]]),
            b"OFF\n2 0 0\n0.015625 -1.5 10\n0 0 1024\n"
        );
    }
}
