//! Typed lengths: 1 to 4 digits, then nothing, or one comma or point and 1 or 2 digits. By request W1 a whole part of several digits has
//! no zero in front.
//! The text is cut at its first separator; both parts are read as decimal numbers of their own.

use crate::point::Number;
use crate::refusals::{LENGTH_FORM, LENGTH_RANGE};

const MOST_HUNDREDTHS: Number = 102_400;

/// The value of a run of decimal digits with `least` to `most` of them.
pub fn digits(text: &[u8], least: usize, most: usize) -> Option<Number> {
    let fits = (least..=most).contains(&text.len()) && text.iter().all(u8::is_ascii_digit);
    let value = |sum: Number, digit: &u8| 10 * sum + Number::from(digit - b'0');
    fits.then(|| text.iter().fold(0, value))
}

/// The whole part: `0` itself may start with a zero, and nothing longer.
fn whole(text: &[u8]) -> Option<Number> {
    let value = digits(text, 1, 4)?;
    (text == b"0" || text[0] != b'0').then_some(value)
}

/// The hundredths of a millimetre that the text says, where it has the form.
fn hundredths(text: &[u8]) -> Option<Number> {
    match text.iter().position(|byte| matches!(byte, b',' | b'.')) {
        None => Some(100 * whole(text)?),
        Some(cut) => {
            let whole = whole(&text[..cut])?;
            let rest = &text[cut + 1..];
            let part = digits(rest, 1, 2)?;
            let scale = if rest.len() == 1 { 10 } else { 1 };
            Some(100 * whole + scale * part)
        }
    }
}

/// The steps of a typed length, or the refusal.
pub fn steps(text: &[u8]) -> Result<Number, Number> {
    let hundredths = hundredths(text).ok_or(LENGTH_FORM)?;
    if hundredths > MOST_HUNDREDTHS {
        return Err(LENGTH_RANGE);
    }
    Ok((hundredths * 64 + 99) / 100)
}

#[cfg(test)]
mod tests {
    use super::*;

    #[test]
    fn bench_texts() {
        let good: [(&str, Number); 10] = [
            ("1,5", 96),
            ("1.5", 96),
            ("15", 960),
            ("0,1", 7),
            ("0,01", 1),
            ("0.25", 16),
            ("10,5", 672),
            ("1024", 65_536),
            ("1024,00", 65_536),
            ("0", 0),
        ];
        for (text, expected) in good {
            assert_eq!(steps(text.as_bytes()), Ok(expected), "{text}");
        }
        for text in ["1024,01", "1025", "9999,99"] {
            assert_eq!(steps(text.as_bytes()), Err(15), "{text}");
        }
        for text in [
            "1.500", "1,", ",5", "", "00001", "1,5,", "1 ", "-1", "+1", "9999,999", "1,,5", "0001,5",
            "00", "01", "010", "00,5", "0000",
        ] {
            assert_eq!(steps(text.as_bytes()), Err(14), "{text}");
        }
    }

    #[test]
    fn every_hundredth_is_rounded_up() {
        for n in 0..=102_400i128 {
            let text = format!("{},{:02}", n / 100, n % 100);
            let found = steps(text.as_bytes()).expect("in range");
            assert!(100 * found >= 64 * n && 100 * (found - 1) < 64 * n, "{n}");
        }
    }
}
