//! Binary32 patterns to steps and back, by whole-number arithmetic on the pattern's three fields.
//! No floating-point number is ever formed: the pattern is its sign, its mantissa and a power of two.

use crate::point::Number;
use crate::refusals::{lowest, FLOAT_RANGE, NOT_FINITE, NOT_WHOLE, PLACED_RANGE};

const STEP_LIMIT: Number = 65_536;
const SHOWN_LIMIT: Number = 131_072;

/// What a pattern says when it is read as millimetres.
enum Read {
    NotFinite,
    /// The finite value in steps is `mantissa` × 2^`power`.
    Finite {
        mantissa: Number,
        power: i32,
    },
}

fn read(pattern: u32) -> Read {
    let exponent = (pattern >> 23) & 0xff;
    let fraction = Number::from(pattern & 0x7f_ffff);
    let sign = if pattern >> 31 == 1 { -1 } else { 1 };
    let (size, scale) = match exponent {
        0xff => return Read::NotFinite,
        0 => (fraction, 1),
        _ => (fraction + 0x80_0000, exponent as i32),
    };
    // A millimetre value is size × 2^(scale − 150); a step is 2^−6 of a millimetre.
    Read::Finite {
        mantissa: sign * size,
        power: scale - 144,
    }
}

/// The steps of one float, or the lowest refusal that applies to it.
pub fn steps(pattern: u32) -> Result<Number, Number> {
    let Read::Finite { mantissa, power } = read(pattern) else {
        return Err(NOT_FINITE);
    };
    if power >= 0 {
        // The mantissa is under 2^24: past a shift of 20 every value but zero is out of range.
        let value = mantissa << power.min(20);
        lowest(&[(FLOAT_RANGE, value.abs() > STEP_LIMIT)])?;
        return Ok(value);
    }
    let parts = 1 << (-power).min(100);
    lowest(&[
        (NOT_WHOLE, mantissa % parts != 0),
        (FLOAT_RANGE, mantissa.abs() > STEP_LIMIT * parts),
    ])?;
    Ok(mantissa / parts)
}

/// The steps of three floats, or the lowest refusal over all of them.
pub fn three_steps(patterns: [u32; 3]) -> Result<[Number; 3], Number> {
    let read = patterns.map(steps);
    let refusals = read.iter().filter_map(|r| r.err());
    match refusals.min() {
        Some(number) => Err(number),
        None => Ok(read.map(|r| r.unwrap_or_default())),
    }
}

/// The pattern of steps / 64, 0 as plus zero, or the refusal.
pub fn shown(steps: Number) -> Result<u32, Number> {
    lowest(&[(PLACED_RANGE, steps.abs() > SHOWN_LIMIT)])?;
    if steps == 0 {
        return Ok(0);
    }
    let sign = u32::from(steps < 0) << 31;
    let mut size = steps.unsigned_abs() as u32;
    let mut exponent = 127 + 23 - 6;
    while size < 0x80_0000 {
        size *= 2;
        exponent -= 1;
    }
    Ok(sign | exponent << 23 | (size - 0x80_0000))
}

#[cfg(test)]
mod tests {
    use super::*;

    #[test]
    fn bench_floats() {
        assert_eq!(steps(1.5f32.to_bits()), Ok(96));
        assert_eq!(steps(0.1f32.to_bits()), Err(17));
        assert_eq!(steps(2000.0f32.to_bits()), Err(18));
        assert_eq!(steps(2000.001f32.to_bits()), Err(17));
        assert_eq!(steps((-0.0f32).to_bits()), Ok(0));
        assert_eq!(steps(1024.0f32.to_bits()), Ok(65_536));
        assert_eq!(steps((-1024.0f32).to_bits()), Ok(-65_536));
        assert_eq!(steps(0x4480_0080), Err(18)); // 1024 mm and one step
        assert_eq!(steps(f32::MAX.to_bits()), Err(18));
        assert_eq!(steps(1), Err(17));
        assert_eq!(steps(0x807f_ffff), Err(17));
        for pattern in [0x7f80_0000, 0xff80_0000, 0x7f80_0001, 0xffff_ffff] {
            assert_eq!(steps(pattern), Err(16));
        }
    }

    /// The hardware's own arithmetic on 64-bit floats, exact here, agrees on patterns of every class.
    #[test]
    fn patterns_against_wider_floats() {
        for high in 0..=0xffffu32 {
            for low in [0, 1, 0x8000, 0xffff] {
                let pattern = high << 16 | low;
                let float = f64::from(f32::from_bits(pattern)) * 64.0;
                let expected = if !float.is_finite() {
                    Err(16)
                } else if float.trunc() != float {
                    Err(17)
                } else if float.abs() > 65_536.0 {
                    Err(18)
                } else {
                    Ok(float as Number)
                };
                assert_eq!(steps(pattern), expected, "{pattern:08x}");
            }
        }
    }

    #[test]
    fn every_shown_step() {
        for n in -131_072i128..=131_072 {
            assert_eq!(shown(n), Ok((n as f32 / 64.0).to_bits()), "{n}");
        }
        assert_eq!(shown(131_073), Err(20));
        assert_eq!(shown(-131_073), Err(20));
    }
}
