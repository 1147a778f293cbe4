//! ECMA-262's value of what stands between quotes (SV) or backticks (TV), and the place where reading breaks.

use super::wtf8::{is_surrogate, push_units};

#[derive(Clone, Copy, PartialEq, Eq, Debug)]
pub enum Quotes {
    Single,
    Double,
    Backtick,
}

impl Quotes {
    pub fn mark(self) -> u32 {
        match self {
            Quotes::Single => u32::from('\''),
            Quotes::Double => u32::from('"'),
            Quotes::Backtick => u32::from('`'),
        }
    }
}

const LF: u32 = 0x0A;
const CR: u32 = 0x0D;
const LS: u32 = 0x2028;
const PS: u32 = 0x2029;
const BACKSLASH: u32 = 0x5C;

/// The UTF-16 units of the text between the quotes, or the index of the first code point that cannot stand there: the
/// quote, the `$` of a `${` between backticks, a line end between other quotes, or the backslash of what is no escape.
/// Legacy octal escapes, `\8` and `\9` are none.
pub fn value(points: &[u32], quotes: Quotes) -> Result<Vec<u16>, usize> {
    let mut units = Vec::with_capacity(points.len());
    let mut at = 0;
    while at < points.len() {
        let rest = &points[at..];
        at += match rest[0] {
            BACKSLASH => escape(&rest[1..], &mut units).ok_or(at)? + 1,
            mark if mark == quotes.mark() => return Err(at),
            0x24 if quotes == Quotes::Backtick && rest.get(1) == Some(&u32::from('{')) => return Err(at),
            LF | CR if quotes != Quotes::Backtick => return Err(at),
            point if is_surrogate(point) => return Err(at),
            // Between backticks every line end made of CR counts as one LF.
            CR => {
                units.push(LF as u16);
                line_end(rest)
            }
            point => {
                push_units(&mut units, point);
                1
            }
        };
    }
    Ok(units)
}

/// How many code points the line end here has; 0 where there is none.
fn line_end(points: &[u32]) -> usize {
    match points {
        [CR, LF, ..] => 2,
        [LF | CR | LS | PS, ..] => 1,
        _ => 0,
    }
}

/// Reads what stands behind a backslash: how many code points it has, and its units. None where it is no escape.
fn escape(points: &[u32], units: &mut Vec<u16>) -> Option<usize> {
    let first = *points.first()?;
    let continued = line_end(points);
    if continued > 0 {
        return Some(continued);
    }
    let single = match char::from_u32(first)? {
        'b' => 0x08,
        't' => 0x09,
        'n' => 0x0A,
        'v' => 0x0B,
        'f' => 0x0C,
        'r' => 0x0D,
        '0' if !points.get(1).is_some_and(|&next| is_digit(next)) => 0,
        '0'..='9' => return None,
        'x' => {
            units.push(hex(points.get(1..3)?)? as u16);
            return Some(3);
        }
        'u' if points.get(1) == Some(&u32::from('{')) => {
            let digits = points[2..].iter().position(|&point| point == u32::from('}'))?;
            push_units(units, hex(&points[2..2 + digits])?);
            return Some(digits + 3);
        }
        'u' => {
            units.push(hex(points.get(1..5)?)? as u16);
            return Some(5);
        }
        // What stands for itself behind a backslash, the quotes and the backslash among it.
        _ => first,
    };
    push_units(units, single);
    Some(1)
}

fn is_digit(point: u32) -> bool {
    (0x30..=0x39).contains(&point)
}

/// The number that at least one hex digit makes, if it is a code point.
fn hex(digits: &[u32]) -> Option<u32> {
    if digits.is_empty() {
        return None;
    }
    let mut number = 0u32;
    for &digit in digits {
        number = number.checked_mul(16)? + char::from_u32(digit)?.to_digit(16)?;
        if number > 0x10_FFFF {
            return None;
        }
    }
    Some(number)
}
