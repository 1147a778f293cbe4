//! Which texts are refused, with which number and place.

use super::value::{Quotes, value};
use super::wtf8::{Encoding, decode, is_surrogate};
use crate::call::Kind;

const MAX_TEXT: usize = 16_384;
const MAX_NAME: usize = 128;

/// A refusal of the text itself, 1 to 5, with its place, or 0 where it has none.
#[derive(Clone, Copy, PartialEq, Eq, Debug)]
pub struct Refusal {
    pub number: u32,
    pub place: usize,
}

/// The refusal that a text draws, or else its code points.
pub fn refusal(kind: Kind, text: &[u8], lone: bool) -> Result<Vec<u32>, Refusal> {
    let most = if kind == Kind::Name { MAX_NAME } else { MAX_TEXT };
    if text.len() > most {
        return Err(Refusal { number: 1, place: 0 });
    }
    let encoding = if kind.takes_text() { Encoding::Wtf8 } else { Encoding::Utf8 };
    let decoded = decode(text, encoding);
    if encoding == Encoding::Utf8 {
        let by_std = str::from_utf8(text).map_err(|error| error.valid_up_to());
        assert_eq!(
            decoded.as_ref().err(),
            by_std.as_ref().err(),
            "the driver's own check of UTF-8 is wrong: {text:x?}"
        );
    }
    let points = decoded.map_err(|place| Refusal { number: 2, place })?;
    if kind.takes_text() && lone != points.iter().any(|&(_, point)| is_surrogate(point)) {
        return Err(Refusal { number: 3, place: 0 });
    }
    if kind == Kind::Name
        && let Some(place) = name_breach(&points)
    {
        return Err(Refusal { number: 4, place });
    }
    let plain: Vec<u32> = points.iter().map(|&(_, point)| point).collect();
    if kind == Kind::Piece
        && let Err(index) = value(&plain, Quotes::Backtick)
    {
        return Err(Refusal { number: 5, place: points[index].0 });
    }
    Ok(plain)
}

/// Whether some ED is followed by A0 to BF.
pub fn holds_surrogate(text: &[u8]) -> bool {
    text.windows(2).any(|pair| pair[0] == 0xED && (0xA0..=0xBF).contains(&pair[1]))
}

/// The place of the first character that no name may have there; 0 for the empty name.
fn name_breach(points: &[(usize, u32)]) -> Option<usize> {
    if points.is_empty() {
        return Some(0);
    }
    points.iter().find(|&&(place, point)| !may_stand_in_name(place, point)).map(|&(place, _)| place)
}

fn may_stand_in_name(place: usize, point: u32) -> bool {
    match char::from_u32(point) {
        Some('0'..='9') => place > 0,
        Some('a'..='z' | 'A'..='Z' | '$' | '_') => true,
        _ => point > 0x7F,
    }
}
