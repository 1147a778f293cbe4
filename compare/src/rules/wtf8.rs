//! WTF-8 and UTF-8: bytes to code points and back, and UTF-16 units.

#[derive(Clone, Copy, PartialEq, Eq, Debug)]
pub enum Encoding {
    /// Surrogates are allowed, but no lead directly before a trail.
    Wtf8,
    Utf8,
}

/// The code points, each with its place, or the place of the first sequence that breaks the rule.
pub fn decode(bytes: &[u8], encoding: Encoding) -> Result<Vec<(usize, u32)>, usize> {
    let mut points: Vec<(usize, u32)> = Vec::with_capacity(bytes.len());
    let mut place = 0;
    while place < bytes.len() {
        let (point, length) = sequence(&bytes[place..]).ok_or(place)?;
        let after_lead = points.last().is_some_and(|&(_, before)| is_lead(before));
        let allowed = match encoding {
            Encoding::Utf8 => !is_surrogate(point),
            Encoding::Wtf8 => !(after_lead && is_trail(point)),
        };
        if !allowed {
            return Err(place);
        }
        points.push((place, point));
        place += length;
    }
    Ok(points)
}

/// The code point whose shortest form begins here, surrogates among them, and its length.
fn sequence(bytes: &[u8]) -> Option<(u32, usize)> {
    // Length, bits of the lead byte that count, and the smallest code point that needs this length.
    let (length, lead_bits, smallest) = match bytes[0] {
        0x00..=0x7F => (1, 0x7F, 0),
        0xC0..=0xDF => (2, 0x1F, 0x80),
        0xE0..=0xEF => (3, 0x0F, 0x800),
        0xF0..=0xF7 => (4, 0x07, 0x1_0000),
        _ => return None,
    };
    let mut point = u32::from(bytes[0] & lead_bits);
    for at in 1..length {
        let byte = *bytes.get(at)?;
        if byte & 0xC0 != 0x80 {
            return None;
        }
        point = point << 6 | u32::from(byte & 0x3F);
    }
    (smallest <= point && point <= 0x10_FFFF).then_some((point, length))
}

pub fn is_surrogate(point: u32) -> bool {
    (0xD800..=0xDFFF).contains(&point)
}

fn is_lead(point: u32) -> bool {
    (0xD800..=0xDBFF).contains(&point)
}

fn is_trail(point: u32) -> bool {
    (0xDC00..=0xDFFF).contains(&point)
}

/// The bytes of code points, surrogates among them.
pub fn encode(points: &[u32]) -> Vec<u8> {
    let mut bytes = Vec::with_capacity(points.len());
    for &point in points {
        let tail = |shift: u32| 0x80 | (point >> shift & 0x3F) as u8;
        match point {
            0..=0x7F => bytes.push(point as u8),
            0x80..=0x7FF => bytes.extend([0xC0 | (point >> 6) as u8, tail(0)]),
            0x800..=0xFFFF => bytes.extend([0xE0 | (point >> 12) as u8, tail(6), tail(0)]),
            _ => bytes.extend([0xF0 | (point >> 18) as u8, tail(12), tail(6), tail(0)]),
        }
    }
    bytes
}

/// The UTF-16 units of one code point.
pub fn push_units(units: &mut Vec<u16>, point: u32) {
    if point <= 0xFFFF {
        units.push(point as u16);
    } else {
        let above = point - 0x1_0000;
        units.extend([0xD800 | (above >> 10) as u16, 0xDC00 | (above & 0x3FF) as u16]);
    }
}

/// The UTF-16 units of code points.
pub fn units(points: &[u32]) -> Vec<u16> {
    let mut units = Vec::with_capacity(points.len());
    for &point in points {
        push_units(&mut units, point);
    }
    units
}
