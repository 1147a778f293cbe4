//! Inputs that are tried one and all.

use super::alphabet::Token;
use crate::rules::encode;

/// Every sequence of exactly `count` tokens.
pub fn every_sequence(tokens: &[Token], count: u32, mut each: impl FnMut(&[u8])) {
    let mut text = Vec::new();
    for number in 0..tokens.len().pow(count) {
        text.clear();
        let mut rest = number;
        for _ in 0..count {
            text.extend_from_slice(tokens[rest % tokens.len()]);
            rest /= tokens.len();
        }
        each(&text);
    }
}

/// Every code point, surrogates among them, between the given bytes.
pub fn code_points(before: &[u8], after: &[u8], mut each: impl FnMut(&[u8])) {
    for point in 0..=0x10_FFFF {
        let mut text = before.to_vec();
        text.extend(encode(&[point]));
        text.extend_from_slice(after);
        each(&text);
    }
}

/// `\u{...}` with any number of digits, around the largest code point and around what 16, 32 and 64 bits hold.
pub fn code_point_escapes(mut each: impl FnMut(&[u8])) {
    let telling =
        ["", "0", "41", "d800", "FFFF", "10000", "10FFFF", "10ffff", "110000", "FFFFFF", "80000000", "FFFFFFFF"];
    let wide =
        ["100000000", "100000041", "FFFFFFFFFFFFFFFF", "10000000000000000", "10000000000000041", "g", "1_0", " 1"];
    for digits in telling.into_iter().chain(wide) {
        for zeros in 0..40 {
            let zeros = "0".repeat(zeros);
            for text in [
                format!("\\u{{{zeros}{digits}}}"),
                format!("\\u{{{zeros}{digits}"),
                format!("\\u{zeros}{digits}"),
                format!("\\x{zeros}{digits}"),
                format!("é\\\\\\u{{{digits}{zeros}}}é\\é"),
            ] {
                each(text.as_bytes());
            }
        }
    }
}

/// Any bytes: all sequences of one, two and three, and of four and five around the edges of the sequence forms.
pub fn byte_sequences(mut each: impl FnMut(&[u8])) {
    const EDGES: [u8; 12] = [0x00, 0x7F, 0x80, 0x8F, 0x90, 0x9F, 0xA0, 0xAF, 0xB0, 0xBF, 0xC0, 0xFF];
    for first in 0..=255 {
        each(&[first]);
        for second in 0..=255 {
            each(&[first, second]);
            for third in EDGES {
                each(&[b'a', first, second, third]);
                for fourth in EDGES {
                    if first >= 0xE0 {
                        each(&[first, second, third, fourth]);
                        each(&[first, second, third, fourth, 0x80]);
                    }
                }
            }
        }
    }
    for first in 0xC0..=255 {
        for second in 0x70..=0xCF {
            for third in 0..=255 {
                each(&[first, second, third]);
            }
        }
    }
}

/// Two three-byte sequences of ED side by side, a third between some: surrogates in every order.
pub fn surrogate_pairs(mut each: impl FnMut(&[u8])) {
    for first in 0x7F..=0xC0 {
        for second in 0x7F..=0xC0 {
            for ends in [[0x80, 0x80], [0xBF, 0x80], [0x80, 0xBF], [0xBF, 0xC0]] {
                each(&[0xED, first, ends[0], 0xED, second, ends[1]]);
                each(&[b'x', 0xED, first, ends[0], 0xED, second, ends[1], b'y']);
                each(&[0xED, first, ends[0], b'-', 0xED, second, ends[1]]);
                each(&[0xED, first, ends[0], 0xED, second]);
                each(&[0xED, 0xA0, 0x80, 0xED, first, ends[0], 0xED, second, ends[1]]);
            }
        }
    }
}

/// `</script` in every case, with each byte in turn replaced, and at each place around the edges of 16-byte chunks.
pub fn tag_lookalikes(mut each: impl FnMut(&[u8])) {
    const TAG: &[u8; 8] = b"</script";
    for case in 0..64u32 {
        let mut tag = *TAG;
        for (bit, letter) in tag[2..].iter_mut().enumerate() {
            if case >> bit & 1 == 1 {
                letter.make_ascii_uppercase();
            }
        }
        each(&tag);
        each(&[b"<", tag.as_slice(), b">"].concat());
        for at in 0..8 {
            for byte in 0..=0x7F {
                let mut other = tag;
                other[at] = byte;
                if case == 0 || case == 63 || byte.eq_ignore_ascii_case(&tag[at]) {
                    each(&other);
                }
            }
        }
    }
    for before in 0..50 {
        for after in 0..50 {
            let plain = [vec![b'-'; before], TAG.to_vec(), vec![b'-'; after]].concat();
            each(&plain);
            let two = [vec![b'<'; before], TAG.to_vec(), vec![b'<'; after], b"</ScripT".to_vec()].concat();
            each(&two);
            let wide = [vec![b'.'; before], "é".into(), TAG.to_vec(), vec![b'.'; after], "\u{2028}".into()].concat();
            each(&wide);
            each(&plain[..plain.len().min(before + 7)]);
        }
    }
}
