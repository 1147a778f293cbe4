//! Random inputs, put together from tokens in several mixtures.

use super::alphabet::{LITERAL, NAME, RAW, Token};
use crate::call::Kind;
use crate::random::Random;
use crate::rules::{encode, holds_surrogate};

/// Whole escapes of template text and other things that may stand in it, so that most mixtures of them are template text.
const TEMPLATE: [Token; 30] = [
    b"\\$",
    b"\\$",
    b"\\\\",
    b"\\`",
    b"\\${",
    b"$",
    b"{",
    b"}",
    b"\\0",
    b"\\x41",
    b"\\u00e9",
    b"\\u{1F600}",
    b"\\u{00000041}",
    b"\\n",
    b"\\\n",
    b"\\\r\n",
    b"\\\xE2\x80\xA8",
    b"\\\xE2\x80\xA9",
    b"\\\xC3\xA9",
    b"\\\xF0\x9F\x98\x80",
    b"\xC3\xA9",
    b"\xE2\x80\xA8",
    b"\xF0\x9F\x98\x80",
    b"</script",
    b"</SCRIPT>",
    b"\\</script",
    b"<\\/script",
    b"\n",
    b"\r",
    b"plain",
];

/// What raw text and literals are often made of.
const PLAIN: [Token; 8] = [b"a", b"word ", b"Silo 3, ", b"0123456789abcdef", b".", b"_x", b"-", b"  "];

/// A random text for a kind, of some dozen tokens. It need not be one that the kind takes.
pub fn mixed(random: &mut Random, kind: Kind) -> Vec<u8> {
    let count = if random.once_in(20) { random.below(200) } else { random.below(24) };
    let own = own_tokens(random, kind);
    // How many of ten tokens are plain, and how many any character at all.
    let plain = random.one_of(&[0, 0, 3, 7]);
    let any = random.one_of(&[0, 0, 1, 5]);
    let mut text = Vec::new();
    for _ in 0..count {
        let draw = random.below(10);
        if draw < plain {
            text.extend_from_slice(random.one_of(&PLAIN));
        } else if draw < plain + any {
            text.extend(any_character(random, kind));
        } else {
            text.extend_from_slice(random.one_of(own));
        }
    }
    if kind == Kind::Name {
        text.truncate(160);
    }
    text
}

/// A random text that most often has exactly this length, made up at its end with `a`.
pub fn mixed_of_length(random: &mut Random, kind: Kind, length: usize) -> Vec<u8> {
    let own = own_tokens(random, kind);
    let mut text = Vec::new();
    loop {
        let token: Vec<u8> = match random.below(4) {
            0 => any_character(random, kind),
            1 => random.one_of(&PLAIN).to_vec(),
            _ => random.one_of(own).to_vec(),
        };
        if text.len() + token.len() > length {
            break;
        }
        text.extend(token);
    }
    text.resize(length, b'a');
    text
}

fn own_tokens(random: &mut Random, kind: Kind) -> &'static [Token] {
    match kind {
        Kind::String | Kind::AsTemplate => &LITERAL,
        Kind::Piece if random.once_in(8) => &RAW,
        Kind::Piece => &TEMPLATE,
        Kind::Tagged | Kind::Directive | Kind::Regex if random.once_in(2) => &TEMPLATE,
        Kind::Tagged | Kind::Directive | Kind::Regex => &RAW,
        Kind::Name if random.once_in(4) => &NAME,
        Kind::Name => &[b"a", b"Bc", b"$", b"_", b"x1", b"\xC3\xA9", b"\xE6\xBC\xA2", b"\xF0\x9D\x92\x9C"],
    }
}

/// Any character, most often a small one. Surrogates are only for texts.
fn any_character(random: &mut Random, kind: Kind) -> Vec<u8> {
    let bound = random.one_of(&[0x80, 0x800, 0x3000, 0x1_0000, 0x11_0000]);
    let point = random.below(bound) as u32;
    let bytes = encode(&[point]);
    if holds_surrogate(&bytes) && !kind.takes_text() { b"a".to_vec() } else { bytes }
}
