//! What has to be true of printed bytes, whatever the list of rules says: by ECMA-262 they mean what was given.

use super::printing::literal;
use super::starts_with_ignoring_case;
use super::value::{Quotes, value};
use super::wtf8::{Encoding, decode, units};
use crate::call::{Call, Kind};

/// The first law that what was printed for a text breaks.
pub fn broken(call: Call, text: &[u32], printed: &[u8]) -> Option<&'static str> {
    let Ok(placed) = decode(printed, Encoding::Utf8) else {
        return Some("what is printed is UTF-8");
    };
    let points: Vec<u32> = placed.iter().map(|&(_, point)| point).collect();
    let may_hold_tag = matches!(call.kind, Kind::Directive | Kind::Regex);
    if !may_hold_tag && (0..points.len()).any(|at| starts_with_ignoring_case(&points[at..], "</script")) {
        return Some("no </script is printed");
    }
    if call.ascii_only && call.kind != Kind::Tagged && !printed.is_ascii() {
        return Some("only ASCII is printed under ascii_only");
    }
    match call.kind {
        Kind::String | Kind::AsTemplate => broken_of_literal(call, text, &points),
        Kind::Piece | Kind::Tagged => broken_of_raw(text, &points, &[Quotes::Backtick]),
        Kind::Directive => broken_of_raw(text, &points, &[Quotes::Single, Quotes::Double]),
        Kind::Name => broken_of_name(text, &points),
        Kind::Regex => None,
    }
}

fn broken_of_literal(call: Call, text: &[u32], printed: &[u32]) -> Option<&'static str> {
    let [open, between @ .., close] = printed else {
        return Some("a literal has two quotes");
    };
    let all = [Quotes::Single, Quotes::Double, Quotes::Backtick];
    let Some(quotes) = all.into_iter().find(|quotes| quotes.mark() == *open).filter(|_| open == close) else {
        return Some("a literal has two quotes");
    };
    if value(between, quotes) != Ok(units(text)) {
        return Some("a literal is read as its text");
    }
    if call.kind == Kind::String && call.minify {
        let permitted = if call.allow_backtick { &all[..] } else { &all[..2] };
        let length = |quotes: Quotes| super::encode(&literal(text, quotes, call.ascii_only)).len();
        if permitted.iter().any(|&other| length(other) < length(quotes)) || !permitted.contains(&quotes) {
            return Some("no other permitted quote is shorter");
        }
    }
    None
}

/// Where raw text can be read between the given quotes, it is read as the same value afterwards.
fn broken_of_raw(raw: &[u32], printed: &[u32], quotes: &[Quotes]) -> Option<&'static str> {
    let kept = |&quotes: &Quotes| match value(raw, quotes) {
        Ok(before) => value(printed, quotes) == Ok(before),
        Err(_) => true,
    };
    if quotes.iter().all(kept) { None } else { Some("raw text keeps its value") }
}

/// A name with its escapes read is the name. The escapes of names are a part of those of template text.
fn broken_of_name(name: &[u32], printed: &[u32]) -> Option<&'static str> {
    if value(printed, Quotes::Backtick) == Ok(units(name)) { None } else { Some("a name is read as the name") }
}
