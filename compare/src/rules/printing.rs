//! What is printed, by the list of rules.

use super::starts_with_ignoring_case;
use super::value::Quotes;
use super::wtf8::{is_surrogate, units};
use crate::call::{Call, Kind};

const LF: u32 = 0x0A;
const BACKSLASH: u32 = 0x5C;

/// The code points that a call prints for those of a text that is not refused.
pub fn print(call: Call, text: &[u32]) -> Vec<u32> {
    match call.kind {
        Kind::String => literal(text, chosen_quotes(call, text), call.ascii_only),
        Kind::AsTemplate => literal(text, Quotes::Backtick, call.ascii_only),
        Kind::Piece => {
            let first = if call.minify { without_idle_dollar_escapes(text) } else { text.to_vec() };
            let second = if call.ascii_only { in_ascii(&first, Grammar::Cooked) } else { first };
            without_tags(&second)
        }
        Kind::Tagged => without_tags(text),
        Kind::Directive if call.ascii_only => in_ascii(text, Grammar::Cooked),
        Kind::Regex if call.ascii_only => in_ascii(text, Grammar::Pattern),
        Kind::Name if call.ascii_only => in_ascii(text, Grammar::Cooked),
        Kind::Directive | Kind::Regex | Kind::Name => text.to_vec(),
    }
}

fn chosen_quotes(call: Call, text: &[u32]) -> Quotes {
    if !call.minify {
        return if call.single_quote { Quotes::Single } else { Quotes::Double };
    }
    let count = |wanted: char| text.iter().filter(|&&point| point == u32::from(wanted)).count() as i64;
    let openings = text.windows(2).filter(|pair| *pair == [u32::from('$'), u32::from('{')]).count() as i64;
    let mut costs = vec![(Quotes::Double, count('"')), (Quotes::Single, count('\''))];
    if call.allow_backtick {
        costs.insert(0, (Quotes::Backtick, count('`') + openings - count('\n')));
    }
    let lowest = costs.iter().map(|&(_, cost)| cost).min();
    // The list is in the order in which ties are settled.
    costs.iter().find(|&&(_, cost)| Some(cost) == lowest).expect("some quotes are permitted").0
}

/// The literal of a text between the given quotes.
pub fn literal(text: &[u32], quotes: Quotes, ascii_only: bool) -> Vec<u32> {
    let mut out = vec![quotes.mark()];
    for (at, &point) in text.iter().enumerate() {
        let next = text.get(at + 1).copied();
        let escaped = escaped_always(point, next).or_else(|| match point {
            LF if quotes != Quotes::Backtick => Some("\\n".to_string()),
            LF => None,
            mark if mark == quotes.mark() => Some(format!("\\{}", shown(mark))),
            0x24 if quotes == Quotes::Backtick && next == Some(u32::from('{')) => Some("\\$".to_string()),
            0x2F if closes_script(text, at) => Some("\\/".to_string()),
            _ if is_surrogate(point) => Some(format!("\\u{point:04x}")),
            _ if ascii_only && point > 0x7F => Some(unicode_escape(point)),
            0xA0 => Some("\\xA0".to_string()),
            0x2028 => Some("\\u2028".to_string()),
            0x2029 => Some("\\u2029".to_string()),
            _ => None,
        });
        match escaped {
            Some(escape) => push(&mut out, &escape),
            None => out.push(point),
        }
    }
    out.push(quotes.mark());
    out
}

/// The escapes that do not depend on the quotes or options.
fn escaped_always(point: u32, next: Option<u32>) -> Option<String> {
    let before_digit = next.is_some_and(|next| (0x30..=0x39).contains(&next));
    let escape = match point {
        0x00 if before_digit => "\\x00",
        0x00 => "\\0",
        0x07 => "\\x07",
        0x08 => "\\b",
        0x0B => "\\v",
        0x0C => "\\f",
        0x0D => "\\r",
        0x1B => "\\x1B",
        0x5C => "\\\\",
        _ => return None,
    };
    Some(escape.to_string())
}

/// Whether the `/` at this index belongs to a `</script` in any ASCII case.
fn closes_script(text: &[u32], slash: usize) -> bool {
    slash > 0 && text[slash - 1] == u32::from('<') && starts_with_ignoring_case(&text[slash + 1..], "script")
}

/// The tag step: `</script` becomes `<\/script`.
fn without_tags(text: &[u32]) -> Vec<u32> {
    let mut out = Vec::with_capacity(text.len());
    for (at, &point) in text.iter().enumerate() {
        if point == u32::from('/') && closes_script(text, at) {
            out.push(BACKSLASH);
        }
        out.push(point);
    }
    out
}

/// The first step: a backslash before `$` goes if an even number of backslashes precedes it and no `{` follows.
fn without_idle_dollar_escapes(text: &[u32]) -> Vec<u32> {
    let is_idle = |at: usize| {
        text[at] == BACKSLASH
            && text.get(at + 1) == Some(&u32::from('$'))
            && text.get(at + 2) != Some(&u32::from('{'))
            && backslashes_before(text, at).is_multiple_of(2)
    };
    (0..text.len()).filter(|&at| !is_idle(at)).map(|at| text[at]).collect()
}

#[derive(Clone, Copy, PartialEq, Eq)]
enum Grammar {
    /// Templates, directives and names.
    Cooked,
    /// Patterns of regular expressions.
    Pattern,
}

/// The ASCII step.
fn in_ascii(text: &[u32], grammar: Grammar) -> Vec<u32> {
    let mut out = Vec::with_capacity(text.len());
    for (at, &point) in text.iter().enumerate() {
        if point <= 0x7F {
            out.push(point);
            continue;
        }
        let odd = backslashes_before(text, at) % 2 == 1;
        if odd {
            out.pop();
        }
        match grammar {
            Grammar::Cooked if odd && matches!(point, 0x2028 | 0x2029) => push(&mut out, "\\\n"),
            Grammar::Cooked => push(&mut out, &unicode_escape(point)),
            Grammar::Pattern => {
                for unit in units(&[point]) {
                    push(&mut out, &format!("\\u{unit:04X}"));
                }
            }
        }
    }
    out
}

fn backslashes_before(text: &[u32], at: usize) -> usize {
    text[..at].iter().rev().take_while(|&&point| point == BACKSLASH).count()
}

fn unicode_escape(point: u32) -> String {
    if point <= 0xFFFF { format!("\\u{point:04X}") } else { format!("\\u{{{point:X}}}") }
}

fn push(out: &mut Vec<u32>, ascii: &str) {
    out.extend(ascii.chars().map(u32::from));
}

fn shown(point: u32) -> char {
    char::from_u32(point).expect("a quote is a character")
}
