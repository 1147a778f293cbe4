//! The crate's answers. Only what its contract allows is handed to it.

use original::Printer;

use crate::call::{Call, Kind};

/// What the crate prints.
///
/// # Safety
///
/// `text` is well-formed WTF-8 for the kinds that take a text, and `lone` tells whether it holds a surrogate; for all
/// other kinds it is UTF-8.
pub unsafe fn print<'p>(printer: &'p mut Printer, call: Call, text: &[u8], lone: bool) -> &'p [u8] {
    let options = call.options();
    // SAFETY: as the caller's.
    unsafe {
        match call.kind {
            Kind::String => printer.string(options, text, lone, call.allow_backtick),
            Kind::AsTemplate => printer.string_as_template(options, text, lone),
            Kind::Piece => printer.template_piece(options, str::from_utf8_unchecked(text), false),
            Kind::Tagged => printer.template_piece(options, str::from_utf8_unchecked(text), true),
            Kind::Directive => printer.directive(options, str::from_utf8_unchecked(text)),
            Kind::Regex => printer.regex_pattern(options, str::from_utf8_unchecked(text)),
            Kind::Name => printer.name(options, str::from_utf8_unchecked(text)),
        }
    }
}
