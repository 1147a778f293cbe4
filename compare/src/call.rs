//! What can be asked for: the kinds of printing and their options.

use original::CodegenOptions;

#[derive(Clone, Copy, PartialEq, Eq, Debug)]
pub enum Kind {
    /// A string literal.
    String,
    /// A string literal between backticks, always. The C functions do not have it.
    AsTemplate,
    /// A piece of an untagged template.
    Piece,
    /// A piece of a tagged template.
    Tagged,
    Directive,
    Regex,
    Name,
}

impl Kind {
    pub const ALL: [Kind; 7] =
        [Kind::String, Kind::AsTemplate, Kind::Piece, Kind::Tagged, Kind::Directive, Kind::Regex, Kind::Name];

    pub fn word(self) -> &'static str {
        match self {
            Kind::String => "string",
            Kind::AsTemplate => "as-template",
            Kind::Piece => "piece",
            Kind::Tagged => "tagged",
            Kind::Directive => "directive",
            Kind::Regex => "regex",
            Kind::Name => "name",
        }
    }

    /// Whether it prints a text with a surrogate flag, rather than UTF-8.
    pub fn takes_text(self) -> bool {
        matches!(self, Kind::String | Kind::AsTemplate)
    }

    /// Whether its C function is told of `minify`.
    fn looks_at_minify(self) -> bool {
        matches!(self, Kind::String | Kind::Piece | Kind::Tagged)
    }
}

/// A kind with its options.
#[derive(Clone, Copy, PartialEq, Eq, Debug)]
pub struct Call {
    pub kind: Kind,
    pub single_quote: bool,
    pub minify: bool,
    pub ascii_only: bool,
    pub allow_backtick: bool,
}

impl Call {
    /// The call whose options are the bits of a number below 16.
    pub fn from_bits(kind: Kind, bits: u64) -> Call {
        Call {
            kind,
            single_quote: bits & 1 != 0,
            minify: bits & 2 != 0,
            ascii_only: bits & 4 != 0,
            allow_backtick: bits & 8 != 0,
        }
    }

    /// The calls of one kind, in every setting of the options that its C function takes.
    pub fn all_of(kind: Kind) -> Vec<Call> {
        (0..16).map(|bits| Call::from_bits(kind, bits)).filter(|call| call.has_own_options_only()).collect()
    }

    fn has_own_options_only(&self) -> bool {
        (self.kind == Kind::String || !(self.single_quote || self.allow_backtick))
            && (self.kind.looks_at_minify() || !self.minify)
    }

    pub fn options(&self) -> CodegenOptions {
        CodegenOptions { single_quote: self.single_quote, minify: self.minify, ascii_only: self.ascii_only }
    }

    /// The options as letters: s single_quote, m minify, a ascii_only, b allow_backtick.
    pub fn letters(&self) -> String {
        let letters =
            [(self.single_quote, 's'), (self.minify, 'm'), (self.ascii_only, 'a'), (self.allow_backtick, 'b')];
        letters.iter().filter(|(set, _)| *set).map(|(_, letter)| letter).collect()
    }
}
