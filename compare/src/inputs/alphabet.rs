//! Telling alphabets. A token is the bytes of one character, or of a run that means something together.

pub type Token = &'static [u8];

/// For string literals: every character that has a rule, one that has none, and parts of `</script`.
pub const LITERAL: [Token; 32] = [
    b"\0",
    b"0",
    b"9",
    b"'",
    b"\"",
    b"`",
    b"\\",
    b"$",
    b"{",
    b"<",
    b"/",
    b"s",
    b"S",
    b"t",
    b"a",
    b"\n",
    b"\r",
    b"\x07",
    b"\x08",
    b"\x1B",
    b"\xC2\xA0",
    b"\xC3\xA9",
    b"\xE2\x80\xA8",
    b"\xE2\x80\xA9",
    b"\xED\x9F\xBF",
    b"\xF0\x9F\x98\x80",
    b"\xED\xA0\xBD",
    b"\xED\xB8\x80",
    b"</script",
    b"</ScRiPt",
    b"</scrip",
    b"cript",
];

/// The part of it that is tried at greater length.
pub const LITERAL_CORE: [Token; 12] =
    [b"\0", b"1", b"'", b"\"", b"`", b"\\", b"\n", b"${", b"</SCRIPT", b"\xC2\xA0", b"\xED\xA0\x80", b"\xED\xB0\x80"];

/// What the choice of quotes looks at.
pub const QUOTING: [Token; 6] = [b"'", b"\"", b"`", b"\n", b"$", b"{"];

/// For raw text: backslashes and what may stand behind them, template ends, tags, line ends.
pub const RAW: [Token; 30] = [
    b"\\",
    b"$",
    b"{",
    b"}",
    b"`",
    b"'",
    b"\"",
    b"0",
    b"8",
    b"4",
    b"x",
    b"u",
    b"b",
    b"a",
    b"F",
    b"\n",
    b"\r",
    b"\0",
    b"<",
    b"/",
    b"\xC2\xA0",
    b"\xC3\xA9",
    b"\xE2\x80\xA8",
    b"\xE2\x80\xA9",
    b"\xED\x9F\xBF",
    b"\xF0\x9F\x98\x80",
    b"</script",
    b"</SCRIPt",
    b"</scrip",
    b"\\\\",
];

/// The part of it that is tried at greater length.
pub const RAW_CORE: [Token; 10] =
    [b"\\", b"$", b"{", b"0", b"u", b"\r", b"\n", b"\xC3\xA9", b"\xE2\x80\xA9", b"\xF0\x9F\x98\x80"];

/// What escapes are made of.
pub const ESCAPES: [Token; 10] = [b"\\", b"x", b"u", b"{", b"}", b"0", b"1", b"F", b"g", b"$"];

/// For names: what may stand in one, and what may not.
pub const NAME: [Token; 20] = [
    b"a",
    b"Z",
    b"_",
    b"$",
    b"0",
    b"9",
    b"-",
    b"\\",
    b" ",
    b"\0",
    b"\x7F",
    b"@",
    b"\xC2\x80",
    b"\xC3\xA9",
    b"\xE2\x80\xA8",
    b"\xED\x9F\xBF",
    b"\xEE\x80\x80",
    b"\xF0\x9F\x98\x80",
    b"\xF4\x8F\xBF\xBF",
    b"\xED\xA0\x80",
];
