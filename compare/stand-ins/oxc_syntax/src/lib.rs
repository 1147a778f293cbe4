//! Stands in for the crate of this name: the characters that the string printer knows by name.

pub mod identifier {
    /// U+00A0, the no-break space.
    pub const NBSP: char = '\u{A0}';
}

pub mod line_terminator {
    /// U+2028 is E2 80 A8 in UTF-8.
    pub const LS_LAST_2_BYTES: [u8; 2] = [0x80, 0xA8];
    /// U+2029 is E2 80 A9 in UTF-8.
    pub const PS_LAST_2_BYTES: [u8; 2] = [0x80, 0xA9];
}
