//! Our library, through its C functions, with a watch over every byte of `out` and around it.

use crate::call::{Call, Kind};

mod c {
    unsafe extern "C" {
        pub fn jslit_print_string(
            text: *const u8,
            len: usize,
            lone: u32,
            single_quote: u32,
            minify: u32,
            ascii_only: u32,
            allow_backtick: u32,
            out: *mut u8,
            out_len: usize,
        ) -> u64;
        pub fn jslit_print_template_piece(
            raw: *const u8,
            len: usize,
            tagged: u32,
            minify: u32,
            ascii_only: u32,
            out: *mut u8,
            out_len: usize,
        ) -> u64;
        pub fn jslit_print_directive(raw: *const u8, len: usize, ascii_only: u32, out: *mut u8, out_len: usize) -> u64;
        pub fn jslit_print_regex_pattern(
            raw: *const u8,
            len: usize,
            ascii_only: u32,
            out: *mut u8,
            out_len: usize,
        ) -> u64;
        pub fn jslit_print_name(name: *const u8, len: usize, ascii_only: u32, out: *mut u8, out_len: usize) -> u64;
    }
}

/// The numbers that a set flag is told by, in turn: a flag is set unless it is 0.
const SET: [u32; 5] = [1, 2, 0x100, 0x8000_0000, u32::MAX];

/// Bytes that stand before and after `out` and may not be touched.
const MARGIN: usize = 32;

/// What `out` and its margins are filled with before a call, in turn.
const FILLS: [u8; 2] = [0xA5, 0x5A];

/// An answer of the library.
#[derive(Clone, Copy, PartialEq, Eq, Debug)]
pub struct Answer {
    pub number: u32,
    /// The place, need or printed length.
    pub value: u32,
}

/// What a call answered and did to its buffer.
pub struct Outcome<'a> {
    pub answer: Answer,
    /// The first bytes of `out`, as many as the caller asked to see.
    pub front: &'a [u8],
    /// Whether all other bytes of `out` and its margins are as they were.
    pub rest_untouched: bool,
}

#[derive(Default)]
pub struct Library {
    cells: Vec<u8>,
    turn: usize,
}

impl Library {
    /// Calls with an `out` of `room` bytes, of which the first `shown` are told apart from the rest.
    pub fn call(&mut self, call: Call, text: &[u8], lone: bool, room: usize, shown: usize) -> Outcome<'_> {
        self.turn += 1;
        let set = SET[self.turn % SET.len()];
        let fill = FILLS[self.turn % FILLS.len()];
        self.cells.clear();
        self.cells.resize(MARGIN + room + MARGIN, fill);
        let answer = raw_call(call, text, lone, &mut self.cells[MARGIN..MARGIN + room], set);
        let shown = shown.min(room);
        let (before, rest) = self.cells.split_at(MARGIN);
        let (front, behind) = rest.split_at(shown);
        let is_filled = |bytes: &[u8]| bytes.iter().all(|byte| *byte == fill);
        Outcome {
            answer: Answer { number: (answer >> 32) as u32, value: answer as u32 },
            front,
            rest_untouched: is_filled(before) && is_filled(behind),
        }
    }
}

/// The C call itself. `set` is the number that tells a set flag.
#[inline]
pub fn raw_call(call: Call, text: &[u8], lone: bool, out: &mut [u8], set: u32) -> u64 {
    let flag = |on: bool| if on { set } else { 0 };
    let (bytes, len) = (text.as_ptr(), text.len());
    let (cells, room) = (out.as_mut_ptr(), out.len());
    let ascii_only = flag(call.ascii_only);
    // SAFETY: each pointer goes with the length of its slice, and `out` overlaps nothing.
    unsafe {
        match call.kind {
            Kind::String => c::jslit_print_string(
                bytes,
                len,
                flag(lone),
                flag(call.single_quote),
                flag(call.minify),
                ascii_only,
                flag(call.allow_backtick),
                cells,
                room,
            ),
            Kind::Piece | Kind::Tagged => {
                let tagged = flag(call.kind == Kind::Tagged);
                c::jslit_print_template_piece(bytes, len, tagged, flag(call.minify), ascii_only, cells, room)
            }
            Kind::Directive => c::jslit_print_directive(bytes, len, ascii_only, cells, room),
            Kind::Regex => c::jslit_print_regex_pattern(bytes, len, ascii_only, cells, room),
            Kind::Name => c::jslit_print_name(bytes, len, ascii_only, cells, room),
            Kind::AsTemplate => panic!("there is no C function for a literal that is always a template"),
        }
    }
}
