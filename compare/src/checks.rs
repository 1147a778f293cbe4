//! One case: a call and its input, judged.

use original::Printer;

use crate::call::{Call, Kind};
use crate::crate_side;
use crate::library::{Answer, Library, raw_call};
use crate::report::{Party, Report, hex};
use crate::rules::{self, Refusal, laws};

/// No buffer's limit is above this, however long its bytes are.
const MAX_ROOM: usize = 65_536;

/// Which sizes of `out` a case is tried with.
#[derive(Clone, Copy, PartialEq, Eq)]
pub enum Rooms {
    /// An ample one, and in turn one of the telling ones.
    Two,
    /// All telling ones: none, one too few, just enough, one more, ample, above every limit.
    All,
}

#[derive(Default)]
pub struct Checker {
    printer: Printer,
    library: Library,
    pub report: Report,
    turn: usize,
}

impl Checker {
    /// Checks with the exact surrogate flag.
    pub fn check(&mut self, call: Call, text: &[u8], rooms: Rooms) {
        let lone = call.kind.takes_text() && rules::holds_surrogate(text);
        self.check_flagged(call, text, lone, rooms);
    }

    pub fn check_flagged(&mut self, call: Call, text: &[u8], lone: bool, rooms: Rooms) {
        self.turn += 1;
        match rules::refusal(call.kind, text, lone) {
            Err(refusal) => self.check_refused(call, text, lone, refusal),
            Ok(points) => self.check_printed(call, text, lone, &points, rooms),
        }
    }

    /// Prints an ASCII text that the call takes into an `out` that is too long to be watched; only the answer and the
    /// printed bytes are looked at.
    pub fn check_in(&mut self, call: Call, text: &[u8], out: &mut [u8]) {
        assert!(text.is_ascii());
        // SAFETY: ASCII is well formed and has no surrogate.
        let printed = unsafe { crate_side::print(&mut self.printer, call, text, false) };
        let answer = raw_call(call, text, false, out, 1);
        let is_right = answer == printed.len() as u64 && out.starts_with(printed);
        self.report.count_case(call.kind, false, 1, !is_right);
        if !is_right {
            let what = format!("out of {} bytes: answer {answer:X}", out.len());
            self.report.difference(Party::Library, call, false, text, &what);
        }
    }

    /// The library refuses, and touches nothing, whether or not there is room.
    fn check_refused(&mut self, call: Call, text: &[u8], lone: bool, refusal: Refusal) {
        let wanted = Answer { number: refusal.number, value: refusal.place as u32 };
        let mut calls = 0;
        let mut has_failed = false;
        if call.kind != Kind::AsTemplate {
            for room in [text.len().min(200) + 40, self.turn % 4] {
                has_failed |= !self.ask_library(call, text, lone, room, wanted, &[]);
                calls += 1;
            }
        }
        self.report.count_case(call.kind, true, calls, has_failed);
    }

    /// The crate prints by the rules and laws, and the library prints the crate's bytes, or refuses with 7.
    fn check_printed(&mut self, call: Call, text: &[u8], lone: bool, points: &[u32], rooms: Rooms) {
        // SAFETY: a text that the rules do not refuse is well formed and exactly flagged.
        let printed = unsafe { crate_side::print(&mut self.printer, call, text, lone) }.to_vec();
        let mut has_failed = self.crate_breaks_rules(call, text, lone, points, &printed);
        let mut calls = 0;
        if call.kind != Kind::AsTemplate {
            let need = printed.len();
            let telling = [0, need.saturating_sub(1), need, need + 1, need / 2, 3 * text.len(), 4 * text.len() + 2];
            let ample = 4 * text.len() + 10;
            let tried: &[usize] = match rooms {
                Rooms::Two => &[ample, telling[self.turn % telling.len()]],
                Rooms::All => &[&telling[..], &[ample, MAX_ROOM - 1, MAX_ROOM, MAX_ROOM + 1, MAX_ROOM + 7000]].concat(),
            };
            for &room in tried {
                let wanted = if need <= room.min(MAX_ROOM) {
                    Answer { number: 0, value: need as u32 }
                } else {
                    Answer { number: 7, value: need as u32 }
                };
                has_failed |= !self.ask_library(call, text, lone, room, wanted, &printed);
                calls += 1;
            }
        }
        self.report.count_case(call.kind, false, calls, has_failed);
    }

    /// Compares the crate's bytes with the list of rules, and with what has to be true of them by ECMA-262.
    fn crate_breaks_rules(&mut self, call: Call, text: &[u8], lone: bool, points: &[u32], printed: &[u8]) -> bool {
        let by_rules = rules::encode(&rules::print(call, points));
        let what = if by_rules != printed {
            format!("the rules print {}, the crate {}", hex(&by_rules), hex(printed))
        } else if let Some(law) = laws::broken(call, points, printed) {
            format!("not true: {law}; the crate prints {}", hex(printed))
        } else {
            return false;
        };
        self.report.difference(Party::Crate, call, lone, text, &what);
        true
    }

    /// Calls the library once. Answers whether it answered and printed what is wanted, and touched nothing else.
    fn ask_library(&mut self, call: Call, text: &[u8], lone: bool, room: usize, wanted: Answer, bytes: &[u8]) -> bool {
        let is_printed = wanted.number == 0;
        let shown = if is_printed { bytes.len() } else { 0 };
        let outcome = self.library.call(call, text, lone, room, shown);
        let what = if outcome.answer != wanted {
            let got = outcome.answer;
            format!("answer {} {} instead of {} {}", got.number, got.value, wanted.number, wanted.value)
        } else if is_printed && outcome.front != bytes {
            format!("printed {} instead of {}", hex(outcome.front), hex(bytes))
        } else if !outcome.rest_untouched {
            "bytes were touched that may not be".to_string()
        } else {
            return true;
        };
        self.report.difference(Party::Library, call, lone, text, &format!("out of {room} bytes: {what}"));
        false
    }
}
