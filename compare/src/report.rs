//! Counts per kind, and the first differences in full.

use crate::call::{Call, Kind};

/// How many differences of each kind are shown.
const SHOWN: usize = 5;

/// Who disagrees.
#[derive(Clone, Copy, PartialEq, Eq)]
pub enum Party {
    /// The library with the crate, or with the rules where the crate is not asked.
    Library,
    /// The crate with the rules.
    Crate,
}

#[derive(Default)]
struct Tally {
    /// Cases in which the crate printed.
    printed: u64,
    /// Cases that are to be refused for their text.
    refused: u64,
    /// Calls of the library.
    calls: u64,
    failed: u64,
    library_differs: u64,
    crate_differs: u64,
}

#[derive(Default)]
pub struct Report {
    tallies: [Tally; Kind::ALL.len()],
}

impl Report {
    fn tally(&mut self, kind: Kind) -> &mut Tally {
        &mut self.tallies[kind as usize]
    }

    pub fn count_case(&mut self, kind: Kind, is_refused: bool, calls: u64, has_failed: bool) {
        let tally = self.tally(kind);
        if is_refused {
            tally.refused += 1;
        } else {
            tally.printed += 1;
        }
        tally.calls += calls;
        tally.failed += u64::from(has_failed);
    }

    /// Counts a difference, and shows it if it is one of the first.
    pub fn difference(&mut self, party: Party, call: Call, lone: bool, text: &[u8], what: &str) {
        let tally = self.tally(call.kind);
        let (count, who) = match party {
            Party::Library => (&mut tally.library_differs, "library"),
            Party::Crate => (&mut tally.crate_differs, "crate"),
        };
        *count += 1;
        if *count > SHOWN as u64 {
            return;
        }
        println!("DIFFERENCE ({who}): {}, {what}", call.kind.word());
        println!("    options {}, flag {}", or_dash(call.letters()), u8::from(lone));
        println!("    input   {}", hex(text));
    }

    pub fn cases(&self) -> u64 {
        self.tallies.iter().map(|tally| tally.printed + tally.refused).sum()
    }

    fn failed(&self) -> u64 {
        self.tallies.iter().map(|tally| tally.failed).sum()
    }

    /// Prints the table and the verdict. Answers whether nothing failed.
    pub fn close(&self) -> bool {
        println!();
        println!(
            "{:<12} {:>12} {:>12} {:>12} {:>16} {:>14}",
            "kind", "printed", "refused", "calls", "library differs", "crate differs"
        );
        for (kind, tally) in Kind::ALL.iter().zip(&self.tallies) {
            println!(
                "{:<12} {:>12} {:>12} {:>12} {:>16} {:>14}",
                kind.word(),
                tally.printed,
                tally.refused,
                tally.calls,
                tally.library_differs,
                tally.crate_differs
            );
        }
        println!();
        println!("{} passed, {} failed", self.cases() - self.failed(), self.failed());
        self.failed() == 0
    }
}

/// Bytes in hex, cut where they are long.
pub fn hex(bytes: &[u8]) -> String {
    const MOST: usize = 96;
    let digits: String = bytes.iter().take(MOST).map(|byte| format!("{byte:02X}")).collect();
    if bytes.len() > MOST { format!("{digits}... ({} bytes)", bytes.len()) } else { or_dash(digits) }
}

pub fn or_dash(word: String) -> String {
    if word.is_empty() { "-".to_string() } else { word }
}
