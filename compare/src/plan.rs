//! The order of the day: which inputs are tried on which calls. The parts that take long come last.

use std::time::Instant;

use crate::call::{Call, Kind};
use crate::checks::{Checker, Rooms};
use crate::inputs::{
    ESCAPES, LITERAL, LITERAL_CORE, NAME, QUOTING, RAW, RAW_CORE, byte_sequences, code_point_escapes, code_points,
    damaged, every_sequence, mixed, mixed_of_length, surrogate_pairs, tag_lookalikes,
};
use crate::random::Random;

const LITERALS: [Kind; 2] = [Kind::String, Kind::AsTemplate];
const RAW_KINDS: [Kind; 4] = [Kind::Piece, Kind::Tagged, Kind::Directive, Kind::Regex];

pub fn run(checker: &mut Checker, random_cases: u64, seed: u64) {
    println!("seed {seed}, {random_cases} random inputs");
    let mut random = Random::new(seed);
    part(checker, "</script and its like", tags);
    part(checker, "flags that are not exact", wrong_flags);
    part(checker, "lengths around the limits", |checker| limits(checker, &mut random));
    part(checker, "lengths around chunk edges", |checker| chunk_edges(checker, &mut random));
    part(checker, "lengths beyond 32 bits", beyond_32_bits);
    part(checker, "escapes of raw text", escapes);
    part(checker, "any bytes", any_bytes);
    part(checker, "every code point", every_code_point);
    part(checker, "short inputs", short_inputs);
    part(checker, "random inputs and damaged copies", |checker| random_inputs(checker, &mut random, random_cases));
}

fn part(checker: &mut Checker, title: &str, work: impl FnOnce(&mut Checker)) {
    let (before, start) = (checker.report.cases(), Instant::now());
    work(checker);
    println!("{title}: {} cases, {:.1} s", checker.report.cases() - before, start.elapsed().as_secs_f64());
}

/// The calls of some kinds in all their options.
fn calls_of(kinds: &[Kind]) -> Vec<Call> {
    kinds.iter().flat_map(|&kind| Call::all_of(kind)).collect()
}

fn check_all(checker: &mut Checker, calls: &[Call], text: &[u8], rooms: Rooms) {
    for &call in calls {
        checker.check(call, text, rooms);
    }
}

fn short_inputs(checker: &mut Checker) {
    let literals = calls_of(&LITERALS);
    let minified: Vec<Call> = Call::all_of(Kind::String).into_iter().filter(|c| c.minify && !c.ascii_only).collect();
    let raw = calls_of(&RAW_KINDS);
    let pieces = calls_of(&[Kind::Piece]);
    let names = calls_of(&[Kind::Name]);
    for count in 0..=2 {
        every_sequence(&LITERAL, count, |text| check_all(checker, &literals, text, Rooms::All));
        every_sequence(&RAW, count, |text| check_all(checker, &raw, text, Rooms::All));
        every_sequence(&NAME, count, |text| check_all(checker, &names, text, Rooms::All));
    }
    every_sequence(&LITERAL, 3, |text| check_all(checker, &literals, text, Rooms::Two));
    every_sequence(&LITERAL, 4, |text| check_all(checker, &literals, text, Rooms::Two));
    every_sequence(&LITERAL_CORE, 4, |text| check_all(checker, &literals, text, Rooms::Two));
    every_sequence(&LITERAL_CORE, 5, |text| check_all(checker, &minified, text, Rooms::Two));
    for count in 3..=7 {
        every_sequence(&QUOTING, count, |text| check_all(checker, &minified, text, Rooms::Two));
    }
    every_sequence(&RAW, 3, |text| check_all(checker, &raw, text, Rooms::Two));
    every_sequence(&RAW, 4, |text| check_all(checker, &raw, text, Rooms::Two));
    every_sequence(&RAW_CORE, 4, |text| check_all(checker, &raw, text, Rooms::Two));
    every_sequence(&RAW_CORE, 5, |text| check_all(checker, &raw, text, Rooms::Two));
    every_sequence(&RAW_CORE, 6, |text| check_all(checker, &pieces, text, Rooms::Two));
    every_sequence(&NAME, 3, |text| check_all(checker, &names, text, Rooms::Two));
    every_sequence(&NAME, 4, |text| check_all(checker, &names, text, Rooms::Two));
}

fn escapes(checker: &mut Checker) {
    let raw = calls_of(&RAW_KINDS);
    let shrunk = Call::from_bits(Kind::Piece, 2);
    code_point_escapes(|text| check_all(checker, &raw, text, Rooms::All));
    for count in 3..=5 {
        every_sequence(&ESCAPES, count, |text| check_all(checker, &raw, text, Rooms::Two));
    }
    every_sequence(&ESCAPES, 6, |text| checker.check(shrunk, text, Rooms::Two));
}

fn every_code_point(checker: &mut Checker) {
    let literals = calls_of(&[Kind::String]);
    let others = calls_of(&[Kind::AsTemplate, Kind::Piece, Kind::Tagged, Kind::Directive, Kind::Regex, Kind::Name]);
    code_points(b"", b"", |text| check_all(checker, &literals, text, Rooms::Two));
    code_points(b"", b"", |text| check_all(checker, &others, text, Rooms::Two));
    let raw: Vec<Call> = calls_of(&RAW_KINDS).into_iter().filter(|call| call.ascii_only).collect();
    code_points(b"\\", b"1", |text| check_all(checker, &raw, text, Rooms::Two));
    code_points(b"\\\\", b"\\\\", |text| check_all(checker, &raw, text, Rooms::Two));
}

fn any_bytes(checker: &mut Checker) {
    let calls: Vec<Call> = [Kind::String, Kind::Piece, Kind::Tagged, Kind::Directive, Kind::Regex, Kind::Name]
        .into_iter()
        .map(|kind| Call::from_bits(kind, 4))
        .collect();
    byte_sequences(|text| check_all(checker, &calls, text, Rooms::Two));
    surrogate_pairs(|text| check_all(checker, &calls, text, Rooms::Two));
}

fn tags(checker: &mut Checker) {
    let calls = calls_of(&Kind::ALL);
    tag_lookalikes(|text| check_all(checker, &calls, text, Rooms::Two));
}

fn wrong_flags(checker: &mut Checker) {
    let calls = calls_of(&[Kind::String]);
    for count in 0..=2 {
        every_sequence(&LITERAL, count, |text| {
            for &call in &calls {
                for lone in [false, true] {
                    checker.check_flagged(call, text, lone, Rooms::Two);
                }
            }
        });
    }
}

/// Texts of one token, and mixed ones, a few bytes around each limit; with all sizes of `out`.
fn limits(checker: &mut Checker, random: &mut Random) {
    let tokens: [&[u8]; 12] = [
        b"a",
        b"\x07",
        b"\x1B",
        b"\\",
        b"\n",
        b"\xC3\xA9",
        b"\xC2\xA0",
        b"\xE2\x80\xA8",
        b"\xF0\x9F\x98\x80",
        b"\xF4\x8F\xBF\xBF",
        b"\\$",
        b"</script",
    ];
    for kind in Kind::ALL {
        let limit = if kind == Kind::Name { 128 } else { 16_384 };
        for length in [limit - 17, limit - 3, limit - 2, limit - 1, limit, limit + 1, limit + 2, limit + 20, 7 * limit]
        {
            for call in Call::all_of(kind) {
                for token in tokens {
                    let mut text = token.repeat(length / token.len());
                    text.resize(length, b'a');
                    checker.check(call, &text, Rooms::All);
                }
                let text = mixed_of_length(random, kind, length);
                checker.check(call, &text, Rooms::All);
                checker.check(call, &damaged(random, &text), Rooms::Two);
            }
        }
        for length in [4_090, 4_094, 4_095, 4_096, 4_097, 16_000, 16_383] {
            for call in Call::all_of(kind) {
                let text = mixed_of_length(random, kind, length);
                checker.check(call, &text, Rooms::All);
            }
        }
    }
    // Literals of 65,530 to 65,538 bytes: 65,536 are the most that are ever printed.
    for call in calls_of(&LITERALS) {
        for bells in 16_380..=16_384 {
            for rest in [&b""[..], b"a", b"\\", b"aa", b"a\\", b"\\\\", b"\0", b"\x001"] {
                let text = [&vec![0x07; bells], rest].concat();
                checker.check(call, &text, Rooms::All);
            }
        }
    }
}

/// Lengths that would be small if only their lower 32 bits counted. The memory is asked for and never touched, but for
/// what is printed.
fn beyond_32_bits(checker: &mut Checker) {
    let mut huge = vec![0; (1 << 32) + 5];
    for call in calls_of(&[Kind::String, Kind::Piece, Kind::Tagged, Kind::Directive, Kind::Regex, Kind::Name]) {
        checker.check_flagged(call, &huge, false, Rooms::Two);
        checker.check_in(call, b"silo_12345", &mut huge);
    }
}

fn chunk_edges(checker: &mut Checker, random: &mut Random) {
    for kind in Kind::ALL {
        for call in Call::all_of(kind) {
            for length in 0..=130 {
                for _ in 0..20 {
                    let text = mixed_of_length(random, kind, length);
                    checker.check(call, &text, Rooms::Two);
                }
            }
        }
    }
}

/// Each random input is tried as it is, in any options, and every second one is tried damaged too.
fn random_inputs(checker: &mut Checker, random: &mut Random, cases: u64) {
    for number in 0..cases {
        let kind = random.one_of(&Kind::ALL);
        let call = Call::from_bits(kind, random.next() % 16);
        let text = mixed(random, kind);
        checker.check(call, &text, Rooms::Two);
        if number % 2 == 0 {
            let copy = damaged(random, &text);
            checker.check(call, &copy, Rooms::Two);
        }
        if number % 16 == 0 && kind.takes_text() {
            let lone = random.once_in(2);
            checker.check_flagged(call, &text, lone, Rooms::All);
        }
    }
}
