//! Times the crate's functions and ours on the same inputs.
//!
//! A round times a batch of each, one after the other; the ratio is taken within the round, and the median over all
//! rounds is told. The crate trusts its input, ours checks it, so the crate is also timed behind the standard library's
//! check of UTF-8. Buffers are made beforehand and are not cleared.

use std::hint::black_box;
use std::process::ExitCode;
use std::time::Instant;

use original::Printer;

use crate::call::{Call, Kind};
use crate::crate_side;
use crate::library::raw_call;
use crate::rules;

const ROUNDS: usize = 21;
const BATCH_BYTES: usize = 400_000;
const OUT_BYTES: usize = 65_536;

struct Sample {
    title: &'static str,
    phrase: &'static str,
}

const LITERALS: [Sample; 4] = [
    Sample { title: "ASCII", phrase: "Cement mill 3, silo 12: clinker, 40 t. " },
    Sample { title: "mixed", phrase: "Réserve de gypse \"B\", 40 t; it's 12 °C, Förderband 3. " },
    Sample { title: "escapes", phrase: "\n\"'\\\r`\0\x07${</script\u{A0}\u{2028}" },
    Sample { title: "non-ASCII", phrase: "水泥厂三号筒仓石膏é漢字😀" },
];

const PIECES: [Sample; 4] = [
    Sample { title: "ASCII", phrase: "Cement mill 3, silo 12: clinker, 40 t. " },
    Sample { title: "mixed", phrase: "Réserve de gypse \\`B\\`, 40 t; \\$12 °C, Förderband 3.\\n" },
    Sample { title: "escapes", phrase: "\\$\\\\\\`\\u00e9\\x41</script\\é\\\u{2028}\\${" },
    Sample { title: "non-ASCII", phrase: "水泥厂三号筒仓石膏é漢字😀" },
];

const NAMES: [Sample; 3] = [
    Sample { title: "ASCII", phrase: "silo_contents_" },
    Sample { title: "mixed", phrase: "réserve_de_gypse_" },
    Sample { title: "non-ASCII", phrase: "水泥厂é漢字" },
];

pub fn run() -> ExitCode {
    println!(
        "{:<8} {:<8} {:<10} {:>6}  {:>10} {:>12} {:>10}  {:>10} {:>12}",
        "kind", "options", "text", "bytes", "crate ns", "+ check ns", "ours ns", "ours/crate", "ours/+check"
    );
    for bits in [0, 2, 10, 4] {
        bench_all(Call::from_bits(Kind::String, bits), &LITERALS, &[16, 256, 16_384]);
    }
    for bits in [0, 2, 6] {
        bench_all(Call::from_bits(Kind::Piece, bits), &PIECES, &[16, 256, 16_384]);
    }
    for bits in [0, 4] {
        bench_all(Call::from_bits(Kind::Name, bits), &NAMES, &[16, 128]);
    }
    ExitCode::SUCCESS
}

fn bench_all(call: Call, samples: &[Sample], lengths: &[usize]) {
    for sample in samples {
        for &length in lengths {
            bench(call, sample.title, &of_length(sample.phrase, length, call.kind));
        }
    }
}

/// The phrase over and over, cut where a character ends and filled up with `a`, so that the kind takes it.
fn of_length(phrase: &str, length: usize, kind: Kind) -> Vec<u8> {
    let long = phrase.repeat(length / phrase.len() + 1);
    let cut_at = |end: usize| {
        let mut text = long.as_bytes()[..end].to_vec();
        text.resize(length, b'a');
        text
    };
    let cuts = (0..=length).rev().map(cut_at);
    cuts.into_iter().find(|text| rules::refusal(kind, text, false).is_ok()).expect("plain letters are taken")
}

fn bench(call: Call, title: &str, text: &[u8]) {
    let mut printer = Printer::default();
    let mut out = vec![0; OUT_BYTES];
    let times = (BATCH_BYTES / text.len()).clamp(1, 4_000);
    let mut rounds: Vec<[f64; 3]> = Vec::new();
    for _ in 0..ROUNDS {
        rounds.push([
            // SAFETY: the rules do not refuse the text, and it has no surrogate.
            timed(times, || unsafe {
                black_box(crate_side::print(&mut printer, call, black_box(text), false));
            }),
            timed(times, || unsafe {
                if str::from_utf8(black_box(text)).is_ok() {
                    black_box(crate_side::print(&mut printer, call, black_box(text), false));
                }
            }),
            timed(times, || {
                black_box(raw_call(call, black_box(text), false, &mut out, 1));
            }),
        ]);
    }
    let median_of = |measure: &dyn Fn(&[f64; 3]) -> f64| median(rounds.iter().map(measure).collect());
    let options = crate::report::or_dash(call.letters());
    println!(
        "{:<8} {:<8} {:<10} {:>6}  {:>10.1} {:>12.1} {:>10.1}  {:>10.2} {:>12.2}",
        call.kind.word(),
        options,
        title,
        text.len(),
        median_of(&|round| round[0]),
        median_of(&|round| round[1]),
        median_of(&|round| round[2]),
        median_of(&|round| round[2] / round[0]),
        median_of(&|round| round[2] / round[1]),
    );
}

/// Nanoseconds for each of some calls.
fn timed(times: usize, mut call: impl FnMut()) -> f64 {
    let start = Instant::now();
    for _ in 0..times {
        call();
    }
    start.elapsed().as_nanos() as f64 / times as f64
}

fn median(mut numbers: Vec<f64>) -> f64 {
    numbers.sort_by(f64::total_cmp);
    numbers[numbers.len() / 2]
}
