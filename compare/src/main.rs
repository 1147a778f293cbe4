//! Compares the static library with the functions of oxc_codegen 0.156.0; see README.md.
//!
//! Reading order: `call` (what can be asked for), `library` and `crate_side` (the two that are compared), `rules` (a
//! third opinion), `inputs` and `plan` (what is tried), `checks` (one case judged), `report`, `record`, `bench`.

mod bench;
mod call;
mod checks;
mod crate_side;
mod inputs;
mod library;
mod plan;
mod random;
mod record;
mod report;
mod rules;

use std::env;
use std::process::ExitCode;

const SEED: u64 = 20_260_156;
const RANDOM_CASES: u64 = 6_000_000;

const USAGE: &str = "compare [check [RANDOM_INPUTS [SEED]]] | compare record FILE | compare bench";

fn main() -> ExitCode {
    let words: Vec<String> = env::args().skip(1).collect();
    let words: Vec<&str> = words.iter().map(String::as_str).collect();
    match words[..] {
        [] | ["check"] => check(RANDOM_CASES, SEED),
        ["check", cases] => numbers(cases, "0").map_or_else(usage, |(cases, _)| check(cases, SEED)),
        ["check", cases, seed] => numbers(cases, seed).map_or_else(usage, |(cases, seed)| check(cases, seed)),
        ["record", file] => record::record(file),
        ["bench"] => bench::run(),
        _ => usage(),
    }
}

fn check(random_cases: u64, seed: u64) -> ExitCode {
    let mut checker = checks::Checker::default();
    plan::run(&mut checker, random_cases, seed);
    if checker.report.close() { ExitCode::SUCCESS } else { ExitCode::FAILURE }
}

fn numbers(first: &str, second: &str) -> Option<(u64, u64)> {
    Some((first.parse().ok()?, second.parse().ok()?))
}

fn usage() -> ExitCode {
    eprintln!("{USAGE}");
    ExitCode::from(2)
}
