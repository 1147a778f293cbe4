//! Records a sample of the crate's answers, one line for each.
//!
//! A line has six words with one blank between: kind, options, input, number, value, output. README.md says more.

use std::process::ExitCode;
use std::{fs, io};

use original::Printer;

use crate::call::{Call, Kind};
use crate::crate_side;
use crate::report::or_dash;
use crate::rules::{self, laws};

const HEADER: &str = "\
# Answers recorded from the functions of oxc_codegen 0.156.0 by 'compare record' (folder compare/, see its README.md).
# A line is: KIND OPTIONS INPUT NUMBER VALUE OUTPUT, words with one blank between.
#   KIND     string, as-template, piece, tagged, directive, regex or name
#   OPTIONS  s single_quote, m minify, a ascii_only, b allow_backtick, l the surrogate flag is set; - for none
#   INPUT    bytes in hex, - for none
#   NUMBER   0: the crate printed OUTPUT, and VALUE is its length
#            1 to 5: not asked of the crate, because its contract excludes the input; the refusal follows from the rules,
#            and VALUE is its place, or 0
#   OUTPUT   bytes in hex, - for none
# Options that give a text the same answer as options recorded before are left out.
";

const TEXTS: [&[u8]; 44] = [
    b"",
    b"a",
    b"plain words 123",
    b"\x001",
    b"\0a",
    b"\0",
    b"\0\09",
    b"\x07\x08\t\n\x0B\x0C\r\x1B\x7F",
    b"\x01\x1F\x7F",
    b"\\",
    b"C:\\n",
    b"it's",
    b"\"hot\"",
    b"'\"`",
    b"''\"",
    b"\"\"'",
    b"`",
    b"``\n\n",
    b"\n",
    b"\n'",
    b"'\"\n",
    b"$",
    b"${",
    b"\n${",
    b"$${a}`",
    b"$\n{",
    b"</script>",
    b"</SCRIPT>",
    b"</ScRiPt",
    b"</scrip",
    b"<</script</script/>",
    b"< /script <//script",
    b"\xC2\xA0\xC2\xA1",
    b"R\xC3\xA9serve",
    b"\xE2\x80\xA8\xE2\x80\xA9\xE2\x80\xAA\xE2\x82\xAC",
    b"\xED\x9F\xBF\xEE\x80\x80",
    b"\xF0\x9F\x98\x80\xF4\x8F\xBF\xBF\xF0\x90\x80\x80",
    b"\xED\xA0\x80",
    b"\xED\xB8\x80\xED\xA0\xBD",
    b"a\xED\xA0\xBD-\xED\xB8\x80\xC3\xA9\xED\x9F\xBF",
    b"\xED\xA0\xBD\xED\xB8\x80",
    b"a\xFF",
    b"\xC3",
    b"\xF4\x90\x80\x80",
];

const RAW_TEXTS: [&[u8]; 50] = [
    b"",
    b"plain words",
    b"\\$a",
    b"\\\\$a",
    b"\\\\\\$a",
    b"\\${",
    b"\\$",
    b"\\$\\$\\${}",
    b"$\\{",
    b"$",
    b"$$",
    b"\\$\xC3\xA9",
    b"\\\xC3\xA9",
    b"\\\\\xC3\xA9",
    b"\\\\\\\xC3\xA9",
    b"\xC2\xA0\xC3\xA9\xED\x9F\xBF",
    b"\xF0\x9F\x98\x80",
    b"\\\xF0\x9F\x98\x80",
    b"\xE2\x80\xA8",
    b"\\\xE2\x80\xA8",
    b"\\\xE2\x80\xA9\\",
    b"\\\\\xE2\x80\xA9",
    b"$\\\xE2\x80\xA8{",
    b"\\0\\\xE2\x80\xA81",
    b"\\\xC3\xA9\\\xC3\xA9",
    b"</script>",
    b"\\</SCRIPT>",
    b"<\\/script>",
    b"0123456789</script",
    b"\xC3\xA9</sCRIPT\xC3\xA9",
    b"\\0\\x41\\u0041\\u{41}\\u{00010FFFF}",
    b"\\\n\\\r\\\r\n\r\n",
    b"\\`\\'\\\"",
    b"a`b",
    b"a${b",
    b"\\\\${",
    b"\\1",
    b"\\00",
    b"\\8",
    b"\\x4",
    b"\\u{}",
    b"\\u{110000}",
    b"\\u004",
    b"ab\\",
    b"\xC3\xA9\\xg",
    b"\xC3\xA9`",
    b"\xED\xA0\x80",
    b"a\x80",
    b"\xE2\x80",
    b"\xC0\x80",
];

const NAMES: [&[u8]; 20] = [
    b"",
    b"a",
    b"$_aZ09",
    b"0a",
    b"a0",
    b"a-b",
    b"a b",
    b"a\\u0041",
    b"\xC3\xA9t\xC3\xA9",
    b"a\xF0\x9F\x98\x80",
    b"\xF0\x9D\x92\x9C",
    b"\xC2\x80",
    b"\xED\x9F\xBF\xEE\x80\x80",
    b"\xC3\xA9-",
    b"\0",
    b"\x7F",
    b"\xED\xA0\x80",
    b"a\xFF",
    b"<",
    b"\xF4\x8F\xBF\xBF",
];

/// The options, as the bits of `Call::from_bits`, that a sample of each kind is recorded with.
fn sampled_options(kind: Kind) -> &'static [u64] {
    match kind {
        Kind::String => &[0, 1, 2, 4, 10, 14],
        Kind::AsTemplate => &[0, 4],
        Kind::Piece => &[0, 2, 4, 6],
        Kind::Tagged => &[0, 6],
        Kind::Directive | Kind::Regex | Kind::Name => &[0, 4],
    }
}

fn sampled_texts(kind: Kind) -> &'static [&'static [u8]] {
    match kind {
        Kind::String | Kind::AsTemplate => &TEXTS,
        Kind::Piece | Kind::Tagged | Kind::Directive | Kind::Regex => &RAW_TEXTS,
        Kind::Name => &NAMES,
    }
}

pub fn record(file: &str) -> ExitCode {
    let mut lines = HEADER.to_string();
    let mut printer = Printer::default();
    let mut count = 0;
    for kind in Kind::ALL {
        for text in sampled_texts(kind) {
            for case in sampled_lines(&mut printer, kind, text) {
                lines += &case;
                count += 1;
            }
        }
    }
    report(file, fs::write(file, &lines), count)
}

/// The lines of one text: the first options, those that change the answer, and for a few texts the wrong flag.
fn sampled_lines(printer: &mut Printer, kind: Kind, text: &[u8]) -> Vec<String> {
    let exact = kind.takes_text() && rules::holds_surrogate(text);
    let mut answers: Vec<String> = Vec::new();
    let mut lines = Vec::new();
    for &bits in sampled_options(kind) {
        let call = Call::from_bits(kind, bits);
        let answer = answer(printer, call, text, exact);
        if !answers.contains(&answer) {
            lines.push(line(call, text, exact, &answer));
            answers.push(answer);
        }
    }
    if kind.takes_text() && (exact || text.len() < 2) {
        let call = Call::from_bits(kind, 0);
        lines.push(line(call, text, !exact, &answer(printer, call, text, !exact)));
    }
    lines
}

/// The last three words of a line.
fn answer(printer: &mut Printer, call: Call, text: &[u8], lone: bool) -> String {
    let (number, value, output) = match rules::refusal(call.kind, text, lone) {
        Err(refusal) => (refusal.number, refusal.place, Vec::new()),
        Ok(points) => {
            // SAFETY: a text that the rules do not refuse is well formed and exactly flagged.
            let output = unsafe { crate_side::print(printer, call, text, lone) }.to_vec();
            assert_eq!(output, rules::encode(&rules::print(call, &points)), "the crate and the rules differ");
            assert_eq!(laws::broken(call, &points, &output), None);
            (0, output.len(), output)
        }
    };
    format!("{number} {value} {}", digits(&output))
}

fn line(call: Call, text: &[u8], lone: bool, answer: &str) -> String {
    let options = or_dash(call.letters() + if lone { "l" } else { "" });
    format!("{} {options} {} {answer}\n", call.kind.word(), digits(text))
}

fn digits(bytes: &[u8]) -> String {
    or_dash(bytes.iter().map(|byte| format!("{byte:02X}")).collect())
}

fn report(file: &str, written: io::Result<()>, count: usize) -> ExitCode {
    match written {
        Ok(()) => {
            println!("{count} answers recorded in {file}");
            ExitCode::SUCCESS
        }
        Err(error) => {
            eprintln!("{file}: {error}");
            ExitCode::FAILURE
        }
    }
}
