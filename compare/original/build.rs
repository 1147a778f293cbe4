//! Takes the crate's own functions out of its source folder, which OXC_CODEGEN_SRC names.
//!
//! The string file is copied unchanged. Of the lib file the items listed here are cut out, line for line, from
//! their comments and attributes to their closing brace; an item that is not found ends the build.

use std::path::{Path, PathBuf};
use std::{env, fs, process};

/// The items of the lib file that stand by themselves.
const ITEMS: [&str; 1] = ["enum NonAsciiEscape"];

/// The methods of `Codegen` in the lib file.
const METHODS: [&str; 13] = [
    "print_ascii_byte",
    "print_str",
    "print_name",
    "print_non_ascii_escaped",
    "print_unicode_escape",
    "print_unicode_escape_utf16",
    "print_code_point_escape",
    "print_u16_escape",
    "print_template_quasi_raw",
    "print_template_quasi_raw_chunk",
    "print_directive_raw",
    "print_regex_pattern",
    "print_str_escaping_script_close_tag",
];

fn main() {
    println!("cargo::rerun-if-env-changed=OXC_CODEGEN_SRC");
    let Some(folder) = env::var_os("OXC_CODEGEN_SRC").map(PathBuf::from) else {
        fail("OXC_CODEGEN_SRC has to name the source folder of oxc_codegen 0.156.0");
    };
    let out = PathBuf::from(env::var_os("OUT_DIR").expect("cargo sets OUT_DIR"));

    let strings = source_file(&folder, "str.rs");
    write(&out.join("str.rs"), &read(&strings));

    let lib = source_file(&folder, "lib.rs");
    let text = read(&lib);
    let lines: Vec<&str> = text.lines().collect();
    let mut cut = String::new();
    for item in ITEMS {
        cut += &cut_out(&lib, &lines, &format!("{item} {{"));
    }
    cut += "impl Codegen<'_> {\n";
    for method in METHODS {
        cut += &cut_out(&lib, &lines, &format!("fn {method}("));
    }
    cut += "}\n";
    write(&out.join("lib_items.rs"), &cut);
}

/// The file as it stands in a checkout (src/str.rs), or flattened (src--src--str.rs.txt).
fn source_file(folder: &Path, name: &str) -> PathBuf {
    let places = [
        folder.join("src").join(name),
        folder.join(name),
        folder.join(format!("src--src--{name}.txt")),
        folder.join(format!("src--{name}.txt")),
    ];
    let Some(found) = places.iter().find(|place| place.is_file()) else {
        fail(&format!("there is no src/{name} in {}", folder.display()));
    };
    println!("cargo::rerun-if-changed={}", found.display());
    found.clone()
}

/// The one item whose head line holds `head`: the comments and attributes above it, and all lines down to the
/// closing brace that stands as far in as the head does.
fn cut_out(file: &Path, lines: &[&str], head: &str) -> String {
    let heads: Vec<usize> = (0..lines.len()).filter(|&at| is_head(lines[at], head)).collect();
    let [at] = heads[..] else {
        fail(&format!("{} has {} items '{head}', and one is needed", file.display(), heads.len()));
    };
    let indent = &lines[at][..lines[at].len() - lines[at].trim_start().len()];
    let end = format!("{indent}}}");
    let Some(length) = lines[at..].iter().position(|line| *line == end) else {
        fail(&format!("{}: the end of '{head}' is not found", file.display()));
    };
    let above = lines[..at].iter().rev().take_while(|line| is_above(line)).count();
    lines[at - above..=at + length].iter().map(|line| format!("{line}\n")).collect()
}

/// Whether the line begins the item: its head with nothing but a visibility before it.
fn is_head(line: &str, head: &str) -> bool {
    ["", "pub ", "pub(crate) ", "pub(super) "]
        .iter()
        .any(|visibility| line.trim_start().strip_prefix(visibility).is_some_and(|rest| rest.starts_with(head)))
}

/// Whether the line is a comment or an attribute of the item below it.
fn is_above(line: &str) -> bool {
    let line = line.trim_start();
    line.starts_with("//") || line.starts_with("#[")
}

fn read(file: &Path) -> String {
    fs::read_to_string(file).unwrap_or_else(|error| fail(&format!("{}: {error}", file.display())))
}

fn write(file: &Path, text: &str) {
    fs::write(file, text).unwrap_or_else(|error| fail(&format!("{}: {error}", file.display())));
}

fn fail(message: &str) -> ! {
    eprintln!("compare: {message}");
    process::exit(1);
}
