//! Links the static library that stands in the folder JSLIT_LIB.

use std::path::PathBuf;
use std::{env, process};

fn main() {
    println!("cargo::rerun-if-env-changed=JSLIT_LIB");
    let library = env::var_os("JSLIT_LIB").map(|folder| PathBuf::from(folder).join("libcapi.a"));
    let Some(library) = library.filter(|file| file.is_file()) else {
        eprintln!("compare: JSLIT_LIB has to name the folder of libcapi.a, which 'rt lib' makes in crates/capi");
        process::exit(1);
    };
    let folder = library.parent().expect("a file stands in a folder");
    println!("cargo::rerun-if-changed={}", library.display());
    println!("cargo::rustc-link-search=native={}", folder.display());
    println!("cargo::rustc-link-lib=static=capi");
}
