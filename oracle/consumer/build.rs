//! Copies the crate's four source files, unchanged, to OUT_DIR, where lib.rs
//! includes them. ACCESSKIT_CONSUMER_SRC names the folder that holds `tree.rs`,
//! `node.rs`, `filters.rs` and `iterators.rs`.
use std::{env, fs, path::PathBuf, process::exit};

const VARIABLE: &str = "ACCESSKIT_CONSUMER_SRC";

fn main() {
    println!("cargo:rerun-if-env-changed={VARIABLE}");
    let Some(dir) = env::var_os(VARIABLE).filter(|v| !v.is_empty()).map(PathBuf::from) else {
        eprintln!("{VARIABLE} is not set: it must name the folder with accesskit_consumer 0.39.2's src/*.rs");
        exit(1);
    };
    let out = PathBuf::from(env::var_os("OUT_DIR").unwrap());
    for name in ["tree.rs", "node.rs", "filters.rs", "iterators.rs"] {
        let from = dir.join(name);
        println!("cargo:rerun-if-changed={}", from.display());
        let text = fs::read(&from).unwrap_or_else(|e| {
            eprintln!("{VARIABLE}: cannot read {}: {e}", from.display());
            exit(1);
        });
        fs::write(out.join(name), text).unwrap();
    }
}
