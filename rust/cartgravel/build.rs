//! Finds the proved library `libcartgravel.a`: in the folder that `CARTGRAVEL_LIB` names or, where it names none,
//! by `rt lib` in the folder `crates/cartgravel` of the repository that holds this crate.
use std::path::{Path, PathBuf};
use std::{env, fs, process::exit, process::Command};

const VARIABLE: &str = "CARTGRAVEL_LIB";
const ARCHIVE: &str = "libcartgravel.a";

fn main() {
    println!("cargo:rerun-if-env-changed={VARIABLE}");
    let folder =
        env::var_os(VARIABLE).filter(|v| !v.is_empty()).map(PathBuf::from).map(given).unwrap_or_else(built);
    println!("cargo:rustc-link-search=native={}", folder.display());
    println!("cargo:rustc-link-lib=static=cartgravel");
}

/// The folder that holds an archive made elsewhere.
fn given(folder: PathBuf) -> PathBuf {
    let archive = folder.join(ARCHIVE);
    if !archive.is_file() {
        eprintln!("{VARIABLE}: there is no {}", archive.display());
        exit(1);
    }
    println!("cargo:rerun-if-changed={}", archive.display());
    folder
}

/// Proves the library and writes the archive, for any x86-64 processor; what is proved already is not proved again.
/// A copy stays beside what cargo builds, since `rt ci` removes the archive that `rt lib` writes.
fn built() -> PathBuf {
    let crates = Path::new(env!("CARGO_MANIFEST_DIR")).join("../../crates");
    watch(&crates);
    let library = crates.join("cartgravel");
    match Command::new("rt").args(["lib", "--cpu", "x86-64"]).current_dir(&library).output() {
        Ok(out) if out.status.success() => {
            let folder = PathBuf::from(env::var_os("OUT_DIR").unwrap());
            fs::copy(library.join("out").join(ARCHIVE), folder.join(ARCHIVE)).unwrap();
            folder
        }
        Ok(out) => {
            eprintln!("{}{}", String::from_utf8_lossy(&out.stdout), String::from_utf8_lossy(&out.stderr));
            exit(1);
        }
        Err(e) => {
            eprintln!("rt lib: {e}; set {VARIABLE} to the folder that has {ARCHIVE}");
            exit(1);
        }
    }
}

/// Has cargo run this again where a source, a definition or a proof changes, and not where `rt` writes its own files.
fn watch(crates: &Path) {
    println!("cargo:rerun-if-changed={}", crates.join("../crates.txt").display());
    for folder in fs::read_dir(crates).unwrap().flatten() {
        for part in ["src", "specs", "proofs"].map(|p| folder.path().join(p)).iter().filter(|p| p.is_dir()) {
            println!("cargo:rerun-if-changed={}", part.display());
        }
    }
}
