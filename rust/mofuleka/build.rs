//! Finds libmofuleka.a: the file that the environment variable `MOFULEKA_ARCHIVE` names, or else the static library that
//! `rt lib` builds of the repository's crate `mofuleka_c`.
use std::env;
use std::fs;
use std::path::{Path, PathBuf};
use std::process::{exit, Command};

fn fail(message: &str) -> ! {
    eprintln!("mofuleka: {message}");
    exit(1)
}

fn built_at(root: &Path) -> PathBuf {
    println!("cargo:rerun-if-changed={}", root.join("crates.txt").display());
    // What rt reads of each crate, and not what it writes beside that.
    if let Ok(crates) = fs::read_dir(root.join("crates")) {
        for folder in crates.flatten().map(|entry| entry.path()) {
            for part in ["src", "specs", "proofs"].map(|name| folder.join(name)) {
                if part.is_dir() {
                    println!("cargo:rerun-if-changed={}", part.display());
                }
            }
        }
    }
    let folder = root.join("crates/mofuleka_c");
    let words = ["lib", "--target", "x86_64-unknown-linux-gnu", "--cpu", "x86-64"];
    match Command::new("rt").args(words).current_dir(&folder).status() {
        Ok(status) if status.success() => folder.join("out/libmofuleka_c.a"),
        Ok(status) => fail(&format!("rt lib failed in crates/mofuleka_c: {status}")),
        Err(error) => {
            fail(&format!("rt could not be run ({error}); set MOFULEKA_ARCHIVE to the path of libmofuleka.a"))
        }
    }
}

fn main() {
    println!("cargo:rerun-if-env-changed=MOFULEKA_ARCHIVE");
    println!("cargo:rerun-if-changed=build.rs");
    let here = PathBuf::from(env::var_os("CARGO_MANIFEST_DIR").expect("cargo sets CARGO_MANIFEST_DIR"));
    let out = PathBuf::from(env::var_os("OUT_DIR").expect("cargo sets OUT_DIR"));
    let archive = if let Some(path) = env::var_os("MOFULEKA_ARCHIVE") {
        // Cargo runs this in the package's folder: a relative path is taken from there.
        println!("cargo:rerun-if-changed={}", Path::new(&path).display());
        PathBuf::from(path)
    } else {
        let processor = env::var("CARGO_CFG_TARGET_ARCH").expect("cargo sets CARGO_CFG_TARGET_ARCH");
        if processor != "x86_64" {
            fail(&format!(
                "rt's archive is for x86-64, and this build is for {processor}: build for x86_64-unknown-linux-gnu, or set \
                 MOFULEKA_ARCHIVE to an archive for {processor} (rust/compare/native-archive writes one)"
            ));
        }
        built_at(&here.join("../.."))
    };
    // A copy under a fixed name, so that the archive may be called anything.
    if let Err(error) = fs::copy(&archive, out.join("libmofuleka.a")) {
        fail(&format!("{} can't be read: {error}", archive.display()));
    }
    println!("cargo:rustc-link-search=native={}", out.display());
    println!("cargo:rustc-link-lib=static=mofuleka");
}
