//! Links the benchmark with the archive of the crate `bench_c`, which BENCH_ARCHIVE names.
use std::env;

fn main() {
    println!("cargo:rerun-if-env-changed=BENCH_ARCHIVE");
    if let Ok(archive) = env::var("BENCH_ARCHIVE") {
        println!("cargo:rerun-if-changed={archive}");
        println!("cargo:rustc-link-arg-bin=bench={archive}");
    }
}
