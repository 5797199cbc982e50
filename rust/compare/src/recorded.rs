//! The recorded sample (crates/replay/stdin): the library on its images, and the file held to what is answered today.
use std::env;
use std::fs;

use compare::guarded::{Bench, Depth};
use compare::sample;
use compare::tally::{Held, Tally};

pub fn run(tally: &mut Tally) {
    tally.part("the recorded sample");
    let mut bench = Bench::new();
    for (i, image) in sample::images().iter().enumerate() {
        bench.image(tally, image, Depth { questions: true, cross: true, pixels: true }, &|| format!("entry {}", i));
    }
    for two in sample::two_faults() {
        let [(first, named), (second, then)] = two.answers();
        tally.same(Held::Judges, || two.what.clone(), first, Err(named));
        tally.same(Held::Judges, || format!("{}, the first cured", two.what), second, Err(then));
    }
    match env::var_os("SAMPLE") {
        Some(path) => compare_file(tally, &fs::read(&path).unwrap_or_default()),
        None => tally.left_out("the recorded sample's file (SAMPLE is not set)"),
    }
}

/// The file is, entry by entry, what the original crate and the model answer today.
fn compare_file(tally: &mut Tally, file: &[u8]) {
    let mut at = 0;
    for (i, entry) in sample::entries().iter().enumerate() {
        let recorded = file.get(at..at + entry.len());
        tally.same(Held::Files, || format!("entry {} at byte {}", i, at), recorded == Some(&entry[..]), true);
        at += entry.len();
    }
    tally.same(Held::Files, || "the file's length".to_string(), file.len(), at);
}
