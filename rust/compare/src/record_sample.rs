//! record-sample FILE: writes the fixed sample of the original crate's answers; `compare::sample` has the file's form, and says
//! where an answer is the model's.
use std::collections::BTreeMap;
use std::env;
use std::fs;
use std::process::exit;

use compare::apart::Apart;
use compare::judge;
use compare::model;
use compare::sample;

/// What must be recorded of images with two faults is written beside them; the model has to say the same.
fn unexpected() -> Vec<String> {
    let mut wrong = Vec::new();
    for two in sample::two_faults() {
        for (said, expected) in two.answers() {
            if said != Err(expected) {
                wrong.push(format!("{}: the model says {:?}, not {:?}", two.what, said, expected));
            }
        }
    }
    wrong
}

/// What is recorded of an accepted image, and whether the library has another alpha_ptat.
fn accepted(apart: &Apart) -> String {
    let alpha = if apart.wrapped.is_empty() { "all of it the crate's" } else { "with some of the model's alpha" };
    let steps = if apart.quarters.is_some() { ", in whole steps where the library has quarters" } else { "" };
    format!("accepted, {}{}", alpha, steps)
}

fn main() {
    judge::silence_expected_panics();
    let path = match env::args_os().nth(1) {
        Some(path) => path,
        None => {
            eprintln!("record-sample FILE");
            exit(2)
        }
    };
    let wrong = unexpected();
    if !wrong.is_empty() {
        wrong.iter().for_each(|text| eprintln!("{}", text));
        exit(1);
    }
    let mut verdicts = BTreeMap::new();
    for image in sample::images() {
        let key = match model::verdict(&image) {
            Ok(_) => accepted(&Apart::of(&image)),
            Err(refused) => format!("refusal {}, table {}", refused.number, refused.table),
        };
        *verdicts.entry(key).or_insert(0) += 1;
    }
    for (key, count) in verdicts {
        println!("{:>4} {}", count, key);
    }
    let bytes = sample::entries().concat();
    if let Err(error) = fs::write(&path, &bytes) {
        eprintln!("{}", error);
        exit(1);
    }
    println!("{} bytes", bytes.len());
}
