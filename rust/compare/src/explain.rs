//! The program explain on a sample of images, and the explanations that the gate has stored (crates/accounts): both are
//! the text that the model gives.
use std::env;
use std::fs;
use std::path::PathBuf;

use compare::account::Account;
use compare::images::{self, Numbers};
use compare::leaving;
use compare::model::{self, refused, PIXELS};
use compare::tally::{Held, Tally};

use crate::program::{self, ask, Source};

/// What is printed for a table and a pixel of an image, and what that is held to.
fn answer(image: &[u8], table: u32, pixel: usize) -> (Held, String) {
    let verdict = model::verdict(image).map(|_| ());
    let number = match pixel {
        _ if verdict == Err(refused(1)) => 1,
        PIXELS.. => 11,
        _ if table > 2 => 15,
        _ => return (Held::Explained, Account::of(image, verdict, (table as usize, pixel)).text()),
    };
    (Held::Rules, format!("refused {} 0 0\n", number))
}

/// A table and a pixel as a person types them: by name or by number, by number or by row and column.
fn typed(numbers: &mut Numbers, table: u32, pixel: usize) -> [String; 2] {
    let table = match (table, numbers.below(2)) {
        (0, 0) => "offset".to_string(),
        (1, 0) => "alpha".to_string(),
        (2, 0) => "k_ta".to_string(),
        _ => table.to_string(),
    };
    match numbers.below(2) {
        0 => [table, pixel.to_string()],
        _ => [table, format!("{},{}", pixel / 32, pixel % 32)],
    }
}

/// Images of every kind, and one of every length that decides.
fn sample(numbers: &mut Numbers) -> Vec<Vec<u8>> {
    let mut sample = vec![vec![0; 1664], images::with(&[(0x2411, 0x7FFF), (0x2413, 0x0010)]).to_vec()];
    for i in 0..12 {
        sample.push(images::lifelike(i).to_vec());
        sample.push(images::tame(numbers).to_vec());
        sample.push(images::near(numbers).to_vec());
        sample.push(images::sparse(numbers).to_vec());
        sample.push(leaving::leaving(numbers).to_vec());
    }
    for len in [0, 1663, 1665, 2047, 2048, 2049, 3328] {
        sample.push([images::lifelike(2), images::lifelike(3)].concat()[..len].to_vec());
    }
    sample
}

/// A table and a pixel; one in eight is past the last of either.
fn some_asked(numbers: &mut Numbers) -> (u32, usize) {
    match numbers.below(16) {
        0 => (numbers.below(4) as u32, 768 + numbers.below(32) as usize),
        1 => (3 + numbers.below(9) as u32, numbers.below(768) as usize),
        _ => (numbers.below(3) as u32, numbers.below(768) as usize),
    }
}

pub fn run(tally: &mut Tally, seed: u64) {
    let program = match program::named("EXPLAIN") {
        Some(program) => program,
        None => {
            tally.left_out("explanations through explain (the program is not there)");
            return;
        }
    };
    tally.part("through explain");
    let mut numbers = Numbers::new(seed ^ 0xE8F1);
    for (i, image) in sample(&mut numbers).iter().enumerate() {
        tally.image(image);
        let (table, pixel) = some_asked(&mut numbers);
        let (held, expected) = answer(image, table, pixel);
        let arguments = typed(&mut numbers, table, pixel);
        let source = if i % 2 == 0 { Source::Pipe } else { Source::File };
        let ours = ask(&program, &arguments, image, source).unwrap_or_else(|error| error.to_string());
        tally.same(held, || format!("image {}, {:?}, {:?}", i, arguments, source), ours, expected);
    }
}

/// A number as it is typed: digits and nothing else.
fn number(text: &str) -> Option<usize> {
    text.bytes().all(|byte| byte.is_ascii_digit()).then(|| text.parse().ok()).flatten()
}

fn table_typed(text: &str) -> Option<usize> {
    match text {
        "offset" => Some(0),
        "alpha" => Some(1),
        "k_ta" | "kta" => Some(2),
        _ => number(text),
    }
}

fn pixel_typed(text: &str) -> Option<usize> {
    match text.split_once(',') {
        None => number(text),
        Some((row, column)) => match (number(row)?, number(column)?) {
            (row @ 0..=23, column @ 0..=31) => Some(32 * row + column),
            _ => Some(PIXELS),
        },
    }
}

/// What must be stored for a row of the table: the image's words before the bar, the table and the pixel behind it.
fn stored_answer(words: &str, asked: &str) -> Option<String> {
    let hex = |text: &str| usize::from_str_radix(text, 16).ok();
    let mut image = [0; 1664];
    let mut numbers = words.split_whitespace().skip(1);
    while let (Some(address), Some(word)) = (numbers.next(), numbers.next()) {
        images::set(&mut image, hex(address)?, hex(word)? as u16);
    }
    let len = if words.starts_with("shrt") { 1663 } else { 1664 };
    let (table, pixel) = asked.split_once(' ')?;
    Some(match (table_typed(table), pixel_typed(pixel)) {
        (Some(table), Some(pixel)) => answer(&image[..len], table as u32, pixel).1,
        _ => "usage\n".to_string(),
    })
}

/// The stored explanations are, row by row, what the model says.
pub fn stored(tally: &mut Tally) {
    let folder = match env::var_os("ACCOUNTS").map(PathBuf::from) {
        Some(folder) => folder,
        None => {
            tally.left_out("the stored explanations (ACCOUNTS is not set)");
            return;
        }
    };
    tally.part("the stored explanations");
    let read = |name: &str| fs::read_to_string(folder.join(name)).unwrap_or_default();
    let (table, stored) = (read("stdin"), read("stdout"));
    let mut rest = &stored[..];
    for row in table.lines() {
        if let Some((words, asked)) = row.split_once('|') {
            let expected = format!("{}\n{}", row, stored_answer(words, asked).unwrap_or_default());
            let is_next = rest.starts_with(&expected);
            tally.same(Held::Files, || format!("{}, at {:?}", row, rest.lines().next()), is_next, true);
            rest = rest.get(expected.len()..).unwrap_or("");
        }
    }
    tally.same(Held::Files, || "nothing else is stored".to_string(), rest, "");
}
