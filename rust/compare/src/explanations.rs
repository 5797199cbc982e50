//! Explanations, held to the model (`account`) and to what the library's own decoder answers for the same image.
//! `explanation_parts` has the parts of a run that are about nothing else.
use mofuleka::{lent, Explanation, Table};

use crate::account::{Account, EXPLANATION, NUMBERS};
use crate::guarded::{refused_of, Bench};
use crate::images::{self, Numbers};
use crate::model::{self, refused, Refused, ALPHA, K_TA, OFFSET, PIXELS};
use crate::pixels::{self, unwritten};
use crate::tally::{Held, Tally};

/// An explanation's bytes, or a refusal.
pub type Answer = Result<[u8; EXPLANATION], Refused>;

/// What can be explained, and what a field that is set to zero can lead to; none of these may be missing from a run.
pub const KINDS: [&str; 15] = [
    "an offset",
    "an alpha",
    "a Kta",
    "offset's row term",
    "offset's column term",
    "offset's remainder term",
    "offset's final sum, above",
    "offset's final sum, below",
    "alpha's row term",
    "alpha's column term",
    "alpha's remainder term",
    "Kta's remainder term",
    "Kta's final sum, below",
    "a term's field set to zero: no failure is left",
    "a term's field set to zero: a later failure",
];
const CLEARED: usize = 13;

/// Where the numbers of an explanation start.
const PLACES: [(&str, usize); 13] = [
    ("number", 0),
    ("table", 1),
    ("pixel", 2),
    ("failure", 4),
    ("average", 5),
    ("row", 18),
    ("after_row", 31),
    ("column", 35),
    ("after_column", 48),
    ("remainder", 52),
    ("numerator", 65),
    ("exponent", 69),
    ("entry", 70),
];

/// The kind of an explanation, by its table, by what fails and by the sign of its sum.
fn kind(bytes: &[u8; EXPLANATION]) -> Option<usize> {
    let below = bytes[65] & 0x80 != 0;
    match (bytes[1], bytes[4]) {
        (table @ 0..=2, 0) => Some(usize::from(table)),
        (0, failure @ 1..=3) => Some(2 + usize::from(failure)),
        (0, 4) => Some(6 + usize::from(below)),
        (1, failure @ 1..=3) => Some(7 + usize::from(failure)),
        (2, 3) => Some(11),
        (2, 4) if below => Some(12),
        _ => None,
    }
}

fn pixel_of(bytes: &[u8; EXPLANATION]) -> usize {
    usize::from(u16::from_be_bytes([bytes[2], bytes[3]]))
}

/// Where a failure is in the walk.
fn step(bytes: &[u8; EXPLANATION]) -> (u8, usize, u8) {
    (bytes[1], pixel_of(bytes), bytes[4])
}

/// Holds an explanation to the model's, number by number; one that differs counts as one number that differs.
pub fn compare_numbers(tally: &mut Tally, ours: &Answer, expected: &[u8; EXPLANATION], name: &dyn Fn() -> String) {
    let bytes = match ours {
        Ok(bytes) => bytes,
        Err(refused) => {
            tally.different(Held::Explained, || format!("{}: {:?}, must be explained", name(), refused));
            return;
        }
    };
    kind(bytes).iter().for_each(|kind| tally.explained[*kind] += 1);
    let at = (0..EXPLANATION).find(|at| bytes[*at] != expected[*at]);
    tally.count(Held::Explained, NUMBERS, u64::from(at.is_some()), || {
        let at = at.unwrap_or(0);
        let (byte, must) = (bytes[at], expected[at]);
        let named = PLACES.iter().rev().find(|(_, start)| *start <= at).map_or("", |(named, _)| *named);
        format!("{}: {}: byte {} of the explanation is {:02X}, must be {:02X}", name(), named, at, byte, must)
    });
}

/// Holds the text of an explanation to the model's.
fn compare_text(tally: &mut Tally, image: &[u8], asked: (usize, usize), account: &Account, name: &dyn Fn() -> String) {
    let table = [Table::Offset, Table::Alpha, Table::Kta][asked.0];
    let ours = Explanation::from_data(image, table, asked.1).map(|e| e.to_string()).map_err(refused_of);
    tally.same(Held::Explained, || format!("{}: in words", name()), ours, Ok(account.text()));
}

/// The number, table and pixel that an explanation of this must have beside what was decoded just now, and its entry.
fn said(bench: &Bench, decoded: Result<(), Refused>, (table, pixel): (usize, usize)) -> (Refused, [u8; 4]) {
    if let Err(refused) = decoded {
        return (refused, [0; 4]);
    }
    let [a, b, alpha_a, alpha_b, alpha_c, alpha_d, k_ta @ ..] = pixels::entry(bench, pixel);
    let entry = match table {
        OFFSET => i32::from(i16::from_be_bytes([a, b])).to_be_bytes(),
        ALPHA => [alpha_a, alpha_b, alpha_c, alpha_d],
        _ => k_ta,
    };
    (Refused { number: 0, table: table as u8, place: pixel as u64 }, entry)
}

/// One explanation out of an image that the library has decoded just now.
fn compare(
    tally: &mut Tally,
    bench: &mut Bench,
    image: &[u8],
    decoded: Result<(), Refused>,
    asked: (usize, usize),
    in_words: bool,
    name: &dyn Fn() -> String,
) -> Answer {
    let name = || format!("{}: table {}, pixel {} explained", name(), asked.0, asked.1);
    let source = |pixel: usize, out: &mut [u8]| lent::explain(image, asked.0 as u32, pixel, out);
    let ours = bench.why.ask(tally, &source, asked.1);
    if decoded == Err(refused(1)) {
        tally.same(Held::Rules, name, ours.map(|_| ()), decoded);
        return ours;
    }
    let account = Account::of(image, decoded, asked);
    tally.same(Held::Judges, || format!("{}: the walk and the account", name()), account.agrees(), true);
    compare_numbers(tally, &ours, &account.bytes(), &name);
    if let Ok(bytes) = &ours {
        let found = Refused { number: bytes[0], table: bytes[1], place: pixel_of(bytes) as u64 };
        let entry = [bytes[70], bytes[71], bytes[72], bytes[73]];
        tally.same(Held::Decoder, name, (found, entry), said(bench, decoded, asked));
    }
    if in_words {
        compare_text(tally, image, asked, &account, &name);
    }
    // Nothing is made of an explanation that is not as it must be.
    ours.and_then(|bytes| if bytes == account.bytes() { Ok(bytes) } else { Err(refused(0)) })
}

/// Tables and pixels to ask for: any one; in depth some of each table, and now and then all of an accepted image.
fn some_asked(numbers: &mut Numbers, deep: bool, accepted: bool) -> Vec<(usize, usize)> {
    let any = numbers.below(768) as usize;
    let pixels: Vec<usize> = match (accepted, numbers.below(16)) {
        (false, _) => vec![any, 767 - any],
        (true, 0) => (0..PIXELS).collect(),
        (true, _) => (any % 97..PIXELS).step_by(97).collect(),
    };
    match deep {
        true => [OFFSET, ALPHA, K_TA].iter().flat_map(|table| pixels.iter().map(|pixel| (*table, *pixel))).collect(),
        false => vec![(numbers.below(3) as usize, any)],
    }
}

/// Explanations out of an image, moved by a byte, that the library has decoded just now.
pub fn of_image(
    tally: &mut Tally,
    bench: &mut Bench,
    image: &[u8],
    decoded: Result<(), Refused>,
    deep: bool,
    name: &dyn Fn() -> String,
) {
    let held = [&[0xEE], image].concat();
    let mut numbers = bench.why.numbers();
    let mut last = Err(refused(0));
    for asked in some_asked(&mut numbers, deep, decoded.is_ok()) {
        let in_words = decoded.is_err() || numbers.below(8) == 0;
        last = compare(tally, bench, &held[1..], decoded, asked, in_words, name);
    }
    unwritten(tally, &held[1..], image, name);
    if let (Ok(bytes), Err(Refused { number: 3, .. })) = (last, decoded) {
        cleared(tally, bench, image, &bytes, &|| format!("{}, the field set to zero", name()));
    }
}

/// Sets the field to zero that the term failure of an explanation names: what fails then comes later in the walk.
fn cleared(tally: &mut Tally, bench: &mut Bench, image: &[u8], before: &[u8; EXPLANATION], name: &dyn Fn() -> String) {
    let part = &before[[18, 35, 52][usize::from(before[4]) - 1]..];
    let address = usize::from(u16::from_be_bytes([part[0], part[1]]));
    let field = (2u32 << part[2]) - (1 << part[3]);
    let mut image = image.to_vec();
    let word = images::get(&image, address) & !(field as u16);
    images::set(&mut image, address, word);
    let expected = model::verdict(&image).map(|_| ());
    let decoded = bench.decode(tally, &image);
    tally.same(Held::Walk, name, decoded, expected);
    if decoded != expected {
        return;
    }
    let now = compare(tally, bench, &image, decoded, (before[1].into(), pixel_of(before)), true, name);
    if let Ok(now) = now {
        let fails = now[4] != 0;
        let is_later = !fails || step(&now) > step(before);
        tally.same(Held::Explained, || format!("{}: what fails comes later", name()), is_later, true);
        tally.explained[CLEARED + usize::from(fails)] += 1;
    }
}

/// Everything that can be explained must have come up, and both ends of setting a field to zero.
pub fn require_all(tally: &mut Tally) {
    tally.part("everything that can be explained");
    let explained = tally.explained;
    for (name, seen) in KINDS.iter().zip(explained) {
        tally.same(Held::Judges, || format!("came up: {}", name), seen > 0, true);
    }
}
