//! The parts of a run that are about explanations alone: one failure of each kind put into an image, and refusals in
//! their order.
use mofuleka::lent;

use crate::account::{Account, EXPLANATION};
use crate::explanations::{compare_numbers, Answer};
use crate::guarded::{Bench, Depth};
use crate::images::{self, Image, Numbers};
use crate::model::{self, fits, refused, ALPHA, K_TA, OFFSET, PIXELS};
use crate::tally::{Held, Tally};

/// A number of a pixel that is put outside 16 bits.
#[derive(Clone, Copy)]
enum Number {
    Row,
    Column,
    Remainder,
    SumAbove,
    SumBelow,
}

/// All kinds of failures; Kta's sum can't be above.
const FAILURES: [(usize, Number); 10] = [
    (OFFSET, Number::Row),
    (OFFSET, Number::Column),
    (OFFSET, Number::Remainder),
    (OFFSET, Number::SumAbove),
    (OFFSET, Number::SumBelow),
    (ALPHA, Number::Row),
    (ALPHA, Number::Column),
    (ALPHA, Number::Remainder),
    (K_TA, Number::Remainder),
    (K_TA, Number::SumBelow),
];

/// Writes a field into some bits of a word.
fn put(image: &mut Image, address: usize, (high, low): (u32, u32), field: i64) {
    let mask = ((2u32 << high) - (1 << low)) as u16;
    let word = images::get(image, address) & !mask | (field << low) as u16 & mask;
    images::set(image, address, word);
}

/// One of the four-bit fields that start at an address, and zero in all others.
fn put_fourth(image: &mut Image, start: usize, count: usize, own: usize, field: i64) {
    for i in 0..count {
        let low = 4 * (i as u32 % 4);
        put(image, start + i / 4, (low + 3, low), if i == own { field } else { 0 });
    }
}

/// One pixel's remainder in a table with its scale, and zero in all others.
fn put_remainder(image: &mut Image, table: usize, own: usize, scale: i64, field: i64) {
    let (scales, bits) = [(0x2410, (15, 10)), (0x2420, (9, 4)), (0x2438, (3, 1))][table];
    put(image, scales, (3, 0), scale);
    for pixel in 0..PIXELS {
        put(image, 0x2440 + pixel, bits, if pixel == own { field } else { 0 });
    }
}

/// A scale, and a field of a width, whose term is outside 16 bits.
fn outside(numbers: &mut Numbers, width: u32) -> (i64, i64) {
    loop {
        let (scale, field) = (numbers.below(16) as i64, numbers.below(1 << width) as i64 - (1 << (width - 1)));
        if !fits(field << scale) {
            return (scale, field);
        }
    }
}

/// The final sum of one pixel's offset outside by its remainder, above or below.
fn put_offset_sum(image: &mut Image, numbers: &mut Numbers, pixel: usize, above: bool) {
    let (scale, size) = (numbers.below(11) as i64, 1 + numbers.below(31) as i64);
    let inside_by = numbers.below((size << scale) as u64) as i64;
    let (average, field) = if above { (32767 - inside_by, size) } else { (inside_by - 32768, -size) };
    images::set(image, 0x2411, average as u16);
    (0x2412..0x2420).for_each(|address| images::set(image, address, 0));
    put_remainder(image, OFFSET, pixel, scale, field);
}

/// The final sum of one pixel's Kta outside: its term is -32768, and its average below zero.
fn put_k_ta_sum(image: &mut Image, numbers: &mut Numbers, pixel: usize) {
    let scale = 13 + numbers.below(3) as i64;
    put_remainder(image, K_TA, pixel, scale, -32768 >> scale);
    let bits = if pixel / 32 % 2 == 0 { (15, 8) } else { (7, 0) };
    put(image, 0x2436 + pixel % 2, bits, -1 - numbers.below(128) as i64);
}

/// A lifelike image with one failure: the image, and the pixel at which the walk comes to it.
fn failing(numbers: &mut Numbers, table: usize, number: Number) -> (Image, usize) {
    let mut image = images::lifelike(numbers.any());
    let (start, pixel) = (0x2410 + 16 * table, numbers.below(768) as usize);
    match number {
        Number::Row => {
            let (scale, field) = outside(numbers, 4);
            put(&mut image, start, (11, 8), scale);
            put_fourth(&mut image, start + 2, 24, pixel / 32, field);
            (image, pixel / 32 * 32)
        }
        Number::Column => {
            let (scale, field) = outside(numbers, 4);
            put(&mut image, start, (7, 4), scale);
            put_fourth(&mut image, start + 8, 32, pixel % 32, field);
            (image, pixel % 32)
        }
        Number::Remainder => {
            let (scale, field) = outside(numbers, if table == K_TA { 3 } else { 6 });
            put_remainder(&mut image, table, pixel, scale, field);
            (image, pixel)
        }
        Number::SumBelow if table == K_TA => {
            put_k_ta_sum(&mut image, numbers, pixel);
            (image, pixel)
        }
        Number::SumAbove | Number::SumBelow => {
            put_offset_sum(&mut image, numbers, pixel, matches!(number, Number::SumAbove));
            (image, pixel)
        }
    }
}

/// One image with a failure, of each kind in turn: it is what is named, whatever was asked for.
pub fn one_failure(tally: &mut Tally, bench: &mut Bench, seed: u64, turn: u64) {
    let mut numbers = Numbers::new(seed);
    let (table, number) = FAILURES[turn as usize % FAILURES.len()];
    let (image, pixel) = failing(&mut numbers, table, number);
    let (refusal, failure) = match number {
        Number::Row => (3, 1),
        Number::Column => (3, 2),
        Number::Remainder => (3, 3),
        Number::SumAbove | Number::SumBelow => (4, 4),
    };
    let name = || format!("seed {:#x}, failure {} of table {} in pixel {}", seed, failure, table, pixel);
    let depth = Depth { questions: false, cross: false, pixels: turn % 16 == 0 };
    bench.image(tally, &image, depth, &name);
    for asked in [OFFSET, ALPHA, K_TA] {
        let source = |pixel: usize, out: &mut [u8]| lent::explain(&image, asked as u32, pixel, out);
        let ours = bench.why.ask(tally, &source, numbers.below(768) as usize).map(|bytes| bytes[..5].to_vec());
        let [high, low] = (pixel as u16).to_be_bytes();
        tally.same(Held::Explained, name, ours, Ok(vec![refusal, table as u8, high, low, failure]));
    }
}

/// Tables, pixels and lengths of the written slice: in range, and not.
const TABLES: [u32; 7] = [0, 1, 2, 3, 255, 256, u32::MAX];
const ASKED: [usize; 6] = [0, 767, 768, 65535, 65536, usize::MAX];
const LENGTHS: [usize; 6] = [0, 1, EXPLANATION - 1, EXPLANATION, EXPLANATION + 1, EXPLANATION + 7];

/// Every length of an image, with any tables, pixels and slices: 1, then 11, then 15, then 2; 3 and 4 never.
pub fn refusals(tally: &mut Tally, bench: &mut Bench) {
    for image in [images::lifelike(1), images::with(&[(0x2411, 0x7FFF), (0x2413, 0x0010)])] {
        let verdict = model::verdict(&image).map(|_| ());
        let long = [&image[..], &images::lifelike(2)].concat();
        for len in (0..=2100).chain([long.len()]) {
            any_call(tally, bench, &long[..len], &|table, pixel, out| match pixel {
                _ if len != model::IMAGE && len != model::PAGE => Err(refused(1)),
                PIXELS.. => Err(refused(11)),
                _ if table > 2 => Err(refused(15)),
                _ if out < EXPLANATION => Err(refused(2)),
                _ => Ok(Account::of(&image, verdict, (table as usize, pixel)).bytes()),
            });
        }
    }
}

/// What a table and a pixel must be given with a slice of some length.
type Expected<'a> = &'a dyn Fn(u32, usize, usize) -> Answer;

/// Any tables and pixels, each with slices of several lengths.
fn any_call(tally: &mut Tally, bench: &mut Bench, image: &[u8], expected: Expected) {
    for table in TABLES {
        let source = |pixel: usize, out: &mut [u8]| lent::explain(image, table, pixel, out);
        for pixel in ASKED {
            for len in LENGTHS {
                let name = || format!("{} bytes, table {}, pixel {} into {} bytes", image.len(), table, pixel, len);
                let ours = bench.why.ask_into(tally, len, &source, pixel);
                match expected(table, pixel, len) {
                    Ok(bytes) => compare_numbers(tally, &ours, &bytes, &name),
                    refused => tally.same(Held::Rules, name, ours, refused),
                }
            }
        }
    }
}
