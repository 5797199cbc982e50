//! Explanations: their numbers, what fails, their text, and their refusals in order.

// The floats that are compared here are exact, and the words have 16 bits.
#![allow(clippy::float_cmp, clippy::cast_possible_truncation)]

use mofuleka::lent::{EXPLANATION_BYTES, IMAGE_BYTES};
use mofuleka::{lent, sys, Calibration, Entry, Explanation, Failure, Part, Table};

const TABLES: [Table; 3] = [Table::Offset, Table::Alpha, Table::Kta];

type Words<'a> = &'a [(usize, u16)];

/// An all-zero image with some words set, by address.
fn image(words: Words) -> Vec<u8> {
    let mut image = vec![0u8; IMAGE_BYTES];
    for (address, word) in words {
        image[2 * (address - 0x2400)..][..2].copy_from_slice(&word.to_be_bytes());
    }
    image
}

fn word(image: &[u8], address: u16) -> u16 {
    let at = 2 * (usize::from(address) - 0x2400);
    u16::from_be_bytes([image[at], image[at + 1]])
}

/// Where a field stands, what it holds, its scale and its term.
fn part(address: u16, [high, low]: [u8; 2], raw: u16, value: i16, scale: u8, term: i32) -> Part {
    Part { address, high, low, raw, value, scale, term }
}

const OFFSET: Words = &[(0x2410, 0x4210), (0x2411, 0xFFC0), (0x2412, 0x000F), (0x2418, 0x0007), (0x2440, 0xFC0E)];
const ALPHA: Words = &[(0x2420, 0x7000), (0x2421, 0x2000)];
const K_TA: Words = &[(0x2436, 0x0500), (0x2438, 0x2001), (0x2440, 0xFC0E)];

#[test]
fn of_an_offset() {
    let expected = Explanation {
        found: None,
        table: Table::Offset,
        pixel: 0,
        failure: None,
        average: part(0x2411, [15, 0], 0xFFC0, -64, 0, -64),
        row: Some(part(0x2412, [3, 0], 15, -1, 2, -4)),
        after_row: Some(-68),
        column: Some(part(0x2418, [3, 0], 7, 7, 1, 14)),
        after_column: Some(-54),
        remainder: Some(part(0x2440, [15, 10], 63, -1, 0, -1)),
        numerator: Some(-55),
        exponent: Some(0),
        entry: Some(Entry::Whole(-55)),
    };
    assert_eq!(Explanation::from_data(&image(OFFSET), Table::Offset, 0), Ok(expected));
}

#[test]
fn of_alpha() {
    let expected = Explanation {
        found: None,
        table: Table::Alpha,
        pixel: 767,
        failure: None,
        average: part(0x2421, [15, 0], 0x2000, 8192, 0, 8192),
        row: Some(part(0x2427, [15, 12], 0, 0, 0, 0)),
        after_row: Some(8192),
        column: Some(part(0x242F, [15, 12], 0, 0, 0, 0)),
        after_column: Some(8192),
        remainder: Some(part(0x273F, [9, 4], 0, 0, 0, 0)),
        numerator: Some(8192),
        exponent: Some(37),
        entry: Some(Entry::Fraction(2f32.powi(-24))),
    };
    assert_eq!(Explanation::from_data(&image(ALPHA), Table::Alpha, 767), Ok(expected));
}

#[test]
fn of_k_ta() {
    let expected = Explanation {
        found: None,
        table: Table::Kta,
        pixel: 0,
        failure: None,
        average: part(0x2436, [15, 8], 5, 5, 0, 5),
        row: None,
        after_row: None,
        column: None,
        after_column: None,
        remainder: Some(part(0x2440, [3, 1], 7, -1, 1, -2)),
        numerator: Some(3),
        exponent: Some(8),
        entry: Some(Entry::Fraction(3.0 / 256.0)),
    };
    assert_eq!(Explanation::from_data(&image(K_TA), Table::Kta, 0), Ok(expected));
    // Odd rows have the low byte, odd columns the other word.
    let averages = image(&[(0x2436, 0x0102), (0x2437, 0x0304)]);
    for (pixel, average) in [(0, 1), (32, 2), (1, 3), (33, 4), (767, 4), (766, 2), (735, 3)] {
        let explained = Explanation::from_data(&averages, Table::Kta, pixel).unwrap();
        assert_eq!((explained.average.term, explained.numerator), (average, Some(average)));
    }
}

/// An accepted image in which rows, columns and remainders differ.
fn varied() -> Vec<u8> {
    let mut words = vec![(0x2410, 0x4321), (0x2411, 0xFFBB), (0x2420, 0x7654), (0x2421, 0x2F44)];
    words.extend([(0x2436, 0x5F35), (0x2437, 0x81C7), (0x2438, 0x2363)]);
    words.extend((0x2412..0x2420).chain(0x2422..0x2430).map(|address| (address, (address * 0x9E37) as u16)));
    words.extend((0x2440..0x2740).map(|address| (address, (address * 0x6A4F) as u16)));
    image(&words)
}

/// The bits of an entry's number, and of a table's.
fn bits(entry: Entry) -> u32 {
    match entry {
        Entry::Whole(number) => i32::from(number) as u32,
        Entry::Fraction(number) => number.to_bits(),
    }
}

/// A part is what its field holds, times its power of two.
fn is_of(part: &Part, image: &[u8]) {
    let width = part.high - part.low + 1;
    let raw = (u32::from(word(image, part.address)) >> part.low) & ((1 << width) - 1);
    assert_eq!(u32::from(part.raw), raw);
    let negative = raw >> (width - 1) == 1;
    assert_eq!(i32::from(part.value), raw as i32 - if negative { 1 << width } else { 0 });
    assert_eq!(part.term, i32::from(part.value) << part.scale);
}

#[test]
fn every_entry_of_an_accepted_image() {
    let bytes = varied();
    let whole = Calibration::from_data(&bytes).unwrap();
    for pixel in 0..768 {
        let entries = whole.pixel(pixel).unwrap();
        let entries = [i32::from(entries.offset) as u32, entries.alpha.to_bits(), entries.k_ta.to_bits()];
        for (table, entry) in TABLES.into_iter().zip(entries) {
            let e = Explanation::from_data(&bytes, table, pixel).unwrap();
            assert_eq!((e.found, e.table, e.pixel, e.failure), (None, table, pixel, None));
            assert_eq!(e.entry.map(bits), Some(entry), "{table}, pixel {pixel}");
            let parts: Vec<Part> = [Some(e.average), e.row, e.column, e.remainder].into_iter().flatten().collect();
            assert_eq!(parts.len(), if table == Table::Kta { 2 } else { 4 });
            parts.iter().for_each(|part| is_of(part, &bytes));
            let sum: i32 = parts.iter().map(|part| part.term).sum();
            assert_eq!(e.numerator, Some(sum));
            let over = 2f64.powi(e.exponent.unwrap().into());
            if let Some(Entry::Fraction(number)) = e.entry {
                assert_eq!(f64::from(number), f64::from(sum) / over);
            }
        }
    }
}

/// Images with one failure: table, pixel and which number it is.
const FAILURES: [(Words, u8, Table, usize, Failure); 10] = [
    (&[(0x2410, 0x0F00), (0x2412, 0x0001)], 3, Table::Offset, 0, Failure::Row),
    (&[(0x2410, 0x00F0), (0x2418, 0x0020)], 3, Table::Offset, 1, Failure::Column),
    (&[(0x2410, 0x000B), (0x2461, 0x4000)], 3, Table::Offset, 33, Failure::Remainder),
    (&[(0x2411, 0x7FFF), (0x2413, 0x0010)], 4, Table::Offset, 160, Failure::Sum),
    (&[(0x2411, 0x8000), (0x2418, 0xF000)], 4, Table::Offset, 3, Failure::Sum),
    (&[(0x2420, 0x0F00), (0x2427, 0x1000)], 3, Table::Alpha, 736, Failure::Row),
    (&[(0x2420, 0x00F0), (0x2429, 0x0010)], 3, Table::Alpha, 5, Failure::Column),
    (&[(0x2420, 0x000B), (0x24A4, 0x0100)], 3, Table::Alpha, 100, Failure::Remainder),
    (&[(0x2438, 0x000F), (0x273F, 0x0002)], 3, Table::Kta, 767, Failure::Remainder),
    (&[(0x2436, 0xFF00), (0x2438, 0x000D), (0x2442, 0x0008)], 4, Table::Kta, 2, Failure::Sum),
];

/// Whether row, sum, column, sum, remainder, sum, exponent and entry are there.
fn there(e: &Explanation) -> [bool; 8] {
    let [row, column, remainder] = [e.row, e.column, e.remainder].map(|part| part.is_some());
    let [after_row, after_column, numerator] = [e.after_row, e.after_column, e.numerator].map(|sum| sum.is_some());
    [row, after_row, column, after_column, remainder, numerator, e.exponent.is_some(), e.entry.is_some()]
}

#[test]
fn of_a_refused_image() {
    for (words, number, table, pixel, failure) in FAILURES {
        let bytes = image(words);
        let refusal = Calibration::from_data(&bytes).unwrap_err();
        let explained = Explanation::from_data(&bytes, Table::Offset, 0).unwrap();
        assert_eq!((explained.found, refusal.number()), (Some(refusal), number));
        assert_eq!((explained.table, explained.pixel, explained.failure), (table, pixel, Some(failure)));
        assert_eq!((refusal.table(), refusal.place()), (Some(table), pixel));
        let count = match failure {
            Failure::Row => 1,
            Failure::Column => 3,
            Failure::Remainder => 5,
            _ => 6,
        };
        let shared = table != Table::Kta;
        let expected = [shared, shared, shared, shared, true, true, true, true];
        let expected = [0, 1, 2, 3, 4, 5, 6, 7].map(|at| at < count && expected[at]);
        assert_eq!(there(&explained), expected, "{table}, {failure:?}");
        // Whatever was asked for.
        for asked in TABLES {
            for pixel in [1, 160, 767] {
                assert_eq!(Explanation::from_data(&bytes, asked, pixel), Ok(explained));
            }
        }
    }
}

/// With the named field at zero a term no longer fails, and these images have no other failure.
#[test]
fn cleared_fields() {
    for (words, number, table, pixel, failure) in FAILURES {
        let mut bytes = image(words);
        let explained = Explanation::from_data(&bytes, table, pixel).unwrap();
        let part = match failure {
            Failure::Row => explained.row,
            Failure::Column => explained.column,
            Failure::Remainder => explained.remainder,
            _ => None,
        };
        assert_eq!(part.is_some(), number == 3);
        if let Some(Part { address, high, low, .. }) = part {
            let field = ((1u32 << (high + 1)) - (1 << low)) as u16;
            let at = 2 * (usize::from(address) - 0x2400);
            let cleared = word(&bytes, address) & !field;
            bytes[at..at + 2].copy_from_slice(&cleared.to_be_bytes());
            assert_eq!(Explanation::from_data(&bytes, table, pixel).map(|e| (e.found, e.failure)), Ok((None, None)));
        }
    }
}

/// The text of an image's explanation.
fn text(words: Words, table: Table, pixel: usize) -> String {
    Explanation::from_data(&image(words), table, pixel).unwrap().to_string()
}

#[test]
fn text_of_an_offset() {
    let offset = "\
table offset
pixel 0 row 0 column 0
average address 0x2411 bits 15..0 raw 65472 value -64 scale 0 term -64
row address 0x2412 bits 3..0 raw 15 value -1 scale 2 term -4
after_row -68
column address 0x2418 bits 3..0 raw 7 value 7 scale 1 term 14
after_column -54
remainder address 0x2440 bits 15..10 raw 63 value -1 scale 0 term -1
sum -64 - 4 + 14 - 1 = -55
numerator -55
exponent 0
entry -55
";
    assert_eq!(text(OFFSET, Table::Offset, 0), offset);
}

#[test]
fn texts_of_fractions() {
    let alpha = "\
table alpha
pixel 767 row 23 column 31
average address 0x2421 bits 15..0 raw 8192 value 8192 scale 0 term 8192
row address 0x2427 bits 15..12 raw 0 value 0 scale 0 term 0
after_row 8192
column address 0x242F bits 15..12 raw 0 value 0 scale 0 term 0
after_column 8192
remainder address 0x273F bits 9..4 raw 0 value 0 scale 0 term 0
sum 8192 + 0 + 0 + 0 = 8192
numerator 8192
exponent 37
entry 33800000
";
    assert_eq!(text(ALPHA, Table::Alpha, 767), alpha);
    let k_ta = "\
table k_ta
pixel 0 row 0 column 0
average address 0x2436 bits 15..8 raw 5 value 5 scale 0 term 5
remainder address 0x2440 bits 3..1 raw 7 value -1 scale 1 term -2
sum 5 - 2 = 3
numerator 3
exponent 8
entry 3C400000
";
    assert_eq!(text(K_TA, Table::Kta, 0), k_ta);
}

/// The texts of terms end with the part that fails and what is said of it.
#[test]
fn texts_of_terms() {
    let row = "\
refused 3 0 0
table offset
pixel 0 row 0 column 0
average address 0x2411 bits 15..0 raw 0 value 0 scale 0 term 0
row address 0x2412 bits 3..0 raw 1 value 1 scale 15 term 32768
The row's term 32768 is outside -32768..32767. Its field, bits 3..0 of word 0x2412, holds 1; at scale 15 a field \
from -1 to 0 would fit.
";
    assert_eq!(text(&[(0x2410, 0x0F00), (0x2412, 0x0001)], Table::Kta, 767), row);
    let column = "\
refused 3 1 5
table alpha
pixel 5 row 0 column 5
average address 0x2421 bits 15..0 raw 65535 value -1 scale 0 term -1
row address 0x2422 bits 3..0 raw 0 value 0 scale 0 term 0
after_row -1
column address 0x2429 bits 7..4 raw 10 value -6 scale 13 term -49152
The column's term -49152 is outside -32768..32767. Its field, bits 7..4 of word 0x2429, holds -6; at scale 13 a field \
from -4 to 3 would fit.
";
    assert_eq!(text(&[(0x2420, 0x00D0), (0x2421, 0xFFFF), (0x2429, 0x00A0)], Table::Offset, 0), column);
    let remainder = "\
refused 3 2 767
table k_ta
pixel 767 row 23 column 31
average address 0x2437 bits 7..0 raw 128 value -128 scale 0 term -128
remainder address 0x273F bits 3..1 raw 2 value 2 scale 14 term 32768
The remainder's term 32768 is outside -32768..32767. Its field, bits 3..1 of word 0x273F, holds 2; at scale 14 a field \
from -2 to 1 would fit.
";
    assert_eq!(text(&[(0x2437, 0x0080), (0x2438, 0x000E), (0x273F, 0x0004)], Table::Offset, 0), remainder);
}

#[test]
fn texts_of_sums() {
    let last = |words: Words| text(words, Table::Alpha, 33).lines().last().map(String::from);
    let above = "The final sum 32774 is outside -32768..32767. Its fields stand in words 0x2411, 0x2413, 0x2418 and \
                 0x24E0; a sum lower by 7 would fit.";
    assert_eq!(last(&[(0x2411, 0x7FFF), (0x2413, 0x0070)]).as_deref(), Some(above));
    let k_ta = "\
refused 4 2 2
table k_ta
pixel 2 row 0 column 2
average address 0x2436 bits 15..8 raw 255 value -1 scale 0 term -1
remainder address 0x2442 bits 3..1 raw 4 value -4 scale 13 term -32768
sum -1 - 32768 = -32769
The final sum -32769 is outside -32768..32767. Its fields stand in words 0x2436 and 0x2442; a sum higher by 1 would fit.
";
    assert_eq!(text(&[(0x2436, 0xFF00), (0x2438, 0x000D), (0x2442, 0x0008)], Table::Alpha, 33), k_ta);
}

/// 1, then 11, then 15, then 2; and nothing is written.
#[test]
fn refusals_in_order() {
    let (good, bad) = (varied(), image(&[(0x2411, 0x7FFF), (0x2413, 0x0010)]));
    for len in [0, 1, EXPLANATION_BYTES - 1, EXPLANATION_BYTES, EXPLANATION_BYTES + 9] {
        let mut out = vec![0x5A; len];
        for past in [768, 65536, usize::MAX] {
            for above in [3, 256, u32::MAX] {
                let mut number = |image: &[u8], table, pixel| {
                    let refusal = lent::explain(image, table, pixel, &mut out).unwrap_err();
                    assert_eq!((refusal.table(), refusal.place()), (None, 0));
                    refusal.number()
                };
                assert_eq!(number(&good[..IMAGE_BYTES - 1], above, past), 1);
                assert_eq!(number(&good, above, past), 11);
                assert_eq!(number(&bad, 2, past), 11);
                assert_eq!(number(&bad, above, 767), 15);
            }
        }
        assert!(out.iter().all(|byte| *byte == 0x5A));
        let answer = lent::explain(&bad, 2, 767, &mut out).map_err(|refusal| refusal.number());
        let is_short = len < EXPLANATION_BYTES;
        assert_eq!(answer, if is_short { Err(2) } else { Ok(()) });
        let kept = if is_short { 0 } else { EXPLANATION_BYTES };
        assert!(out[kept..].iter().all(|byte| *byte == 0x5A));
    }
}

#[test]
fn lengths_of_images() {
    let head = varied();
    let explained = Explanation::from_data(&head, Table::Kta, 5);
    let mut long = head.clone();
    long.resize(2 * IMAGE_BYTES, 0xFF);
    for len in 0..=long.len() {
        let answer = Explanation::from_data(&long[..len], Table::Kta, 5);
        match len {
            IMAGE_BYTES | 2048 => assert_eq!(answer, explained),
            _ => assert_eq!(answer.unwrap_err().number(), 1, "{len} bytes"),
        }
    }
}

#[test]
fn answer_words() {
    let bytes = image(&[(0x2438, 0x000F), (0x273F, 0x0002)]);
    let mut out = [0; EXPLANATION_BYTES];
    // SAFETY: each pointer has its own array's or vector's length, both outlive the call, and they don't overlap.
    let mut explain = |table, pixel| unsafe {
        sys::mofuleka_explain(bytes.as_ptr(), bytes.len(), table, pixel, out.as_mut_ptr(), out.len())
    };
    assert_eq!([explain(0, 768), explain(3, 0), explain(0, 0)], [11, 15, 0]);
    // Refusal 3 in table 2, pixel 767, where the remainder's term fails.
    assert_eq!(out[..5], [3, 2, 0x02, 0xFF, 3]);
}
