//! Images with two faults each, for the recorded sample. The walk names the fault that it comes to first; where that one is
//! cured and nothing else changes, it names the other. So the order of the walk is held by stored answers: offset table, alpha,
//! Kta; in each the pixels from 0 to 767; in each pixel first the terms, then (not for alpha) the sum. Which of two terms of a
//! pixel is outside can't be told from the refusal, and a sum that comes back is no fault.
use crate::images::{self, Image};
use crate::model::{self, Refused};

type Words<'a> = &'a [(usize, u16)];

pub struct TwoFaults {
    pub what: String,
    words: Vec<(usize, u16)>,
    first: Refused,
    /// Words that cure the first fault.
    cure: Vec<(usize, u16)>,
    second: Refused,
}

impl TwoFaults {
    /// With both faults, and with the second one alone.
    pub fn images(&self) -> [Image; 2] {
        let both = images::with(&self.words);
        let mut cured = both;
        for (address, word) in &self.cure {
            images::set(&mut cured, *address, *word);
        }
        [both, cured]
    }

    /// What the model says of both images, each beside the refusal that is written down here.
    pub fn answers(&self) -> [(Result<(), Refused>, Refused); 2] {
        let [both, cured] = self.images();
        let said = |image: &[u8]| model::verdict(image).map(|_| ());
        [(said(&both), self.first), (said(&cured), self.second)]
    }
}

const fn term(table: u8, pixel: u64) -> Refused {
    Refused { number: 3, table, place: pixel }
}

const fn sum(table: u8, pixel: u64) -> Refused {
    Refused { number: 4, table, place: pixel }
}

fn two(what: &str, words: Words, first: Refused, cure: Words, second: Refused) -> TwoFaults {
    TwoFaults { what: what.to_string(), words: words.to_vec(), first, cure: cure.to_vec(), second }
}

pub fn two_faults() -> Vec<TwoFaults> {
    let mut all = in_two_tables();
    for (table, name) in [(0, "offset"), (1, "alpha")] {
        for mut two in two_terms(&Layout::of(table)) {
            two.what = format!("{}: {}", name, two.what);
            all.push(two);
        }
    }
    all.extend(in_one_pixel());
    all.extend(in_two_pixels());
    all.extend(no_faults());
    all.extend(of_k_ta());
    all
}

/// One fault by itself: its words, and what it is refused with. A zero in place of the last word cures it.
struct Fault {
    what: &'static str,
    words: Words<'static>,
    named: Refused,
}

const fn fault(what: &'static str, words: Words<'static>, named: Refused) -> Fault {
    Fault { what, words, named }
}

/// Faults of offset and alpha in late pixels, and of alpha and Kta in pixel 0. No two of different tables share a word.
const LATE: [Fault; 3] = [
    fault("offset's term of pixel 767", &[(0x2410, 0x000B), (0x273F, 0x4000)], term(0, 767)),
    fault("offset's sum of pixel 767", &[(0x2411, 0x8000), (0x273F, 0xFC00)], sum(0, 767)),
    fault("alpha's term of pixel 736", &[(0x2420, 0x0F00), (0x2427, 0x1000)], term(1, 736)),
];
const EARLY: [Fault; 3] = [
    fault("alpha's term of pixel 0", &[(0x2420, 0x0F00), (0x2422, 0x0001)], term(1, 0)),
    fault("Kta's term of pixel 0", &[(0x2438, 0x000F), (0x2440, 0x0002)], term(2, 0)),
    fault("Kta's sum of pixel 0", &[(0x2436, 0xFF00), (0x2438, 0x000D), (0x2440, 0x0008)], sum(2, 0)),
];

/// The earlier table is named, however late its pixel and however early the other's.
fn in_two_tables() -> Vec<TwoFaults> {
    let mut all = Vec::new();
    for late in &LATE {
        for early in EARLY.iter().filter(|early| late.named.table < early.named.table) {
            let what = format!("{}, {}", late.what, early.what);
            let cure = [(late.words[late.words.len() - 1].0, 0)];
            all.push(two(&what, &[late.words, early.words].concat(), late.named, &cure, early.named));
        }
    }
    // In one word of a pixel: the remainders of offset, alpha and Kta all leave 16 bits.
    all.push(two(
        "offset, alpha and Kta in pixel 767",
        &[(0x2410, 0x000B), (0x2420, 0x000B), (0x2438, 0x000F), (0x273F, 0x4102)],
        term(0, 767),
        &[(0x2410, 0x000A)],
        term(1, 767),
    ));
    all.push(two(
        "alpha and Kta in pixel 767",
        &[(0x2420, 0x000B), (0x2438, 0x000F), (0x273F, 0x0102)],
        term(1, 767),
        &[(0x2420, 0x000A)],
        term(2, 767),
    ));
    all
}

/// Where offset and alpha, which are laid out alike, have their words.
struct Layout {
    table: u8,
    scales: usize,
    rows: usize,
    columns: usize,
    /// A pixel's word whose remainder is 16: with a scale of 11 it leaves 16 bits, with 10 it does not.
    high: u16,
}

impl Layout {
    fn of(table: u8) -> Self {
        let (scales, low) = if table == 0 { (0x2410, 10) } else { (0x2420, 4) };
        Layout { table, scales, rows: scales + 2, columns: scales + 8, high: 16 << low }
    }
}

/// Terms of two pixels, in one row and in two: the lower pixel is named, and no row's or column's term is looked at before a
/// pixel of it is come to.
fn two_terms(layout: &Layout) -> Vec<TwoFaults> {
    let Layout { table, scales, rows, columns, high } = *layout;
    let term = |pixel| term(table, pixel);
    vec![
        two(
            "remainder term of pixel 3, column term of pixel 7",
            &[(scales, 0x00FB), (columns + 1, 0x1000), (0x2443, high)],
            term(3),
            &[(0x2443, 0)],
            term(7),
        ),
        two(
            "column term of pixel 3, remainder term of pixel 7",
            &[(scales, 0x00FB), (columns, 0x1000), (0x2447, high)],
            term(3),
            &[(columns, 0)],
            term(7),
        ),
        two(
            "column term of pixel 1, row term of pixel 736",
            &[(scales, 0x0FF0), (columns, 0x0020), (rows + 5, 0x1000)],
            term(1),
            &[(columns, 0)],
            term(736),
        ),
        two(
            "remainder term of pixel 63, row term of pixel 64",
            &[(scales, 0x0F0B), (rows, 0x0100), (0x2440 + 63, high)],
            term(63),
            &[(0x2440 + 63, 0)],
            term(64),
        ),
        two(
            "row term of pixel 32, remainder term of pixel 100",
            &[(scales, 0x0F0B), (rows, 0x0010), (0x2440 + 100, high)],
            term(32),
            &[(rows, 0)],
            term(100),
        ),
    ]
}

/// Offset's average at its largest.
const FULL: (usize, u16) = (0x2411, 0x7FFF);

/// A term and the sum of one pixel of offset: the term is named, also where the sum was outside before that term came in.
fn in_one_pixel() -> Vec<TwoFaults> {
    let both = |what: &str, words: Words, cure: Words| two(what, words, term(0, 0), cure, sum(0, 0));
    vec![
        both("offset: row term, sum", &[(0x2410, 0x0F00), FULL, (0x2412, 1)], &[(0x2410, 0x0E00)]),
        both("offset: column term, sum", &[(0x2410, 0x00F0), FULL, (0x2418, 1)], &[(0x2410, 0x00E0)]),
        both("offset: remainder term, sum", &[(0x2410, 0x000B), FULL, (0x2440, 0x4000)], &[(0x2410, 0x000A)]),
        both(
            "offset: column term, sum by the row",
            &[(0x2410, 0x00F0), FULL, (0x2412, 1), (0x2418, 1)],
            &[(0x2418, 0)],
        ),
        both(
            "offset: remainder term, sum by the row",
            &[(0x2410, 0x000B), FULL, (0x2412, 1), (0x2440, 0x4000)],
            &[(0x2440, 0)],
        ),
        both(
            "offset: remainder term, sum by the column",
            &[(0x2410, 0x000B), FULL, (0x2418, 1), (0x2440, 0x4000)],
            &[(0x2440, 0)],
        ),
        // A term that is outside alone, while the sum with it is inside.
        both(
            "offset: remainder term that brings the sum back",
            &[(0x2410, 0x000B), FULL, (0x2412, 1), (0x2440, 0xBC00)],
            &[(0x2440, 0)],
        ),
    ]
}

/// A term and a sum in two pixels of offset: the lower pixel is named.
fn in_two_pixels() -> Vec<TwoFaults> {
    vec![
        two(
            "offset: sum of pixel 5, remainder term of pixel 6",
            &[(0x2410, 0x000B), FULL, (0x2419, 0x0010), (0x2446, 0x4000)],
            sum(0, 5),
            &[(0x2419, 0)],
            term(0, 6),
        ),
        two(
            "offset: remainder term of pixel 5, sum of pixel 6",
            &[(0x2410, 0x000B), FULL, (0x2419, 0x0100), (0x2445, 0x4000)],
            term(0, 5),
            &[(0x2445, 0)],
            sum(0, 6),
        ),
        two(
            "offset: column term of pixel 31, sum of pixel 32",
            &[(0x2410, 0x00F0), FULL, (0x241F, 0x1000), (0x2412, 0x0010)],
            term(0, 31),
            &[(0x241F, 0)],
            sum(0, 32),
        ),
        two(
            "offset: sum of pixel 31, row term of pixel 32",
            &[(0x2410, 0x0F00), (0x2411, 0x8000), (0x2412, 0x0010), (0x245F, 0xFC00)],
            sum(0, 31),
            &[(0x245F, 0)],
            term(0, 32),
        ),
        two(
            "offset: sum of pixel 31, sum of pixel 32",
            &[(0x2411, 0x8000), (0x2412, 0x00F0), (0x245F, 0xFC00)],
            sum(0, 31),
            &[(0x245F, 0)],
            sum(0, 32),
        ),
    ]
}

/// Cured, these still have sums that leave 16 bits, which is no fault: the walk goes on to the last pixel of Kta.
fn no_faults() -> Vec<TwoFaults> {
    const LAST: [(usize, u16); 2] = [(0x2438, 0x000F), (0x273F, 0x0002)];
    let then_last = |what: &str, words: Words, first: Refused, cure: Words| {
        two(&format!("{}; Kta's term of pixel 767", what), &[words, &LAST].concat(), first, cure, term(2, 767))
    };
    let columns = |word: u16| (0x2418..0x2420).map(|address| (address, word)).collect::<Vec<_>>();
    let own = |word: u16| (0x2440..0x2460).map(|address| (address, word)).collect::<Vec<_>>();
    vec![
        then_last(
            "offset: sum of pixel 0, above, that the columns bring back",
            &[(0x2411, 0x7FFF), (0x2412, 0x0001)],
            sum(0, 0),
            &columns(0xFFFF),
        ),
        then_last(
            "offset: sum of pixel 0, below, that the remainders bring back",
            &[(0x2411, 0x8000), (0x2412, 0x000F)],
            sum(0, 0),
            &own(0x0400),
        ),
        then_last(
            "alpha: column term of pixel 0, with sums outside by the row",
            &[(0x2420, 0x00F0), (0x2421, 0x7FFF), (0x2422, 0x0001), (0x2428, 0x0001)],
            term(1, 0),
            &[(0x2428, 0)],
        ),
        then_last(
            "alpha: remainder term of pixel 0, with a sum outside by it",
            &[(0x2420, 0x000B), (0x2421, 0x7FFF), (0x2440, 0x0100)],
            term(1, 0),
            &[(0x2420, 0x000A)],
        ),
    ]
}

/// Kta has one term and one sum in each pixel.
fn of_k_ta() -> Vec<TwoFaults> {
    vec![
        two(
            "Kta: term, sum",
            &[(0x2436, 0xFF00), (0x2438, 0x000E), (0x2440, 0x0008)],
            term(2, 0),
            &[(0x2438, 0x000D)],
            sum(2, 0),
        ),
        two(
            "Kta: sum of pixel 2, term of pixel 5",
            &[(0x2436, 0xFF00), (0x2438, 0x000F), (0x2442, 0x000E), (0x2445, 0x0002)],
            sum(2, 2),
            &[(0x2442, 0)],
            term(2, 5),
        ),
        two(
            "Kta: term of pixel 1, sum of pixel 2",
            &[(0x2436, 0xFF00), (0x2438, 0x000F), (0x2441, 0x0002), (0x2442, 0x000E)],
            term(2, 1),
            &[(0x2441, 0)],
            sum(2, 2),
        ),
        two(
            "Kta: sum of pixel 33, term of pixel 34",
            &[(0x2437, 0x00FF), (0x2438, 0x000F), (0x2461, 0x000E), (0x2462, 0x0002)],
            sum(2, 33),
            &[(0x2461, 0)],
            term(2, 34),
        ),
    ]
}
