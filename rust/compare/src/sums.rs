//! Which of a pixel's sums are outside 16 bits, and what the original crate makes of that.
//!
//! The crate adds up the average, the row's term and the column's in 16 bits; then for offset the remainder's term too, while
//! alpha's is added in floats, exactly. Built for release a sum that leaves 16 bits wraps, and one that comes back is right
//! again: so every offset that fits is right, and alpha is another number than the sum's exactly where the sum with the column's
//! term is outside. With overflow checks the crate panics wherever a sum that it makes in 16 bits is outside.
use crate::model::{self, fits, ALPHA, OFFSET};
use crate::tally::{Held, Tally};

/// The tables with rows and columns, whose sums have a way to go.
pub const TABLES: [(usize, &str); 2] = [(OFFSET, "offset"), (ALPHA, "alpha")];

/// The sum with the row's term, with the column's, and with the remainder's.
fn sums([average, row, column, remainder]: [i64; 4]) -> [i64; 3] {
    let with_row = average + row;
    [with_row, with_row + column, with_row + column + remainder]
}

/// The way of a sum that is outside 16 bits somewhere.
#[derive(Clone, Copy, Debug, Eq, PartialEq)]
pub struct Way {
    /// Outside below, not above. Never both: that is further than the terms, which fit 16 bits, can bring it.
    pub below: bool,
    /// Whether it is outside with the row's term, with the column's, and with the remainder's.
    pub outside: [bool; 3],
}

impl Way {
    /// How many ways there are.
    pub const COUNT: usize = 14;

    /// The ways by number, those above first.
    pub fn of_number(number: usize) -> Way {
        let bits = 1 + number % 7;
        Way { below: number >= 7, outside: [bits & 1 != 0, bits & 2 != 0, bits & 4 != 0] }
    }

    pub fn number(self) -> usize {
        let [row, column, remainder] = self.outside.map(usize::from);
        7 * usize::from(self.below) + row + 2 * column + 4 * remainder - 1
    }

    /// The way of a pixel's sum, if it is outside somewhere.
    pub fn of(parts: [i64; 4]) -> Option<Way> {
        let sums = sums(parts);
        let first = sums.iter().find(|sum| !fits(**sum))?;
        Some(Way { below: *first < 0, outside: sums.map(|sum| !fits(sum)) })
    }

    /// Where it is outside, in words.
    pub fn place(self) -> &'static str {
        match self.outside {
            [true, false, false] => "with the row; back with the column",
            [false, true, false] => "with the column; back with the remainder",
            [true, true, false] => "with row and column; back with the remainder",
            [false, false, true] => "with the remainder alone",
            [true, false, true] => "with the row; back; again with the remainder",
            [false, true, true] => "with the column, and at the end",
            _ => "all the way",
        }
    }
}

/// Counts the ways of an image's sums: of all pixels where it is accepted, else of the one whose sum is refused.
pub fn count(tally: &mut Tally, image: &[u8], verdict: Result<(), model::Refused>) {
    for (table, _) in TABLES {
        match verdict {
            Ok(()) => model::parts(image, table).filter_map(Way::of).for_each(|way| tally.way(table, way)),
            Err(refused) if (refused.number, refused.table) == (4, table as u8) => {
                let parts = model::parts(image, table).nth(refused.place as usize);
                parts.and_then(Way::of).iter().for_each(|way| tally.way(table, *way));
            }
            Err(_) => {}
        }
    }
}

/// Every way must have come up in both tables: else the run has not shown what it is for.
pub fn require_all(tally: &mut Tally) {
    tally.part("every way out of 16 bits");
    for (table, name) in TABLES {
        for way in (0..Way::COUNT).map(Way::of_number) {
            let seen = tally.ways[table][way.number()] > 0;
            let side = if way.below { "below" } else { "above" };
            tally.same(Held::Judges, || format!("came up: {}, {}, {}", name, side, way.place()), seen, true);
        }
    }
}

/// Whether the crate panics on an accepted image when it is built with overflow checks.
pub fn overflows(image: &[u8]) -> bool {
    let leaves = |parts| {
        let [with_row, with_column, _] = sums(parts);
        !fits(with_row) || !fits(with_column)
    };
    TABLES.iter().any(|(table, _)| model::parts(image, *table).any(leaves))
}

/// A pixel whose alpha is another in the crate's release build: its sum wraps and does not come back.
pub struct Wrapped {
    pub pixel: usize,
    /// The sum over its power of two.
    pub exact: f32,
    /// What the release build has for it: 2^16 too little or too much, over the same power.
    pub of_crate: f32,
}

/// All such pixels of an accepted image, in rising order.
pub fn wrapped(image: &[u8]) -> Vec<Wrapped> {
    let scale = model::alpha_scale(image);
    let mut all = Vec::new();
    for (pixel, parts) in model::parts(image, ALPHA).enumerate() {
        let [_, with_column, whole] = sums(parts);
        if !fits(with_column) {
            let turn = if with_column < 0 { 65536 } else { -65536 };
            all.push(Wrapped { pixel, exact: model::over(whole, scale), of_crate: model::over(whole + turn, scale) });
        }
    }
    all
}

/// Alpha as it must be: what the crate's release build has, and the exact number where that one wraps.
pub fn alpha_of(of_crate: &[f32], wrapped: &[Wrapped]) -> Vec<f32> {
    let mut alpha = of_crate.to_vec();
    for w in wrapped {
        alpha[w.pixel] = w.exact;
    }
    alpha
}
