//! Where the library's numbers are others than the original crate's: alpha in the pixels where the crate's sum wraps (`sums`), and
//! alpha_ptat.
//!
//! The crate divides the nibble of alpha_ptat, the top four bits at 0x2410, by 4 as a whole number; the datasheet divides truly,
//! and the library has the datasheet's number. The two are the same where the nibble is a multiple of 4.
use std::ops::Range;

use mofuleka::{lent, place};

use crate::images;
use crate::sums::{self, Wrapped};
use crate::tally::{Held, Tally};

/// The bytes of a record that hold alpha_ptat.
pub const ALPHA_PTAT: Range<usize> = place::ALPHA_PTAT..place::ALPHA_PTAT + 4;

/// The nibble of an image, or of a page.
fn nibble(image: &[u8]) -> usize {
    usize::from(images::get(image, 0x2410) >> 12)
}

/// alpha_ptat where the crate's is another.
pub struct Quarters {
    /// The datasheet's number.
    pub exact: f32,
    /// What the crate has for it: its whole part.
    pub of_crate: f32,
}

impl Quarters {
    fn of(image: &[u8]) -> Option<Quarters> {
        let exact = f32::from(images::get(image, 0x2410) & 0xF000) / 16384.0 + 8.0;
        (nibble(image) % 4 != 0).then(|| Quarters { exact, of_crate: exact.floor() })
    }
}

/// What is apart in an accepted image.
pub struct Apart {
    /// Pixels, in rising order.
    pub wrapped: Vec<Wrapped>,
    pub nibble: usize,
    pub quarters: Option<Quarters>,
}

impl Apart {
    pub fn of(image: &[u8]) -> Apart {
        Apart { wrapped: sums::wrapped(image), nibble: nibble(image), quarters: Quarters::of(image) }
    }

    /// The record as it must be, from the crate's.
    pub fn record(&self, of_crate: [u8; lent::RECORD_BYTES]) -> [u8; lent::RECORD_BYTES] {
        let mut record = of_crate;
        if let Some(quarters) = &self.quarters {
            record[ALPHA_PTAT].copy_from_slice(&quarters.exact.to_bits().to_be_bytes());
        }
        record
    }
}

/// Every nibble must have come up: else the run has not shown what it is for.
pub fn require_nibbles(tally: &mut Tally) {
    tally.part("all nibbles of alpha_ptat came up");
    for (nibble, seen) in tally.nibbles.map(|seen| seen > 0).iter().enumerate() {
        tally.same(Held::Judges, || format!("came up: nibble {}", nibble), *seen, true);
    }
}
