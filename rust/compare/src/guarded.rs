//! Calls into the library with guard bytes around every slice, and the comparison of one image.
use mofuleka::{lent, place, Refusal, Table};

use crate::account::EXPLANATION;
use crate::apart::{Apart, ALPHA_PTAT};
use crate::explanations;
use crate::judge::{Checked, Judge, Outcome, Release};
use crate::model::{self, Decoded, Refused, PIXEL};
use crate::pixels::{self, Single};
use crate::sums::{self, Wrapped};
use crate::tally::{Doings, Held, Tally};

const GUARD: usize = 64;

/// A slice with guard bytes on both sides, all filled with one byte before each call.
pub struct Guarded {
    bytes: Vec<u8>,
    len: usize,
    fill: u8,
}

impl Guarded {
    pub fn new() -> Self {
        Self { bytes: Vec::new(), len: 0, fill: 0 }
    }

    /// Makes it a slice of this length, filled.
    pub fn reset(&mut self, len: usize, fill: u8) -> &mut [u8] {
        self.bytes.clear();
        self.bytes.resize(len + 2 * GUARD, fill);
        self.len = len;
        self.fill = fill;
        &mut self.bytes[GUARD..GUARD + len]
    }

    pub fn slice(&self) -> &[u8] {
        &self.bytes[GUARD..GUARD + self.len]
    }

    /// Shows that everything but the first `written` bytes of the slice is as it was filled.
    pub fn stayed(&self, tally: &mut Tally, written: usize, name: impl FnOnce() -> String) {
        let (before, after) = (&self.bytes[..GUARD], &self.bytes[GUARD + written..]);
        let touched = before.iter().chain(after).filter(|byte| **byte != self.fill).count();
        let looked_at = before.len() + after.len();
        tally.count(Held::Bytes, looked_at as u64, touched as u64, || {
            format!("{}: written where nothing may be", name())
        });
    }
}

impl Default for Guarded {
    fn default() -> Self {
        Self::new()
    }
}

pub const FULL: [usize; 4] =
    [lent::OFFSET_TABLE_BYTES, lent::ALPHA_TABLE_BYTES, lent::K_TA_TABLE_BYTES, lent::RECORD_BYTES];
const FIELDS: [(&str, usize); 20] = [
    ("k_v_dd", place::K_V_DD),
    ("v_dd_25", place::V_DD_25),
    ("resolution", place::RESOLUTION),
    ("k_v_ptat", place::K_V_PTAT),
    ("k_t_ptat", place::K_T_PTAT),
    ("v_ptat_25", place::V_PTAT_25),
    ("alpha_ptat", place::ALPHA_PTAT),
    ("gain", place::GAIN),
    ("k_s_ta", place::K_S_TA),
    ("corner_temperatures", place::CORNER_TEMPERATURES),
    ("k_s_to", place::K_S_TO),
    ("alpha_cp", place::ALPHA_CP),
    ("offset_reference_cp", place::OFFSET_REFERENCE_CP),
    ("k_v_pattern", place::K_V_PATTERN),
    ("k_v_cp", place::K_V_CP),
    ("k_ta_cp", place::K_TA_CP),
    ("temperature_gradient_coefficient", place::TEMPERATURE_GRADIENT_PRESENT),
    ("interleave_correction_pixels", place::INTERLEAVE_CORRECTION_PIXELS),
    ("interleave_correction_cp", place::INTERLEAVE_CORRECTION_CP),
    ("the record's end", lent::RECORD_BYTES),
];
/// Numbers in a record: 3 small ones, 6 floats, 4 + 4, 2 + 2, 4, 2, the gradient, 6 + 1.
const RECORD_NUMBERS: u64 = 35;

/// The field of a record in which a byte lies.
fn field_of(at: usize) -> &'static str {
    FIELDS.iter().rev().find(|(_, start)| *start <= at).map(|(name, _)| *name).unwrap_or("")
}

/// Compares two records, but for alpha_ptat where the crate has another; one that differs counts as one number that differs.
fn compare_records(
    tally: &mut Tally,
    held: Held,
    ours: &[u8],
    expected: &[u8; lent::RECORD_BYTES],
    apart: &Apart,
    name: &dyn Fn() -> String,
) {
    let quarters = apart.quarters.is_some();
    let counts = |at: &usize| !(quarters && ALPHA_PTAT.contains(at));
    let at = (0..lent::RECORD_BYTES).filter(counts).find(|at| ours[*at] != expected[*at]);
    tally.count(held, RECORD_NUMBERS - u64::from(quarters), u64::from(at.is_some()), || {
        let at = at.unwrap_or(0);
        let (byte, must) = (ours[at], expected[at]);
        format!("{}: {}: record byte {} is {:02X}, must be {:02X}", name(), field_of(at), at, byte, must)
    });
}

/// Counts the nibble of alpha_ptat; where the crate has another number, compares with the datasheet's.
fn compare_alpha_ptat(tally: &mut Tally, record: &[u8], apart: &Apart, name: &dyn Fn() -> String) {
    tally.nibbles[apart.nibble] += 1;
    if let Some(quarters) = &apart.quarters {
        let (ours, expected) = (&record[ALPHA_PTAT], &quarters.exact.to_bits().to_be_bytes()[..]);
        tally.same(Held::Datasheet, || format!("{}: alpha_ptat", name()), ours, expected);
    }
}

/// The entries of a table of floats, as their bits.
fn bits(bytes: &[u8]) -> impl Iterator<Item = u32> + '_ {
    bytes.chunks_exact(4).map(|b| u32::from_be_bytes([b[0], b[1], b[2], b[3]]))
}

/// A table's entries with their pixels: those where the crate's sum wraps, or all the others.
fn entries<'a>(
    bits: impl Iterator<Item = u32> + 'a,
    wrapped: &'a [Wrapped],
    wraps: bool,
) -> impl Iterator<Item = (usize, u32)> + 'a {
    bits.enumerate().filter(move |(pixel, _)| wrapped.binary_search_by_key(pixel, |w| w.pixel).is_ok() == wraps)
}

fn bits_of(table: &[f32]) -> impl Iterator<Item = u32> + '_ {
    table.iter().map(|x| x.to_bits())
}

/// Compares alpha: where the crate's sum wraps with the model, in all other pixels with the crate.
fn compare_alpha(
    tally: &mut Tally,
    held: Held,
    ours: &[u8],
    of_crate: &[f32],
    wrapped: &[Wrapped],
    name: &dyn Fn() -> String,
) {
    let name = |_| format!("{}: alpha, pixel and bits", name());
    tally.list(held, name, entries(bits(ours), wrapped, false), entries(bits_of(of_crate), wrapped, false));
    let exact = wrapped.iter().map(|w| (w.pixel, w.exact.to_bits()));
    tally.list(Held::Wide, name, entries(bits(ours), wrapped, true), exact);
}

/// How thoroughly an image is compared besides its record and tables.
#[derive(Clone, Copy)]
pub struct Depth {
    /// Ask for Kv and the corrections of all pixels.
    pub questions: bool,
    /// Hold the library to the crate with overflow checks, and the model to the crate's release build, too.
    pub cross: bool,
    /// Ask for every pixel by itself, not for a few, but where the image's length is refused; and have more explained.
    pub pixels: bool,
}

pub fn refused_of(refusal: Refusal) -> Refused {
    let table = refusal.table().map_or(0, Table::number);
    Refused { number: refusal.number(), table, place: refusal.place() as u64 }
}

/// The lent memory and what is remembered between images.
#[derive(Default)]
pub struct Bench {
    image: Vec<u8>,
    pub slices: [Guarded; 4],
    pub single: Single<PIXEL>,
    pub why: Single<EXPLANATION>,
    calls: u64,
    k_v: Vec<u32>,
    corrections: Vec<Option<u32>>,
}

impl Bench {
    pub fn new() -> Self {
        Self::default()
    }

    /// Calls with the four written slices of given lengths, and shows that nothing else was written.
    pub fn lend(
        &mut self,
        tally: &mut Tally,
        lens: [usize; 4],
        call: impl FnOnce(&mut [u8], &mut [u8], &mut [u8], &mut [u8]) -> Result<(), Refusal>,
    ) -> Result<(), Refused> {
        self.calls += 1;
        let fill = if self.calls % 2 == 0 { 0x5A } else { 0xA5 };
        let [offset, alpha, k_ta, record] = &mut self.slices;
        let answer = call(
            offset.reset(lens[0], fill),
            alpha.reset(lens[1], fill),
            k_ta.reset(lens[2], fill),
            record.reset(lens[3], fill),
        );
        for (which, (slice, full)) in self.slices.iter().zip(FULL).enumerate() {
            let written = if answer.is_ok() { full } else { 0 };
            slice.stayed(tally, written, || format!("slice {}", which));
        }
        answer.map_err(refused_of)
    }

    /// Decodes an image through the interface. Every few calls the slices are longer than needed and lie unaligned.
    pub fn decode(&mut self, tally: &mut Tally, image: &[u8]) -> Result<(), Refused> {
        let calls = self.calls as usize;
        let lens = match calls % 4 {
            0 => [FULL[0] + calls % 7, FULL[1] + calls % 5, FULL[2] + calls % 3, FULL[3] + calls % 11],
            _ => FULL,
        };
        let mut held = std::mem::take(&mut self.image);
        held.clear();
        let shift = calls % 8;
        held.resize(shift, 0xEE);
        held.extend_from_slice(image);
        let answer = self.lend(tally, lens, |offset, alpha, k_ta, record| {
            lent::from_data(&held[shift..], offset, alpha, k_ta, record)
        });
        let touched = held[shift..].iter().zip(image).filter(|(now, before)| now != before).count();
        tally.count(Held::Bytes, image.len() as u64, touched as u64, || "the image was written".to_string());
        self.image = held;
        answer
    }

    /// Compares what was last decoded with one judge's record and tables; where the crate's numbers are others, with what must be.
    pub fn compare<J: Judge>(
        &mut self,
        tally: &mut Tally,
        held: Held,
        judge: &J,
        apart: &Apart,
        depth: Depth,
        name: &dyn Fn() -> String,
    ) {
        let [offset, alpha, k_ta, record] = &self.slices;
        compare_records(tally, held, record.slice(), &judge.record(), apart, name);
        if held == Held::Crate {
            compare_alpha_ptat(tally, record.slice(), apart, name);
        }
        let ours = offset.slice()[..FULL[0]].chunks_exact(2).map(|b| i16::from_be_bytes([b[0], b[1]]));
        tally.list(held, |pixel| format!("{}: offset {}", name(), pixel), ours, judge.offset().iter().copied());
        compare_alpha(tally, held, &alpha.slice()[..FULL[1]], judge.alpha(), &apart.wrapped, name);
        let ours = bits(&k_ta.slice()[..FULL[2]]);
        tally.list(held, |pixel| format!("{}: Kta {}", name(), pixel), ours, bits_of(judge.k_ta()));
        if depth.questions {
            self.questions(tally, held, judge, name);
        }
    }

    /// Asks everything that can be asked of the record that was last decoded.
    fn questions<J: Judge>(&mut self, tally: &mut Tally, held: Held, judge: &J, name: &dyn Fn() -> String) {
        let record = self.slices[3].slice();
        judge.k_v(&mut self.k_v);
        tally.same(Held::Judges, || "Kv's count".to_string(), self.k_v.len(), 768);
        let ours = (0..768).map(|pixel| lent::k_v_pixel(record, pixel).map(f32::to_bits).map_err(refused_of));
        tally.list(held, |pixel| format!("{}: Kv {}", name(), pixel), ours, self.k_v.iter().map(|x| Ok(*x)));
        for pattern in 0..2 {
            judge.corrections(pattern, &mut self.corrections);
            tally.same(Held::Judges, || "the corrections' count".to_string(), self.corrections.len(), 768);
            let bits = |answer: Result<Option<f32>, Refusal>| answer.map(|x| x.map(f32::to_bits)).map_err(refused_of);
            let ours = (0..768).map(|pixel| bits(lent::interleave_correction_pixel(record, pattern, pixel)));
            let expected = self.corrections.iter().map(|x| Ok(*x));
            tally.list(held, |pixel| format!("{}: correction {} {}", name(), pattern, pixel), ours, expected);
            let ours = (0..2).map(|subpage| bits(lent::interleave_correction_cp(record, pattern, subpage)));
            let expected = (0..2).map(|subpage| Ok(judge.correction_cp(pattern, subpage)));
            tally.list(held, |subpage| format!("{}: correction cp {} {}", name(), pattern, subpage), ours, expected);
        }
        for subpage in 0..2 {
            let ours = lent::alpha_cp(record, subpage).map(f32::to_bits).map_err(refused_of);
            tally.same(held, || format!("{}: alpha_cp {}", name(), subpage), ours, Ok(judge.alpha_cp(subpage)));
            let ours = lent::offset_reference_cp(record, subpage).map_err(refused_of);
            let expected = Ok(judge.offset_reference_cp(subpage));
            tally.same(held, || format!("{}: offset_reference_cp {}", name(), subpage), ours, expected);
        }
    }

    /// One image: the refusal that must come, or every number of the original crate's answer.
    pub fn image(&mut self, tally: &mut Tally, image: &[u8], depth: Depth, name: &dyn Fn() -> String) {
        tally.image(image);
        let expected = model::verdict(image).map(|_| ());
        let ours = self.decode(tally, image);
        tally.same(Held::Walk, name, ours, expected);
        if ours != expected {
            return;
        }
        sums::count(tally, image, expected);
        match expected {
            Ok(()) => self.accepted(tally, image, depth, name),
            Err(refused) => {
                let doings = tally.refusals.entry(refused.number).or_default();
                count_doings(doings, &Release::decode(image), &Checked::decode(image));
            }
        }
        pixels::of_image(tally, self, image, expected, depth.pixels, name);
        explanations::of_image(tally, self, image, expected, depth.pixels, name);
    }

    /// An image that was decoded just now, and had to be accepted.
    fn accepted(&mut self, tally: &mut Tally, image: &[u8], depth: Depth, name: &dyn Fn() -> String) {
        tally.accepted();
        let apart = Apart::of(image);
        let release = Release::decode(image);
        let overflows = sums::overflows(image);
        if overflows || depth.cross {
            let checked = Checked::decode(image);
            if overflows {
                count_doings(&mut tally.overflows, &release, &checked);
            }
            self.accepted_checked(tally, checked, overflows, &apart, depth, name);
        }
        let release = match release.answer() {
            Some(release) => release,
            None => {
                tally.different(Held::Crate, || format!("{}: accepted, but not by the original crate", name()));
                return;
            }
        };
        self.compare(tally, Held::Crate, &release, &apart, depth, name);
        compare_apart(tally, &apart, &release, name);
        if depth.cross {
            let model = model::decode(image).expect("accepted above");
            compare_judges(tally, &model, &release, &apart, name);
        }
    }

    /// The same image in the crate with overflow checks. It panics where a sum that it makes in 16 bits is outside, and there
    /// alone; elsewhere it must have every number, too.
    fn accepted_checked(
        &mut self,
        tally: &mut Tally,
        checked: Outcome<Checked>,
        overflows: bool,
        apart: &Apart,
        depth: Depth,
        name: &dyn Fn() -> String,
    ) {
        let panics = matches!(checked, Outcome::Panic(_));
        tally.same(Held::Judges, || format!("{}: panics with overflow checks", name()), panics, overflows);
        match checked.answer() {
            Some(checked) => {
                self.compare(tally, Held::Checked, &checked, apart, depth, name);
                compare_apart(tally, apart, &checked, name);
            }
            None if overflows => {}
            None => tally.different(Held::Checked, || format!("{}: no answer with overflow checks", name())),
        }
    }
}

/// Holds what a build of the crate has where its numbers are others to what it must be.
fn compare_apart<J: Judge>(tally: &mut Tally, apart: &Apart, judge: &J, name: &dyn Fn() -> String) {
    let expected = apart.wrapped.iter().map(|w| (w.pixel, w.of_crate.to_bits()));
    let theirs = apart.wrapped.iter().map(|w| (w.pixel, judge.alpha()[w.pixel].to_bits()));
    tally.list(Held::Judges, |_| format!("{}: alpha of the crate, pixel and bits", name()), theirs, expected);
    if let Some(quarters) = &apart.quarters {
        let (theirs, expected) = (&judge.record()[ALPHA_PTAT], &quarters.of_crate.to_bits().to_be_bytes()[..]);
        tally.same(Held::Judges, || format!("{}: alpha_ptat of the crate", name()), theirs, expected);
    }
}

/// Holds the model's numbers to the original crate's, so that it can be believed where the crate has none.
fn compare_judges<J: Judge>(tally: &mut Tally, model: &Decoded, judge: &J, apart: &Apart, name: &dyn Fn() -> String) {
    let held = Held::Judges;
    compare_records(tally, held, &model.record, &judge.record(), apart, name);
    let exact = &apart.record(judge.record())[ALPHA_PTAT];
    tally.same(held, || format!("{}: the model's alpha_ptat", name()), &model.record[ALPHA_PTAT], exact);
    let (ours, expected) = (model.offset.iter(), judge.offset().iter());
    tally.list(held, |pixel| format!("{}: the model's offset {}", name(), pixel), ours, expected);
    let (ours, expected) = (bits_of(&model.alpha), bits_of(judge.alpha()));
    let (ours, expected) = (entries(ours, &apart.wrapped, false), entries(expected, &apart.wrapped, false));
    tally.list(held, |_| format!("{}: the model's alpha, pixel and bits", name()), ours, expected);
    let (ours, expected) = (bits_of(&model.k_ta), bits_of(judge.k_ta()));
    tally.list(held, |pixel| format!("{}: the model's Kta {}", name(), pixel), ours, expected);
}

/// Counts what the original crate's two builds do with an image.
fn count_doings(doings: &mut Doings, release: &Outcome<Release>, checked: &Outcome<Checked>) {
    doings.seen += 1;
    doings.release[place_of(release)] += 1;
    doings.checked[place_of(checked)] += 1;
}

fn place_of<T>(outcome: &Outcome<T>) -> usize {
    match outcome {
        Outcome::Answer(_) => 0,
        Outcome::Error(_) => 1,
        Outcome::Panic(_) => 2,
    }
}
