//! One pixel by itself. Where the library accepts the image, the pixel is held to the library's own tables, which are
//! held to the crate; elsewhere to the model. `pixel_parts` has the parts of a run that are about nothing else.
use mofuleka::{lent, Refusal};

use crate::guarded::{refused_of, Bench, Guarded};
use crate::history::History;
use crate::images::Numbers;
use crate::model::{self, refused, Refused, PIXEL, PIXELS, WORDS};
use crate::tally::{Held, Tally};

/// A pixel's bytes, or its refusal.
pub type Answer = Result<[u8; PIXEL], Refused>;

/// Where a pixel is asked for.
pub type Source<'a> = &'a dyn Fn(usize, &mut [u8]) -> Result<(), Refusal>;

/// What one pixel can be given; none of these may be missing from a run.
pub const KINDS: [&str; 10] = [
    "answered, its image accepted",
    "answered, its image refused",
    "answered, its gathering not full",
    "refused for a term of offset",
    "refused for offset's sum",
    "refused for a term of alpha",
    "refused for Kta's term",
    "refused for Kta's sum",
    "refused for a word in conflict",
    "refused for a word that is missing",
];
const NOT_FULL: usize = 2;
/// Number and table of the refusals among them.
const REFUSALS: [(u8, u8); 7] = [(3, 0), (4, 0), (3, 1), (3, 2), (4, 2), (9, 0), (10, 0)];

/// The words that a pixel needs, in the order of `model::needed`; each must have changed an answer.
pub const NEEDED: [&str; 11] = [
    "offset's scales",
    "offset's average",
    "offset's row",
    "offset's column",
    "alpha's scales",
    "alpha's average",
    "alpha's row",
    "alpha's column",
    "Kta's average",
    "Kta's scales",
    "the pixel's own",
];

/// The lent slice into which a pixel's answer of so many bytes is written.
#[derive(Default)]
pub struct Single<const BYTES: usize> {
    out: Guarded,
    calls: u64,
}

impl<const BYTES: usize> Single<BYTES> {
    /// Asks for a pixel with a slice of some length, and shows that nothing else was written.
    pub fn ask_into(
        &mut self,
        tally: &mut Tally,
        len: usize,
        source: Source,
        pixel: usize,
    ) -> Result<[u8; BYTES], Refused> {
        self.calls += 1;
        let fill = if self.calls % 2 == 0 { 0x5A } else { 0xA5 };
        let answer = source(pixel, self.out.reset(len, fill));
        let written = if answer.is_ok() { BYTES } else { 0 };
        self.out.stayed(tally, written, || format!("pixel {}", pixel));
        answer.map_err(refused_of)?;
        let mut bytes = [0; BYTES];
        bytes.iter_mut().zip(self.out.slice()).for_each(|(byte, given)| *byte = *given);
        Ok(bytes)
    }

    /// The same with a slice that is long enough; every few calls it is longer.
    pub fn ask(&mut self, tally: &mut Tally, source: Source, pixel: usize) -> Result<[u8; BYTES], Refused> {
        let long = if self.calls % 4 == 0 { self.calls as usize % 7 } else { 0 };
        self.ask_into(tally, BYTES + long, source, pixel)
    }

    /// Numbers that are others after each call.
    pub fn numbers(&self) -> Numbers {
        Numbers::new(self.calls)
    }

    /// A few pixels to ask for: any two, and the one that a refusal names.
    fn few(&self, decoded: Result<(), Refused>) -> Vec<usize> {
        let mut numbers = self.numbers();
        let mut pixels = vec![numbers.below(768) as usize, numbers.below(768) as usize];
        if let Err(Refused { number: 3 | 4, place, .. }) = decoded {
            pixels.push(place as usize);
        }
        pixels
    }
}

/// Counts what a pixel was given.
fn count(tally: &mut Tally, answer: &Answer, answered: usize) {
    let kind = match answer {
        Ok(_) => Some(answered),
        Err(r) => REFUSALS.iter().position(|refusal| *refusal == (r.number, r.table)).map(|at| NOT_FULL + 1 + at),
    };
    kind.iter().for_each(|kind| tally.singles[*kind] += 1);
}

/// Shows that a slice that is only read stayed as it was.
pub fn unwritten(tally: &mut Tally, now: &[u8], before: &[u8], name: &dyn Fn() -> String) {
    let touched = now.iter().zip(before).filter(|(now, before)| now != before).count();
    tally.count(Held::Bytes, before.len() as u64, touched as u64, || format!("{}: written, and only read", name()));
}

/// A pixel's entries in the tables that were last decoded.
pub fn entry(bench: &Bench, pixel: usize) -> [u8; PIXEL] {
    let [offset, alpha, k_ta, _] = &bench.slices;
    let mut bytes = [0; PIXEL];
    bytes[..2].copy_from_slice(&offset.slice()[2 * pixel..][..2]);
    bytes[2..6].copy_from_slice(&alpha.slice()[4 * pixel..][..4]);
    bytes[6..].copy_from_slice(&k_ta.slice()[4 * pixel..][..4]);
    bytes
}

/// What some pixels must be given beside what was decoded just now, and what that is held to.
fn must_be(bench: &Bench, image: &[u8], decoded: Result<(), Refused>, pixels: &[usize]) -> (Held, Vec<Answer>) {
    match decoded {
        Ok(()) => (Held::Decoder, pixels.iter().map(|pixel| Ok(entry(bench, *pixel))).collect()),
        Err(Refused { number: 1, .. }) => (Held::Rules, vec![decoded.map(|()| [0; PIXEL]); pixels.len()]),
        Err(_) => (Held::Pixels, pixels.iter().copied().map(model::single(image)).collect()),
    }
}

/// Pixels of a source whose image the library has decoded just now: all of them, or a few.
pub fn compare(
    tally: &mut Tally,
    bench: &mut Bench,
    source: Source,
    image: &[u8],
    decoded: Result<(), Refused>,
    all: bool,
    name: &dyn Fn() -> String,
) {
    let all = all && decoded != Err(refused(1));
    let pixels = if all { (0..PIXELS).collect() } else { bench.single.few(decoded) };
    let (held, expected) = must_be(bench, image, decoded, &pixels);
    let ours: Vec<Answer> = pixels.iter().map(|pixel| bench.single.ask(tally, source, *pixel)).collect();
    ours.iter().for_each(|answer| count(tally, answer, usize::from(decoded.is_err())));
    let of_pixel = |at: u64| format!("{}: pixel {} by itself", name(), pixels[at as usize]);
    tally.list(held, of_pixel, ours.iter(), expected.iter());
    if all {
        let answered = ours.iter().all(|answer| answer.is_ok());
        tally.same(Held::Decoder, || format!("{}: every pixel answered", name()), answered, decoded.is_ok());
    }
    // The pixel that the decoder names is refused as it says.
    if let Err(Refused { number: 3 | 4, place, .. }) = decoded {
        let named = pixels.iter().position(|pixel| *pixel as u64 == place).map(|at| ours[at].map(|_| ()));
        tally.same(Held::Decoder, || format!("{}: pixel {}, which is named", name(), place), named, Some(decoded));
    }
}

/// The same of an image, moved by a byte.
pub fn of_image(
    tally: &mut Tally,
    bench: &mut Bench,
    image: &[u8],
    decoded: Result<(), Refused>,
    all: bool,
    name: &dyn Fn() -> String,
) {
    let held = [&[0xEE], image].concat();
    compare(tally, bench, &|pixel, out| lent::pixel(&held[1..], pixel, out), image, decoded, all, name);
    unwritten(tally, &held[1..], image, name);
}

/// Pixels of a gathering, full or not.
pub fn of_gathering(
    tally: &mut Tally,
    bench: &mut Bench,
    bytes: &[u8],
    history: &History,
    pixels: &[usize],
    name: &dyn Fn() -> String,
) {
    let lent = bytes.to_vec();
    for pixel in pixels {
        let ours = bench.single.ask(tally, &|pixel, out| lent::gathering_pixel(&lent, pixel, out), *pixel);
        let (held, expected) = history.pixel(*pixel);
        tally.same(held, || format!("{}: pixel {}", name(), pixel), ours, expected);
        if ours.is_err() || history.fault(0..WORDS).is_err() {
            count(tally, &ours, NOT_FULL);
        }
    }
    unwritten(tally, &lent, bytes, name);
}

/// Everything that a pixel can be given must have come up, and every word that it needs must have changed an answer.
pub fn require_all(tally: &mut Tally) {
    tally.part("every answer and word of one pixel");
    let (singles, needed) = (tally.singles, tally.needed);
    for (name, seen) in KINDS.iter().zip(singles) {
        tally.same(Held::Judges, || format!("came up: {}", name), seen > 0, true);
    }
    for (name, seen) in NEEDED.iter().zip(needed) {
        tally.same(Held::Judges, || format!("changed an answer: {}", name), seen > 0, true);
    }
}
