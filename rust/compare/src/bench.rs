//! bench [ROUNDS]: this library and the original crate (release build) side by side in one run.
//!
//! Every case alternates, round by round, with the crate's `from_data` on the lifelike image. Printed are the best time of a
//! call, the ratio of the two best times, and the smallest and largest ratio of a single round. Before it is timed, each
//! case's answer is held to what it must be.
use std::env;
use std::time::Instant;

use compare::account::Account;
use compare::images::{self, Image};
use compare::judge::{Judge, Release};
use compare::model;
use mlx9064x_release::CalibrationData;
use mofuleka::{lent, Calibration, Gathering, Pixel, Refusal, Table};

/// What a call that only writes leaves for the sink: a byte that it wrote, or its refusal's number.
fn left(answer: Result<(), Refusal>, written: u8) -> u64 {
    match answer {
        Ok(()) => u64::from(written),
        Err(refusal) => u64::from(refusal.number()),
    }
}

struct Lent {
    offset: [u8; lent::OFFSET_TABLE_BYTES],
    alpha: [u8; lent::ALPHA_TABLE_BYTES],
    k_ta: [u8; lent::K_TA_TABLE_BYTES],
    record: [u8; lent::RECORD_BYTES],
}

impl Lent {
    fn new() -> Self {
        Self {
            offset: [0; lent::OFFSET_TABLE_BYTES],
            alpha: [0; lent::ALPHA_TABLE_BYTES],
            k_ta: [0; lent::K_TA_TABLE_BYTES],
            record: [0; lent::RECORD_BYTES],
        }
    }

    fn decode(&mut self, image: &[u8]) -> u64 {
        let answer = lent::from_data(image, &mut self.offset, &mut self.alpha, &mut self.k_ta, &mut self.record);
        left(answer, self.record[0])
    }

    fn gathered(&mut self, gathering: &[u8]) -> u64 {
        let Lent { offset, alpha, k_ta, record } = self;
        let answer = lent::gathering_from_data(gathering, offset, alpha, k_ta, record);
        left(answer, self.record[0])
    }
}

extern "C" {
    fn bench_from_data(
        image: *const u8,
        image_len: usize,
        offset: *mut i16,
        offset_len: usize,
        alpha: *mut f32,
        alpha_len: usize,
        k_ta: *mut f32,
        k_ta_len: usize,
        record: *mut u8,
        record_len: usize,
    ) -> u8;
}

/// Tables as the library itself writes them, and the record's bytes.
struct Own {
    offset: [i16; 768],
    alpha: [f32; 768],
    k_ta: [f32; 768],
    record: [u8; lent::RECORD_BYTES],
}

impl Own {
    fn new() -> Self {
        Self { offset: [0; 768], alpha: [0.0; 768], k_ta: [0.0; 768], record: [0; lent::RECORD_BYTES] }
    }

    fn decode(&mut self, image: &[u8]) -> u64 {
        // SAFETY: each pointer is a slice's or an array's, with its own number of entries; the four that are written are parts of one
        // exclusive borrow, so they overlap neither each other nor the image.
        let number = unsafe {
            bench_from_data(
                image.as_ptr(),
                image.len(),
                self.offset.as_mut_ptr(),
                self.offset.len(),
                self.alpha.as_mut_ptr(),
                self.alpha.len(),
                self.k_ta.as_mut_ptr(),
                self.k_ta.len(),
                self.record.as_mut_ptr(),
                self.record.len(),
            )
        };
        u64::from(number) + u64::from(self.record[0])
    }
}

/// Whether the extremes of each table are too large to show at a glance that it has no fault: of offset the average and the
/// largest terms together, of alpha the largest term, of Kta the largest term beside any average.
fn past_the_bound(image: &[u8]) -> [bool; 3] {
    let largest = |table: usize, i: usize| model::parts(image, table).map(|parts| parts[i].abs()).max().unwrap();
    let own = |address: usize, field: i64| field << (images::get(image, address) & 15);
    let offset = largest(0, 0) + largest(0, 1) + largest(0, 2) + own(0x2410, 32);
    let alpha = largest(1, 1).max(largest(1, 2)).max(own(0x2420, 32));
    [offset, alpha, 128 + own(0x2438, 4)].map(|reach| reach > 32767)
}

/// Number, table and place of the refusal that an image gets; no number but 0 where it is accepted.
fn refused(image: &[u8]) -> (u8, Option<Table>, usize) {
    match Calibration::from_data(image) {
        Ok(_) => (0, None, 0),
        Err(refusal) => (refusal.number(), refusal.table(), refusal.place()),
    }
}

fn crate_decodes(image: &[u8]) -> u64 {
    match mlx9064x_release::mlx90640::Mlx90640Calibration::from_data(image) {
        Ok(calibration) => calibration.k_v_dd() as u64,
        Err(_) => 1,
    }
}

/// Nanoseconds of one call, over some calls.
fn time(calls: u64, sink: &mut u64, mut call: impl FnMut(u64) -> u64) -> f64 {
    let start = Instant::now();
    for i in 0..calls {
        *sink = sink.wrapping_add(call(i));
    }
    start.elapsed().as_nanos() as f64 / calls as f64
}

struct Line {
    best: f64,
    ratio: f64,
    low: f64,
    high: f64,
}

/// A case against the crate's decoding of the same round.
fn against(
    rounds: usize,
    base: &mut dyn FnMut(u64) -> u64,
    case: &mut dyn FnMut(u64) -> u64,
    sink: &mut u64,
) -> (f64, Line) {
    let calls = |once: f64| ((3_000_000.0 / once.max(1.0)) as u64).max(10);
    // A first round, not counted, finds out how many calls fill three milliseconds.
    let (base_calls, case_calls) = (calls(time(50, sink, &mut *base)), calls(time(200, sink, &mut *case)));
    let mut bests = (f64::INFINITY, f64::INFINITY);
    let (mut low, mut high) = (f64::INFINITY, 0f64);
    for _ in 0..rounds {
        let theirs = time(base_calls, sink, &mut *base);
        let ours = time(case_calls, sink, &mut *case);
        bests = (bests.0.min(theirs), bests.1.min(ours));
        low = low.min(ours / theirs);
        high = high.max(ours / theirs);
    }
    (bests.0, Line { best: bests.1, ratio: bests.1 / bests.0, low, high })
}

/// The images that are timed.
struct Images {
    lifelike: Image,
    /// Accepted, but with terms that a bound from the extremes can't clear, in all three tables.
    past: Image,
    /// Refused at the first pixel, at the last offset and at the last Kta.
    first: Image,
    last: Image,
    k_ta: Image,
}

impl Images {
    fn new() -> Self {
        let lifelike = images::lifelike(1);
        let mut first = lifelike;
        images::set(&mut first, 0x2410, 0x4F10);
        images::set(&mut first, 0x2412, 0x0001);
        let mut last = lifelike;
        images::set(&mut last, 0x2410, 0x421B);
        in_last_pixel(&mut last, 0x03FF, 0x4000);
        let mut k_ta = lifelike;
        images::set(&mut k_ta, 0x2438, 0x236F);
        in_last_pixel(&mut k_ta, 0xFFF1, 0x0002);
        Self { lifelike, past: past_of(lifelike), first, last, k_ta }
    }

    /// Holds each to what it must be: where the bound is, and accepted with the crate's numbers or a refusal.
    fn check(&self) {
        assert_eq!(past_the_bound(&self.lifelike), [false; 3]);
        assert_eq!(past_the_bound(&self.past), [true; 3]);
        assert_eq!(refused(&self.lifelike), (0, None, 0));
        assert_eq!(refused(&self.past), (0, None, 0));
        assert_eq!(refused(&self.first), (3, Some(Table::Offset), 0));
        assert_eq!(refused(&self.last), (3, Some(Table::Offset), 767));
        assert_eq!(refused(&self.k_ta), (3, Some(Table::Kta), 767));
        for image in [&self.lifelike, &self.past] {
            has_the_crates_numbers(image);
        }
    }
}

/// Row terms of -32768, and of Kta remainders that could come to that.
fn past_of(lifelike: Image) -> Image {
    let mut past = lifelike;
    images::set(&mut past, 0x2410, 0x4F10);
    images::set(&mut past, 0x2420, 0x7F16);
    for start in [0x2410, 0x2420] {
        images::set(&mut past, start + 1, 0x0000);
        for row in 2..8 {
            images::set(&mut past, start + row, 0x0000);
        }
        // Row 1 alone, at the very limit; the columns bring it back.
        images::set(&mut past, start + 2, 0x00F0);
        for column in 8..16 {
            images::set(&mut past, start + column, 0x1111);
        }
    }
    images::set(&mut past, 0x2436, 0xFF54);
    images::set(&mut past, 0x2438, 0x236D);
    for pixel in 32..64 {
        images::set(&mut past, 0x2440 + pixel, 0x0000);
    }
    past
}

/// Leaves some bits of every pixel's word, and sets some of the last one's.
fn in_last_pixel(image: &mut Image, left: u16, set: u16) {
    for address in 0x2440..0x2740 {
        let word = images::get(image, address) & left;
        images::set(image, address, word);
    }
    let word = images::get(image, 0x273F) | set;
    images::set(image, 0x273F, word);
}

/// What the library decodes, into bytes and into tables of its own, is what the crate does.
fn has_the_crates_numbers(image: &Image) {
    let judge = Release::decode(image).answer().expect("the crate takes it");
    let mut l = Lent::new();
    l.decode(image);
    assert!(l.record == judge.record());
    assert!(l.offset.chunks_exact(2).zip(judge.offset()).all(|(b, x)| b == x.to_be_bytes()));
    assert!(l.alpha.chunks_exact(4).zip(judge.alpha()).all(|(b, x)| b == x.to_bits().to_be_bytes()));
    assert!(l.k_ta.chunks_exact(4).zip(judge.k_ta()).all(|(b, x)| b == x.to_bits().to_be_bytes()));
    let mut own = Own::new();
    own.decode(image);
    assert!(own.record == judge.record());
    assert!(own.offset.iter().zip(judge.offset()).all(|(a, b)| a == b));
    assert!(own.alpha.iter().zip(judge.alpha()).all(|(a, b)| a.to_bits() == b.to_bits()));
    assert!(own.k_ta.iter().zip(judge.k_ta()).all(|(a, b)| a.to_bits() == b.to_bits()));
}

/// An image in blocks of 64 words.
fn blocks_of(image: &Image) -> Vec<Vec<u8>> {
    let block = |start: usize| {
        let mut block = vec![0, 131, 1, (start / 256) as u8, start as u8];
        block.extend_from_slice(&image[2 * start..2 * start + 128]);
        block
    };
    (0..832).step_by(64).map(block).collect()
}

fn gathered<'a>(blocks: impl Iterator<Item = &'a Vec<u8>>) -> Gathering {
    let mut gathering = Gathering::new();
    blocks.for_each(|block| gathering.accept(block).expect("a good block"));
    gathering
}

/// One pixel by itself has the numbers of the tables, out of an image and out of a gathering.
fn singles_are_the_tables(image: &Image, full: &Gathering) {
    let whole = Calibration::from_data(image).expect("an accepted image");
    for pixel in 0..768 {
        assert_eq!(Pixel::from_data(image, pixel), whole.pixel(pixel));
        assert_eq!(full.pixel(pixel), whole.pixel(pixel));
    }
}

/// Every explanation of an image is the model's.
fn explanations_are_the_models(image: &Image) {
    let verdict = model::verdict(image).map(|_| ());
    for asked in (0..3 * 768).map(|i| (i / 768, i % 768)) {
        let mut out = [0; lent::EXPLANATION_BYTES];
        assert_eq!(lent::explain(image, asked.0 as u32, asked.1, &mut out), Ok(()));
        assert!(out == Account::of(image, verdict, asked).bytes());
    }
}

/// The cases that have been timed: name, the crate's best time beside it, its own.
struct Timed<'a> {
    rounds: usize,
    base: &'a Image,
    sink: u64,
    lines: Vec<(&'static str, f64, Line)>,
}

impl Timed<'_> {
    fn case(&mut self, name: &'static str, call: &mut dyn FnMut(u64) -> u64) {
        let base = self.base;
        let (theirs, line) = against(self.rounds, &mut |_| crate_decodes(base), call, &mut self.sink);
        self.lines.push((name, theirs, line));
    }

    fn decodings(&mut self, images: &Images) {
        let (mut l, mut own) = (Lent::new(), Own::new());
        let lifelike = &images.lifelike;
        self.case("the crate against itself", &mut |_| crate_decodes(lifelike));
        self.case("decode, lifelike", &mut |_| l.decode(lifelike));
        self.case("decode, lifelike, own tables", &mut |_| own.decode(lifelike));
        self.case("decode, accepted past the bound", &mut |_| l.decode(&images.past));
        self.case("decode, refused at the first pixel", &mut |_| l.decode(&images.first));
        self.case("decode, refused at the last offset", &mut |_| l.decode(&images.last));
        self.case("decode, refused at the last Kta", &mut |_| l.decode(&images.k_ta));
        self.case("decode, refused for its length", &mut |_| l.decode(&lifelike[..1663]));
        self.case("Calibration::from_data, lifelike", &mut |_| {
            Calibration::from_data(lifelike).map(|c| c.k_v_dd() as u64).unwrap_or(0)
        });
    }

    fn gatherings(&mut self, image: &Image) {
        let blocks = blocks_of(image);
        let (full, half) = (gathered(blocks.iter()), gathered(blocks.iter().step_by(2)));
        assert!(full.status().is_full());
        let mut lent = *Gathering::new().as_bytes();
        self.case("accept of a 64-word block", &mut |i| {
            lent::gathering_accept(&mut lent, &blocks[i as usize % 13]).map(|()| 0).unwrap_or(1)
        });
        let mut lent = *full.as_bytes();
        self.case("merge of two gatherings", &mut |_| {
            lent::gathering_merge(&mut lent, half.as_bytes()).map(|()| 0).unwrap_or(1)
        });
        self.case("status of a gathering", &mut |_| {
            lent::gathering_status(full.as_bytes()).map(|(missing, _)| missing as u64).unwrap_or(1)
        });
        let mut l = Lent::new();
        self.case("decode of a full gathering", &mut |_| l.gathered(full.as_bytes()));
    }

    /// One pixel's offset, alpha and Kta, by themselves.
    fn singles(&mut self, images: &Images) {
        let image = &images.lifelike;
        let full = gathered(blocks_of(image).iter());
        singles_are_the_tables(image, &full);
        let refused = Pixel::from_data(&images.k_ta, 767).unwrap_err();
        assert_eq!((refused.number(), refused.table(), refused.place()), (3, Some(Table::Kta), 767));
        let mut out = [0; lent::PIXEL_BYTES];
        self.case("single pixel out of an image", &mut |i| {
            left(lent::pixel(image, i as usize % 768, &mut out), out[1])
        });
        self.case("single pixel, refused at its Kta", &mut |_| left(lent::pixel(&images.k_ta, 767, &mut out), out[1]));
        self.case("single pixel out of a full gathering", &mut |i| {
            left(lent::gathering_pixel(full.as_bytes(), i as usize % 768, &mut out), out[1])
        });
        let all = |Pixel { offset, alpha, k_ta }| offset as u64 ^ u64::from(alpha.to_bits() ^ k_ta.to_bits());
        self.case("Pixel::from_data, lifelike", &mut |i| Pixel::from_data(image, i as usize % 768).map_or(0, all));
    }

    /// Where one entry comes from, and why an image is refused.
    fn explanations(&mut self, images: &Images) {
        let (image, refused) = (&images.lifelike, &images.k_ta);
        [image, refused].iter().for_each(|image| explanations_are_the_models(image));
        let mut out = [0; lent::EXPLANATION_BYTES];
        let mut explain =
            |image: &Image, i: u64| left(lent::explain(image, i as u32 % 3, i as usize % 768, &mut out), out[73]);
        self.case("explanation of an entry", &mut |i| explain(image, i));
        self.case("explanation, refused at the last Kta", &mut |i| explain(refused, i));
    }

    fn questions(&mut self, image: &Image) {
        let record = *Calibration::from_data(image).expect("an accepted image").record_bytes();
        let bits =
            |answer: Result<Option<f32>, Refusal>| u64::from(answer.ok().flatten().map(f32::to_bits).unwrap_or(0));
        self.case("one pixel: Kv, correction, mask", &mut |i| {
            let pixel = i as usize % 768;
            let k_v = lent::k_v_pixel(&record, pixel).map(f32::to_bits).unwrap_or(0);
            let correction = lent::interleave_correction_pixel(&record, 0, pixel);
            let mask = lent::pixel_in_subpage(1, 0, pixel).unwrap_or(false);
            u64::from(k_v) + u64::from(mask) + bits(correction)
        });
        self.case("compensation pixel's questions", &mut |i| {
            let subpage = i as u32 % 2;
            let alpha = lent::alpha_cp(&record, subpage).map(f32::to_bits).unwrap_or(0);
            let offset = lent::offset_reference_cp(&record, subpage).unwrap_or(0);
            let correction = lent::interleave_correction_cp(&record, 0, subpage);
            u64::from(alpha) + offset as u64 + bits(correction)
        });
    }

    fn print(&self) {
        println!("{} rounds; the crate's from_data and each case in turn, best of all rounds", self.rounds);
        println!("{:<38} {:>10} {:>10} {:>8}   {:>17}", "case", "crate ns", "ns", "ratio", "ratio in a round");
        for (name, theirs, line) in &self.lines {
            println!(
                "{:<38} {:>10.0} {:>10.1} {:>8.3}   {:>7.3} .. {:<7.3}",
                name, theirs, line.best, line.ratio, line.low, line.high
            );
        }
    }
}

fn main() {
    let rounds = env::args().nth(1).and_then(|text| text.parse().ok()).unwrap_or(15);
    let images = Images::new();
    images.check();
    let mut timed = Timed { rounds, base: &images.lifelike, sink: 0, lines: Vec::new() };
    timed.decodings(&images);
    timed.gatherings(&images.lifelike);
    timed.singles(&images);
    timed.explanations(&images);
    timed.questions(&images.lifelike);
    timed.print();
    // So that no call is without use.
    assert!(timed.sink != 1);
}
