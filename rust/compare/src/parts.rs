//! The parts of a run: images of many kinds, and storms of blocks. Each part is cut into jobs that threads share.
use compare::explanation_parts;
use compare::gatherings;
use compare::guarded::{Bench, Depth, FULL};
use compare::images::{self, Image, Numbers};
use compare::leaving;
use compare::model;
use compare::pixel_parts;
use compare::tally::{Held, Tally};

use crate::questions;

pub type Job = Box<dyn Fn(&mut Tally, &mut Bench) + Send + Sync>;

/// How much of everything is done.
#[derive(Clone, Copy)]
pub struct Plan {
    pub seed: u64,
    /// Random images of each kind.
    pub count: u64,
    /// Of the 65,536 values of a word, one in this many is tried.
    pub one_in: u64,
}

impl Plan {
    /// The values of one word that are tried: spread over the whole range and different in each word.
    fn values(self, salt: u64) -> impl Iterator<Item = u64> {
        (0..65536u64).filter(move |value| {
            self.one_in == 1
                || Numbers::new(self.seed ^ (salt << 32) ^ value).below(self.one_in) == 0
                || [0, 1, 0x7FFF, 0x8000, 0xFFFF].contains(value)
        })
    }
}

pub fn jobs(plan: Plan) -> Vec<Job> {
    let mut jobs: Vec<Job> = Vec::new();
    every_word(plan, &mut jobs);
    jobs.push(Box::new(nibbles));
    pixel_words(plan, &mut jobs);
    random(plan, &mut jobs);
    leaving(plan, &mut jobs);
    let seed = plan.seed;
    jobs.push(Box::new(move |tally, bench| lengths(tally, bench, seed)));
    jobs.push(Box::new(move |tally, bench| pages(tally, bench, seed)));
    jobs.push(Box::new(move |tally, bench| unread(tally, bench, seed)));
    jobs.push(Box::new(questions::short_slices));
    jobs.push(Box::new(move |tally, _| questions::over_records(tally, seed)));
    jobs.push(Box::new(|tally, _| questions::camera(tally)));
    storms(plan, &mut jobs);
    one_pixel(plan, &mut jobs);
    explanations(plan, &mut jobs);
    jobs
}

/// A part's name, and how its image is made.
type Base = (&'static str, fn() -> Image);
type Random = (&'static str, fn(&mut Numbers) -> Vec<u8>);

const EVERY_WORD: [Base; 2] =
    [("each word over the zero image", || [0; 1664]), ("each word over a lifelike image", || images::lifelike(1))];

/// Each word of 0x2410..0x243F by itself, the rest of the image staying as it is.
fn every_word(plan: Plan, jobs: &mut Vec<Job>) {
    for (part, base) in EVERY_WORD {
        for address in 0x2410..0x2440usize {
            jobs.push(Box::new(move |tally, bench| {
                tally.part(part);
                let mut image = base();
                for value in plan.values(address as u64) {
                    images::set(&mut image, address, value as u16);
                    let depth = Depth { questions: true, cross: value % 16 == 0, pixels: value % 256 == 0 };
                    bench.image(tally, &image, depth, &|| format!("{:#06X} = {:#06X}", address, value));
                }
            }));
        }
    }
}

/// Each nibble of alpha_ptat, however few values of a word are tried.
fn nibbles(tally: &mut Tally, bench: &mut Bench) {
    tally.part("each nibble of alpha_ptat");
    for (_, base) in EVERY_WORD {
        for nibble in 0..16 {
            let mut image = base();
            let word = nibble << 12 | images::get(&image, 0x2410) & 0x0FFF;
            images::set(&mut image, 0x2410, word);
            let depth = Depth { questions: false, cross: true, pixels: true };
            bench.image(tally, &image, depth, &|| format!("0x2410 = {:#06X}", word));
        }
    }
}

/// Scales for the sweep of a pixel's word: 0x2410, 0x2420, 0x2438, and averages 0x2411 and 0x2421.
const PIXEL_SCALES: [[u16; 5]; 8] = [
    [0x0000, 0x0000, 0x0000, 0x0000, 0x0000],
    [0x4213, 0x79A2, 0x2361, 0xFFBB, 0x2F44],
    [0x000A, 0x700A, 0x010D, 0x0000, 0x0000],
    [0x000A, 0x700A, 0x010D, 0x0001, 0xFFFF],
    [0x000B, 0xF009, 0x0FFC, 0x0000, 0x8000],
    [0x0009, 0x000B, 0x000E, 0x4000, 0x7FFF],
    [0x0009, 0x0009, 0x000D, 0xC000, 0x7FFF],
    [0x000F, 0x000F, 0x000F, 0x0000, 0x0000],
];
const SWEPT_PIXELS: [usize; 4] = [0, 33, 383, 767];

/// The word of one pixel, under scales that bring its terms and sums to the limits.
fn pixel_words(plan: Plan, jobs: &mut Vec<Job>) {
    for (number, scales) in PIXEL_SCALES.iter().enumerate() {
        for pixel in SWEPT_PIXELS {
            jobs.push(Box::new(move |tally, bench| {
                tally.part("a pixel's word under several scales");
                let mut image = images::with(&[(0x2436, 0x7F80), (0x2437, 0x01FF)]);
                for (address, word) in [0x2410, 0x2420, 0x2438, 0x2411, 0x2421].iter().zip(scales) {
                    images::set(&mut image, *address, *word);
                }
                for value in plan.values((number * 1000 + pixel) as u64) {
                    images::set(&mut image, 0x2440 + pixel, value as u16);
                    let depth = Depth { questions: false, cross: value % 64 == 0, pixels: value % 256 == 0 };
                    bench.image(tally, &image, depth, &|| {
                        format!("scales {}, pixel {} = {:#06X}", number, pixel, value)
                    });
                }
            }));
        }
    }
}

const RANDOM: [Random; 5] = [
    ("random, wild", |numbers| images::wild(numbers).to_vec()),
    ("random, tame", |numbers| images::tame(numbers).to_vec()),
    ("random, near the limits", |numbers| images::near(numbers).to_vec()),
    ("random, sparse", |numbers| images::sparse(numbers).to_vec()),
    ("damaged copies", images::damaged),
];

const CHUNK: u64 = 1000;

fn random(plan: Plan, jobs: &mut Vec<Job>) {
    for (number, (part, make)) in RANDOM.iter().enumerate() {
        for first in (0..plan.count).step_by(CHUNK as usize) {
            let last = plan.count.min(first + CHUNK);
            jobs.push(Box::new(move |tally, bench| {
                tally.part(part);
                for i in first..last {
                    let seed = plan.seed ^ ((number as u64 + 1) << 48) ^ i;
                    let image = make(&mut Numbers::new(seed));
                    let depth = Depth { questions: i % 4 == 0, cross: i % 8 == 0, pixels: i % 16 == 0 };
                    bench.image(tally, &image, depth, &|| format!("seed {:#x}", seed));
                }
            }));
        }
    }
}

/// Sums that leave 16 bits, in every pair of ways in turn, however few random images there are.
fn leaving(plan: Plan, jobs: &mut Vec<Job>) {
    let count = plan.count.max(leaving::PAIRS);
    for first in (0..count).step_by(CHUNK as usize) {
        let last = count.min(first + CHUNK);
        jobs.push(Box::new(move |tally, bench| {
            tally.part("random, sums leaving 16 bits");
            for i in first..last {
                let seed = plan.seed ^ (0x5C << 48) ^ i;
                let image = leaving::in_turn(&mut Numbers::new(seed), i);
                let depth = Depth { questions: i % 4 == 0, cross: i % 8 == 0, pixels: i % 16 == 0 };
                bench.image(tally, &image, depth, &|| format!("seed {:#x}, pair {}", seed, i % leaving::PAIRS));
            }
        }));
    }
}

/// Two images, one behind the other.
const JOINED: usize = 3328;

/// Images cut short, and images followed by anything, up to the length of two images.
fn lengths(tally: &mut Tally, bench: &mut Bench, seed: u64) {
    tally.part("every length from 0 to 2100, and 3328");
    let mut numbers = Numbers::new(seed);
    for len in (0..=2100usize).chain([JOINED]) {
        for base in 0..3 {
            let mut image: Vec<u8> = match base {
                0 => vec![0; 1664],
                1 => images::lifelike(len as u64).to_vec(),
                _ => images::tame(&mut numbers).to_vec(),
            };
            image.resize(1664.max(len), 0);
            image[1664..].iter_mut().for_each(|byte| *byte = numbers.word() as u8);
            image.truncate(len);
            let depth = Depth { questions: false, cross: len % 8 == 0, pixels: true };
            bench.image(tally, &image, depth, &|| format!("length {}", len));
        }
    }
}

/// Two inputs that must get the same bytes in every slice, and everything that is compared of an image besides.
fn alike(tally: &mut Tally, bench: &mut Bench, first: &[u8], second: &[u8], name: impl Fn() -> String) {
    let depth = Depth { questions: true, cross: true, pixels: true };
    bench.image(tally, first, depth, &name);
    let before: Vec<Vec<u8>> = bench.slices.iter().map(|slice| slice.slice().to_vec()).collect();
    bench.image(tally, second, depth, &name);
    for ((before, now), full) in before.iter().zip(&bench.slices).zip(FULL) {
        tally.same(Held::Rules, &name, &now.slice()[..full], &before[..full]);
    }
}

/// A page gets the answers of the image at its front, whatever follows there; two images joined get none.
fn pages(tally: &mut Tally, bench: &mut Bench, seed: u64) {
    tally.part("images in pages, and joined");
    let mut numbers = Numbers::new(seed);
    for i in 0..500 {
        let name = || format!("page {}", i);
        let image = images::lifelike(i);
        let joined = [&image[..], &images::lifelike(i + 1)].concat();
        let mut page = joined[..model::PAGE].to_vec();
        if i % 2 == 0 {
            page[model::IMAGE..].iter_mut().for_each(|byte| *byte = numbers.word() as u8);
        }
        alike(tally, bench, &image, &page, name);
        bench.image(tally, &joined, Depth { questions: true, cross: true, pixels: true }, &name);
    }
}

/// Words 0..15, bit 0 of a pixel's word and the reserved bits change nothing.
fn unread(tally: &mut Tally, bench: &mut Bench, seed: u64) {
    tally.part("words that are not read");
    let mut numbers = Numbers::new(seed);
    for i in 0..500 {
        let image = images::lifelike(i);
        let mut changed = image;
        change_unread(&mut changed, &mut numbers);
        alike(tally, bench, &image, &changed, || format!("unread {}", i));
    }
}

fn change_unread(image: &mut Image, numbers: &mut Numbers) {
    image[..32].iter_mut().for_each(|byte| *byte = numbers.word() as u8);
    for address in [0x2438, 0x243F] {
        let word = images::get(image, address) ^ 0xC000;
        images::set(image, address, word);
    }
    for address in 0x2440..0x2740 {
        let word = images::get(image, address) ^ numbers.below(2) as u16;
        images::set(image, address, word);
    }
}

fn storms(plan: Plan, jobs: &mut Vec<Job>) {
    let storms = 200 + plan.count / 4;
    for first in (0..storms).step_by(100) {
        let last = storms.min(first + 100);
        jobs.push(Box::new(move |tally, bench| {
            tally.part("gatherings, storms of blocks");
            for i in first..last {
                gatherings::storm(tally, bench, plan.seed ^ (0x77 << 48) ^ i);
            }
        }));
    }
}

/// One pixel by itself: the words that it needs, states that no history gives, and refusals in their order.
fn one_pixel(plan: Plan, jobs: &mut Vec<Job>) {
    let count = 200 + plan.count / 20;
    for first in (0..count).step_by(100) {
        let last = count.min(first + 100);
        jobs.push(Box::new(move |tally, bench| {
            for i in first..last {
                tally.part("one pixel, the words it needs");
                pixel_parts::words(tally, bench, plan.seed ^ (0x78 << 48) ^ i);
                tally.part("one pixel, any gathering");
                pixel_parts::any_states(tally, bench, plan.seed ^ (0x79 << 48) ^ i);
            }
        }));
    }
    let refusals: [fn(&mut Tally, &mut Bench); 2] = [pixel_parts::image_refusals, pixel_parts::gathering_refusals];
    for refused in refusals {
        jobs.push(Box::new(move |tally, bench| {
            tally.part("one pixel, refusals in order");
            refused(tally, bench);
        }));
    }
}

/// Explanations: a failure of each kind in turn, and refusals in their order.
fn explanations(plan: Plan, jobs: &mut Vec<Job>) {
    let count = 200 + plan.count / 20;
    for first in (0..count).step_by(100) {
        let last = count.min(first + 100);
        jobs.push(Box::new(move |tally, bench| {
            tally.part("explanations, one failure");
            for i in first..last {
                explanation_parts::one_failure(tally, bench, plan.seed ^ (0x7A << 48) ^ i, i);
            }
        }));
    }
    jobs.push(Box::new(|tally, bench| {
        tally.part("explanations, refusals in order");
        explanation_parts::refusals(tally, bench);
    }));
}
