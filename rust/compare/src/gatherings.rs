//! Gatherings against the model of sets (`history`).
use mofuleka::{lent, Refusal};

use crate::apart::Apart;
use crate::guarded::{refused_of, Bench, Depth, Guarded, FULL};
use crate::history::History;
use crate::images::{self, Numbers};
use crate::judge::{Judge, Release};
use crate::leaving;
use crate::model::{self, refused};
use crate::pixels;
use crate::tally::{Held, Tally};

/// A gathering's bytes between guards.
struct Lent {
    guarded: Guarded,
    long: usize,
}

impl Lent {
    fn fresh(tally: &mut Tally, long: usize) -> Self {
        let mut lent = Self { guarded: Guarded::new(), long };
        let answer = lent::gathering_fresh(lent.guarded.reset(2496 + long, 0x5A));
        tally.same(Held::Sets, || "fresh".to_string(), answer.map_err(refused_of), Ok(()));
        lent.check(tally, &History::fresh());
        lent
    }

    fn of(bytes: &[u8], long: usize) -> Self {
        let mut lent = Self { guarded: Guarded::new(), long };
        lent.guarded.reset(2496 + long, 0x5A)[..2496].copy_from_slice(bytes);
        lent
    }

    fn bytes(&self) -> &[u8] {
        self.guarded.slice()
    }

    fn with<T>(&mut self, call: impl FnOnce(&mut [u8]) -> T) -> T {
        let now = self.guarded.slice()[..2496].to_vec();
        let slice = self.guarded.reset(2496 + self.long, 0x5A);
        slice[..2496].copy_from_slice(&now);
        call(slice)
    }

    /// The state is the history's: 832 values and 832 marks.
    fn check(&self, tally: &mut Tally, history: &History) {
        self.guarded.stayed(tally, 2496, || "a gathering".to_string());
        let expected = history.bytes();
        let at = (0..2496).find(|at| self.bytes()[*at] != expected[*at]);
        tally.count(Held::Sets, 2 * 832, u64::from(at.is_some()), || {
            let at = at.unwrap_or(0);
            format!("gathering byte {} is {:02X}, must be {:02X}", at, self.bytes()[at], expected[at])
        });
    }

    /// A refused call leaves every byte, also of a state that no history gives.
    fn check_left(&self, tally: &mut Tally, before: &[u8]) {
        self.guarded.stayed(tally, 2496, || "a gathering".to_string());
        let touched = self.bytes().iter().zip(before).filter(|(now, before)| now != before).count();
        tally.count(Held::Bytes, 2496, touched as u64, || "a refused block was written".to_string());
    }

    fn check_status(&self, tally: &mut Tally, history: &History) {
        let ours = lent::gathering_status(self.bytes()).map_err(refused_of);
        tally.same(Held::Sets, || "status".to_string(), ours, Ok((history.count(0), history.count(2))));
    }

    fn check_words(&self, tally: &mut Tally, history: &History) {
        let ask = |word| lent::gathering_word(self.bytes(), word).map_err(refused_of);
        let expected = (0..832).map(|word| Ok(history.word(word)));
        tally.list(Held::Sets, |word| format!("word {}", word), (0..832).map(ask), expected);
        for word in [832, 833, 65536, usize::MAX] {
            tally.same(Held::Rules, || format!("word {}", word), ask(word), Err(refused(11)));
        }
    }
}

/// A block: mostly good ones out of an image, some with other words, some broken.
fn some_block(numbers: &mut Numbers, image: &[u8]) -> Vec<u8> {
    let words = match numbers.below(3) {
        0 => 64,
        1 => 1 + numbers.below(64) as usize,
        _ => 1 + numbers.below(4) as usize,
    };
    let first = match numbers.below(40) {
        0 => numbers.below(65536) as usize,
        1 => 832 - words + numbers.below(3) as usize,
        _ => numbers.below(833 - words as u64) as usize,
    };
    let mut block = (3 + 2 * words as u16).to_be_bytes().to_vec();
    block.push(1);
    block.extend_from_slice(&(first as u16).to_be_bytes());
    for word in first..first + words {
        match image.get(2 * word..2 * word + 2) {
            Some(bytes) => block.extend_from_slice(bytes),
            None => block.extend_from_slice(&numbers.word().to_be_bytes()),
        }
    }
    match numbers.below(24) {
        0 => {
            let at = 5 + numbers.below(block.len() as u64 - 5) as usize;
            block[at] ^= 1 << numbers.below(8);
        }
        1 => {
            let at = numbers.below(block.len() as u64) as usize;
            block[at] = numbers.word() as u8;
        }
        2 => block.truncate(numbers.below(block.len() as u64 + 1) as usize),
        3 => block.push(0),
        4 => block[2] = numbers.word() as u8,
        // A length field that says something else, with the bytes to match it.
        5 => {
            let l = numbers.below(140) as usize;
            block.resize(2 + l, 1);
            block[0] = 0;
            block[1] = l as u8;
        }
        6 => block = (0..numbers.below(140)).map(|_| numbers.word() as u8).collect(),
        _ => {}
    }
    block
}

/// A state that no history gives: any values beside any marks, half of these from 0 to 3.
pub fn any_state(numbers: &mut Numbers) -> [u8; 2496] {
    let mut bytes = [0u8; 2496];
    bytes.iter_mut().for_each(|byte| *byte = numbers.word() as u8);
    bytes[1664..].iter_mut().filter(|mark| **mark & 0x80 == 0).for_each(|mark| *mark &= 3);
    bytes
}

/// One storm: two gatherings take blocks of one image and are merged; then the image is decoded.
pub fn storm(tally: &mut Tally, bench: &mut Bench, seed: u64) {
    let mut numbers = Numbers::new(seed);
    let name = || format!("storm of seed {:#x}", seed);
    let image = match numbers.below(5) {
        0 => images::tame(&mut numbers),
        1 => images::near(&mut numbers),
        2 => leaving::leaving(&mut numbers),
        _ => images::lifelike(numbers.any()),
    };
    let long = numbers.below(3) as usize;
    let mut gatherings = [Lent::fresh(tally, 0), Lent::fresh(tally, long)];
    let mut histories = [History::fresh(), History::fresh()];
    // Now and then a state that no history gives stands at the start.
    if numbers.below(8) == 0 {
        let bytes = any_state(&mut numbers);
        gatherings[0] = Lent::of(&bytes, 0);
        histories[0] = History::read(&bytes);
        gatherings[0].check_status(tally, &histories[0]);
        gatherings[0].check_words(tally, &histories[0]);
    }
    for step in 0..numbers.below(60) {
        let which = numbers.below(2) as usize;
        let block = some_block(&mut numbers, &image);
        let name = || format!("{}: block {}", name(), step);
        take(tally, &mut gatherings[which], &mut histories[which], &block, &name);
        let pixels = some_pixels(&mut numbers, &block);
        pixels::of_gathering(tally, bench, gatherings[which].bytes(), &histories[which], &pixels, &name);
    }
    let both = merge(tally, &mut gatherings, &histories, &name);
    let all = numbers.below(8) == 0;
    decode(tally, bench, &gatherings[0], &both, all, &name);
    // Now fill what is missing, and decode a full one that never saw a conflict.
    if numbers.below(2) == 0 {
        let (full, history) = fill(tally, bench, &mut numbers, &image, &name);
        decode(tally, bench, &full, &history, all, &name);
    }
}

/// Pixels to ask for once a block was taken: any, and one whose own word the block carries, if there is one.
fn some_pixels(numbers: &mut Numbers, block: &[u8]) -> Vec<usize> {
    let mut pixels = vec![numbers.below(768) as usize];
    if let Ok(first) = model::block(block) {
        let word = first + numbers.below((block.len() as u64 - 5) / 2) as usize;
        pixels.extend(word.checked_sub(0x40));
    }
    pixels
}

/// A gathering and the history beside it take a block.
fn take(tally: &mut Tally, lent: &mut Lent, history: &mut History, block: &[u8], name: &dyn Fn() -> String) {
    let before = lent.bytes()[..2496].to_vec();
    let ours = lent.with(|bytes| lent::gathering_accept(bytes, block)).map_err(refused_of);
    let expected = history.take(block);
    tally.same(Held::Sets, name, ours, expected);
    match expected {
        Ok(()) => lent.check(tally, history),
        Err(_) => lent.check_left(tally, &before),
    }
    lent.check_status(tally, history);
}

/// Merges two gatherings both ways, which gives the same state; gives their history together.
fn merge(
    tally: &mut Tally,
    gatherings: &mut [Lent; 2],
    histories: &[History; 2],
    name: &dyn Fn() -> String,
) -> History {
    let (first, second) = (gatherings[0].bytes().to_vec(), gatherings[1].bytes().to_vec());
    let mut both = histories[0].clone();
    both.join(&histories[1]);
    for (into, from) in [(0, &second), (1, &first)] {
        let ours = gatherings[into].with(|bytes| lent::gathering_merge(bytes, from)).map_err(refused_of);
        tally.same(Held::Sets, name, ours, Ok(()));
        gatherings[into].check(tally, &both);
    }
    gatherings[0].check_status(tally, &both);
    gatherings[0].check_words(tally, &both);
    both
}

/// A gathering that takes the thirteen blocks of an image in any order.
fn fill(
    tally: &mut Tally,
    bench: &mut Bench,
    numbers: &mut Numbers,
    image: &[u8],
    name: &dyn Fn() -> String,
) -> (Lent, History) {
    let mut full = Lent::fresh(tally, 0);
    let mut history = History::fresh();
    let mut firsts: Vec<usize> = (0..13).map(|block| 64 * block).collect();
    for i in (1..firsts.len()).rev() {
        firsts.swap(i, numbers.below(i as u64 + 1) as usize);
    }
    for first in firsts {
        let mut block = vec![0, 131, 1, (first / 256) as u8, first as u8];
        block.extend_from_slice(&image[2 * first..2 * first + 128]);
        let ours = full.with(|bytes| lent::gathering_accept(bytes, &block)).map_err(refused_of);
        tally.same(Held::Sets, name, ours, history.take(&block));
        let pixels = some_pixels(numbers, &block);
        pixels::of_gathering(tally, bench, full.bytes(), &history, &pixels, name);
    }
    full.check(tally, &history);
    (full, history)
}

/// Decodes a gathering: refused where a word is in conflict or missing, else answered as its image is. So are its
/// pixels by themselves, all of them or a few.
fn decode(
    tally: &mut Tally,
    bench: &mut Bench,
    gathering: &Lent,
    history: &History,
    all: bool,
    name: &dyn Fn() -> String,
) {
    let image: Vec<u8> = history.bytes()[..1664].to_vec();
    let (held, expected) = match history.fault(0..832) {
        Err(refused) => (Held::Sets, Err(refused)),
        Ok(()) => {
            tally.image(&image);
            (Held::Walk, model::verdict(&image).map(|_| ()))
        }
    };
    let bytes = gathering.bytes();
    let ours = bench
        .lend(tally, FULL, |offset, alpha, k_ta, record| lent::gathering_from_data(bytes, offset, alpha, k_ta, record));
    tally.same(held, name, ours, expected);
    if ours.is_ok() && expected.is_ok() {
        tally.accepted();
        let judge = Release::decode(&image).answer().expect("the original crate takes an accepted image");
        let depth = Depth { questions: true, cross: false, pixels: all };
        bench.compare(tally, Held::Crate, &judge, &Apart::of(&image), depth, name);
    }
    if held == Held::Walk && ours == expected {
        let source = |pixel: usize, out: &mut [u8]| lent::gathering_pixel(bytes, pixel, out);
        pixels::compare(tally, bench, &source, &image, expected, all, name);
    }
    // Short tables come after 9 and 10, before 3 and 4.
    let short = [1535, 3072, 3072, 122];
    let ours = bench.lend(tally, short, |offset, alpha, k_ta, record| {
        lent::gathering_from_data(bytes, offset, alpha, k_ta, record)
    });
    match held {
        Held::Sets => tally.same(Held::Sets, name, ours, expected),
        _ => tally.same(Held::Rules, name, ours, Err(refused(2))),
    }
}

/// Slices of every length around the full ones.
pub fn short_slices(tally: &mut Tally) {
    for len in (0..2496).step_by(13).chain(2480..2500) {
        short_written(tally, len);
        short_read(tally, len);
    }
}

/// A gathering of any length that is written: refused where it is too short, and then left as it was.
fn short_written(tally: &mut Tally, len: usize) {
    let block = [0u8, 5, 1, 0, 0, 1, 2];
    let mut guarded = Guarded::new();
    let mut check = |name: &str, len: usize, call: &dyn Fn(&mut [u8]) -> Result<(), Refusal>, expected| {
        let name = || format!("{} {} bytes", name, len);
        let ours = call(guarded.reset(len, 0xA5)).map_err(refused_of);
        tally.same(Held::Rules, name, ours, expected);
        guarded.stayed(tally, if ours.is_ok() { 2496 } else { 0 }, name);
    };
    let short = if len < 2496 { Err(refused(2)) } else { Ok(()) };
    check("fresh of", len, &lent::gathering_fresh, short);
    for block in [&block[..], &[]] {
        let expected = short.and_then(|()| model::block(block).map(|_| ()));
        check("accept into", len, &|bytes| lent::gathering_accept(bytes, block), expected);
    }
    let other = vec![1u8; len];
    check("merge of others into", 2496, &|bytes| lent::gathering_merge(bytes, &other), short);
    check("merge into", len, &|bytes| lent::gathering_merge(bytes, &[1; 2496]), short);
}

/// A gathering of any length that is only read.
fn short_read(tally: &mut Tally, len: usize) {
    let zeros = vec![0u8; len];
    let unless_short = |number| Err(refused(if len < 2496 { 2 } else { number }));
    let status = if len < 2496 { Err(refused(2)) } else { Ok((832, 0)) };
    let ours = lent::gathering_status(&zeros).map_err(refused_of);
    tally.same(Held::Rules, || format!("status of {} bytes", len), ours, status);
    let word = if len < 2496 { Err(refused(2)) } else { Ok((0, 0)) };
    let ours = lent::gathering_word(&zeros, 831).map_err(refused_of);
    tally.same(Held::Rules, || format!("word of {} bytes", len), ours, word);
    let ours = lent::gathering_word(&zeros, 832).map_err(refused_of);
    tally.same(Held::Rules, || format!("word of {} bytes", len), ours, Err(refused(11)));
    let ours = lent::gathering_from_data(&zeros, &mut [], &mut [], &mut [], &mut []).map_err(refused_of);
    tally.same(Held::Rules, || format!("gathering of {} bytes decoded", len), ours, unless_short(10));
}
