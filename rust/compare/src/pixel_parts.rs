//! The parts of a run that are about one pixel alone: the words that it needs, any gathering, and its refusals in their
//! order.
use mofuleka::lent;

use crate::gatherings::any_state;
use crate::guarded::Bench;
use crate::history::History;
use crate::images::{self, Image, Numbers};
use crate::leaving;
use crate::model::{self, refused, PIXEL, PIXELS, WORDS};
use crate::pixels::{of_gathering, Answer, Source};
use crate::tally::{Held, Tally};

/// An image with another value in one word.
fn altered(numbers: &mut Numbers, image: &Image, word: usize) -> Image {
    let mut image = *image;
    let value = images::get(&image, 0x2400 + word) ^ (1 + numbers.below(65535)) as u16;
    images::set(&mut image, 0x2400 + word, value);
    image
}

/// One pixel of one image: the words that it doesn't need change nothing, one by one and all at once; those that it
/// needs change its answer as the model says.
pub fn words(tally: &mut Tally, bench: &mut Bench, seed: u64) {
    let mut numbers = Numbers::new(seed);
    let image = match numbers.below(4) {
        0 => images::tame(&mut numbers),
        1 => images::near(&mut numbers),
        2 => leaving::leaving(&mut numbers),
        _ => images::lifelike(numbers.any()),
    };
    let pixel = numbers.below(768) as usize;
    let needed = model::needed(pixel);
    let name = |what: &str| format!("seed {:#x}: pixel {}, {}", seed, pixel, what);
    let mut ask =
        |tally: &mut Tally, image: &[u8]| bench.single.ask(tally, &|pixel, out| lent::pixel(image, pixel, out), pixel);
    let plain = ask(tally, &image);
    tally.same(Held::Pixels, || name("no word altered"), plain, model::single(&image)(pixel));
    let mut others = image;
    for word in (0..WORDS).filter(|word| !needed.contains(word)) {
        let ours = ask(tally, &altered(&mut numbers, &image, word));
        tally.same(Held::Rules, || name(&format!("which doesn't need word {}", word)), ours, plain);
        others = altered(&mut numbers, &others, word);
    }
    let ours = ask(tally, &others);
    tally.same(Held::Rules, || name("all that it doesn't need altered"), ours, plain);
    for (which, word) in needed.iter().enumerate() {
        let image = altered(&mut numbers, &image, *word);
        let ours = ask(tally, &image);
        tally.same(Held::Pixels, || name(&format!("which needs word {}", word)), ours, model::single(&image)(pixel));
        tally.needed[which] += u64::from(ours != plain);
    }
}

/// Pixels in range and past the end.
const ANY: [usize; 10] = [0, 31, 767, 768, 769, 1024, 65535, 65536, usize::MAX - 767, usize::MAX];

/// An image in which the row's term of every offset is outside 16 bits.
fn all_refused() -> Image {
    let mut image = images::with(&[(0x2410, 0x0F00)]);
    (0x2412..0x2418).for_each(|address| images::set(&mut image, address, 0x1111));
    image
}

/// A refusal that the rules of the interface give, whatever the words hold.
const fn ruled(number: u8) -> (Held, Answer) {
    (Held::Rules, Err(refused(number)))
}

/// Every length of an image, with any pixels and slices: 1, then 11, then 2, then the pixel's own.
pub fn image_refusals(tally: &mut Tally, bench: &mut Bench) {
    for image in [images::lifelike(1), all_refused()] {
        let long = [&image[..], &images::lifelike(2)].concat();
        for len in (0..=2100).chain([long.len()]) {
            let source = |pixel: usize, out: &mut [u8]| lent::pixel(&long[..len], pixel, out);
            any_slice(tally, bench, &source, &|pixel, out| match pixel {
                _ if len != model::IMAGE && len != model::PAGE => ruled(1),
                PIXELS.. => ruled(11),
                _ if out < PIXEL => ruled(2),
                _ => (Held::Pixels, model::single(&image)(pixel)),
            });
        }
    }
}

/// The same of gatherings: 11, then 2 for either slice, then 9 and 10, then the pixel's own.
pub fn gathering_refusals(tally: &mut Tally, bench: &mut Bench) {
    let held = |image: &[u8]| [image, &[1; WORDS]].concat();
    for state in [vec![0; 2496], vec![2; 2496], held(&images::lifelike(1)), held(&all_refused())] {
        let history = History::read(&state);
        let long = [&state[..], &[0xEE; 4]].concat();
        for len in (0..2496).step_by(13).chain(2480..2500) {
            let source = |pixel: usize, out: &mut [u8]| lent::gathering_pixel(&long[..len], pixel, out);
            any_slice(tally, bench, &source, &|pixel, out| match pixel {
                PIXELS.. => ruled(11),
                _ if len < 2496 || out < PIXEL => ruled(2),
                _ => history.pixel(pixel),
            });
        }
    }
}

/// What a pixel must be given with a slice of some length, and what that is held to.
type Expected<'a> = &'a dyn Fn(usize, usize) -> (Held, Answer);

/// Any pixels, each with slices of every length from 0 to 12.
fn any_slice(tally: &mut Tally, bench: &mut Bench, source: Source, expected: Expected) {
    for pixel in ANY {
        for len in 0..=12 {
            let ours = bench.single.ask_into(tally, len, source, pixel);
            let (held, expected) = expected(pixel, len);
            tally.same(held, || format!("pixel {} into {} bytes", pixel, len), ours, expected);
        }
    }
}

/// States that no history gives: the words that a pixel needs held, or one of them not, among any values and marks.
pub fn any_states(tally: &mut Tally, bench: &mut Bench, seed: u64) {
    let mut numbers = Numbers::new(seed);
    let mut state = any_state(&mut numbers);
    let pixel = numbers.below(768) as usize;
    let spared = numbers.below(22) as usize;
    for (which, word) in model::needed(pixel).iter().enumerate() {
        if which != spared {
            state[1664 + word] = 1;
        }
    }
    // Scales that most pixels are answered with.
    for word in [0x10, 0x20, 0x38] {
        state[2 * word..][..2].copy_from_slice(&(numbers.word() & 0xF777).to_be_bytes());
    }
    let name = || format!("a state of seed {:#x}", seed);
    of_gathering(tally, bench, &state, &History::read(&state), &[pixel, numbers.below(768) as usize], &name);
}
