//! A fixed sample of the original crate's answers, for a program that replays it with no Rust at hand.
//!
//! The file is a sequence of entries up to its end. All numbers are big-endian. An entry:
//!
//! | bytes | what |
//! |---|---|
//! | 2 | n, the count of words that are set |
//! | 4 n | n times: the word's number 0..831 (2 bytes), its value (2 bytes); all other words are zero |
//! | 2 | the image's length in bytes: the 1,664 bytes of the words, cut off there, or followed by zero bytes up to there |
//! | 1 | the refusal's number, 0 where the image is accepted |
//! | 1 | the refusal's table |
//! | 2 | the refusal's place |
//!
//! and, where the number is 0:
//!
//! | bytes | what |
//! |---|---|
//! | 122 | the record |
//! | 1536 | the offset table |
//! | 3072 | the alpha table |
//! | 3072 | the Kta table |
//!
//! as docs/INTERFACE.md lays them out. What accepted images get is the original crate's answer, release build, but for alpha
//! in the pixels where the crate's 16-bit sum wraps (`sums`): there it is the model's. Which images are refused, and how, is
//! the model's, too. alpha_ptat is the crate's on every image, in whole steps; the library's has the nibble's quarters besides
//! (`apart`), and whoever reads the sample adds them, as crates/replay does.
use crate::images::{self, Image, Numbers};
use crate::judge::{Judge, Release};
use crate::leaving;
use crate::model;
use crate::sums;
pub use crate::two_faults::two_faults;

fn of(words: &[(usize, u16)]) -> (Image, usize) {
    (images::with(words), 1664)
}

/// Words 0x2430..0x243F all the same, the rest zero: each scalar field at one end of its range.
fn fields(word: u16) -> (Image, usize) {
    let mut image = [0u8; 1664];
    for address in 0x2430..0x2440 {
        images::set(&mut image, address, word);
    }
    // Kta's second scale stays small, so that the image is accepted whatever the pixels hold.
    let scales = images::get(&image, 0x2438) & 0xFFF8;
    images::set(&mut image, 0x2438, scales);
    (image, 1664)
}

/// The first image of a kind, counted by seed, that is accepted.
fn accepted(make: fn(&mut Numbers) -> Image, from: u64) -> (Image, usize) {
    let image = (from..)
        .map(|seed| make(&mut Numbers::new(seed)))
        .find(|image| model::verdict(image).is_ok())
        .expect("there is one");
    (image, 1664)
}

/// Images that are accepted.
fn taken() -> Vec<(Image, usize)> {
    let mut all = whole_way_inside();
    all.extend(leaving_and_back());
    all.extend(alpha_outside());
    all
}

/// Accepted images whose sums stay inside 16 bits, but for alpha's last one.
fn whole_way_inside() -> Vec<(Image, usize)> {
    vec![
        of(&[]),
        // Readings: one image for several words that do not touch each other.
        of(&[
            (0x2433, 0x9D68),
            (0x2435, 0x0841),
            (0x243C, 0x00FF),
            (0x243F, 0x2363),
            (0x2420, 0x7000),
            (0x2421, 0x2000),
        ]),
        of(&[(0x2410, 0x0F00), (0x2412, 0x000F), (0x243C, 0x0080), (0x243F, 0x0FF0)]),
        of(&[
            (0x2410, 0x4210),
            (0x2411, 0xFFC0),
            (0x2412, 0x000F),
            (0x2418, 0x0007),
            (0x2436, 0x0500),
            (0x2438, 0x2001),
            (0x2440, 0xFC0E),
        ]),
        of(&WORKED_EXAMPLE),
        fields(0xFFFF),
        fields(0x8000),
        fields(0x7FFF),
        fields(0x1234),
        // The last alpha sum leaves 16 bits on either side, and is accepted.
        of(&[(0x2420, 0xF00A), (0x2421, 0x7FFF), (0x2440, 0x01F0)]),
        of(&[(0x2420, 0x000A), (0x2421, 0x8000), (0x273F, 0x0200)]),
        (images::lifelike(1), 1664),
        (images::lifelike(2), 1664),
        // A page, which stands for its first 1,664 bytes.
        (images::lifelike(3), 2048),
        accepted(images::tame, 1),
        accepted(images::tame, 100),
        accepted(images::near, 1),
        accepted(images::near, 100),
        accepted(images::near, 200),
        accepted(images::wild, 1),
        accepted(images::sparse, 1),
    ]
}

/// Words that are the same from one address to before another.
fn all_of(from: usize, to: usize, word: u16) -> Vec<(usize, u16)> {
    (from..to).map(|address| (address, word)).collect()
}

/// Accepted images with sums that leave 16 bits and come back, of offset and of alpha, above and below.
fn leaving_and_back() -> Vec<(Image, usize)> {
    let joined = |words: &[&[(usize, u16)]]| of(&words.concat());
    let row_0 = |word: u16| all_of(0x2440, 0x2460, word);
    let column_0 = |word: u16| (0..24).map(|row| (0x2440 + 32 * row, word)).collect::<Vec<_>>();
    vec![
        // Outside with every row, and back with every column.
        joined(&[&[(0x2411, 0x7FFF)], &all_of(0x2412, 0x2418, 0x1111), &all_of(0x2418, 0x2420, 0xFFFF)]),
        joined(&[&[(0x2411, 0x8000)], &all_of(0x2412, 0x2418, 0xFFFF), &all_of(0x2418, 0x2420, 0x1111)]),
        joined(&[&[(0x2421, 0x7FFF)], &all_of(0x2422, 0x2428, 0x1111), &all_of(0x2428, 0x2430, 0xFFFF)]),
        joined(&[&[(0x2421, 0x8000)], &all_of(0x2422, 0x2428, 0xFFFF), &all_of(0x2428, 0x2430, 0x1111)]),
        // Row 0 is outside with the row, stays outside with the column, and is back with the remainder.
        joined(&[&[(0x2411, 0x7FFF), (0x2412, 0x0001), (0x2421, 0x8000), (0x2422, 0x000F)], &row_0(0xFC10)]),
        joined(&[&[(0x2411, 0x8000), (0x2412, 0x000F), (0x2421, 0x7FFF), (0x2422, 0x0001)], &row_0(0x07F0)]),
        // Column 0 is outside with the column, and back with the remainder.
        joined(&[&[(0x2411, 0x7FFF), (0x2418, 0x0001), (0x2421, 0x8000), (0x2428, 0x000F)], &column_0(0xFC10)]),
        joined(&[&[(0x2411, 0x8000), (0x2418, 0x000F), (0x2421, 0x7FFF), (0x2428, 0x0001)], &column_0(0x07F0)]),
        accepted(leaving::leaving, 1),
    ]
}

/// Accepted images in which alpha's sum ends outside 16 bits, above and below.
fn alpha_outside() -> Vec<(Image, usize)> {
    vec![
        of(&[(0x2421, 0x7FFF), (0x2422, 0x0100)]),
        of(&[(0x2421, 0x8000), (0x2428, 0xF000)]),
        // As far outside as it can be: 121855 in pixel 0, and -131072 in pixel 767.
        of(&[(0x2420, 0xFCCA), (0x2421, 0x7FFF), (0x2422, 0x0007), (0x2428, 0x0007), (0x2440, 0x01F0)]),
        of(&[(0x2420, 0x0CCA), (0x2421, 0x8000), (0x2427, 0x8000), (0x242F, 0x8000), (0x273F, 0x0200)]),
    ]
}

/// The datasheet's worked example.
const WORKED_EXAMPLE: [(usize, u16); 15] = [
    (0x2410, 0x4210),
    (0x2420, 0x79A6),
    (0x2421, 0x2F44),
    (0x2430, 0x18EF),
    (0x2431, 0x2FF1),
    (0x2432, 0x5952),
    (0x2433, 0x9D68),
    (0x2434, 0x5454),
    (0x2438, 0x2363),
    (0x2439, 0xE446),
    (0x243A, 0xFBB5),
    (0x243B, 0x044B),
    (0x243C, 0xF020),
    (0x243D, 0x9797),
    (0x25AF, 0x08A0),
];

/// Lengths that no image and no page has.
const OTHER_LENGTHS: [usize; 11] = [0, 1, 830, 831, 1000, 1663, 1665, 1700, 2047, 2049, 3328];

/// Images that are refused for one fault: of another length, then each step of the walk in turn, of offset, alpha and Kta. A sum
/// of offset is brought outside by the row, by the column, and by the remainder.
fn refused() -> Vec<(Image, usize)> {
    let mut all: Vec<(Image, usize)> = OTHER_LENGTHS.iter().map(|len| (images::lifelike(1), *len)).collect();
    all.extend(vec![
        of(&[(0x2410, 0x0F00), (0x2412, 0x0001)]),
        of(&[(0x2410, 0x0F00), (0x2412, 0x0002)]),
        of(&[(0x2411, 0x7FFF), (0x2413, 0x0010)]),
        of(&[(0x2410, 0x00F0), (0x241F, 0x1000)]),
        of(&[(0x2411, 0x8000), (0x2418, 0x00F0)]),
        of(&[(0x2410, 0x000B), (0x2460, 0x4000)]),
        of(&[(0x2411, 0x8000), (0x273F, 0xFC00)]),
        of(&[(0x2420, 0x0F00), (0x2427, 0x1000)]),
        of(&[(0x2420, 0x00F0), (0x2429, 0x0010)]),
        of(&[(0x2420, 0x000B), (0x2500, 0x0100)]),
        of(&[(0x2438, 0x000F), (0x273F, 0x0002)]),
        of(&[(0x2436, 0xFF00), (0x2438, 0x000D), (0x2442, 0x0008)]),
        // A term outside 16 bits that the average brings back inside.
        of(&[(0x2436, 0xFF00), (0x2438, 0x000F), (0x2440, 0x0002)]),
        // Too short or too long, with a fault as well: the length comes first. And with a fault in a page.
        (images::with(&[(0x2410, 0x0F00), (0x2412, 0x0001)]), 1663),
        (images::with(&[(0x2410, 0x0F00), (0x2412, 0x0001)]), 1665),
        (images::with(&[(0x2410, 0x0F00), (0x2412, 0x0001)]), 2048),
    ]);
    all
}

/// The whole sample: each image as its words and its length.
fn sample() -> Vec<(Image, usize)> {
    let mut all = taken();
    all.extend(refused());
    for two in two_faults() {
        for image in two.images() {
            // With its first fault cured, an image may be one that is there already.
            if !all.contains(&(image, 1664)) {
                all.push((image, 1664));
            }
        }
    }
    all
}

fn cut((words, len): &(Image, usize)) -> Vec<u8> {
    let mut image = words.to_vec();
    image.resize(*len, 0);
    image
}

/// The sample's images, in the order of the file.
pub fn images() -> Vec<Vec<u8>> {
    sample().iter().map(cut).collect()
}

/// The file, entry by entry.
pub fn entries() -> Vec<Vec<u8>> {
    sample().iter().map(entry).collect()
}

fn entry(of: &(Image, usize)) -> Vec<u8> {
    let (words, len) = of;
    let set: Vec<usize> = (0..832).filter(|word| words[2 * word..2 * word + 2] != [0, 0]).collect();
    let mut entry = (set.len() as u16).to_be_bytes().to_vec();
    for word in set {
        entry.extend_from_slice(&(word as u16).to_be_bytes());
        entry.extend_from_slice(&words[2 * word..2 * word + 2]);
    }
    entry.extend_from_slice(&(*len as u16).to_be_bytes());
    let image = cut(of);
    match model::decode(&image) {
        Err(refused) => {
            entry.push(refused.number);
            entry.push(refused.table);
            entry.extend_from_slice(&(refused.place as u16).to_be_bytes());
        }
        Ok(_) => {
            entry.extend_from_slice(&[0; 4]);
            let judge = Release::decode(&image).answer().expect("the original crate takes an accepted image");
            entry.extend_from_slice(&judge.record());
            judge.offset().iter().for_each(|x| entry.extend_from_slice(&x.to_be_bytes()));
            let alpha = sums::alpha_of(judge.alpha(), &sums::wrapped(&image));
            alpha.iter().for_each(|x| entry.extend_from_slice(&x.to_bits().to_be_bytes()));
            judge.k_ta().iter().for_each(|x| entry.extend_from_slice(&x.to_bits().to_be_bytes()));
        }
    }
    entry
}
