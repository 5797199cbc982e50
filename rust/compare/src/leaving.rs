//! Images whose sums leave 16 bits: with the row's term, with the column's or with the remainder's, above or below, of offset
//! and of alpha, and come back with a later term or stay outside. The same seed gives the same images.
use crate::images::{get, set, Image, Numbers};
use crate::model::{ALPHA, OFFSET};
use crate::sums::Way;

/// How many pairs of ways there are for `in_turn`.
pub const PAIRS: u64 = (OFFSETS.len() * Way::COUNT) as u64;

/// The ways of offset, by number. Those that come back stand here twice, since they let the walk go on to alpha.
const OFFSETS: [usize; 20] = [0, 1, 2, 0, 1, 2, 3, 4, 5, 6, 7, 8, 9, 7, 8, 9, 10, 11, 12, 13];

/// An image of one pair of ways; counting up goes through all of them.
pub fn in_turn(numbers: &mut Numbers, i: u64) -> Image {
    let (offset, alpha) = (i as usize % OFFSETS.len(), i as usize / OFFSETS.len() % Way::COUNT);
    aimed(numbers, Way::of_number(OFFSETS[offset]), Way::of_number(alpha))
}

/// An image of any pair of ways.
pub fn leaving(numbers: &mut Numbers) -> Image {
    let i = numbers.below(PAIRS);
    in_turn(numbers, i)
}

/// An image in which one pixel's sums go these ways. In all other pixels offset ends inside 16 bits, and alpha is anything.
fn aimed(numbers: &mut Numbers, offset: Way, alpha: Way) -> Image {
    let mut image = [0u8; 1664];
    for address in 0x2430..0x2440 {
        set(&mut image, address, numbers.word());
    }
    // With a scale of 12 or less every term and sum of Kta fits.
    let scales = get(&image, 0x2438) & 0xFFF0 | numbers.below(13) as u16;
    set(&mut image, 0x2438, scales);
    for address in 0x2440..0x2740 {
        set(&mut image, address, numbers.word() & 0x000F);
    }
    let pixel = numbers.below(768) as usize;
    for (table, way) in [(OFFSET, offset), (ALPHA, alpha)] {
        while !try_table(&mut image, numbers, table, pixel, way) {}
    }
    image
}

/// A field and its scale; the term that they make fits 16 bits.
#[derive(Clone, Copy)]
struct Term {
    scale: u32,
    field: i64,
}

impl Term {
    fn any(numbers: &mut Numbers, width: u32) -> Term {
        let scale = numbers.below(16) as u32;
        let (low, high) = fitting(width, scale);
        Term { scale, field: between(numbers, low, high) }
    }

    fn value(self) -> i64 {
        self.field << self.scale
    }
}

/// The smallest and the largest field of a width whose term fits 16 bits.
fn fitting(width: u32, scale: u32) -> (i64, i64) {
    let largest = (1 << (width - 1)) - 1;
    (i64::max(-largest - 1, -32768 >> scale), i64::min(largest, 32767 >> scale))
}

/// A number from low to high, often one of these two.
fn between(numbers: &mut Numbers, low: i64, high: i64) -> i64 {
    match numbers.below(4) {
        0 => low,
        1 => high,
        _ => low + numbers.below((high - low + 1) as u64) as i64,
    }
}

/// An average with which the sum goes this way, if there is one.
fn average(numbers: &mut Numbers, terms: [Term; 3], way: Way) -> Option<i64> {
    let (mut low, mut high, mut sum) = (-32768, 32767, 0);
    for (term, outside) in terms.iter().zip(way.outside) {
        sum += term.value();
        match (outside, way.below) {
            (false, _) => {
                low = low.max(-32768 - sum);
                high = high.min(32767 - sum);
            }
            (true, false) => low = low.max(32768 - sum),
            (true, true) => high = high.min(-32769 - sum),
        }
    }
    if low > high {
        return None;
    }
    Some(between(numbers, low, high))
}

/// Which of several rows or columns have the term: the pixel's alone, or all.
fn shared(numbers: &mut Numbers, count: usize, own: usize) -> Vec<bool> {
    let all = numbers.below(2) == 0;
    (0..count).map(|i| all || i == own).collect()
}

/// Writes a table in which a pixel's sum goes this way, and says whether the numbers that were drawn allow it.
fn try_table(image: &mut Image, numbers: &mut Numbers, table: usize, pixel: usize, way: Way) -> bool {
    let terms = [Term::any(numbers, 4), Term::any(numbers, 4), Term::any(numbers, 6)];
    let average = match average(numbers, terms, way) {
        Some(average) => average,
        None => return false,
    };
    let [row, column, remainder] = terms;
    let rows = shared(numbers, 24, pixel / 32);
    let columns = shared(numbers, 32, pixel % 32);
    let start = 0x2410 + 16 * table;
    let scales = (numbers.below(16) as u32) << 12 | row.scale << 8 | column.scale << 4 | remainder.scale;
    set(image, start, scales as u16);
    set(image, start + 1, average as u16);
    set_fourths(image, start + 2, &rows, row.field);
    set_fourths(image, start + 8, &columns, column.field);
    for p in 0..768 {
        let of = |there: bool, term: Term| if there { term.value() } else { 0 };
        let sum = average + of(rows[p / 32], row) + of(columns[p % 32], column);
        let field = match p == pixel {
            true => Some(remainder.field),
            false => another(numbers, table, sum, remainder.scale),
        };
        match field {
            Some(field) => set_remainder(image, table, p, field),
            None => return false,
        }
    }
    true
}

/// A remainder for another pixel: for offset one with which its sum is inside, if there is one.
fn another(numbers: &mut Numbers, table: usize, sum: i64, scale: u32) -> Option<i64> {
    let (mut low, mut high) = fitting(6, scale);
    if table == OFFSET {
        // Rounded up, and down.
        low = low.max(-((32768 + sum) >> scale));
        high = high.min((32767 - sum) >> scale);
    }
    match low <= 0 && 0 <= high && numbers.below(2) == 0 {
        true => Some(0),
        false if low <= high => Some(between(numbers, low, high)),
        false => None,
    }
}

/// Writes one field into the rows or columns that have it, and zero into the others.
fn set_fourths(image: &mut Image, start: usize, there: &[bool], field: i64) {
    for (i, four) in there.chunks(4).enumerate() {
        let nibble = |at: usize| if four[at] { (field as u16 & 0xF) << (4 * at) } else { 0 };
        set(image, start + i, nibble(0) | nibble(1) | nibble(2) | nibble(3));
    }
}

fn set_remainder(image: &mut Image, table: usize, pixel: usize, field: i64) {
    let low = if table == OFFSET { 10 } else { 4 };
    let word = get(image, 0x2440 + pixel) & !(0x3F << low) | (field as u16 & 0x3F) << low;
    set(image, 0x2440 + pixel, word);
}
