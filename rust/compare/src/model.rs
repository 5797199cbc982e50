//! A model of the rules: what must be answered, in wide integers and the plainest form. It shares nothing with the library.
//!
//! It decides which refusal must come, what alpha is where the original crate's sum wraps (`sums`), and what one pixel
//! is where there is no table (`pixels`). It is itself compared with the original crate on every kind of accepted
//! image, and with the datasheet's alpha_ptat (`apart`). Explanations have a model of their own (`account`).

pub const WORDS: usize = 832;
pub const PIXELS: usize = 768;
pub const IMAGE: usize = 1664;
pub const PAGE: usize = 2048;
/// The bytes of one pixel: its offset, its alpha, its Kta.
pub const PIXEL: usize = 10;

#[derive(Clone, Copy, Debug, Eq, PartialEq)]
pub struct Refused {
    pub number: u8,
    pub table: u8,
    pub place: u64,
}

pub const fn refused(number: u8) -> Refused {
    Refused { number, table: 0, place: 0 }
}

/// The record as its 122 bytes, and the three tables.
#[derive(Clone, PartialEq)]
pub struct Decoded {
    pub record: [u8; 122],
    pub offset: [i16; PIXELS],
    pub alpha: [f32; PIXELS],
    pub k_ta: [f32; PIXELS],
}

/// The word at an address 0x2400..0x273F.
pub fn word(image: &[u8], address: usize) -> i64 {
    let at = 2 * (address - 0x2400);
    i64::from(image[at]) * 256 + i64::from(image[at + 1])
}

/// Bits high..low of a number, unsigned.
pub fn field(number: i64, high: u32, low: u32) -> i64 {
    (number >> low) % (1 << (high - low + 1))
}

/// The same bits in two's complement.
pub fn signed(number: i64, high: u32, low: u32) -> i64 {
    let width = high - low + 1;
    let unsigned = field(number, high, low);
    if unsigned >= 1 << (width - 1) {
        unsigned - (1 << width)
    } else {
        unsigned
    }
}

/// Whether a number is inside 16 bits.
pub fn fits(number: i64) -> bool {
    (-32768..=32767).contains(&number)
}

/// The float that is exactly n / 2^k; zero is positive.
pub fn over(n: i64, k: i64) -> f32 {
    let mut wide = n as f64;
    for _ in 0..k {
        wide /= 2.0;
    }
    let narrow = wide as f32;
    assert!(f64::from(narrow) == wide, "not a float");
    narrow
}

/// The four-bit fields of rows or columns: number i of those that start at an address.
fn fourth(image: &[u8], start: usize, i: usize) -> i64 {
    let low = 4 * (i as u32 % 4);
    signed(word(image, start + i / 4), low + 3, low)
}

/// The chessboard order's number of a pixel.
pub fn chess(pixel: usize) -> usize {
    let (row, column) = (pixel / 32, pixel % 32);
    row % 2 + 2 * (column % 2)
}

/// The tables, by their numbers in a refusal.
pub const OFFSET: usize = 0;
pub const ALPHA: usize = 1;
pub const K_TA: usize = 2;

/// What a table adds up.
struct Table {
    /// In chessboard order.
    averages: [i64; 4],
    rows: [i64; 24],
    columns: [i64; 32],
    /// The highest and the lowest bit of a pixel's remainder.
    remainder: (u32, u32),
    remainder_scale: i64,
}

/// The offset table or alpha, which are laid out alike, from this address on.
fn laid_out(image: &[u8], start: usize, remainder: (u32, u32)) -> Table {
    let scales = word(image, start);
    let row_scale = field(scales, 11, 8);
    let column_scale = field(scales, 7, 4);
    let mut rows = [0; 24];
    for (i, row) in rows.iter_mut().enumerate() {
        *row = fourth(image, start + 2, i) << row_scale;
    }
    let mut columns = [0; 32];
    for (i, column) in columns.iter_mut().enumerate() {
        *column = fourth(image, start + 8, i) << column_scale;
    }
    let averages = [signed(word(image, start + 1), 15, 0); 4];
    Table { averages, rows, columns, remainder, remainder_scale: field(scales, 3, 0) }
}

/// Kta, which has no rows and no columns.
fn k_ta(image: &[u8]) -> Table {
    let (first, second) = (word(image, 0x2436), word(image, 0x2437));
    let averages = [signed(first, 15, 8), signed(first, 7, 0), signed(second, 15, 8), signed(second, 7, 0)];
    let remainder_scale = field(word(image, 0x2438), 3, 0);
    Table { averages, rows: [0; 24], columns: [0; 32], remainder: (3, 1), remainder_scale }
}

/// What a pixel of a table adds up: its average, its row term, its column term and its remainder term.
fn parts_of(image: &[u8], table: usize) -> impl Fn(usize) -> [i64; 4] + '_ {
    let t = match table {
        OFFSET => laid_out(image, 0x2410, (15, 10)),
        ALPHA => laid_out(image, 0x2420, (9, 4)),
        _ => k_ta(image),
    };
    move |pixel| {
        let remainder = signed(word(image, 0x2440 + pixel), t.remainder.0, t.remainder.1);
        [t.averages[chess(pixel)], t.rows[pixel / 32], t.columns[pixel % 32], remainder << t.remainder_scale]
    }
}

/// The same of each pixel, in the order of the pixels. The image is one, or a page.
pub fn parts(image: &[u8], table: usize) -> impl Iterator<Item = [i64; 4]> + '_ {
    (0..PIXELS).map(parts_of(image, table))
}

/// The sum of what a pixel adds up, or its first failure in a table: first all terms, then, but for alpha, the sum.
fn sum_of(table: usize, pixel: usize, [average, row, column, remainder]: [i64; 4]) -> Result<i64, Refused> {
    let fail = |number| Err(Refused { number, table: table as u8, place: pixel as u64 });
    if !fits(row) || !fits(column) || !fits(remainder) {
        return fail(3);
    }
    let sum = average + row + column + remainder;
    if table != ALPHA && !fits(sum) {
        return fail(4);
    }
    Ok(sum)
}

/// The numerators of the three tables, or the first failure of the walk. The image is one, or a page.
pub fn walk(image: &[u8]) -> Result<[[i64; PIXELS]; 3], Refused> {
    let mut tables = [[0; PIXELS]; 3];
    for table in [OFFSET, ALPHA, K_TA] {
        for (pixel, parts) in parts(image, table).enumerate() {
            tables[table][pixel] = sum_of(table, pixel, parts)?;
        }
    }
    Ok(tables)
}

/// What an input of any length gets, the lent slices being long enough: an image has 1,664 bytes, and a page of exactly 2,048
/// stands for its first 1,664.
pub fn verdict(input: &[u8]) -> Result<[[i64; PIXELS]; 3], Refused> {
    match input.len() {
        IMAGE | PAGE => walk(input),
        _ => Err(refused(1)),
    }
}

struct Writer {
    record: [u8; 122],
    at: usize,
}

impl Writer {
    fn bytes(&mut self, bytes: &[u8]) {
        self.record[self.at..self.at + bytes.len()].copy_from_slice(bytes);
        self.at += bytes.len();
    }

    fn whole(&mut self, number: i64) {
        assert!(fits(number));
        self.bytes(&(number as i16).to_be_bytes());
    }

    fn float(&mut self, number: f32) {
        self.bytes(&number.to_bits().to_be_bytes());
    }
}

/// The record of an image, or of a page.
pub fn record(image: &[u8]) -> [u8; 122] {
    let w = |address| word(image, address);
    let mut r = Writer { record: [0; 122], at: 0 };
    r.whole(signed(w(0x2433), 15, 8) * 32);
    r.whole((field(w(0x2433), 7, 0) - 256) * 32 - 8192);
    r.bytes(&[field(w(0x2438), 13, 12) as u8]);
    r.float(over(signed(w(0x2432), 15, 10), 12));
    r.float(over(signed(w(0x2432), 9, 0), 3));
    r.float(over(signed(w(0x2431), 15, 0), 0));
    r.float(over(32 + field(w(0x2410), 15, 12), 2));
    r.float(over(signed(w(0x2430), 15, 0), 0));
    r.float(over(signed(w(0x243C), 15, 8), 13));
    let step = 10 * field(w(0x243F), 13, 12);
    let ct2 = field(w(0x243F), 7, 4) * step;
    let ct3 = field(w(0x243F), 11, 8) * step + ct2;
    for corner in [-40, 0, ct2, ct3] {
        r.whole(corner);
    }
    let scale = field(w(0x243F), 3, 0) + 8;
    for (address, high) in [(0x243D, 7), (0x243D, 15), (0x243E, 7), (0x243E, 15)] {
        r.float(over(signed(w(address), high, high - 7), scale));
    }
    let k = field(w(0x2420), 15, 12) + 27;
    let (ratio, n) = (signed(w(0x2439), 15, 10), field(w(0x2439), 9, 0));
    r.float(over(n, k));
    r.float(over(n * (128 + ratio), k + 7));
    let (d, m) = (signed(w(0x243A), 15, 10), signed(w(0x243A), 9, 0));
    r.whole(m);
    r.whole(m + d);
    let kv_scale = field(w(0x2438), 11, 8);
    for high in [15, 11, 7, 3] {
        r.float(over(signed(w(0x2434), high, high - 3), kv_scale));
    }
    r.float(over(signed(w(0x243B), 15, 8), kv_scale));
    r.float(over(signed(w(0x243B), 7, 0), field(w(0x2438), 7, 4) + 8));
    let gradient = signed(w(0x243C), 7, 0);
    r.bytes(&[(gradient != 0) as u8]);
    r.float(over(gradient, 5));
    // A in eighths, D in halves.
    let (a, d) = (signed(w(0x2435), 15, 11), 4 * signed(w(0x2435), 10, 6));
    let (b, c) = (d - a, d + a);
    for (negated, eighths) in [(true, a), (false, b), (true, c), (false, a), (true, b), (false, c)] {
        let plain = over(eighths, 3);
        r.float(if negated { -plain } else { plain });
    }
    r.float(over(signed(w(0x2435), 5, 0), 4));
    assert!(r.at == 122);
    r.record
}

/// What alpha's numerators are over, as a power of two.
pub fn alpha_scale(image: &[u8]) -> i64 {
    field(word(image, 0x2420), 15, 12) + 30
}

/// The same of Kta's.
pub fn k_ta_scale(image: &[u8]) -> i64 {
    field(word(image, 0x2438), 7, 4) + 8
}

/// All of an accepted image.
pub fn decode(image: &[u8]) -> Result<Decoded, Refused> {
    let [offset, alpha, k_ta] = verdict(image)?;
    Ok(Decoded {
        record: record(image),
        offset: offset.map(|sum| sum as i16),
        alpha: alpha.map(|sum| over(sum, alpha_scale(image))),
        k_ta: k_ta.map(|sum| over(sum, k_ta_scale(image))),
    })
}

/// What a pixel gets by itself: its bytes, or the first failure of its own. The image is one, or a page.
pub fn single(image: &[u8]) -> impl Fn(usize) -> Result<[u8; PIXEL], Refused> + '_ {
    let [offset, alpha, k_ta] = [OFFSET, ALPHA, K_TA].map(|table| parts_of(image, table));
    move |pixel| {
        let offset = sum_of(OFFSET, pixel, offset(pixel))?;
        let alpha = sum_of(ALPHA, pixel, alpha(pixel))?;
        let k_ta = sum_of(K_TA, pixel, k_ta(pixel))?;
        let mut bytes = [0; PIXEL];
        bytes[..2].copy_from_slice(&(offset as i16).to_be_bytes());
        bytes[2..6].copy_from_slice(&over(alpha, alpha_scale(image)).to_be_bytes());
        bytes[6..].copy_from_slice(&over(k_ta, k_ta_scale(image)).to_be_bytes());
        Ok(bytes)
    }
}

/// The words that a pixel needs, by their numbers, rising; four rows, four columns and two averages of Kta share one.
pub fn needed(pixel: usize) -> [usize; 11] {
    let (row, column) = (pixel / 32, pixel % 32);
    let [offset_row, offset_column] = [0x12 + row / 4, 0x18 + column / 4];
    let [alpha_row, alpha_column] = [0x22 + row / 4, 0x28 + column / 4];
    let k_ta = 0x36 + column % 2;
    [0x10, 0x11, offset_row, offset_column, 0x20, 0x21, alpha_row, alpha_column, k_ta, 0x38, 0x40 + pixel]
}

/// What is wrong with a block, or its first word's number.
pub fn block(block: &[u8]) -> Result<usize, Refused> {
    if block.len() < 2 {
        return Err(refused(5));
    }
    let l = 256 * block[0] as usize + block[1] as usize;
    if block.len() != l + 2 {
        return Err(refused(5));
    }
    if !(5..=131).contains(&l) || l % 2 == 0 {
        return Err(refused(6));
    }
    if block[2] != 1 {
        return Err(refused(7));
    }
    let first = 256 * block[3] as usize + block[4] as usize;
    if first + (l - 3) / 2 > WORDS {
        return Err(refused(8));
    }
    Ok(first)
}

/// Whether a pixel is in a subpage.
pub fn in_subpage(pattern: u32, subpage: u32, pixel: usize) -> bool {
    let (row, column) = (pixel / 32, pixel % 32);
    match pattern {
        0 => row % 2 == subpage as usize,
        _ => (row % 2 == column % 2) == (subpage == 0),
    }
}

/// A read range: address, offset, length.
pub fn range(pattern: u32, subpage: u32, number: usize) -> Option<(u64, u64, u64)> {
    let i = number as u64;
    match pattern {
        1 if number == 0 => Some((0x0400, 0, 1536)),
        0 if number < 12 => Some((0x0400 + 64 * i + 32 * u64::from(subpage), 128 * i + 64 * u64::from(subpage), 64)),
        _ => None,
    }
}

/// The place among the interleave six of a pixel's correction.
pub fn correction(pixel: usize) -> usize {
    let (row, column) = (pixel / 32, pixel % 32);
    3 * (row % 2) + [0, 1, 0, 2][column % 4]
}
