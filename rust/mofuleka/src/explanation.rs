//! Where a number of a table comes from, and why an image is refused.
use core::slice;

use crate::lent;
use crate::refusal::{Refusal, Table};

/// Where one entry of a table comes from: its fields, their scales and terms, and each running sum.
///
/// Of an image that [`Calibration::from_data`](crate::Calibration::from_data) refuses with 3 or 4, the table and pixel
/// that the refusal names are explained in place of those that were asked for, up to the number that fails. Printed, it
/// is the text of the program `explain`.
///
/// ```
/// use mofuleka::{lent, Entry, Explanation, Failure, Table};
///
/// let image = |words: &[(usize, u16)]| {
///     let mut image = [0u8; lent::IMAGE_BYTES];
///     for (address, word) in words {
///         image[2 * (address - 0x2400)..][..2].copy_from_slice(&word.to_be_bytes());
///     }
///     image
/// };
/// // Where does this offset come from? -64 - 4 + 14 - 1 = -55.
/// let words = [(0x2410, 0x4210), (0x2411, 0xFFC0), (0x2412, 0x000F), (0x2418, 0x0007), (0x2440, 0xFC0E)];
/// let explained = Explanation::from_data(&image(&words), Table::Offset, 0)?;
/// assert_eq!(explained.row.map(|row| (row.raw, row.value, row.scale, row.term)), Some((15, -1, 2, -4)));
/// assert_eq!((explained.after_row, explained.after_column), (Some(-68), Some(-54)));
/// assert_eq!((explained.numerator, explained.entry), (Some(-55), Some(Entry::Whole(-55))));
///
/// // Why is this image refused? Alpha was asked for; the first failure is offset's, in pixel 160.
/// let explained = Explanation::from_data(&image(&[(0x2411, 0x7FFF), (0x2413, 0x0010)]), Table::Alpha, 7)?;
/// assert_eq!((explained.table, explained.pixel, explained.failure), (Table::Offset, 160, Some(Failure::Sum)));
/// assert_eq!(
///     explained.to_string(),
///     "refused 4 0 160
/// table offset
/// pixel 160 row 5 column 0
/// average address 0x2411 bits 15..0 raw 32767 value 32767 scale 0 term 32767
/// row address 0x2413 bits 7..4 raw 1 value 1 scale 0 term 1
/// after_row 32768
/// column address 0x2418 bits 3..0 raw 0 value 0 scale 0 term 0
/// after_column 32768
/// remainder address 0x24E0 bits 15..10 raw 0 value 0 scale 0 term 0
/// sum 32767 + 1 + 0 + 0 = 32768
/// The final sum 32768 is outside -32768..32767. Its fields stand in words 0x2411, 0x2413, 0x2418 and 0x24E0; \
/// a sum lower by 1 would fit.
/// "
/// );
/// # Ok::<(), mofuleka::Refusal>(())
/// ```
#[derive(Clone, Copy, Debug, PartialEq)]
pub struct Explanation {
    /// What the decoder refuses the image with, 3 or 4; none where it accepts it.
    pub found: Option<Refusal>,
    /// The table that is explained: the one asked for, or the one that `found` names.
    pub table: Table,
    /// The pixel that is explained: the one asked for, or the one that `found` names.
    pub pixel: usize,
    /// The number of this pixel that fails; none where the image is accepted.
    pub failure: Option<Failure>,
    /// The average.
    pub average: Part,
    /// The row's part. Kta has none.
    pub row: Option<Part>,
    /// The sum of average and row. None for Kta, and where an earlier number fails.
    pub after_row: Option<i32>,
    /// The column's part. None for Kta, and where an earlier number fails.
    pub column: Option<Part>,
    /// The sum of average, row and column. None for Kta, and where an earlier number fails.
    pub after_column: Option<i32>,
    /// The pixel's own part. None where an earlier number fails.
    pub remainder: Option<Part>,
    /// The final sum. None where an earlier number fails.
    pub numerator: Option<i32>,
    /// The power of two that the numerator is over: 0 for an offset. None beside a failure.
    pub exponent: Option<u8>,
    /// The table's entry for the pixel. None beside a failure.
    pub entry: Option<Entry>,
}

/// A field of the image, and what it adds to the sum.
#[derive(Clone, Copy, Debug, Eq, Hash, PartialEq)]
pub struct Part {
    /// The address of the field's word.
    pub address: u16,
    /// The field's highest bit in that word.
    pub high: u8,
    /// The field's lowest bit in that word.
    pub low: u8,
    /// The field's bits.
    pub raw: u16,
    /// The number that these are in two's complement.
    pub value: i16,
    /// The power of two that the number is multiplied by: 0 for an average.
    pub scale: u8,
    /// The number times that power.
    pub term: i32,
}

/// The first number of a pixel that is outside 16 bits.
#[derive(Clone, Copy, Debug, Eq, Hash, PartialEq)]
#[non_exhaustive]
#[repr(u8)]
pub enum Failure {
    /// The row's term.
    Row = 1,
    /// The column's term.
    Column = 2,
    /// The term of the pixel's own field.
    Remainder = 3,
    /// The final sum, of an offset or of Kta.
    Sum = 4,
}

/// An entry of a table, as the decoder gives it.
#[derive(Clone, Copy, Debug, PartialEq)]
pub enum Entry {
    /// An offset: the numerator itself.
    Whole(i16),
    /// Alpha or Kta: the numerator over its power of two, exactly.
    Fraction(f32),
}

impl Failure {
    fn of(number: u8) -> Option<Self> {
        match number {
            1 => Some(Self::Row),
            2 => Some(Self::Column),
            3 => Some(Self::Remainder),
            4 => Some(Self::Sum),
            _ => None,
        }
    }

    /// How many numbers of the pixel come before it.
    fn before(self) -> u8 {
        self as u8 - 1
    }
}

/// The numbers of an explanation's bytes, one after the other.
struct Numbers<'a>(slice::Iter<'a, u8>);

impl Numbers<'_> {
    fn bytes<const N: usize>(&mut self) -> [u8; N] {
        [0; N].map(|none| self.0.next().copied().unwrap_or(none))
    }

    fn u8(&mut self) -> u8 {
        u8::from_be_bytes(self.bytes())
    }

    fn u16(&mut self) -> u16 {
        u16::from_be_bytes(self.bytes())
    }

    fn i16(&mut self) -> i16 {
        i16::from_be_bytes(self.bytes())
    }

    fn i32(&mut self) -> i32 {
        i32::from_be_bytes(self.bytes())
    }

    fn part(&mut self) -> Part {
        Part {
            address: self.u16(),
            high: self.u8(),
            low: self.u8(),
            raw: self.u16(),
            value: self.i16(),
            scale: self.u8(),
            term: self.i32(),
        }
    }

    fn entry(&mut self, table: Table) -> Entry {
        let [a, b, c, d] = self.bytes();
        match table {
            // The decoder's offsets have 16 bits.
            Table::Offset => Entry::Whole(i16::from_be_bytes([c, d])),
            Table::Alpha | Table::Kta => Entry::Fraction(f32::from_be_bytes([a, b, c, d])),
        }
    }
}

/// What stands there, if it does.
fn given<T>(there: bool, what: T) -> Option<T> {
    if there {
        Some(what)
    } else {
        None
    }
}

impl Explanation {
    /// Explains the table's entry for one pixel of an EEPROM image, or of a page of one, which are as
    /// [`Calibration::from_data`](crate::Calibration::from_data) takes them. Where that refuses the image with 3 or 4,
    /// the table and pixel that it names are explained.
    ///
    /// # Errors
    /// `ImageLength`; `PastTheEnd` above 767.
    pub fn from_data(image: &[u8], table: Table, pixel: usize) -> Result<Self, Refusal> {
        let mut out = [0; lent::EXPLANATION_BYTES];
        lent::explain(image, table.number().into(), pixel, &mut out)?;
        Ok(Self::read(&out, table))
    }

    fn read(bytes: &[u8; lent::EXPLANATION_BYTES], asked: Table) -> Self {
        let mut next = Numbers(bytes.iter());
        let (number, table, pixel) = (next.u8(), next.u8(), next.u16());
        let found = Refusal::of_pixel(number, table, pixel);
        let table = Table::of(table).unwrap_or(asked);
        let failure = Failure::of(next.u8());
        // Row, column, remainder and sum: so many of them are inside.
        let inside = failure.map_or(4, Failure::before);
        let shared = table != Table::Kta;
        Self {
            found,
            table,
            pixel: pixel.into(),
            failure,
            average: next.part(),
            row: given(shared, next.part()),
            after_row: given(shared && inside >= 1, next.i32()),
            column: given(shared && inside >= 1, next.part()),
            after_column: given(shared && inside >= 2, next.i32()),
            remainder: given(inside >= 2, next.part()),
            numerator: given(inside >= 3, next.i32()),
            exponent: given(inside >= 4, next.u8()),
            entry: given(inside >= 4, next.entry(table)),
        }
    }
}
