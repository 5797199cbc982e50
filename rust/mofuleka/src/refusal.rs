//! Refusals: number, table and place, and the sentence that a person reads.
use core::fmt;

/// Why a call was refused: a number, a table and a place.
///
/// ```
/// use mofuleka::{lent, Calibration, Reason, Table};
///
/// let mut image = [0u8; lent::IMAGE_BYTES];
/// image[2 * 0x11..][..2].copy_from_slice(&0x7FFFu16.to_be_bytes()); // 0x2411, the offset average
/// image[2 * 0x13..][..2].copy_from_slice(&0x0010u16.to_be_bytes()); // 0x2413, row 5
/// let refusal = Calibration::from_data(&image).unwrap_err();
/// assert_eq!((refusal.number(), refusal.table(), refusal.place()), (4, Some(Table::Offset), 160));
/// assert_eq!(refusal.reason(), Reason::SumOutside);
/// assert_eq!(refusal.to_string(), "offset table, pixel 160: the final sum leaves 16 bits (refusal 4)");
/// ```
#[derive(Clone, Copy, Debug, Eq, Hash, PartialEq)]
pub struct Refusal {
    number: u8,
    table: u8,
    place: u32,
}

/// What the place of a refusal counts.
#[derive(Clone, Copy)]
enum Counts {
    Nothing,
    /// A pixel of the refusal's table.
    Pixel,
    /// A word of a gathering.
    Word,
}

/// Makes [`Reason`], the look-up by number and the sentences of one table.
macro_rules! reasons {
    ($($(#[doc = $what:literal])+ $name:ident = $number:literal, $counts:ident, $sentence:literal;)*) => {
        /// What a refusal's number stands for. As a number it is the refusal's own.
        #[derive(Clone, Copy, Debug, Eq, Hash, PartialEq)]
        #[non_exhaustive]
        #[repr(u8)]
        pub enum Reason {
            /// A number that this version does not know. As a number it is 0, which no refusal has.
            Unknown,
            $(
                #[doc = concat!("Refusal ", $number, ":")]
                $(#[doc = $what])+
                $name = $number,
            )*
        }

        impl Reason {
            fn of(number: u8) -> Self {
                match number {
                    $($number => Self::$name,)*
                    _ => Self::Unknown,
                }
            }

            fn counts(self) -> Counts {
                match self {
                    Self::Unknown => Counts::Nothing,
                    $(Self::$name => Counts::$counts,)*
                }
            }

            fn sentence(self) -> &'static str {
                match self {
                    Self::Unknown => "not accepted",
                    $(Self::$name => $sentence,)*
                }
            }
        }
    };
}

// Each refusal once: its name and number, what its place counts, its sentence.
reasons! {
    /// the image has neither 1,664 bytes nor, as a page, 2,048.
    ImageLength = 1, Nothing, "the image has neither 1664 bytes nor a page's 2048";
    /// a lent slice is too short for what goes into it.
    ShortSlice = 2, Nothing, "a slice is too short for what goes into it";
    /// a scaled term is outside 16 bits; table and pixel are given.
    TermOutside = 3, Pixel, "a scaled term is outside 16 bits";
    /// the final sum of an offset or of Kta is outside 16 bits; table and pixel are given.
    SumOutside = 4, Pixel, "the final sum leaves 16 bits";
    /// the block has under 2 bytes, or not as many as its length field says.
    BlockLength = 5, Nothing, "the block does not have as many bytes as it says";
    /// the block's length field is below 5, above 131, or even.
    BlockCount = 6, Nothing, "the block's length field is below 5, above 131 or even";
    /// the block's version is not 1.
    BlockVersion = 7, Nothing, "the block's version is not 1";
    /// the block reaches past word 831.
    BlockRange = 8, Nothing, "the block reaches past word 831";
    /// the gathering has a word in conflict; the lowest is given.
    WordInConflict = 9, Word, "blocks carried different values";
    /// the gathering lacks a word; the lowest is given.
    WordMissing = 10, Word, "no block has carried it yet";
    /// a pixel above 767, or a word above 831.
    PastTheEnd = 11, Nothing, "a pixel above 767 or a word above 831";
    /// a range number at or past the count.
    RangeNumber = 12, Nothing, "there is no range of that number";
    /// a resolution above 15.
    Resolution = 13, Nothing, "a resolution above 15";
    /// a pattern or subpage number above 1.
    PatternOrSubpage = 14, Nothing, "a pattern or subpage number above 1";
    /// a table number above 2.
    TableNumber = 15, Nothing, "a table number above 2";
}

/// A table, by its number: the one in which a number left 16 bits, or whose entry is explained.
#[derive(Clone, Copy, Debug, Eq, Hash, PartialEq)]
#[non_exhaustive]
#[repr(u8)]
pub enum Table {
    /// The offset table.
    Offset = 0,
    /// The alpha table.
    Alpha = 1,
    /// The Kta table.
    Kta = 2,
}

impl Table {
    pub(crate) fn of(number: u8) -> Option<Self> {
        match number {
            0 => Some(Self::Offset),
            1 => Some(Self::Alpha),
            2 => Some(Self::Kta),
            _ => None,
        }
    }

    /// The table's number: 0 offset, 1 alpha, 2 Kta.
    pub const fn number(self) -> u8 {
        self as u8
    }
}

impl fmt::Display for Table {
    fn fmt(&self, f: &mut fmt::Formatter<'_>) -> fmt::Result {
        f.write_str(match self {
            Self::Offset => "offset",
            Self::Alpha => "alpha",
            Self::Kta => "Kta",
        })
    }
}

impl Refusal {
    /// The refusal of a pixel above 767.
    pub(crate) const PAST_THE_END: Self = Self { number: Reason::PastTheEnd as u8, table: 0, place: 0 };

    /// The refusal of a number that names a table and a pixel; none where the number is 0.
    pub(crate) fn of_pixel(number: u8, table: u8, pixel: u16) -> Option<Self> {
        match number {
            0 => None,
            _ => Some(Self { number, table, place: pixel.into() }),
        }
    }

    /// The refusal that an answer has: its number in the lowest byte, its table in the next one, then its place.
    pub(crate) fn from_answer(answer: u64) -> Option<Self> {
        let [number, table, a, b, c, d, ..] = answer.to_le_bytes();
        match number {
            0 => None,
            _ => Some(Self { number, table, place: u32::from_le_bytes([a, b, c, d]) }),
        }
    }

    /// The refusal's number, the one of its [`Reason`].
    pub const fn number(&self) -> u8 {
        self.number
    }

    /// The table of refusals 3 and 4, none for all others.
    pub fn table(&self) -> Option<Table> {
        match self.reason().counts() {
            Counts::Pixel => Table::of(self.table),
            Counts::Nothing | Counts::Word => None,
        }
    }

    /// The pixel of refusals 3 and 4, the word of refusals 9 and 10. 0 for all others.
    pub const fn place(&self) -> usize {
        self.place as usize
    }

    /// What the number stands for.
    pub fn reason(&self) -> Reason {
        Reason::of(self.number)
    }
}

impl fmt::Display for Refusal {
    fn fmt(&self, f: &mut fmt::Formatter<'_>) -> fmt::Result {
        let Self { number, place, .. } = self;
        if let Some(table) = self.table() {
            write!(f, "{table} table, ")?;
        }
        let reason = self.reason();
        match reason.counts() {
            Counts::Nothing => {}
            Counts::Pixel => write!(f, "pixel {place}: ")?,
            Counts::Word => write!(f, "word {place}: ")?,
        }
        write!(f, "{} (refusal {number})", reason.sentence())
    }
}

#[cfg(feature = "std")]
impl std::error::Error for Refusal {}
