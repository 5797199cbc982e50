//! Blocks of an image gathered, merged, counted and decoded.
use core::fmt;

use crate::calibration::Calibration;
use crate::lent;
use crate::pixel::Pixel;
use crate::refusal::Refusal;

/// An EEPROM image on its way: the words that blocks have carried so far.
///
/// ```
/// use mofuleka::{Gathering, Word};
///
/// let mut gathering = Gathering::new();
/// gathering.accept(&[0x00, 0x05, 0x01, 0x03, 0x3F, 0xAB, 0xCD])?; // one word, number 831
/// assert_eq!(gathering.word(831)?, Word::Held(0xABCD));
/// assert_eq!(gathering.status().missing, 831);
///
/// let refusal = gathering.accept(&[0x00, 0x07, 0x01, 0x03, 0x3F, 0x12, 0x34, 0x56, 0x78]).unwrap_err();
/// assert_eq!(refusal.to_string(), "the block reaches past word 831 (refusal 8)");
///
/// let mut other = Gathering::new();
/// other.accept(&[0x00, 0x05, 0x01, 0x03, 0x3F, 0xAB, 0xCE])?;
/// gathering.merge(&other);
/// assert_eq!(gathering.word(831)?, Word::InConflict);
/// assert_eq!(gathering.calibration().unwrap_err().number(), 9);
/// # Ok::<(), mofuleka::Refusal>(())
/// ```
#[derive(Clone, Eq, PartialEq)]
pub struct Gathering {
    bytes: [u8; lent::GATHERING_BYTES],
}

/// What a gathering knows of one word.
#[derive(Clone, Copy, Debug, Eq, Hash, PartialEq)]
pub enum Word {
    /// No block has carried it.
    Missing,
    /// Every block that carried it had this value.
    Held(u16),
    /// Blocks carried different values.
    InConflict,
}

/// How far a gathering is.
#[derive(Clone, Copy, Debug, Eq, Hash, PartialEq)]
pub struct Status {
    /// Words that no block has carried.
    pub missing: usize,
    /// Words for which blocks carried different values.
    pub in_conflict: usize,
}

impl Status {
    /// Whether every word is held, so that the gathering can be decoded.
    pub fn is_full(&self) -> bool {
        self.missing == 0 && self.in_conflict == 0
    }
}

impl Gathering {
    /// The number of words gathered.
    pub const WORDS: usize = 832;

    /// A fresh gathering: every word missing. Its bytes are all zero, as [`lent::gathering_fresh`] writes them.
    pub const fn new() -> Self {
        Self { bytes: [0; lent::GATHERING_BYTES] }
    }

    /// The same as [`Gathering::new`].
    pub const fn fresh() -> Self {
        Self::new()
    }

    /// A gathering from stored bytes, as [`Gathering::as_bytes`] gives them; longer slices are cut. Any bytes will do: a
    /// mark that is not known counts as in conflict.
    ///
    /// # Errors
    /// `ShortSlice` for fewer than 2,496 bytes.
    pub fn from_bytes(bytes: &[u8]) -> Result<Self, Refusal> {
        lent::gathering_status(bytes)?;
        let mut gathering = Self::new();
        gathering.bytes.iter_mut().zip(bytes).for_each(|(own, stored)| *own = *stored);
        Ok(gathering)
    }

    /// The bytes to store: 832 values, then 832 marks.
    pub fn as_bytes(&self) -> &[u8; lent::GATHERING_BYTES] {
        &self.bytes
    }

    /// Takes a block in.
    ///
    /// # Errors
    /// `BlockLength`, `BlockCount`, `BlockVersion`, `BlockRange`; the gathering is then as it was.
    pub fn accept(&mut self, block: &[u8]) -> Result<(), Refusal> {
        lent::gathering_accept(&mut self.bytes, block)
    }

    /// Takes in all that the other gathering has seen.
    ///
    /// # Panics
    /// Never: the library refuses a merge only where a slice is short, and both of these have their full length.
    pub fn merge(&mut self, other: &Gathering) {
        lent::gathering_merge(&mut self.bytes, &other.bytes).expect("slices of full length");
    }

    /// How many words are missing, and how many in conflict.
    ///
    /// # Panics
    /// Never: the library refuses to count only where a slice is short, and this one has its full length.
    pub fn status(&self) -> Status {
        let (missing, in_conflict) = lent::gathering_status(&self.bytes).expect("a slice of full length");
        Status { missing, in_conflict }
    }

    /// What is known of one word, 0 for address 0x2400.
    ///
    /// # Errors
    /// `PastTheEnd` above 831.
    pub fn word(&self, word: usize) -> Result<Word, Refusal> {
        Ok(match lent::gathering_word(&self.bytes, word)? {
            (0, _) => Word::Missing,
            (1, value) => Word::Held(value),
            _ => Word::InConflict,
        })
    }

    /// Decodes the gathered image.
    ///
    /// # Errors
    /// `WordInConflict` for the lowest word in conflict, `WordMissing` for the lowest missing, then `TermOutside` and
    /// `SumOutside`.
    pub fn calibration(&self) -> Result<Calibration, Refusal> {
        Calibration::from_gathering(&self.bytes)
    }

    /// One pixel, as soon as the words that it needs are held; what other words are doesn't count.
    ///
    /// ```
    /// use mofuleka::{Gathering, Pixel, Reason};
    ///
    /// let mut gathering = Gathering::new();
    /// // Words 0x10 to 0x4F, all that the first sixteen pixels need: zero but for the offset average.
    /// let mut block = [0u8; 133];
    /// block[..5].copy_from_slice(&[0x00, 131, 1, 0x00, 0x10]);
    /// block[7..9].copy_from_slice(&0x1234u16.to_be_bytes());
    /// gathering.accept(&block)?;
    /// assert_eq!(gathering.pixel(15)?, Pixel { offset: 0x1234, alpha: 0.0, k_ta: 0.0 });
    ///
    /// let refusal = gathering.pixel(16).unwrap_err();
    /// assert_eq!((refusal.reason(), refusal.place()), (Reason::WordMissing, 0x50));
    /// # Ok::<(), mofuleka::Refusal>(())
    /// ```
    ///
    /// # Errors
    /// `PastTheEnd` above 767; `WordInConflict` and `WordMissing` for the lowest of the words that the pixel needs;
    /// then `TermOutside` and `SumOutside` for this pixel.
    pub fn pixel(&self, pixel: usize) -> Result<Pixel, Refusal> {
        Pixel::from_gathering(&self.bytes, pixel)
    }
}

impl Default for Gathering {
    fn default() -> Self {
        Self::new()
    }
}

impl TryFrom<&[u8]> for Gathering {
    type Error = Refusal;

    fn try_from(bytes: &[u8]) -> Result<Self, Refusal> {
        Self::from_bytes(bytes)
    }
}

impl fmt::Debug for Gathering {
    fn fmt(&self, f: &mut fmt::Formatter<'_>) -> fmt::Result {
        let status = self.status();
        f.debug_struct("Gathering")
            .field("missing", &status.missing)
            .field("in_conflict", &status.in_conflict)
            .finish_non_exhaustive()
    }
}
