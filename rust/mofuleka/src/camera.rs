//! The camera: patterns, subpages, read ranges and addresses, under the original crate's names.
use core::fmt;
use core::iter::FusedIterator;

use crate::lent;
use crate::refusal::Refusal;

/// How the pixels are divided between the subpages. The numbers are those of the camera's control register.
#[derive(Clone, Copy, Debug, Eq, Hash, Ord, PartialEq, PartialOrd)]
#[repr(u8)]
pub enum AccessPattern {
    /// The pixels alternate like the fields of a chess board. The camera's default.
    Chess = 1,
    /// Each row is in one subpage, the rows alternate.
    Interleave = 0,
}

/// One of the two halves of a frame.
#[derive(Clone, Copy, Debug, Eq, Hash, Ord, PartialEq, PartialOrd)]
#[repr(usize)]
pub enum Subpage {
    /// Even rows in Interleave; row and column of equal parity in Chess.
    Zero = 0,
    /// The other pixels.
    One = 1,
}

impl AccessPattern {
    pub(crate) fn number(self) -> u32 {
        self as u32
    }
}

impl Subpage {
    pub(crate) fn number(self) -> u32 {
        self as u32
    }
}

/// A camera address. It counts words of 16 bits, so it is kept apart from a buffer offset, which counts bytes.
#[derive(Clone, Copy, Eq, Hash, Ord, PartialEq, PartialOrd)]
pub struct Address(u16);

impl Address {
    /// Wraps the number.
    pub const fn new(address: u16) -> Self {
        Self(address)
    }
}

impl fmt::Debug for Address {
    fn fmt(&self, f: &mut fmt::Formatter<'_>) -> fmt::Result {
        write!(f, "Address({:#X})", self.0)
    }
}

impl From<u16> for Address {
    fn from(address: u16) -> Self {
        Self(address)
    }
}

impl From<Address> for u16 {
    fn from(address: Address) -> Self {
        address.0
    }
}

impl From<Address> for usize {
    fn from(address: Address) -> Self {
        usize::from(address.0)
    }
}

/// The addresses of the camera's RAM that a frame needs.
#[derive(Clone, Copy, Debug, Eq, Hash, Ord, PartialEq, PartialOrd)]
#[repr(u16)]
pub enum RamAddress {
    /// The first pixel.
    Base = 0x0400,
    /// `V_BE` of the ambient temperature.
    AmbientTemperatureVoltageBe = 0x0700,
    /// The compensation pixel of subpage 0.
    CompensationPixelZero = 0x0708,
    /// The gain.
    Gain = 0x070A,
    /// PTAT of the ambient temperature.
    AmbientTemperatureVoltage = 0x0720,
    /// The compensation pixel of subpage 1.
    CompensationPixelOne = 0x0728,
    /// The pixel supply voltage.
    PixelSupplyVoltage = 0x072A,
    /// The last address.
    End = 0x073F,
}

impl From<RamAddress> for u16 {
    fn from(address: RamAddress) -> Self {
        address as u16
    }
}

impl From<RamAddress> for Address {
    fn from(address: RamAddress) -> Self {
        Address::new(address as u16)
    }
}

/// A range of the camera's memory to read for a subpage.
#[derive(Clone, Copy, Debug, Eq, Hash, PartialEq)]
pub struct PixelAddressRange {
    /// Where to start reading, in words.
    pub start_address: Address,
    /// Where the range goes in a buffer of the whole image, in bytes.
    pub buffer_offset: usize,
    /// How much to read, in bytes.
    pub length: usize,
}

/// What is the same for every MLX90640.
///
/// ```
/// use mofuleka::{AccessPattern, Address, Mlx90640, Subpage};
///
/// let ranges: Vec<_> = Mlx90640::pixel_ranges(Subpage::One, AccessPattern::Interleave).collect();
/// assert_eq!(ranges.len(), 12);
/// assert_eq!(ranges[1].start_address, Address::new(0x0460));
/// assert_eq!((ranges[1].buffer_offset, ranges[1].length), (192, 64));
///
/// let mask = Mlx90640::pixels_in_subpage(Subpage::Zero, AccessPattern::Chess);
/// assert_eq!(mask.filter(|in_subpage| *in_subpage).count(), 384);
///
/// assert_eq!(Mlx90640::resolution_correction(2, 3)?, 0.5);
/// assert_eq!(Mlx90640::resolution_correction(2, 16).unwrap_err().number(), 13);
/// # Ok::<(), mofuleka::Refusal>(())
/// ```
#[derive(Clone, Debug, Eq, PartialEq)]
pub struct Mlx90640();

impl Mlx90640 {
    /// Rows.
    pub const HEIGHT: usize = 24;
    /// Columns.
    pub const WIDTH: usize = 32;
    /// Pixels.
    pub const NUM_PIXELS: usize = Self::HEIGHT * Self::WIDTH;
    /// The index of the basic temperature range.
    pub const BASIC_TEMPERATURE_RANGE: usize = 1;
    /// The self-heating to expect, in kelvin.
    pub const SELF_HEATING: f32 = 8.0;
    /// Where `V_BE` of the ambient temperature is read.
    pub const T_A_V_BE: Address = Address::new(RamAddress::AmbientTemperatureVoltageBe as u16);
    /// Where PTAT of the ambient temperature is read.
    pub const T_A_PTAT: Address = Address::new(RamAddress::AmbientTemperatureVoltage as u16);
    /// Where the gain is read.
    pub const GAIN: Address = Address::new(RamAddress::Gain as u16);
    /// Where the pixel supply voltage is read.
    pub const V_DD_PIXEL: Address = Address::new(RamAddress::PixelSupplyVoltage as u16);

    /// The ranges to read for a subpage.
    pub fn pixel_ranges(subpage: Subpage, access_pattern: AccessPattern) -> PixelRanges {
        let count = lent::pixel_range_count(access_pattern.number()).unwrap_or(0);
        PixelRanges { subpage, access_pattern, next: 0, count }
    }

    /// One range to read for a subpage.
    ///
    /// # Errors
    /// `RangeNumber` at or past the count.
    pub fn pixel_range(
        subpage: Subpage,
        access_pattern: AccessPattern,
        number: usize,
    ) -> Result<PixelAddressRange, Refusal> {
        let (address, offset, length) = lent::pixel_range(access_pattern.number(), subpage.number(), number)?;
        Ok(PixelAddressRange {
            start_address: Address::new(address),
            buffer_offset: usize::from(offset),
            length: usize::from(length),
        })
    }

    /// For each pixel, row by row, whether it is in the subpage.
    pub fn pixels_in_subpage(subpage: Subpage, access_pattern: AccessPattern) -> PixelsInSubpage {
        PixelsInSubpage { subpage, access_pattern, next: 0 }
    }

    /// Whether the pixel is in the subpage.
    ///
    /// # Errors
    /// `PastTheEnd` above 767.
    pub fn pixel_in_subpage(subpage: Subpage, access_pattern: AccessPattern, pixel: usize) -> Result<bool, Refusal> {
        lent::pixel_in_subpage(access_pattern.number(), subpage.number(), pixel)
    }

    /// The address of the subpage's compensation pixel.
    pub fn compensation_pixel(subpage: Subpage) -> Address {
        match subpage {
            Subpage::Zero => RamAddress::CompensationPixelZero.into(),
            Subpage::One => RamAddress::CompensationPixelOne.into(),
        }
    }

    /// 2 to the power calibrated minus current.
    ///
    /// # Errors
    /// `Resolution` where one of them is above 15.
    pub fn resolution_correction(calibrated_resolution: u8, current_resolution: u8) -> Result<f32, Refusal> {
        lent::resolution_correction(u32::from(calibrated_resolution), u32::from(current_resolution))
    }
}

/// The iterator of [`Mlx90640::pixel_ranges`].
#[derive(Clone, Debug)]
pub struct PixelRanges {
    subpage: Subpage,
    access_pattern: AccessPattern,
    next: usize,
    count: usize,
}

impl Iterator for PixelRanges {
    type Item = PixelAddressRange;

    fn next(&mut self) -> Option<PixelAddressRange> {
        let range = Mlx90640::pixel_range(self.subpage, self.access_pattern, self.next).ok()?;
        self.next += 1;
        Some(range)
    }

    fn size_hint(&self) -> (usize, Option<usize>) {
        let left = self.count - self.next;
        (left, Some(left))
    }
}

impl ExactSizeIterator for PixelRanges {}
impl FusedIterator for PixelRanges {}

/// The iterator of [`Mlx90640::pixels_in_subpage`].
#[derive(Clone, Debug)]
pub struct PixelsInSubpage {
    subpage: Subpage,
    access_pattern: AccessPattern,
    next: usize,
}

impl Iterator for PixelsInSubpage {
    type Item = bool;

    fn next(&mut self) -> Option<bool> {
        let inside = Mlx90640::pixel_in_subpage(self.subpage, self.access_pattern, self.next).ok()?;
        self.next += 1;
        Some(inside)
    }

    fn size_hint(&self) -> (usize, Option<usize>) {
        let left = Mlx90640::NUM_PIXELS - self.next;
        (left, Some(left))
    }
}

impl ExactSizeIterator for PixelsInSubpage {}
impl FusedIterator for PixelsInSubpage {}
