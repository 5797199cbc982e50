//! A calibration under the original crate's accessor names, over the record and the tables that the archive writes.
use core::fmt;
use core::slice;

use crate::camera::{AccessPattern, Mlx90640, Subpage};
use crate::lent;
use crate::pixel::Pixel;
use crate::place;
use crate::refusal::Refusal;
use crate::tile::{Corrections, KvPixels, Tile};

const PIXELS: usize = Mlx90640::NUM_PIXELS;

/// The bytes of a float, and of a signed 16-bit number.
const F32: usize = 4;
const I16: usize = 2;
/// Which of the record's four Kv the pixels of a tile have, row by row.
const K_V_OF_TILE: [usize; 8] = [0, 2, 0, 2, 1, 3, 1, 3];
/// Which of the record's six corrections they have.
const CORRECTION_OF_TILE: [usize; 8] = [0, 1, 0, 2, 3, 4, 3, 5];

/// The calibration of one camera, decoded from its EEPROM image.
///
/// The methods have the names of the crate mlx9064x, so that code written for its `Mlx90640Calibration` keeps its calls.
///
/// ```
/// use mofuleka::{lent, AccessPattern, Calibration, Subpage};
///
/// let mut image = [0u8; lent::IMAGE_BYTES];
/// image[2 * 0x33..][..2].copy_from_slice(&0x9D68u16.to_be_bytes()); // 0x2433: supply voltage
/// image[2 * 0x35..][..2].copy_from_slice(&0x0841u16.to_be_bytes()); // 0x2435: interleave corrections
/// let calibration = Calibration::from_data(&image)?;
/// assert_eq!(calibration.k_v_dd(), -3168);
/// assert_eq!(calibration.v_dd_25(), -13056);
/// assert_eq!(calibration.temperature_gradient_coefficient(), None);
/// let corrections: Vec<f32> = calibration
///     .access_pattern_compensation_pixels(AccessPattern::Interleave)
///     .map(|correction| *correction.unwrap())
///     .collect();
/// assert_eq!(corrections[..4], [-0.125, 0.375, -0.125, -0.625]);
/// assert_eq!(calibration.offset_reference_pixels(Subpage::Zero).count(), 768);
/// # Ok::<(), mofuleka::Refusal>(())
/// ```
#[derive(Clone, PartialEq)]
pub struct Calibration {
    record: Record,
    // Out of the record, for the accessors that hand out references.
    corner_temperatures: [i16; 4],
    k_s_to: [f32; 4],
    k_v: Tile,
    interleave_corrections: Tile,
    offset: [i16; PIXELS],
    alpha: [f32; PIXELS],
    k_ta: [f32; PIXELS],
}

/// The record's bytes, with the numbers in them.
#[derive(Clone, PartialEq)]
struct Record([u8; lent::RECORD_BYTES]);

// A number is asked for at its own place, and lies before the record's end: no index here is past it.
impl Record {
    fn i16(&self, at: usize) -> i16 {
        i16::from_be_bytes([self.0[at], self.0[at + 1]])
    }

    fn f32(&self, at: usize) -> f32 {
        f32::from_be_bytes([self.0[at], self.0[at + 1], self.0[at + 2], self.0[at + 3]])
    }

    /// Some of the floats that stand one after the other, by their numbers.
    fn f32s<const N: usize>(&self, at: usize, numbers: [usize; N]) -> [f32; N] {
        numbers.map(|number| self.f32(at + F32 * number))
    }
}

/// The lent bytes of one decoding.
struct Lent {
    offset: [u8; lent::OFFSET_TABLE_BYTES],
    alpha: [u8; lent::ALPHA_TABLE_BYTES],
    k_ta: [u8; lent::K_TA_TABLE_BYTES],
    record: [u8; lent::RECORD_BYTES],
}

fn table_i16(bytes: &[u8; I16 * PIXELS]) -> [i16; PIXELS] {
    let mut table = [0; PIXELS];
    for (entry, bytes) in table.iter_mut().zip(bytes.chunks_exact(I16)) {
        *entry = i16::from_be_bytes([bytes[0], bytes[1]]);
    }
    table
}

fn table_f32(bytes: &[u8; F32 * PIXELS]) -> [f32; PIXELS] {
    let mut table = [0.0; PIXELS];
    for (entry, bytes) in table.iter_mut().zip(bytes.chunks_exact(F32)) {
        *entry = f32::from_be_bytes([bytes[0], bytes[1], bytes[2], bytes[3]]);
    }
    table
}

impl Calibration {
    /// Decodes an EEPROM image: 832 big-endian words, first address 0x2400. Of a page, a slice of exactly 2,048 bytes as older
    /// head firmware sends it, the first 1,664 are the image.
    ///
    /// # Errors
    /// `ImageLength` for every other length, two images joined among them; `TermOutside` and `SumOutside` where a term, or the
    /// final sum of an offset or of Kta, leaves 16 bits.
    pub fn from_data(image: &[u8]) -> Result<Self, Refusal> {
        Self::filled(|l| lent::from_data(image, &mut l.offset, &mut l.alpha, &mut l.k_ta, &mut l.record))
    }

    pub(crate) fn from_gathering(gathering: &[u8]) -> Result<Self, Refusal> {
        Self::filled(|l| lent::gathering_from_data(gathering, &mut l.offset, &mut l.alpha, &mut l.k_ta, &mut l.record))
    }

    fn filled(fill: impl FnOnce(&mut Lent) -> Result<(), Refusal>) -> Result<Self, Refusal> {
        let mut l = Lent {
            offset: [0; lent::OFFSET_TABLE_BYTES],
            alpha: [0; lent::ALPHA_TABLE_BYTES],
            k_ta: [0; lent::K_TA_TABLE_BYTES],
            record: [0; lent::RECORD_BYTES],
        };
        fill(&mut l)?;
        let record = Record(l.record);
        Ok(Self {
            corner_temperatures: [0, 1, 2, 3].map(|number| record.i16(place::CORNER_TEMPERATURES + I16 * number)),
            k_s_to: record.f32s(place::K_S_TO, [0, 1, 2, 3]),
            k_v: Tile(record.f32s(place::K_V_PATTERN, K_V_OF_TILE)),
            interleave_corrections: Tile(record.f32s(place::INTERLEAVE_CORRECTION_PIXELS, CORRECTION_OF_TILE)),
            offset: table_i16(&l.offset),
            alpha: table_f32(&l.alpha),
            k_ta: table_f32(&l.k_ta),
            record,
        })
    }

    /// The record's bytes, as `docs/INTERFACE.md` lays them out; [`place`](crate::place) has where each field starts.
    pub fn record_bytes(&self) -> &[u8; lent::RECORD_BYTES] {
        &self.record.0
    }

    /// One pixel out of the tables.
    ///
    /// ```
    /// use mofuleka::{lent, Calibration, Pixel, Subpage};
    ///
    /// let mut image = [0u8; lent::IMAGE_BYTES];
    /// image[2 * 0x21..][..2].copy_from_slice(&0x2000u16.to_be_bytes()); // 0x2421, the alpha average
    /// let calibration = Calibration::from_data(&image)?;
    /// let pixel = calibration.pixel(33)?;
    /// assert_eq!(calibration.alpha_pixels(Subpage::Zero).nth(33), Some(&pixel.alpha));
    /// assert_eq!(Pixel::from_data(&image, 33)?, pixel);
    /// # Ok::<(), mofuleka::Refusal>(())
    /// ```
    ///
    /// # Errors
    /// `PastTheEnd` above 767.
    pub fn pixel(&self, pixel: usize) -> Result<Pixel, Refusal> {
        match (self.offset.get(pixel), self.alpha.get(pixel), self.k_ta.get(pixel)) {
            (Some(&offset), Some(&alpha), Some(&k_ta)) => Ok(Pixel { offset, alpha, k_ta }),
            _ => Err(Refusal::PAST_THE_END),
        }
    }

    /// Pixel supply voltage constant, `K_Vdd`.
    pub fn k_v_dd(&self) -> i16 {
        self.record.i16(place::K_V_DD)
    }

    /// Pixel supply voltage at 25 degrees, `Vdd25`.
    pub fn v_dd_25(&self) -> i16 {
        self.record.i16(place::V_DD_25)
    }

    /// The ADC resolution at which the camera was calibrated.
    pub fn resolution(&self) -> u8 {
        self.record.0[place::RESOLUTION]
    }

    /// The supply voltage, 3.3 V for every MLX90640.
    pub fn v_dd_0(&self) -> f32 {
        3.3
    }

    /// `Kv_PTAT`.
    pub fn k_v_ptat(&self) -> f32 {
        self.record.f32(place::K_V_PTAT)
    }

    /// `Kt_PTAT`.
    pub fn k_t_ptat(&self) -> f32 {
        self.record.f32(place::K_T_PTAT)
    }

    /// `V_PTAT25`.
    pub fn v_ptat_25(&self) -> f32 {
        self.record.f32(place::V_PTAT_25)
    }

    /// `Alpha_PTAT`: 8 and a quarter for each step of the top nibble at 0x2410, as the datasheet has it. mlx9064x has whole
    /// steps: 9 for this image.
    ///
    /// ```
    /// use mofuleka::{lent, Calibration};
    ///
    /// let mut image = [0u8; lent::IMAGE_BYTES];
    /// image[2 * 0x10..][..2].copy_from_slice(&0x5000u16.to_be_bytes()); // 0x2410: nibble 5
    /// assert_eq!(Calibration::from_data(&image)?.alpha_ptat(), 9.25);
    /// # Ok::<(), mofuleka::Refusal>(())
    /// ```
    pub fn alpha_ptat(&self) -> f32 {
        self.record.f32(place::ALPHA_PTAT)
    }

    /// The gain.
    pub fn gain(&self) -> f32 {
        self.record.f32(place::GAIN)
    }

    /// `KsTa`.
    pub fn k_s_ta(&self) -> f32 {
        self.record.f32(place::K_S_TA)
    }

    /// The four corner temperatures.
    pub fn corner_temperatures(&self) -> &[i16] {
        &self.corner_temperatures
    }

    /// `KsTo` of the four temperature ranges.
    pub fn k_s_to(&self) -> &[f32] {
        &self.k_s_to
    }

    /// The MLX90640 stores no emissivity.
    pub fn emissivity(&self) -> Option<f32> {
        None
    }

    /// The offset reference of all pixels, the same for both subpages.
    pub fn offset_reference_pixels(&self, _subpage: Subpage) -> slice::Iter<'_, i16> {
        self.offset.iter()
    }

    /// The offset reference of the subpage's compensation pixel.
    pub fn offset_reference_cp(&self, subpage: Subpage) -> i16 {
        self.record.i16(place::OFFSET_REFERENCE_CP + I16 * subpage as usize)
    }

    /// Alpha of all pixels, the same for both subpages.
    pub fn alpha_pixels(&self, _subpage: Subpage) -> slice::Iter<'_, f32> {
        self.alpha.iter()
    }

    /// Alpha of the subpage's compensation pixel.
    pub fn alpha_cp(&self, subpage: Subpage) -> f32 {
        self.record.f32(place::ALPHA_CP + F32 * subpage as usize)
    }

    /// Kv of all pixels, the same for both subpages.
    pub fn k_v_pixels(&self, _subpage: Subpage) -> KvPixels<'_> {
        KvPixels::new(&self.k_v)
    }

    /// Kv of one pixel.
    ///
    /// # Errors
    /// `PastTheEnd` above 767.
    pub fn k_v_pixel(&self, pixel: usize) -> Result<f32, Refusal> {
        lent::k_v_pixel(self.record_bytes(), pixel)
    }

    /// Kv of the compensation pixels, the same for both subpages.
    pub fn k_v_cp(&self, _subpage: Subpage) -> f32 {
        self.record.f32(place::K_V_CP)
    }

    /// Kta of all pixels, the same for both subpages.
    pub fn k_ta_pixels(&self, _subpage: Subpage) -> slice::Iter<'_, f32> {
        self.k_ta.iter()
    }

    /// Kta of the compensation pixels, the same for both subpages.
    pub fn k_ta_cp(&self, _subpage: Subpage) -> f32 {
        self.record.f32(place::K_TA_CP)
    }

    /// The temperature gradient coefficient, absent where its byte is zero.
    pub fn temperature_gradient_coefficient(&self) -> Option<f32> {
        match self.record.0[place::TEMPERATURE_GRADIENT_PRESENT] {
            0 => None,
            _ => Some(self.record.f32(place::TEMPERATURE_GRADIENT_COEFFICIENT)),
        }
    }

    /// The correction of each pixel that is added to its gain-compensated value; none in Chess.
    pub fn access_pattern_compensation_pixels(&self, access_pattern: AccessPattern) -> Corrections<'_> {
        Corrections::new(match access_pattern {
            AccessPattern::Interleave => Some(&self.interleave_corrections),
            AccessPattern::Chess => None,
        })
    }

    /// The correction of one pixel.
    ///
    /// # Errors
    /// `PastTheEnd` above 767, in both patterns.
    pub fn access_pattern_compensation_pixel(
        &self,
        pixel: usize,
        access_pattern: AccessPattern,
    ) -> Result<Option<f32>, Refusal> {
        lent::interleave_correction_pixel(self.record_bytes(), access_pattern.number(), pixel)
    }

    /// The correction of the subpage's compensation pixel: there is one for subpage One in Interleave.
    pub fn access_pattern_compensation_cp(&self, subpage: Subpage, access_pattern: AccessPattern) -> Option<f32> {
        match (access_pattern, subpage) {
            (AccessPattern::Interleave, Subpage::One) => Some(self.record.f32(place::INTERLEAVE_CORRECTION_CP)),
            _ => None,
        }
    }
}

impl TryFrom<&[u8]> for Calibration {
    type Error = Refusal;

    fn try_from(image: &[u8]) -> Result<Self, Refusal> {
        Self::from_data(image)
    }
}

impl fmt::Debug for Calibration {
    fn fmt(&self, f: &mut fmt::Formatter<'_>) -> fmt::Result {
        f.debug_struct("Calibration")
            .field("k_v_dd", &self.k_v_dd())
            .field("v_dd_25", &self.v_dd_25())
            .field("resolution", &self.resolution())
            .field("k_v_ptat", &self.k_v_ptat())
            .field("k_t_ptat", &self.k_t_ptat())
            .field("v_ptat_25", &self.v_ptat_25())
            .field("alpha_ptat", &self.alpha_ptat())
            .field("gain", &self.gain())
            .field("k_s_ta", &self.k_s_ta())
            .field("corner_temperatures", &self.corner_temperatures())
            .field("k_s_to", &self.k_s_to())
            .field("alpha_cp", &[self.alpha_cp(Subpage::Zero), self.alpha_cp(Subpage::One)])
            .field(
                "offset_reference_cp",
                &[self.offset_reference_cp(Subpage::Zero), self.offset_reference_cp(Subpage::One)],
            )
            .field("k_v_cp", &self.k_v_cp(Subpage::Zero))
            .field("k_ta_cp", &self.k_ta_cp(Subpage::Zero))
            .field("temperature_gradient_coefficient", &self.temperature_gradient_coefficient())
            .finish_non_exhaustive()
    }
}
