//! One pixel by itself, from the words that it needs.
use crate::lent;
use crate::refusal::Refusal;

/// The offset, alpha and Kta of one pixel.
///
/// They hang on eleven words of the image and on no others: a viewer can show them before it has decoded the whole, or
/// gathered it ([`Gathering::pixel`](crate::Gathering::pixel)), and also where only another pixel is at fault. Where
/// the whole is accepted they are what [`Calibration::pixel`](crate::Calibration::pixel) has.
///
/// ```
/// use mofuleka::{lent, Calibration, Pixel};
///
/// let mut image = [0u8; lent::IMAGE_BYTES];
/// image[2 * 0x11..][..2].copy_from_slice(&0x7FFFu16.to_be_bytes()); // 0x2411, the offset average
/// image[2 * 0x13..][..2].copy_from_slice(&0x0010u16.to_be_bytes()); // 0x2413, row 5
/// let refusal = Calibration::from_data(&image).unwrap_err();
/// assert_eq!(refusal.to_string(), "offset table, pixel 160: the final sum leaves 16 bits (refusal 4)");
/// assert_eq!(Pixel::from_data(&image, 160).unwrap_err(), refusal);
/// assert_eq!(Pixel::from_data(&image, 159)?, Pixel { offset: 32767, alpha: 0.0, k_ta: 0.0 });
/// # Ok::<(), mofuleka::Refusal>(())
/// ```
#[derive(Clone, Copy, Debug, PartialEq)]
pub struct Pixel {
    /// The offset reference.
    pub offset: i16,
    /// Alpha.
    pub alpha: f32,
    /// Kta.
    pub k_ta: f32,
}

impl Pixel {
    /// One pixel of an EEPROM image, or of a page of one, which are as
    /// [`Calibration::from_data`](crate::Calibration::from_data) takes them.
    ///
    /// # Errors
    /// `ImageLength`; `PastTheEnd` above 767; `TermOutside` and `SumOutside` where a term of this pixel, or the final
    /// sum of its offset or of its Kta, leaves 16 bits.
    pub fn from_data(image: &[u8], pixel: usize) -> Result<Self, Refusal> {
        Self::filled(|out| lent::pixel(image, pixel, out))
    }

    pub(crate) fn from_gathering(gathering: &[u8], pixel: usize) -> Result<Self, Refusal> {
        Self::filled(|out| lent::gathering_pixel(gathering, pixel, out))
    }

    fn filled(fill: impl FnOnce(&mut [u8]) -> Result<(), Refusal>) -> Result<Self, Refusal> {
        let mut out = [0; lent::PIXEL_BYTES];
        fill(&mut out)?;
        Ok(Self {
            offset: i16::from_be_bytes([out[0], out[1]]),
            alpha: f32::from_be_bytes([out[2], out[3], out[4], out[5]]),
            k_ta: f32::from_be_bytes([out[6], out[7], out[8], out[9]]),
        })
    }
}
