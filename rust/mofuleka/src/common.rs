//! The names of mlx9064x's module of this name: its two traits, for code that is generic over them.
//!
//! They are the original's but for what the library does not answer (`alpha_correction`), and `resolution_correction` is a
//! `Result`. `alpha_ptat` has quarter steps, where the original has whole ones. [`Calibration`] and [`Mlx90640`] have all of it
//! as methods of their own too.
use core::slice;

pub use crate::camera::{Address, PixelAddressRange};

use crate::calibration::Calibration;
use crate::camera::{AccessPattern, Mlx90640, PixelRanges, PixelsInSubpage, Subpage};
use crate::refusal::Refusal;
use crate::tile::{Corrections, KvPixels};

/// A camera's calibration. Each method is documented at [`Calibration`].
#[allow(missing_docs)]
pub trait CalibrationData<'a> {
    type Camera: MelexisCamera;

    fn k_v_dd(&self) -> i16;
    fn v_dd_25(&self) -> i16;
    fn resolution(&self) -> u8;
    fn v_dd_0(&self) -> f32 {
        3.3
    }
    fn k_v_ptat(&self) -> f32;
    fn k_t_ptat(&self) -> f32;
    fn v_ptat_25(&self) -> f32;
    fn alpha_ptat(&self) -> f32;
    fn gain(&self) -> f32;
    fn k_s_ta(&self) -> f32;
    fn corner_temperatures(&self) -> &[i16];
    fn k_s_to(&self) -> &[f32];
    fn emissivity(&self) -> Option<f32> {
        None
    }

    type OffsetReferenceIterator: Iterator<Item = &'a i16>;
    fn offset_reference_pixels(&'a self, subpage: Subpage) -> Self::OffsetReferenceIterator;
    fn offset_reference_cp(&self, subpage: Subpage) -> i16;

    type AlphaIterator: Iterator<Item = &'a f32>;
    fn alpha_pixels(&'a self, subpage: Subpage) -> Self::AlphaIterator;
    fn alpha_cp(&self, subpage: Subpage) -> f32;

    type KvIterator: Iterator<Item = &'a f32>;
    fn k_v_pixels(&'a self, subpage: Subpage) -> Self::KvIterator;
    fn k_v_cp(&self, subpage: Subpage) -> f32;

    type KtaIterator: Iterator<Item = &'a f32>;
    fn k_ta_pixels(&'a self, subpage: Subpage) -> Self::KtaIterator;
    fn k_ta_cp(&self, subpage: Subpage) -> f32;

    fn temperature_gradient_coefficient(&self) -> Option<f32>;

    type AccessPatternCompensation: Iterator<Item = Option<&'a f32>>;
    fn access_pattern_compensation_pixels(&'a self, access_pattern: AccessPattern) -> Self::AccessPatternCompensation;
    fn access_pattern_compensation_cp(&self, subpage: Subpage, access_pattern: AccessPattern) -> Option<f32>;
}

/// A camera model. Each method and constant is documented at [`Mlx90640`].
#[allow(missing_docs)]
pub trait MelexisCamera {
    type PixelRangeIterator: IntoIterator<Item = PixelAddressRange>;
    type PixelsInSubpageIterator: IntoIterator<Item = bool>;

    const T_A_V_BE: Address;
    const T_A_PTAT: Address;
    const GAIN: Address;
    const V_DD_PIXEL: Address;
    const BASIC_TEMPERATURE_RANGE: usize;
    const SELF_HEATING: f32;
    const HEIGHT: usize;
    const WIDTH: usize;
    const NUM_PIXELS: usize;

    fn pixel_ranges(subpage: Subpage, access_pattern: AccessPattern) -> Self::PixelRangeIterator;
    fn pixels_in_subpage(subpage: Subpage, access_pattern: AccessPattern) -> Self::PixelsInSubpageIterator;
    fn compensation_pixel(subpage: Subpage) -> Address;
    /// # Errors
    /// As at [`Mlx90640::resolution_correction`].
    fn resolution_correction(calibrated_resolution: u8, current_resolution: u8) -> Result<f32, Refusal>;
}

macro_rules! handed_on {
    ($($name:ident($($argument:ident: $type:ty),*) -> $answer:ty;)*) => {
        $(fn $name(&self $(, $argument: $type)*) -> $answer {
            Calibration::$name(self $(, $argument)*)
        })*
    };
}

// The methods called here are the ones of `Calibration` itself: they come before a trait's.
impl<'a> CalibrationData<'a> for Calibration {
    type Camera = Mlx90640;

    handed_on! {
        k_v_dd() -> i16;
        v_dd_25() -> i16;
        resolution() -> u8;
        k_v_ptat() -> f32;
        k_t_ptat() -> f32;
        v_ptat_25() -> f32;
        alpha_ptat() -> f32;
        gain() -> f32;
        k_s_ta() -> f32;
        corner_temperatures() -> &[i16];
        k_s_to() -> &[f32];
        offset_reference_cp(subpage: Subpage) -> i16;
        alpha_cp(subpage: Subpage) -> f32;
        k_v_cp(subpage: Subpage) -> f32;
        k_ta_cp(subpage: Subpage) -> f32;
        temperature_gradient_coefficient() -> Option<f32>;
        access_pattern_compensation_cp(subpage: Subpage, access_pattern: AccessPattern) -> Option<f32>;
    }

    type OffsetReferenceIterator = slice::Iter<'a, i16>;
    fn offset_reference_pixels(&'a self, subpage: Subpage) -> Self::OffsetReferenceIterator {
        Calibration::offset_reference_pixels(self, subpage)
    }

    type AlphaIterator = slice::Iter<'a, f32>;
    fn alpha_pixels(&'a self, subpage: Subpage) -> Self::AlphaIterator {
        Calibration::alpha_pixels(self, subpage)
    }

    type KvIterator = KvPixels<'a>;
    fn k_v_pixels(&'a self, subpage: Subpage) -> Self::KvIterator {
        Calibration::k_v_pixels(self, subpage)
    }

    type KtaIterator = slice::Iter<'a, f32>;
    fn k_ta_pixels(&'a self, subpage: Subpage) -> Self::KtaIterator {
        Calibration::k_ta_pixels(self, subpage)
    }

    type AccessPatternCompensation = Corrections<'a>;
    fn access_pattern_compensation_pixels(&'a self, access_pattern: AccessPattern) -> Corrections<'a> {
        Calibration::access_pattern_compensation_pixels(self, access_pattern)
    }
}

impl MelexisCamera for Mlx90640 {
    type PixelRangeIterator = PixelRanges;
    type PixelsInSubpageIterator = PixelsInSubpage;

    const T_A_V_BE: Address = Mlx90640::T_A_V_BE;
    const T_A_PTAT: Address = Mlx90640::T_A_PTAT;
    const GAIN: Address = Mlx90640::GAIN;
    const V_DD_PIXEL: Address = Mlx90640::V_DD_PIXEL;
    const BASIC_TEMPERATURE_RANGE: usize = Mlx90640::BASIC_TEMPERATURE_RANGE;
    const SELF_HEATING: f32 = Mlx90640::SELF_HEATING;
    const HEIGHT: usize = Mlx90640::HEIGHT;
    const WIDTH: usize = Mlx90640::WIDTH;
    const NUM_PIXELS: usize = Mlx90640::NUM_PIXELS;

    fn pixel_ranges(subpage: Subpage, access_pattern: AccessPattern) -> PixelRanges {
        Mlx90640::pixel_ranges(subpage, access_pattern)
    }

    fn pixels_in_subpage(subpage: Subpage, access_pattern: AccessPattern) -> PixelsInSubpage {
        Mlx90640::pixels_in_subpage(subpage, access_pattern)
    }

    fn compensation_pixel(subpage: Subpage) -> Address {
        Mlx90640::compensation_pixel(subpage)
    }

    fn resolution_correction(calibrated_resolution: u8, current_resolution: u8) -> Result<f32, Refusal> {
        Mlx90640::resolution_correction(calibrated_resolution, current_resolution)
    }
}
