//! The root for the MLX90640 half of the original crate: its own files are declared here as they are. What its own root
//! declares besides (mlx90641, calculations, driver) is not in the text at hand, and nothing here needs it.
#![no_std]
#![allow(warnings)]

pub mod common;
pub mod error;
pub mod mlx90640;
pub mod register;
mod util;

pub use common::{Address, CalibrationData, MelexisCamera};
pub use error::{Error, LibraryError};
pub use register::*;

/// Called in place of the method itself: a small function may be compiled into its caller, and would then be checked for
/// overflow or not as the caller is, not as this build is.
#[inline(never)]
pub fn resolution_correction(calibrated: u8, current: u8) -> f32 {
    <mlx90640::Mlx90640 as MelexisCamera>::resolution_correction(calibrated, current)
}

/// The same for the decoding.
#[inline(never)]
pub fn from_data(image: &[u8]) -> Result<mlx90640::Mlx90640Calibration, LibraryError> {
    mlx90640::Mlx90640Calibration::from_data(image)
}
