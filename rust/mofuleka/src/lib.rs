//! The calibration of the MLX90640 thermal camera, decoded by a proved library.
//!
//! This crate is a thin, safe layer over `libmofuleka.a`: it lends the library its slices and hands the answers on. It
//! takes the place of the MLX90640 half of the crate mlx9064x; the methods keep their names.
//!
//! ```
//! use mofuleka::{lent, Calibration, Subpage};
//!
//! let image = [0u8; lent::IMAGE_BYTES]; // a dump of the camera's EEPROM
//! match Calibration::from_data(&image) {
//!     Ok(calibration) => {
//!         assert_eq!(calibration.v_dd_25(), -16384);
//!         assert!(calibration.alpha_pixels(Subpage::Zero).all(|alpha| *alpha == 0.0));
//!     }
//!     Err(refusal) => eprintln!("{refusal}"),
//! }
//!
//! // A page stands for its image, whatever follows there; any other length is refused.
//! let mut page = [0xFFu8; 2048];
//! page[..lent::IMAGE_BYTES].copy_from_slice(&image);
//! assert_eq!(Calibration::from_data(&page), Calibration::from_data(&image));
//! let refusal = Calibration::from_data(&page[..2047]).unwrap_err();
//! assert_eq!(refusal.to_string(), "the image has neither 1664 bytes nor a page's 2048 (refusal 1)");
//! ```
//!
//! # Where the archive comes from
//! The build script takes the file that the environment variable `MOFULEKA_ARCHIVE` names; without it, `rt lib` is
//! run in the repository's `crates/mofuleka_c`, and must be in `PATH`.
//!
//! # Without std
//! The crate is `no_std` and allocates nothing. Its default feature, `std`, makes [`Refusal`] a `std::error::Error`, and
//! adds nothing else.
#![no_std]
#![warn(missing_docs)]
#![deny(unsafe_code)]
#![warn(clippy::undocumented_unsafe_blocks)]
// Nearly every function here does nothing but answer: saying so at each would tell a reader nothing.
#![allow(clippy::must_use_candidate)]

#[cfg(feature = "std")]
extern crate std;

mod calibration;
mod camera;
pub mod common;
mod explanation;
mod gathering;
// The one module that calls the archive.
#[allow(unsafe_code)]
pub mod lent;
mod pixel;
pub mod place;
mod refusal;
pub mod sys;
mod tile;
mod wording;

pub use calibration::Calibration;
pub use camera::{
    AccessPattern, Address, Mlx90640, PixelAddressRange, PixelRanges, PixelsInSubpage, RamAddress, Subpage,
};
pub use common::{CalibrationData, MelexisCamera};
pub use explanation::{Entry, Explanation, Failure, Part};
pub use gathering::{Gathering, Status, Word};
pub use pixel::Pixel;
pub use refusal::{Reason, Refusal, Table};
pub use tile::{Corrections, KvPixels};

/// The names of mlx9064x's module of this name.
pub mod mlx90640 {
    pub use crate::{Calibration as Mlx90640Calibration, Mlx90640, RamAddress};
}

/// The names of mlx9064x's module of this name.
pub mod register {
    pub use crate::{AccessPattern, Subpage};
}
