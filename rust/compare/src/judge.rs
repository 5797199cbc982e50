//! The original crate's answers, from its release build and from the build with overflow checks, in one form.
use std::cell::Cell;
use std::panic::{self, AssertUnwindSafe};

thread_local! {
    static QUIET: Cell<bool> = const { Cell::new(false) };
}

/// Panics of the original crate are answers here: they are counted, not printed.
pub fn silence_expected_panics() {
    let usual = panic::take_hook();
    panic::set_hook(Box::new(move |info| {
        if !QUIET.with(Cell::get) {
            usual(info);
        }
    }));
}

/// What the original crate does with a question.
pub enum Outcome<T> {
    Answer(T),
    Error(String),
    Panic(String),
}

impl<T> Outcome<T> {
    pub fn answer(self) -> Option<T> {
        match self {
            Outcome::Answer(answer) => Some(answer),
            _ => None,
        }
    }
}

/// Runs a question that may panic.
pub fn outcome<T>(question: impl FnOnce() -> Result<T, String>) -> Outcome<T> {
    QUIET.with(|quiet| quiet.set(true));
    let caught = panic::catch_unwind(AssertUnwindSafe(question));
    QUIET.with(|quiet| quiet.set(false));
    match caught {
        Ok(Ok(answer)) => Outcome::Answer(answer),
        Ok(Err(error)) => Outcome::Error(error),
        Err(payload) => Outcome::Panic(match payload.downcast::<String>() {
            Ok(text) => *text,
            Err(payload) => payload.downcast::<&str>().map(|text| text.to_string()).unwrap_or_default(),
        }),
    }
}

/// One build of the original crate. Patterns and subpages are numbers, floats are their bits.
pub trait Judge: Sized {
    fn decode(image: &[u8]) -> Outcome<Self>;
    /// The record, in the bytes that the library's interface lays out.
    fn record(&self) -> [u8; 122];
    fn offset(&self) -> &[i16];
    fn alpha(&self) -> &[f32];
    fn k_ta(&self) -> &[f32];
    fn k_v(&self, to: &mut Vec<u32>);
    fn corrections(&self, pattern: u32, to: &mut Vec<Option<u32>>);
    fn correction_cp(&self, pattern: u32, subpage: u32) -> Option<u32>;
    fn alpha_cp(&self, subpage: u32) -> u32;
    fn offset_reference_cp(&self, subpage: u32) -> i16;
    fn alpha_correction(&self) -> [f32; 4];
    fn mask(pattern: u32, subpage: u32) -> Vec<bool>;
    /// Each range's Debug text, since its fields are private.
    fn ranges(pattern: u32, subpage: u32) -> Vec<String>;
    fn compensation_pixel(subpage: u32) -> u16;
    fn resolution_correction(calibrated: u8, current: u8) -> Outcome<u32>;
    /// The constants: T_A_V_BE, T_A_PTAT, GAIN, V_DD_PIXEL and the rest of the RAM addresses.
    fn addresses() -> Vec<u16>;
}

/// Every address that a crate names, in one order: of the camera and of its RAM.
#[macro_export]
macro_rules! addresses {
    () => {
        vec![
            Mlx90640::T_A_V_BE.into(),
            Mlx90640::T_A_PTAT.into(),
            Mlx90640::GAIN.into(),
            Mlx90640::V_DD_PIXEL.into(),
            RamAddress::Base.into(),
            RamAddress::AmbientTemperatureVoltageBe.into(),
            RamAddress::CompensationPixelZero.into(),
            RamAddress::Gain.into(),
            RamAddress::AmbientTemperatureVoltage.into(),
            RamAddress::CompensationPixelOne.into(),
            RamAddress::PixelSupplyVoltage.into(),
            RamAddress::End.into(),
        ]
    };
}

macro_rules! judge {
    ($name:ident, $krate:ident) => {
        mod $name {
            use super::{outcome, Judge, Outcome};
            use $krate::mlx90640::{Mlx90640, Mlx90640Calibration, RamAddress};
            use $krate::{AccessPattern, CalibrationData, MelexisCamera, Subpage};

            fn pattern_of(number: u32) -> AccessPattern {
                match number {
                    0 => AccessPattern::Interleave,
                    _ => AccessPattern::Chess,
                }
            }

            fn subpage_of(number: u32) -> Subpage {
                match number {
                    0 => Subpage::Zero,
                    _ => Subpage::One,
                }
            }

            impl Judge for Mlx90640Calibration {
                fn decode(image: &[u8]) -> Outcome<Self> {
                    outcome(|| $krate::from_data(image).map_err(|error| error.to_string()))
                }

                fn record(&self) -> [u8; 122] {
                    let mut record = [0u8; 122];
                    let mut at = 0;
                    let mut put = |bytes: &[u8]| {
                        record[at..at + bytes.len()].copy_from_slice(bytes);
                        at += bytes.len();
                    };
                    let bits = |number: f32| number.to_bits().to_be_bytes();
                    put(&self.k_v_dd().to_be_bytes());
                    put(&self.v_dd_25().to_be_bytes());
                    put(&[self.resolution()]);
                    put(&bits(self.k_v_ptat()));
                    put(&bits(self.k_t_ptat()));
                    put(&bits(self.v_ptat_25()));
                    put(&bits(self.alpha_ptat()));
                    put(&bits(self.gain()));
                    put(&bits(self.k_s_ta()));
                    assert_eq!(self.corner_temperatures().len(), 4);
                    for corner in self.corner_temperatures() {
                        put(&corner.to_be_bytes());
                    }
                    assert_eq!(self.k_s_to().len(), 4);
                    for k_s_to in self.k_s_to() {
                        put(&bits(*k_s_to));
                    }
                    put(&bits(CalibrationData::alpha_cp(self, Subpage::Zero)));
                    put(&bits(CalibrationData::alpha_cp(self, Subpage::One)));
                    put(&CalibrationData::offset_reference_cp(self, Subpage::Zero).to_be_bytes());
                    put(&CalibrationData::offset_reference_cp(self, Subpage::One).to_be_bytes());
                    // The four of the pattern stand at these pixels, in chessboard order.
                    let mut k_v = self.k_v_pixels(Subpage::Zero);
                    let (first, second) = (*k_v.next().unwrap(), *k_v.next().unwrap());
                    let third = *k_v.nth(30).unwrap();
                    let fourth = *k_v.next().unwrap();
                    for number in [first, third, second, fourth] {
                        put(&bits(number));
                    }
                    put(&bits(self.k_v_cp(Subpage::Zero)));
                    put(&bits(self.k_ta_cp(Subpage::Zero)));
                    match self.temperature_gradient_coefficient() {
                        None => put(&[0; 5]),
                        Some(gradient) => {
                            put(&[1]);
                            put(&bits(gradient));
                        }
                    }
                    let six: Vec<f32> = self
                        .access_pattern_compensation_pixels(AccessPattern::Interleave)
                        .take(36)
                        .map(|correction| *correction.unwrap())
                        .collect();
                    for pixel in [0, 1, 3, 32, 33, 35] {
                        put(&bits(six[pixel]));
                    }
                    put(&bits(self.access_pattern_compensation_cp(Subpage::One, AccessPattern::Interleave).unwrap()));
                    assert_eq!(at, 122);
                    record
                }

                fn offset(&self) -> &[i16] {
                    self.offset_reference_pixels(Subpage::Zero).as_slice()
                }

                fn alpha(&self) -> &[f32] {
                    self.alpha_pixels(Subpage::Zero).as_slice()
                }

                fn k_ta(&self) -> &[f32] {
                    self.k_ta_pixels(Subpage::Zero).as_slice()
                }

                fn k_v(&self, to: &mut Vec<u32>) {
                    to.clear();
                    to.extend(self.k_v_pixels(Subpage::Zero).map(|number| number.to_bits()));
                }

                fn corrections(&self, pattern: u32, to: &mut Vec<Option<u32>>) {
                    to.clear();
                    to.extend(
                        self.access_pattern_compensation_pixels(pattern_of(pattern))
                            .map(|number| number.map(|number| number.to_bits())),
                    );
                }

                fn correction_cp(&self, pattern: u32, subpage: u32) -> Option<u32> {
                    self.access_pattern_compensation_cp(subpage_of(subpage), pattern_of(pattern))
                        .map(|number| number.to_bits())
                }

                fn alpha_cp(&self, subpage: u32) -> u32 {
                    CalibrationData::alpha_cp(self, subpage_of(subpage)).to_bits()
                }

                fn offset_reference_cp(&self, subpage: u32) -> i16 {
                    CalibrationData::offset_reference_cp(self, subpage_of(subpage))
                }

                fn alpha_correction(&self) -> [f32; 4] {
                    let slice = CalibrationData::alpha_correction(self);
                    [slice[0], slice[1], slice[2], slice[3]]
                }

                fn mask(pattern: u32, subpage: u32) -> Vec<bool> {
                    Mlx90640::pixels_in_subpage(subpage_of(subpage), pattern_of(pattern)).collect()
                }

                fn ranges(pattern: u32, subpage: u32) -> Vec<String> {
                    Mlx90640::pixel_ranges(subpage_of(subpage), pattern_of(pattern))
                        .map(|range| format!("{:?}", range))
                        .collect()
                }

                fn compensation_pixel(subpage: u32) -> u16 {
                    Mlx90640::compensation_pixel(subpage_of(subpage)).into()
                }

                fn resolution_correction(calibrated: u8, current: u8) -> Outcome<u32> {
                    outcome(|| Ok($krate::resolution_correction(calibrated, current).to_bits()))
                }

                fn addresses() -> Vec<u16> {
                    $crate::addresses!()
                }
            }
        }
    };
}

judge!(release, mlx9064x_release);
judge!(checked, mlx9064x_checked);

/// The original crate, release build: sums wrap.
pub type Release = mlx9064x_release::mlx90640::Mlx90640Calibration;
/// The original crate, built with overflow checks: sums that leave their type panic.
pub type Checked = mlx9064x_checked::mlx90640::Mlx90640Calibration;
