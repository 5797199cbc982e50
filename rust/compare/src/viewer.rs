//! A viewer's use of the calibration, compiled twice from one text: once for the original crate, once for the crate over this
//! library. Only the crate's name and what is done with an error differ. The images are ones on which no number differs.
use compare::images;
use compare::tally::{Held, Tally};

macro_rules! viewer {
    ($name:ident, $krate:ident, $correction:ident => $handled:expr) => {
        mod $name {
            use $krate::common::{Address, CalibrationData, MelexisCamera};
            use $krate::mlx90640::{Mlx90640, Mlx90640Calibration, RamAddress};
            use $krate::register::{AccessPattern, Subpage};

            /// What a viewer sees: numbers, floats by their bits, and the text of each range.
            #[derive(Default)]
            pub struct Seen {
                pub numbers: Vec<u32>,
                pub ranges: Vec<String>,
            }

            /// Generic over the calibration, as code written against the original crate's trait is.
            fn frame<'a, C: CalibrationData<'a>>(calibration: &'a C, raw: &[i16], all: &mut Seen) {
                let seen = &mut all.numbers;
                for subpage in [Subpage::Zero, Subpage::One] {
                    for pattern in [AccessPattern::Chess, AccessPattern::Interleave] {
                        let pixels = calibration
                            .offset_reference_pixels(subpage)
                            .zip(calibration.alpha_pixels(subpage))
                            .zip(calibration.k_v_pixels(subpage))
                            .zip(calibration.k_ta_pixels(subpage))
                            .zip(calibration.access_pattern_compensation_pixels(pattern))
                            .zip(C::Camera::pixels_in_subpage(subpage, pattern))
                            .zip(raw);
                        for ((((((offset, alpha), k_v), k_ta), correction), inside), raw) in pixels {
                            if !inside {
                                continue;
                            }
                            let mut value = f32::from(*raw) * calibration.gain() + correction.copied().unwrap_or(0.0);
                            value -= f32::from(*offset) * (1f32 + *k_ta * 14.0) * (1f32 + *k_v * 0.02);
                            seen.push((value * *alpha).to_bits());
                        }
                        let cp = calibration.access_pattern_compensation_cp(subpage, pattern).unwrap_or(0.0);
                        seen.push(cp.to_bits());
                        for range in C::Camera::pixel_ranges(subpage, pattern) {
                            all.ranges.push(format!("{:?}", range));
                        }
                    }
                    seen.push(calibration.alpha_cp(subpage).to_bits());
                    seen.push(calibration.offset_reference_cp(subpage) as u32);
                    seen.push(calibration.k_v_cp(subpage).to_bits());
                    seen.push(calibration.k_ta_cp(subpage).to_bits());
                    let address: Address = C::Camera::compensation_pixel(subpage);
                    seen.push(u32::from(u16::from(address)));
                }
            }

            pub fn view(image: &[u8], raw: &[i16]) -> Option<Seen> {
                let calibration = Mlx90640Calibration::from_data(image).ok()?;
                let mut all = Seen::default();
                frame(&calibration, raw, &mut all);
                let seen = &mut all.numbers;
                seen.push(calibration.k_v_dd() as u32);
                seen.push(calibration.v_dd_25() as u32);
                seen.push(calibration.v_dd_0().to_bits());
                seen.push(calibration.emissivity().is_some() as u32);
                for number in [
                    calibration.k_v_ptat(),
                    calibration.k_t_ptat(),
                    calibration.v_ptat_25(),
                    calibration.alpha_ptat(),
                    calibration.k_s_ta(),
                    calibration.temperature_gradient_coefficient().unwrap_or(0.0),
                ] {
                    seen.push(number.to_bits());
                }
                seen.extend(calibration.corner_temperatures().iter().map(|x| *x as u32));
                seen.extend(calibration.k_s_to().iter().map(|x| x.to_bits()));
                let $correction = Mlx90640::resolution_correction(calibration.resolution(), 3);
                seen.push($handled.to_bits());
                for address in [Mlx90640::T_A_V_BE, Mlx90640::T_A_PTAT, Mlx90640::GAIN, RamAddress::End.into()] {
                    seen.push(u32::from(u16::from(address)));
                }
                seen.push((Mlx90640::HEIGHT * Mlx90640::WIDTH + Mlx90640::NUM_PIXELS) as u32);
                Some(all)
            }
        }
    };
}

viewer!(original, mlx9064x_release, correction => correction);
viewer!(proved, mofuleka, correction => correction.ok()?);

pub fn run(tally: &mut Tally, seed: u64) {
    tally.part("one viewer, compiled for both crates");
    let mut numbers = images::Numbers::new(seed);
    for i in 0..200 {
        let image = images::lifelike(i);
        let raw: Vec<i16> = (0..768).map(|_| numbers.word() as i16).collect();
        tally.image(&image);
        match (proved::view(&image, &raw), original::view(&image, &raw)) {
            (Some(ours), Some(theirs)) => {
                tally.accepted();
                let (mine, must) = (ours.numbers.iter(), theirs.numbers.iter());
                tally.list(Held::Crate, |at| format!("lifelike image {}, number {}", i, at), mine, must);
                let (mine, must) = (ours.ranges.iter(), theirs.ranges.iter());
                tally.list(Held::Crate, |at| format!("lifelike image {}, range {}", i, at), mine, must);
            }
            _ => tally.different(Held::Crate, || format!("lifelike image {} is not accepted", i)),
        }
    }
}
