//! Every function and every refusal of the crate; short, empty and over-long slices. Explanations have a file of their
//! own.

// The floats that are compared here are exact, those that are converted have few enough bits, and blocks have at most 832 words.
#![allow(clippy::float_cmp, clippy::cast_precision_loss, clippy::cast_possible_truncation)]

use std::collections::HashSet;

use mofuleka::lent::{
    ALPHA_TABLE_BYTES, EXPLANATION_BYTES, GATHERING_BYTES, IMAGE_BYTES, K_TA_TABLE_BYTES, OFFSET_TABLE_BYTES,
    PIXEL_BYTES, RECORD_BYTES,
};
use mofuleka::{
    lent, place, sys, AccessPattern, Address, Calibration, Explanation, Gathering, Mlx90640, Pixel, RamAddress, Reason,
    Refusal, Status, Subpage, Table, Word,
};

const PIXELS: usize = Mlx90640::NUM_PIXELS;
const SUBPAGES: [Subpage; 2] = [Subpage::Zero, Subpage::One];
const PATTERNS: [AccessPattern; 2] = [AccessPattern::Interleave, AccessPattern::Chess];
/// The lengths of the four written slices.
const FULL: [usize; 4] = [OFFSET_TABLE_BYTES, ALPHA_TABLE_BYTES, K_TA_TABLE_BYTES, RECORD_BYTES];

/// An all-zero image with some words set, by address.
fn image(words: &[(usize, u16)]) -> Vec<u8> {
    let mut image = vec![0u8; IMAGE_BYTES];
    for (address, word) in words {
        image[2 * (address - 0x2400)..][..2].copy_from_slice(&word.to_be_bytes());
    }
    image
}

/// Number, table and place; where there is no table, 0.
fn parts(refusal: Refusal) -> (u8, u8, usize) {
    (refusal.number(), refusal.table().map_or(0, Table::number), refusal.place())
}

fn refusal(words: &[(usize, u16)]) -> (u8, u8, usize) {
    parts(Calibration::from_data(&image(words)).unwrap_err())
}

fn calibration(words: &[(usize, u16)]) -> Calibration {
    Calibration::from_data(&image(words)).unwrap()
}

/// A block of words.
fn block(first: u16, words: &[u16]) -> Vec<u8> {
    let mut block = (3 + 2 * words.len() as u16).to_be_bytes().to_vec();
    block.push(1);
    block.extend_from_slice(&first.to_be_bytes());
    for word in words {
        block.extend_from_slice(&word.to_be_bytes());
    }
    block
}

/// The words of an image.
fn words_of(image: &[u8]) -> Vec<u16> {
    image.chunks_exact(2).map(|b| u16::from_be_bytes([b[0], b[1]])).collect()
}

/// A gathering that holds every word of an image.
fn gathered(image: &[u8]) -> Gathering {
    let words = words_of(image);
    let mut gathering = Gathering::new();
    for first in (0..832).step_by(64) {
        gathering.accept(&block(first as u16, &words[first..first + 64])).unwrap();
    }
    gathering
}

#[test]
fn sizes_are_the_archives() {
    assert_eq!(lent::sizes(), [1664, 1536, 3072, 3072, 122, 2496, 10, 74]);
    let [offset, alpha, k_ta, record] = FULL;
    let others = [GATHERING_BYTES, PIXEL_BYTES, EXPLANATION_BYTES];
    assert_eq!(lent::sizes()[..], [&[IMAGE_BYTES, offset, alpha, k_ta, record][..], &others].concat());
}

#[test]
fn places_follow_each_other() {
    let fields = [
        (place::K_V_DD, 2),
        (place::V_DD_25, 2),
        (place::RESOLUTION, 1),
        (place::K_V_PTAT, 4),
        (place::K_T_PTAT, 4),
        (place::V_PTAT_25, 4),
        (place::ALPHA_PTAT, 4),
        (place::GAIN, 4),
        (place::K_S_TA, 4),
        (place::CORNER_TEMPERATURES, 4 * 2),
        (place::K_S_TO, 4 * 4),
        (place::ALPHA_CP, 2 * 4),
        (place::OFFSET_REFERENCE_CP, 2 * 2),
        (place::K_V_PATTERN, 4 * 4),
        (place::K_V_CP, 4),
        (place::K_TA_CP, 4),
        (place::TEMPERATURE_GRADIENT_PRESENT, 1),
        (place::TEMPERATURE_GRADIENT_COEFFICIENT, 4),
        (place::INTERLEAVE_CORRECTION_PIXELS, 6 * 4),
        (place::INTERLEAVE_CORRECTION_CP, 4),
    ];
    let end = fields.iter().fold(0, |end, (place, bytes)| {
        assert_eq!(*place, end);
        end + bytes
    });
    assert_eq!(end, RECORD_BYTES);
}

/// Calibrations with Kv and corrections that are all different, or negative, or zero with either sign.
fn patterned() -> Vec<Calibration> {
    let words = [(0x1234, 0x0841), (0xF8C1, 0xFA3D), (0x7F80, 0x0040), (0x0F1E, 0x2040), (0, 0), (0xFFFF, 0xFFFF)];
    let made = words.iter().map(|(k_v, correction)| calibration(&[(0x2434, *k_v), (0x2435, *correction)]));
    made.collect()
}

#[test]
fn k_v_of_every_pixel() {
    for c in patterned() {
        for subpage in SUBPAGES {
            let listed: Vec<u32> = c.k_v_pixels(subpage).map(|x| x.to_bits()).collect();
            assert_eq!(listed.len(), PIXELS);
            for (pixel, bits) in listed.iter().enumerate() {
                assert_eq!(c.k_v_pixel(pixel).map(f32::to_bits), Ok(*bits));
                assert_eq!(lent::k_v_pixel(c.record_bytes(), pixel).map(f32::to_bits), Ok(*bits));
            }
        }
    }
}

#[test]
fn corrections_of_every_pixel() {
    for c in patterned() {
        for pattern in PATTERNS {
            let bits = |x: f32| x.to_bits();
            let listed: Vec<Option<u32>> =
                c.access_pattern_compensation_pixels(pattern).map(|x| x.copied().map(bits)).collect();
            assert_eq!(listed.len(), PIXELS);
            for (pixel, listed) in listed.iter().enumerate() {
                let asked = c.access_pattern_compensation_pixel(pixel, pattern).unwrap();
                assert_eq!(asked.map(bits), *listed);
                let asked = lent::interleave_correction_pixel(c.record_bytes(), pattern as u32, pixel).unwrap();
                assert_eq!(asked.map(bits), *listed);
            }
        }
    }
}

#[test]
fn compensation_pixels_are_the_librarys() {
    let words = [(0x2435, 0xABCD), (0x2439, 0xE446), (0x243A, 0xFBB5), (0x2420, 0x79A6)];
    for c in [calibration(&words), calibration(&[])] {
        let record = c.record_bytes();
        for subpage in SUBPAGES {
            let number = subpage as u32;
            assert_eq!(lent::alpha_cp(record, number).map(f32::to_bits), Ok(c.alpha_cp(subpage).to_bits()));
            assert_eq!(lent::offset_reference_cp(record, number), Ok(c.offset_reference_cp(subpage)));
            for pattern in PATTERNS {
                let asked = lent::interleave_correction_cp(record, pattern as u32, number).unwrap();
                let given = c.access_pattern_compensation_cp(subpage, pattern);
                assert_eq!(asked.map(f32::to_bits), given.map(f32::to_bits));
            }
            assert_eq!(lent::compensation_pixel(number), Ok(Mlx90640::compensation_pixel(subpage).into()));
        }
    }
}

/// What an iterator over all pixels promises: its length, its end, each entry from both sides.
fn walks_all_pixels<I>(all: I)
where
    I: ExactSizeIterator + DoubleEndedIterator + std::iter::FusedIterator + Clone + std::fmt::Debug,
    I::Item: PartialEq + std::fmt::Debug,
{
    let listed: Vec<I::Item> = all.clone().collect();
    assert_eq!((listed.len(), all.len()), (PIXELS, PIXELS));
    for (pixel, entry) in listed.iter().enumerate() {
        assert_eq!(all.clone().nth(pixel).as_ref(), Some(entry));
    }
    assert_eq!(all.clone().nth(PIXELS), None);
    assert!(all.clone().rev().eq(listed.into_iter().rev()));
    let mut rest = all;
    assert!(rest.next().is_some() && rest.next_back().is_some() && rest.nth(PIXELS - 4).is_some());
    assert_eq!((rest.len(), rest.size_hint()), (1, (1, Some(1))));
    assert!(rest.next().is_some() && rest.next().is_none() && rest.next().is_none() && rest.next_back().is_none());
    assert!(!format!("{rest:?}").is_empty());
}

#[test]
fn iterators() {
    let c = calibration(&[(0x2434, 0x1234), (0x2435, 0x0841)]);
    walks_all_pixels(c.k_v_pixels(Subpage::One));
    walks_all_pixels(c.access_pattern_compensation_pixels(AccessPattern::Interleave));
    walks_all_pixels(c.access_pattern_compensation_pixels(AccessPattern::Chess));
    walks_all_pixels(c.offset_reference_pixels(Subpage::Zero));
}

#[test]
fn zero_image() {
    let c = calibration(&[]);
    assert_eq!((c.k_v_dd(), c.v_dd_25(), c.resolution()), (0, -16384, 0));
    for zero in [c.k_v_ptat(), c.k_t_ptat(), c.v_ptat_25(), c.gain(), c.k_s_ta()] {
        assert_eq!(zero.to_bits(), 0);
    }
    assert_eq!(c.alpha_ptat(), 8.0);
    assert_eq!(c.v_dd_0(), 3.3);
    assert_eq!(c.emissivity(), None);
    assert_eq!(c.corner_temperatures(), [-40, 0, 0, 0]);
    assert_eq!(c.k_s_to(), [0.0; 4]);
    for subpage in [Subpage::Zero, Subpage::One] {
        assert_eq!(c.alpha_cp(subpage).to_bits(), 0);
        assert_eq!(c.offset_reference_cp(subpage), 0);
        assert_eq!(c.k_v_cp(subpage).to_bits(), 0);
        assert_eq!(c.k_ta_cp(subpage).to_bits(), 0);
        assert!(c.offset_reference_pixels(subpage).all(|x| *x == 0));
        assert!(c.alpha_pixels(subpage).all(|x| x.to_bits() == 0));
        assert!(c.k_ta_pixels(subpage).all(|x| x.to_bits() == 0));
        assert!(c.k_v_pixels(subpage).all(|x| x.to_bits() == 0));
        assert_eq!(c.offset_reference_pixels(subpage).len(), 768);
        assert_eq!(c.alpha_pixels(subpage).len(), 768);
        assert_eq!(c.k_ta_pixels(subpage).len(), 768);
        assert_eq!(c.k_v_pixels(subpage).len(), 768);
    }
    assert_eq!(c.temperature_gradient_coefficient(), None);
    let corrections: Vec<_> = c.access_pattern_compensation_pixels(AccessPattern::Interleave).collect();
    assert_eq!(corrections.len(), 768);
    let bits: Vec<u32> = corrections.iter().map(|x| x.unwrap().to_bits()).collect();
    assert_eq!(bits[..4], [0x8000_0000, 0, 0x8000_0000, 0x8000_0000]);
    assert_eq!(bits[32..36], [0, 0x8000_0000, 0, 0]);
    assert!(c.access_pattern_compensation_pixels(AccessPattern::Chess).all(|x| x.is_none()));
    assert_eq!(c.access_pattern_compensation_pixels(AccessPattern::Chess).len(), 768);
    assert_eq!(c.record_bytes()[place::TEMPERATURE_GRADIENT_PRESENT], 0);
}

#[test]
fn alpha_ptat_in_quarter_steps() {
    for nibble in 0..16u16 {
        assert_eq!(calibration(&[(0x2410, nibble << 12)]).alpha_ptat(), f32::from(32 + nibble) / 4.0);
    }
}

#[test]
fn readings() {
    let c = calibration(&[(0x2433, 0x9D68)]);
    assert_eq!((c.k_v_dd(), c.v_dd_25()), (-3168, -13056));
    let c = calibration(&[(0x2410, 0x0F00), (0x2412, 0x000F)]);
    assert!(c.offset_reference_pixels(Subpage::Zero).take(32).all(|x| *x == -32768));
    let c = calibration(&[(0x2410, 0x4210), (0x2411, 0xFFC0), (0x2412, 0x000F), (0x2418, 0x0007), (0x2440, 0xFC0E)]);
    assert_eq!(c.offset_reference_pixels(Subpage::Zero).next(), Some(&-55));
    assert_eq!(c.alpha_ptat(), 9.0);
    let c = calibration(&[(0x2420, 0x7000), (0x2421, 0x2000)]);
    assert_eq!(c.alpha_pixels(Subpage::One).next().unwrap().to_bits(), 0x3380_0000);
    let c = calibration(&[(0x2436, 0x0500), (0x2438, 0x2001), (0x2440, 0xFC0E)]);
    assert_eq!(c.k_ta_pixels(Subpage::One).next().unwrap().to_bits(), 0x3C40_0000);
    assert_eq!(c.resolution(), 2);
    assert_eq!(calibration(&[(0x243C, 0x00FF)]).temperature_gradient_coefficient(), Some(-1.0 / 32.0));
    assert_eq!(calibration(&[(0x243C, 0x0080)]).temperature_gradient_coefficient(), Some(-4.0));
    let c = calibration(&[(0x2435, 0x0841)]);
    let row = |first: usize| -> Vec<f32> {
        c.access_pattern_compensation_pixels(AccessPattern::Interleave)
            .skip(first)
            .take(4)
            .map(|x| *x.unwrap())
            .collect()
    };
    assert_eq!(row(0), [-0.125, 0.375, -0.125, -0.625]);
    assert_eq!(row(32), [0.125, -0.375, 0.125, 0.625]);
    assert_eq!(c.access_pattern_compensation_cp(Subpage::One, AccessPattern::Interleave), Some(0.0625));
    assert_eq!(c.access_pattern_compensation_cp(Subpage::Zero, AccessPattern::Interleave), None);
    assert_eq!(c.access_pattern_compensation_cp(Subpage::One, AccessPattern::Chess), None);
    assert_eq!(c.access_pattern_compensation_cp(Subpage::Zero, AccessPattern::Chess), None);
    assert_eq!(c.access_pattern_compensation_pixel(3, AccessPattern::Interleave), Ok(Some(-0.625)));
    assert_eq!(c.access_pattern_compensation_pixel(3, AccessPattern::Chess), Ok(None));
    assert_eq!(calibration(&[(0x243F, 0x2363)]).corner_temperatures(), [-40, 0, 120, 180]);
    assert_eq!(calibration(&[(0x243F, 0x0FF0)]).corner_temperatures(), [-40, 0, 0, 0]);
}

#[test]
fn other_fields() {
    // The datasheet's worked example.
    let c = calibration(&[
        (0x2420, 0x79A6),
        (0x2430, 0x18EF),
        (0x2431, 0x2FF1),
        (0x2432, 0x5952),
        (0x2434, 0x5454),
        (0x2438, 0x2363),
        (0x2439, 0xE446),
        (0x243A, 0xFBB5),
        (0x243B, 0x044B),
        (0x243C, 0xF020),
        (0x243D, 0x9797),
        (0x243F, 0x0009),
    ]);
    assert_eq!(c.gain(), 6383.0);
    assert_eq!(c.v_ptat_25(), 12273.0);
    assert_eq!(c.k_v_ptat(), 22.0 / 4096.0);
    assert_eq!(c.k_t_ptat(), 42.25);
    assert_eq!(c.alpha_cp(Subpage::Zero), 70.0 / (1u64 << 34) as f32);
    assert_eq!(c.alpha_cp(Subpage::One), 70.0 * 121.0 / (1u64 << 41) as f32);
    assert_eq!((c.offset_reference_cp(Subpage::Zero), c.offset_reference_cp(Subpage::One)), (-75, -77));
    assert_eq!(c.k_v_cp(Subpage::Zero), 0.5);
    assert_eq!(c.k_ta_cp(Subpage::Zero), 75.0 / 16384.0);
    assert_eq!(c.k_s_ta(), -16.0 / 8192.0);
    assert_eq!(c.temperature_gradient_coefficient(), Some(1.0));
    assert_eq!(c.k_s_to()[..2], [-105.0 / 131_072.0; 2]);
    let k_v: Vec<f32> = c.k_v_pixels(Subpage::Zero).copied().collect();
    assert_eq!((k_v[0], k_v[32], k_v[1], k_v[33]), (0.625, 0.5, 0.625, 0.5));
    for (pixel, value) in k_v.iter().enumerate() {
        assert_eq!(c.k_v_pixel(pixel), Ok(*value));
    }
}

#[test]
fn image_refusals() {
    for short in [0, 1, 830, 831, 1662, IMAGE_BYTES - 1] {
        let refusal = Calibration::from_data(&vec![0; short]).unwrap_err();
        assert_eq!(parts(refusal), (1, 0, 0));
        assert_eq!(refusal.reason(), Reason::ImageLength);
        assert_eq!(refusal.table(), None);
    }
    assert_eq!(refusal(&[(0x2410, 0x0F00), (0x2412, 0x0001)]), (3, 0, 0));
    assert_eq!(refusal(&[(0x2410, 0x0F00), (0x2412, 0x0002)]), (3, 0, 0));
    assert_eq!(refusal(&[(0x2411, 0x7FFF), (0x2413, 0x0010)]), (4, 0, 160));
    assert_eq!(refusal(&[(0x2420, 0x00F0), (0x2429, 0x0010)]), (3, 1, 5));
    assert_eq!(refusal(&[(0x2411, 0x8000), (0x2418, 0xF000)]), (4, 0, 3));
    assert_eq!(refusal(&[(0x2438, 0x000F), (0x2440 + 767, 0x0002)]), (3, 2, 767));
    assert_eq!(refusal(&[(0x2436, 0xFF00), (0x2438, 0x000D), (0x2442, 0x0008)]), (4, 2, 2));
}

#[test]
fn tables_by_name() {
    let table = |words: &[(usize, u16)]| Calibration::from_data(&image(words)).unwrap_err().table();
    assert_eq!(table(&[(0x2411, 0x7FFF), (0x2413, 0x0010)]), Some(Table::Offset));
    assert_eq!(table(&[(0x2420, 0x00F0), (0x2429, 0x0010)]), Some(Table::Alpha));
    assert_eq!(table(&[(0x2438, 0x000F), (0x2440, 0x0002)]), Some(Table::Kta));
    for (number, table) in [Table::Offset, Table::Alpha, Table::Kta].into_iter().enumerate() {
        assert_eq!((usize::from(table.number()), table as usize), (number, number));
    }
}

/// Some words that are the same, after the first ones.
fn and_all(first: &[(usize, u16)], runs: &[(usize, usize, u16)]) -> Vec<(usize, u16)> {
    let mut words = first.to_vec();
    for (from, to, word) in runs {
        words.extend((*from..*to).map(|address| (address, *word)));
    }
    words
}

#[test]
fn sums_that_come_back() {
    // Outside with the row, above and below, and back with the column.
    let above = and_all(&[(0x2411, 0x7FFF)], &[(0x2412, 0x2418, 0x1111), (0x2418, 0x2420, 0xFFFF)]);
    assert!(calibration(&above).offset_reference_pixels(Subpage::Zero).all(|x| *x == 32767));
    let below = and_all(&[(0x2411, 0x8000)], &[(0x2412, 0x2418, 0xFFFF), (0x2418, 0x2420, 0x1111)]);
    assert!(calibration(&below).offset_reference_pixels(Subpage::Zero).all(|x| *x == -32768));
    // Row 0 is outside until its remainders come in: with them, without the last of them, and with a remainder term that
    // would bring the sum back but is outside itself.
    let row_0 = and_all(&[(0x2411, 0x7FFF), (0x2412, 0x0001)], &[(0x2440, 0x2460, 0xFC00)]);
    assert!(calibration(&row_0).offset_reference_pixels(Subpage::Zero).all(|x| *x == 32767));
    assert_eq!(refusal(&row_0[..row_0.len() - 1]), (4, 0, 31));
    assert_eq!(refusal(&[(0x2410, 0x000B), (0x2411, 0x7FFF), (0x2412, 0x0001), (0x2440, 0xBC00)]), (3, 0, 0));
    // One that stays outside.
    assert_eq!(refusal(&[(0x2411, 0x7FFF), (0x2413, 0x0010)]), (4, 0, 160));
    // In a pixel every term comes before the sum.
    assert_eq!(refusal(&[(0x2410, 0x00F0), (0x2411, 0x7FFF), (0x2412, 1), (0x2418, 1)]), (3, 0, 0));
    assert_eq!(refusal(&[(0x2410, 0x00F0), (0x2411, 0x7FFF), (0x2412, 1), (0x2418, 0x0010)]), (4, 0, 0));
}

#[test]
fn alpha_past_16_bits() {
    let alpha = |words: &[(usize, u16)], pixel: usize| {
        calibration(words).alpha_pixels(Subpage::Zero).nth(pixel).copied().unwrap()
    };
    let over = |numerator: f32, exponent: i32| numerator / 2f32.powi(exponent);
    assert_eq!(alpha(&[(0x2421, 0x7FFF), (0x2422, 0x0001)], 0), over(32768.0, 30));
    assert_eq!(alpha(&[(0x2421, 0x8000), (0x2428, 0xF000)], 3), over(-32769.0, 30));
    // The largest numerator and the smallest: 32767 + 28672 + 28672 + 31744, and four times -32768.
    let largest = [(0x2420, 0x0CCA), (0x2421, 0x7FFF), (0x2422, 0x0007), (0x2428, 0x0007), (0x2440, 0x01F0)];
    assert_eq!(alpha(&largest, 0), over(121_855.0, 30));
    let smallest = [(0x2420, 0xFCCA), (0x2421, 0x8000), (0x2427, 0x8000), (0x242F, 0x8000), (0x273F, 0x0200)];
    assert_eq!(alpha(&smallest, 767), over(-131_072.0, 45));
    assert_eq!(alpha(&smallest, 766), over(-65536.0, 45));
}

#[test]
fn words_that_are_not_read() {
    let mut changed = image(&[(0x2433, 0x9D68)]);
    let plain = Calibration::from_data(&changed).unwrap();
    changed[..32].iter_mut().for_each(|byte| *byte = 0xA5);
    let other = Calibration::from_data(&changed).unwrap();
    assert_eq!(plain, other);
    assert_eq!(plain, plain.clone());
    assert_ne!(plain, calibration(&[]));
    assert!(format!("{plain:?}").contains("k_v_dd: -3168"));
    let slice: &[u8] = &changed;
    assert!(Calibration::try_from(slice).is_ok());
}

#[test]
fn lent_slices() {
    // Each of the four written slices short by one, or empty: refusal 2, and no byte of any slice is touched.
    let good = image(&[(0x2411, 0x1234)]);
    for which in 0..4 {
        for len in [0, FULL[which] - 1] {
            let mut lens = FULL;
            lens[which] = len;
            let mut slices: Vec<Vec<u8>> = lens.iter().map(|len| vec![0x5A; *len]).collect();
            let (a, b) = slices.split_at_mut(2);
            let (offset, alpha) = a.split_at_mut(1);
            let (k_ta, record) = b.split_at_mut(1);
            let refusal =
                lent::from_data(&good, &mut offset[0], &mut alpha[0], &mut k_ta[0], &mut record[0]).unwrap_err();
            assert_eq!(parts(refusal), (2, 0, 0));
            let gathering = gathered(&good);
            let refusal = lent::gathering_from_data(
                gathering.as_bytes(),
                &mut offset[0],
                &mut alpha[0],
                &mut k_ta[0],
                &mut record[0],
            )
            .unwrap_err();
            assert_eq!(parts(refusal), (2, 0, 0));
            assert!(slices.iter().all(|slice| slice.iter().all(|byte| *byte == 0x5A)));
        }
    }
    // Over-long slices keep the bytes past their layout; the refusal of an image's length comes before that of a short slice.
    let mut long: Vec<Vec<u8>> = FULL.iter().map(|len| vec![0x5A; len + 9]).collect();
    let (a, b) = long.split_at_mut(2);
    let (offset, alpha) = a.split_at_mut(1);
    let (k_ta, record) = b.split_at_mut(1);
    lent::from_data(&good, &mut offset[0], &mut alpha[0], &mut k_ta[0], &mut record[0]).unwrap();
    assert_eq!(offset[0][..2], [0x12, 0x34]);
    for (slice, len) in [&offset[0], &alpha[0], &k_ta[0], &record[0]].iter().zip(FULL) {
        assert!(slice[len..].iter().all(|byte| *byte == 0x5A));
    }
    let refusal = lent::from_data(&good[..IMAGE_BYTES - 1], &mut [], &mut [], &mut [], &mut []).unwrap_err();
    assert_eq!(refusal.number(), 1);
    // A refused image leaves them alone too.
    let bad = image(&[(0x2411, 0x7FFF), (0x2413, 0x0010)]);
    let before = long.clone();
    let (a, b) = long.split_at_mut(2);
    let (offset, alpha) = a.split_at_mut(1);
    let (k_ta, record) = b.split_at_mut(1);
    let refusal = lent::from_data(&bad, &mut offset[0], &mut alpha[0], &mut k_ta[0], &mut record[0]).unwrap_err();
    assert_eq!(parts(refusal), (4, 0, 160));
    assert_eq!(long, before);
}

/// Every length but an image's and a page's is refused, and a page is what its first 1,664 bytes are, whatever follows there.
#[test]
fn lengths_of_images() {
    let head = image(&[(0x2430, 0x18EF), (0x2411, 0x1234)]);
    let whole = Calibration::from_data(&head).unwrap();
    for tail in [0x00, 0xFF] {
        let mut long = head.to_vec();
        long.resize(2 * IMAGE_BYTES, tail);
        for len in 0..=long.len() {
            let answer = Calibration::from_data(&long[..len]).map_err(parts);
            let expected = if [IMAGE_BYTES, 2048].contains(&len) { Ok(&whole) } else { Err((1, 0, 0)) };
            assert_eq!(answer.as_ref().map_err(|refusal| *refusal), expected, "{len} bytes");
            let single = Pixel::from_data(&long[..len], 5).map_err(parts);
            assert_eq!(single, expected.map(|whole| whole.pixel(5).unwrap()), "a pixel of {len} bytes");
        }
    }
    // Two heads' dumps joined by mistake are no image.
    let joined = [head, image(&[])].concat();
    assert_eq!(Calibration::from_data(&joined).unwrap_err().reason(), Reason::ImageLength);
}

#[test]
fn blocks() {
    let mut g = Gathering::new();
    assert_eq!(g, Gathering::fresh());
    assert_eq!(g, Gathering::default());
    let mut bytes = [0x5A; GATHERING_BYTES];
    lent::gathering_fresh(&mut bytes).unwrap();
    assert_eq!(g.as_bytes(), &bytes);
    assert_eq!(g.status(), Status { missing: 832, in_conflict: 0 });
    let before = g.clone();
    let number = |g: &mut Gathering, block: &[u8]| g.accept(block).unwrap_err().number();
    assert_eq!(number(&mut g, &[]), 5);
    assert_eq!(number(&mut g, &[0]), 5);
    assert_eq!(number(&mut g, &[0, 5, 1, 0, 0, 0]), 5);
    assert_eq!(number(&mut g, &[0, 5, 1, 0, 0, 0, 0, 0]), 5);
    assert_eq!(number(&mut g, &[0, 0]), 6);
    assert_eq!(number(&mut g, &[0, 3, 1, 0, 0]), 6);
    assert_eq!(number(&mut g, &[0, 6, 1, 0, 0, 0, 0, 0]), 6);
    assert_eq!(number(&mut g, &block(0, &[0; 65])), 6);
    let mut version = block(0, &[7]);
    version[2] = 2;
    assert_eq!(number(&mut g, &version), 7);
    assert_eq!(number(&mut g, &[0, 7, 1, 3, 0x3F, 0x12, 0x34, 0x56, 0x78]), 8);
    assert_eq!(number(&mut g, &block(832, &[0])), 8);
    assert_eq!(number(&mut g, &block(0xFFFF, &[0])), 8);
    assert_eq!(g, before);
    g.accept(&[0, 5, 1, 3, 0x3F, 0xAB, 0xCD]).unwrap();
    assert_eq!(g.word(831), Ok(Word::Held(0xABCD)));
    assert_eq!(g.word(830), Ok(Word::Missing));
    assert_eq!(g.word(832).unwrap_err().number(), 11);
    assert_eq!(g.word(usize::MAX).unwrap_err().number(), 11);
    g.accept(&block(831, &[0xABCD])).unwrap();
    assert_eq!(g.word(831), Ok(Word::Held(0xABCD)));
    g.accept(&block(830, &[1, 2])).unwrap();
    assert_eq!((g.word(830), g.word(831)), (Ok(Word::Held(1)), Ok(Word::InConflict)));
    assert_eq!(g.status(), Status { missing: 830, in_conflict: 1 });
    assert!(!g.status().is_full());
    g.accept(&block(831, &[0xABCD])).unwrap();
    assert_eq!(g.word(831), Ok(Word::InConflict));
    assert_eq!(format!("{g:?}"), "Gathering { missing: 830, in_conflict: 1, .. }");
}

#[test]
fn merges() {
    let (mut a, mut b) = (Gathering::new(), Gathering::new());
    a.accept(&block(0, &[1, 2, 3])).unwrap();
    b.accept(&block(1, &[2, 4, 5])).unwrap();
    let mut both = a.clone();
    both.merge(&b);
    let mut other = b.clone();
    other.merge(&a);
    assert_eq!(both, other);
    let words: Vec<Word> = (0..5).map(|word| both.word(word).unwrap()).collect();
    assert_eq!(words, [Word::Held(1), Word::Held(2), Word::InConflict, Word::Held(5), Word::Missing]);
    both.merge(&Gathering::new());
    assert_eq!(both, other);
}

#[test]
fn gathered_images() {
    let bytes = image(&[(0x2410, 0x4210), (0x2433, 0x9D68), (0x2440, 0xFC0E)]);
    let mut full = gathered(&bytes);
    assert!(full.status().is_full());
    assert_eq!(full.calibration().unwrap(), Calibration::from_data(&bytes).unwrap());
    full.accept(&block(700, &[9])).unwrap();
    full.accept(&block(17, &[9])).unwrap();
    assert_eq!(parts(full.calibration().unwrap_err()), (9, 0, 17));
    let mut lacking = Gathering::new();
    lacking.accept(&block(0, &[0; 20])).unwrap();
    assert_eq!(parts(lacking.calibration().unwrap_err()), (10, 0, 20));
    let bad = gathered(&image(&[(0x2411, 0x7FFF), (0x2413, 0x0010)]));
    assert_eq!(parts(bad.calibration().unwrap_err()), (4, 0, 160));
}

#[test]
fn stored_gatherings() {
    assert_eq!(Gathering::from_bytes(&[0; GATHERING_BYTES - 1]).unwrap_err().number(), 2);
    assert_eq!(Gathering::from_bytes(&[]).unwrap_err().number(), 2);
    assert_eq!(Gathering::from_bytes(&[0; 2600]).unwrap(), Gathering::new());
    // A state that no history gives: unknown marks, and values beside missing and in conflict.
    let mut bytes = [0u8; GATHERING_BYTES];
    let marks = 2 * Gathering::WORDS;
    bytes[..6].copy_from_slice(&[1, 2, 3, 4, 5, 6]);
    bytes[marks..marks + 3].copy_from_slice(&[0, 2, 77]);
    let mut odd = Gathering::from_bytes(&bytes).unwrap();
    assert_eq!(odd.as_bytes()[..], bytes[..]);
    assert_eq!(odd.status(), Status { missing: 830, in_conflict: 2 });
    assert_eq!(odd.word(0), Ok(Word::Missing));
    assert_eq!(odd.word(2), Ok(Word::InConflict));
    assert_eq!(lent::gathering_word(&bytes, 2), Ok((2, 0)));
    assert!(odd.accept(&[]).is_err());
    assert_eq!(odd.as_bytes()[..], bytes[..]);
    odd.accept(&block(831, &[1])).unwrap();
    assert_eq!(odd.as_bytes()[..6], [0; 6]);
    assert_eq!(odd.as_bytes()[marks..marks + 3], [0, 2, 2]);
    let mut merged = Gathering::from_bytes(&bytes).unwrap();
    merged.merge(&Gathering::new());
    assert_eq!(merged.as_bytes()[..6], [0; 6]);
    assert_eq!(merged.as_bytes()[marks..marks + 3], [0, 2, 2]);
    let slice: &[u8] = &bytes;
    assert!(Gathering::try_from(slice).is_ok());
}

#[test]
fn short_and_long_gatherings() {
    let good = block(0, &[1]);
    for len in [0, 1, GATHERING_BYTES - 1] {
        let mut bytes = vec![0x5A; len];
        assert_eq!(lent::gathering_fresh(&mut bytes).unwrap_err().number(), 2);
        assert_eq!(lent::gathering_accept(&mut bytes, &good).unwrap_err().number(), 2);
        assert_eq!(lent::gathering_accept(&mut bytes, &[]).unwrap_err().number(), 2);
        assert_eq!(lent::gathering_merge(&mut bytes, &[0; GATHERING_BYTES]).unwrap_err().number(), 2);
        assert_eq!(lent::gathering_status(&bytes).unwrap_err().number(), 2);
        assert_eq!(lent::gathering_word(&bytes, 0).unwrap_err().number(), 2);
        assert_eq!(lent::gathering_word(&bytes, 832).unwrap_err().number(), 11);
        let refusal = lent::gathering_from_data(&bytes, &mut [], &mut [], &mut [], &mut []).unwrap_err();
        assert_eq!(refusal.number(), 2);
        assert!(bytes.iter().all(|byte| *byte == 0x5A));
        let mut first = vec![0x5A; GATHERING_BYTES];
        assert_eq!(lent::gathering_merge(&mut first, &bytes).unwrap_err().number(), 2);
        assert!(first.iter().all(|byte| *byte == 0x5A));
    }
    // 9 and 10 come before a short table.
    let fresh = Gathering::new();
    let refusal = lent::gathering_from_data(fresh.as_bytes(), &mut [], &mut [], &mut [], &mut []).unwrap_err();
    assert_eq!(parts(refusal), (10, 0, 0));
    // Over-long ones keep their rest.
    let mut long = vec![0x5A; GATHERING_BYTES + 4];
    lent::gathering_fresh(&mut long).unwrap();
    assert!(long[..GATHERING_BYTES].iter().all(|byte| *byte == 0) && long[GATHERING_BYTES..] == [0x5A; 4]);
    lent::gathering_accept(&mut long, &good).unwrap();
    let other = long.clone();
    lent::gathering_merge(&mut long, &other).unwrap();
    assert!(long[GATHERING_BYTES..] == [0x5A; 4]);
    assert_eq!(lent::gathering_status(&long), Ok((831, 0)));
    assert_eq!(lent::gathering_word(&long, 0), Ok((1, 1)));
}

/// An accepted image in which rows, columns and remainders differ.
fn varied() -> Vec<u8> {
    let mut words = vec![(0x2410, 0x4321), (0x2411, 0xFFBB), (0x2420, 0x7654), (0x2421, 0x2F44)];
    words.extend([(0x2436, 0x5F35), (0x2437, 0x81C7), (0x2438, 0x2363)]);
    words.extend((0x2412..0x2420).chain(0x2422..0x2430).map(|address| (address, (address * 0x9E37) as u16)));
    words.extend((0x2440..0x2740).map(|address| (address, (address * 0x6A4F) as u16)));
    image(&words)
}

/// The numbers of the words that a pixel needs, rising.
fn needed(pixel: usize) -> [usize; 11] {
    let (rows, columns, average) = (pixel / 32 / 4, pixel % 32 / 4, pixel % 2);
    let [offset, alpha] = [(0x12 + rows, 0x18 + columns), (0x22 + rows, 0x28 + columns)];
    [0x10, 0x11, offset.0, offset.1, 0x20, 0x21, alpha.0, alpha.1, 0x36 + average, 0x38, 0x40 + pixel]
}

#[test]
fn one_pixel_of_an_accepted_image() {
    let bytes = varied();
    let mut page = bytes.clone();
    page.resize(2048, 0xEE);
    let (whole, full) = (Calibration::from_data(&bytes).unwrap(), gathered(&bytes));
    let ask = |pixel| {
        let [image, page] = [&bytes, &page].map(|input| Pixel::from_data(input, pixel));
        [image, page, full.pixel(pixel), whole.pixel(pixel)]
    };
    let offsets = whole.offset_reference_pixels(Subpage::Zero);
    let floats = whole.alpha_pixels(Subpage::Zero).zip(whole.k_ta_pixels(Subpage::Zero));
    for (pixel, (offset, (alpha, k_ta))) in offsets.zip(floats).enumerate() {
        for answer in ask(pixel) {
            let answer = answer.map(|p| (p.offset, p.alpha.to_bits(), p.k_ta.to_bits()));
            assert_eq!(answer, Ok((*offset, alpha.to_bits(), k_ta.to_bits())), "pixel {pixel}");
        }
    }
    for past in [768, 65536, usize::MAX] {
        assert_eq!(ask(past).map(|answer| answer.map_err(parts)), [Err((11, 0, 0)); 4]);
    }
}

/// Row 5 alone is at fault, of which the decoder names the first pixel.
#[test]
fn one_pixel_of_a_refused_image() {
    let bytes = image(&[(0x2411, 0x7FFF), (0x2413, 0x0010)]);
    assert_eq!(parts(Calibration::from_data(&bytes).unwrap_err()), (4, 0, 160));
    let full = gathered(&bytes);
    for pixel in 0..PIXELS {
        let expected = match pixel / 32 {
            5 => Err((4, 0, pixel)),
            _ => Ok(Pixel { offset: 32767, alpha: 0.0, k_ta: 0.0 }),
        };
        assert_eq!(Pixel::from_data(&bytes, pixel).map_err(parts), expected);
        assert_eq!(full.pixel(pixel).map_err(parts), expected);
    }
}

#[test]
fn faults_of_one_pixel_in_order() {
    // In pixel 33 a term of each table is outside 16 bits, and so is each sum. They are cured one after the other.
    let mut words = vec![(0x2410, 0x000B), (0x2411, 0x7FFF), (0x2420, 0x000B), (0x2421, 0x7FFF)];
    words.extend([(0x2437, 0x00FF), (0x2438, 0x000E), (0x2440 + 33, 0x4108)]);
    for (number, table, cure) in [
        (3, 0, (0x2410, 0x000A)),
        (4, 0, (0x2411, 0x0000)),
        (3, 1, (0x2420, 0x000A)),
        (3, 2, (0x2438, 0x000D)),
        (4, 2, (0x2437, 0x0000)),
    ] {
        let bytes = image(&words);
        assert_eq!(Pixel::from_data(&bytes, 33).map_err(parts), Err((number, table, 33)));
        assert_eq!(gathered(&bytes).pixel(33).map_err(parts), Err((number, table, 33)));
        words.push(cure);
    }
    // Alpha's sum is still outside, which is no fault.
    let alpha = (32767.0 + 16384.0) / 2f32.powi(30);
    assert_eq!(Pixel::from_data(&image(&words), 33), Ok(Pixel { offset: 16384, alpha, k_ta: -128.0 }));
}

#[test]
fn one_pixel_of_a_gathering() {
    let bytes = varied();
    let words = words_of(&bytes);
    for pixel in [0, 33, 383, 767] {
        let expected = Pixel::from_data(&bytes, pixel).map_err(parts);
        // The words that it needs come one after the other, and then each once more with another value.
        let mut gathering = Gathering::new();
        for word in needed(pixel) {
            assert_eq!(gathering.pixel(pixel).map_err(parts), Err((10, 0, word)));
            gathering.accept(&block(word as u16, &[words[word]])).unwrap();
        }
        assert_eq!(gathering.pixel(pixel).map_err(parts), expected);
        for word in needed(pixel).into_iter().rev() {
            gathering.accept(&block(word as u16, &[!words[word]])).unwrap();
            assert_eq!(gathering.pixel(pixel).map_err(parts), Err((9, 0, word)));
        }
        // Every other word in conflict.
        let mut others = Gathering::from_bytes(gathered(&bytes).as_bytes()).unwrap();
        for word in (0..Gathering::WORDS).filter(|word| !needed(pixel).contains(word)) {
            others.accept(&block(word as u16, &[!words[word]])).unwrap();
        }
        assert_eq!(others.status(), Status { missing: 0, in_conflict: 821 });
        assert_eq!(others.pixel(pixel).map_err(parts), expected);
    }
    // A word in conflict is named before a lower one that is missing.
    let mut both = Gathering::new();
    both.accept(&block(0x38, &[1])).unwrap();
    both.accept(&block(0x38, &[2])).unwrap();
    assert_eq!(both.pixel(0).map_err(parts), Err((9, 0, 0x38)));
}

#[test]
fn one_pixel_of_a_stored_gathering() {
    let bytes = varied();
    let full = *gathered(&bytes).as_bytes();
    for (mark, number) in [(0, 10), (2, 9), (3, 9), (255, 9)] {
        let mut stored = full;
        stored[2 * Gathering::WORDS + 0x40] = mark;
        let stored = Gathering::from_bytes(&stored).unwrap();
        assert_eq!(stored.pixel(0).map_err(parts), Err((number, 0, 0x40)));
        assert_eq!(stored.pixel(1), Pixel::from_data(&bytes, 1));
    }
}

#[test]
fn slices_of_one_pixel() {
    let (good, bad) = (varied(), image(&[(0x2438, 0x000F), (0x2440, 0x0002)]));
    let (full, fresh) = (gathered(&bad), Gathering::new());
    for len in 0..13 {
        let is_short = len < PIXEL_BYTES;
        let unless_short = |number| if is_short { 2 } else { number };
        let mut out = vec![0x5A; len];
        let mut of_image = |image: &[u8], pixel| lent::pixel(image, pixel, &mut out).unwrap_err().number();
        assert_eq!(of_image(&good[..IMAGE_BYTES - 1], 768), 1);
        assert_eq!(of_image(&good, 768), 11);
        assert_eq!(of_image(&bad, 0), unless_short(3));
        let mut of_stored = |bytes: &[u8], pixel| lent::gathering_pixel(bytes, pixel, &mut out).unwrap_err().number();
        assert_eq!(of_stored(&full.as_bytes()[1..], 768), 11);
        assert_eq!(of_stored(&full.as_bytes()[1..], 767), 2);
        assert_eq!(of_stored(fresh.as_bytes(), 767), unless_short(10));
        assert_eq!(of_stored(full.as_bytes(), 0), unless_short(3));
        assert!(out.iter().all(|byte| *byte == 0x5A));
        assert_eq!(lent::pixel(&good, 767, &mut out).is_err(), is_short);
        assert_eq!(lent::gathering_pixel(full.as_bytes(), 767, &mut out).is_err(), is_short);
        assert!(out.iter().skip(PIXEL_BYTES).all(|byte| *byte == 0x5A));
    }
}

#[test]
fn masks() {
    for pattern in [AccessPattern::Interleave, AccessPattern::Chess] {
        let zero: Vec<bool> = Mlx90640::pixels_in_subpage(Subpage::Zero, pattern).collect();
        let one: Vec<bool> = Mlx90640::pixels_in_subpage(Subpage::One, pattern).collect();
        assert_eq!((zero.len(), one.len()), (768, 768));
        for pixel in 0..768 {
            let (row, column) = (pixel / 32, pixel % 32);
            let expected = match pattern {
                AccessPattern::Interleave => row % 2 == 0,
                AccessPattern::Chess => row % 2 == column % 2,
            };
            assert_eq!((zero[pixel], one[pixel]), (expected, !expected));
            assert_eq!(Mlx90640::pixel_in_subpage(Subpage::Zero, pattern, pixel), Ok(expected));
        }
        for past in [768, usize::MAX] {
            assert_eq!(Mlx90640::pixel_in_subpage(Subpage::Zero, pattern, past).unwrap_err().number(), 11);
        }
    }
    let mut iterator = Mlx90640::pixels_in_subpage(Subpage::Zero, AccessPattern::Chess);
    assert_eq!(iterator.len(), 768);
    iterator.next();
    assert_eq!(iterator.len(), 767);
    assert_eq!(iterator.clone().count(), 767);
}

#[test]
fn ranges() {
    for subpage in [Subpage::Zero, Subpage::One] {
        let chess: Vec<_> = Mlx90640::pixel_ranges(subpage, AccessPattern::Chess).collect();
        assert_eq!(chess.len(), 1);
        assert_eq!(chess[0].start_address, Address::new(0x0400));
        assert_eq!((chess[0].buffer_offset, chess[0].length), (0, 1536));
        let mut iterator = Mlx90640::pixel_ranges(subpage, AccessPattern::Interleave);
        assert_eq!(iterator.len(), 12);
        for number in 0..12 {
            let range = iterator.next().unwrap();
            let one = subpage as usize;
            assert_eq!(usize::from(range.start_address), 0x0400 + 64 * number + 32 * one);
            assert_eq!((range.buffer_offset, range.length), (128 * number + 64 * one, 64));
            assert_eq!(Mlx90640::pixel_range(subpage, AccessPattern::Interleave, number), Ok(range));
        }
        assert_eq!(iterator.next(), None);
        assert_eq!(iterator.next(), None);
        assert_eq!(Mlx90640::pixel_range(subpage, AccessPattern::Interleave, 12).unwrap_err().number(), 12);
        assert_eq!(Mlx90640::pixel_range(subpage, AccessPattern::Chess, 1).unwrap_err().number(), 12);
    }
    assert_eq!(Mlx90640::compensation_pixel(Subpage::Zero), RamAddress::CompensationPixelZero.into());
    assert_eq!(u16::from(Mlx90640::compensation_pixel(Subpage::One)), 0x0728);
    assert_eq!(format!("{:?}", Address::from(0x0400)), "Address(0x400)");
    assert_eq!(u16::from(RamAddress::End), 0x073F);
    assert_eq!((Mlx90640::WIDTH, Mlx90640::HEIGHT, Mlx90640::NUM_PIXELS), (32, 24, 768));
    assert_eq!(u16::from(Mlx90640::T_A_V_BE), 0x0700);
    assert_eq!(u16::from(Mlx90640::T_A_PTAT), 0x0720);
    assert_eq!(u16::from(Mlx90640::GAIN), 0x070A);
    assert_eq!(u16::from(Mlx90640::V_DD_PIXEL), 0x072A);
    assert_eq!((Mlx90640::BASIC_TEMPERATURE_RANGE, Mlx90640::SELF_HEATING), (1, 8.0));
}

#[test]
fn resolutions() {
    for calibrated in 0..16u8 {
        for current in 0..16u8 {
            let expected = 2f32.powi(i32::from(calibrated) - i32::from(current));
            assert_eq!(Mlx90640::resolution_correction(calibrated, current), Ok(expected));
        }
    }
    for (calibrated, current) in [(16, 0), (0, 16), (255, 255)] {
        let refusal = Mlx90640::resolution_correction(calibrated, current).unwrap_err();
        assert_eq!(parts(refusal), (13, 0, 0));
    }
    assert_eq!(lent::resolution_correction(u32::MAX, 0).unwrap_err().number(), 13);
    assert_eq!(lent::resolution_correction(256, 0).unwrap_err().number(), 13);
}

#[test]
fn numbers_and_orders_of_the_interface() {
    let record = *calibration(&[(0x2435, 0x0841)]).record_bytes();
    let short = &record[..RECORD_BYTES - 1];
    for bad in [2, 256, u32::MAX] {
        assert_eq!(lent::pixel_in_subpage(bad, 0, 0).unwrap_err().number(), 14);
        assert_eq!(lent::pixel_in_subpage(0, bad, 768).unwrap_err().number(), 14);
        assert_eq!(lent::pixel_range_count(bad).unwrap_err().number(), 14);
        assert_eq!(lent::pixel_range(bad, 0, 12).unwrap_err().number(), 14);
        assert_eq!(lent::pixel_range(0, bad, 12).unwrap_err().number(), 14);
        assert_eq!(lent::compensation_pixel(bad).unwrap_err().number(), 14);
        assert_eq!(lent::interleave_correction_pixel(short, bad, 768).unwrap_err().number(), 14);
        assert_eq!(lent::interleave_correction_cp(short, bad, 0).unwrap_err().number(), 14);
        assert_eq!(lent::interleave_correction_cp(short, 0, bad).unwrap_err().number(), 14);
        assert_eq!(lent::alpha_cp(short, bad).unwrap_err().number(), 14);
        assert_eq!(lent::offset_reference_cp(short, bad).unwrap_err().number(), 14);
    }
    assert_eq!((lent::pixel_range_count(0), lent::pixel_range_count(1)), (Ok(12), Ok(1)));
    for slice in [short, &[]] {
        assert_eq!(lent::k_v_pixel(slice, 768).unwrap_err().number(), 11);
        assert_eq!(lent::k_v_pixel(slice, 767).unwrap_err().number(), 2);
        for pattern in 0..2 {
            assert_eq!(lent::interleave_correction_pixel(slice, pattern, 768).unwrap_err().number(), 11);
            assert_eq!(lent::interleave_correction_pixel(slice, pattern, 0).unwrap_err().number(), 2);
            for subpage in 0..2 {
                assert_eq!(lent::interleave_correction_cp(slice, pattern, subpage).unwrap_err().number(), 2);
            }
        }
        for subpage in 0..2 {
            assert_eq!(lent::alpha_cp(slice, subpage).unwrap_err().number(), 2);
            assert_eq!(lent::offset_reference_cp(slice, subpage).unwrap_err().number(), 2);
        }
    }
    assert_eq!(calibration(&[]).k_v_pixel(768).unwrap_err().number(), 11);
    assert_eq!(calibration(&[]).access_pattern_compensation_pixel(768, AccessPattern::Chess).unwrap_err().number(), 11);
    let mut long = record.to_vec();
    long.push(0);
    assert_eq!(lent::interleave_correction_pixel(&long, 0, 3), Ok(Some(-0.625)));
    assert_eq!(lent::interleave_correction_pixel(&long, 1, 3), Ok(None));
    assert_eq!(lent::interleave_correction_cp(&long, 0, 1), Ok(Some(0.0625)));
    // Bytes that no call wrote: a NaN is read as the one NaN.
    let odd = [0xFF; RECORD_BYTES];
    assert_eq!(lent::k_v_pixel(&odd, 0).unwrap().to_bits(), 0x7FC0_0000);
    assert_eq!(lent::alpha_cp(&odd, 1).unwrap().to_bits(), 0x7FC0_0000);
    assert_eq!(lent::interleave_correction_pixel(&odd, 0, 0).unwrap().unwrap().to_bits(), 0x7FC0_0000);
    assert_eq!(lent::offset_reference_cp(&odd, 1), Ok(-1));
}

#[test]
fn answer_words() {
    // The bits of an answer, with nothing in between.
    // SAFETY: only numbers are passed, and any are answered.
    unsafe {
        assert_eq!(sys::mofuleka_pixel_range_count(0), 12 << 16);
        assert_eq!(sys::mofuleka_pixel_range_count(2), 14);
        assert_eq!(sys::mofuleka_pixel_range(0, 1, 11), 0x06E0_05C0_0040 << 16);
        assert_eq!(sys::mofuleka_pixel_in_subpage(1, 1, 1), 1 << 16);
    }
    let fresh = Gathering::new();
    let bytes = fresh.as_bytes();
    // SAFETY: pointer and length are one array's, which is only read and outlives the call.
    let answer = unsafe { sys::mofuleka_gathering_status(bytes.as_ptr(), bytes.len()) };
    assert_eq!(answer, 832 << 32);
    let bad = image(&[(0x2420, 0x00F0), (0x2428, 0x1000)]);
    let [mut offset, mut alpha, mut k_ta, mut record] = FULL.map(|len| vec![0u8; len]);
    // SAFETY: each pointer has its own vector's length, all vectors outlive the call, and no two of them overlap.
    let answer = unsafe {
        sys::mofuleka_from_data(
            bad.as_ptr(),
            bad.len(),
            offset.as_mut_ptr(),
            offset.len(),
            alpha.as_mut_ptr(),
            alpha.len(),
            k_ta.as_mut_ptr(),
            k_ta.len(),
            record.as_mut_ptr(),
            record.len(),
        )
    };
    assert_eq!(answer, 0x0003_0103);
    // SAFETY: each pointer has its own vector's length, both vectors outlive the call, and they don't overlap.
    let mut single =
        |pixel| unsafe { sys::mofuleka_pixel(bad.as_ptr(), bad.len(), pixel, record.as_mut_ptr(), record.len()) };
    assert_eq!((single(3), single(4)), (0x0003_0103, 0));
}

#[test]
fn messages() {
    let text = |words: &[(usize, u16)]| Calibration::from_data(&image(words)).unwrap_err().to_string();
    assert_eq!(
        text(&[(0x2411, 0x7FFF), (0x2413, 0x0010)]),
        "offset table, pixel 160: the final sum leaves 16 bits (refusal 4)"
    );
    assert_eq!(
        text(&[(0x2420, 0x00F0), (0x2429, 0x0010)]),
        "alpha table, pixel 5: a scaled term is outside 16 bits (refusal 3)"
    );
    assert!(text(&[(0x2438, 0x000F), (0x2440 + 767, 0x0002)]).starts_with("Kta table, pixel 767: "));
    let mut all = HashSet::new();
    let mut seen = |refusal: Refusal| {
        assert!(refusal.to_string().ends_with(&format!(" (refusal {})", refusal.number())));
        assert_ne!(refusal.reason(), Reason::Unknown);
        assert_eq!(refusal.reason() as u8, refusal.number());
        assert_eq!(refusal.table().is_some(), matches!(refusal.reason(), Reason::TermOutside | Reason::SumOutside));
        all.insert((refusal.number(), refusal.to_string()));
    };
    let record = [0u8; RECORD_BYTES];
    let mut gathering = Gathering::new();
    seen(Calibration::from_data(&[]).unwrap_err());
    seen(lent::gathering_status(&[]).unwrap_err());
    seen(Calibration::from_data(&image(&[(0x2410, 0x0F00), (0x2412, 1)])).unwrap_err());
    seen(Calibration::from_data(&image(&[(0x2411, 0x7FFF), (0x2413, 0x10)])).unwrap_err());
    seen(gathering.accept(&[]).unwrap_err());
    seen(gathering.accept(&[0, 0]).unwrap_err());
    seen(gathering.accept(&[0, 5, 0, 0, 0, 0, 0]).unwrap_err());
    seen(gathering.accept(&[0, 5, 1, 3, 0x40, 0, 0]).unwrap_err());
    seen(gathering.calibration().unwrap_err());
    gathering.accept(&block(5, &[1])).unwrap();
    gathering.accept(&block(5, &[2])).unwrap();
    seen(gathering.calibration().unwrap_err());
    seen(lent::k_v_pixel(&record, 768).unwrap_err());
    seen(lent::pixel_range(0, 0, 12).unwrap_err());
    seen(lent::resolution_correction(16, 0).unwrap_err());
    seen(lent::compensation_pixel(2).unwrap_err());
    seen(lent::explain(&image(&[]), 3, 0, &mut []).unwrap_err());
    assert_eq!(all.len(), 15);
}

#[test]
fn names_of_the_original_crate() {
    use mofuleka::mlx90640::Mlx90640Calibration;
    let calibration = Mlx90640Calibration::from_data(&image(&[])).unwrap();
    assert_eq!(calibration.alpha_ptat(), 8.0);
    let _: mofuleka::common::Address =
        mofuleka::mlx90640::Mlx90640::compensation_pixel(mofuleka::register::Subpage::One);
}

#[cfg(feature = "std")]
#[test]
fn refusals_are_errors() {
    let error: Box<dyn std::error::Error> = Box::new(Calibration::from_data(&[]).unwrap_err());
    assert_eq!(error.to_string(), "the image has neither 1664 bytes nor a page's 2048 (refusal 1)");
}

#[test]
fn shared_between_threads() {
    fn shared<T: Send + Sync>() {}
    shared::<Calibration>();
    shared::<Gathering>();
    shared::<Pixel>();
    shared::<Explanation>();
    shared::<Refusal>();
    shared::<mofuleka::KvPixels<'_>>();
    shared::<mofuleka::Corrections<'_>>();
}
