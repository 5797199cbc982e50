//! Questions that need no image: out of range, over records of any bytes, with slices too short, and of the camera.
use compare::gatherings;
use compare::guarded::{refused_of, Bench, FULL};
use compare::images::{self, Numbers};
use compare::judge::{Checked, Judge, Release};
use compare::model::{self, refused, Refused};
use compare::tally::{Held, Tally};
use mofuleka::{lent, place};

/// Decoding into slices of which one has any length.
pub fn short_slices(tally: &mut Tally, bench: &mut Bench) {
    tally.part("short slices");
    let good = images::lifelike(1);
    let bad = images::with(&[(0x2411, 0x7FFF), (0x2413, 0x0010)]);
    let long = [&good[..], &[0]].concat();
    for (which, full) in FULL.iter().enumerate() {
        for len in (0..full + 3).filter(|len| len % 17 == 0 || len + 4 > *full) {
            for image in [&good[..], &bad, &good[..1663], &long] {
                let mut lens = FULL;
                lens[which] = len;
                let ours = bench.lend(tally, lens, |offset, alpha, k_ta, record| {
                    lent::from_data(image, offset, alpha, k_ta, record)
                });
                let (held, expected) = match len {
                    _ if image.len() != 1664 => (Held::Rules, Err(refused(1))),
                    _ if len < *full => (Held::Rules, Err(refused(2))),
                    _ => (Held::Walk, model::verdict(image).map(|_| ())),
                };
                tally.same(held, || format!("slice {} of {} bytes", which, len), ours, expected);
            }
        }
    }
    gatherings::short_slices(tally);
}

/// Questions over records of any bytes, and over records that are too short.
pub fn over_records(tally: &mut Tally, seed: u64) {
    tally.part("questions over any record");
    let mut numbers = Numbers::new(seed);
    for i in 0..200 {
        let mut record = [0u8; lent::RECORD_BYTES + 8];
        record.iter_mut().for_each(|byte| *byte = numbers.word() as u8);
        if i % 3 == 0 {
            // Many of these are NaNs.
            record.chunks_mut(2).for_each(|pair| pair[0] |= 0x7F);
        }
        any_record(tally, &record[..lent::RECORD_BYTES + i % 9], i);
    }
    for len in 0..lent::RECORD_BYTES {
        short_record(tally, &vec![0u8; len]);
    }
}

/// A float's bits as they are read from lent bytes: every NaN is the one.
fn read(record: &[u8], at: usize) -> u32 {
    let bits = u32::from_be_bytes([record[at], record[at + 1], record[at + 2], record[at + 3]]);
    if f32::from_bits(bits).is_nan() {
        0x7FC0_0000
    } else {
        bits
    }
}

fn any_record(tally: &mut Tally, record: &[u8], i: usize) {
    let name = || format!("record {}", i);
    for pixel in 0..768 {
        let ours = lent::k_v_pixel(record, pixel).map(f32::to_bits).map_err(refused_of);
        tally.same(Held::Rules, name, ours, Ok(read(record, place::K_V_PATTERN + 4 * model::chess(pixel))));
        for pattern in 0..2 {
            let ours = lent::interleave_correction_pixel(record, pattern, pixel);
            let expected = match pattern {
                0 => Some(read(record, place::INTERLEAVE_CORRECTION_PIXELS + 4 * model::correction(pixel))),
                _ => None,
            };
            tally.same(Held::Rules, name, ours.map(|x| x.map(f32::to_bits)).map_err(refused_of), Ok(expected));
        }
    }
    for subpage in 0..2u32 {
        for pattern in 0..2u32 {
            let ours = lent::interleave_correction_cp(record, pattern, subpage);
            let expected =
                if (pattern, subpage) == (0, 1) { Some(read(record, place::INTERLEAVE_CORRECTION_CP)) } else { None };
            tally.same(Held::Rules, name, ours.map(|x| x.map(f32::to_bits)).map_err(refused_of), Ok(expected));
        }
        let at = subpage as usize;
        let ours = lent::alpha_cp(record, subpage).map(f32::to_bits).map_err(refused_of);
        tally.same(Held::Rules, name, ours, Ok(read(record, place::ALPHA_CP + 4 * at)));
        let offset = &record[place::OFFSET_REFERENCE_CP + 2 * at..];
        let expected = i16::from_be_bytes([offset[0], offset[1]]);
        tally.same(Held::Rules, name, lent::offset_reference_cp(record, subpage).map_err(refused_of), Ok(expected));
    }
}

/// Every question is refused; which refusal comes first is looked at with numbers out of range, too.
fn short_record(tally: &mut Tally, record: &[u8]) {
    let mut check = |ours: Result<(), Refused>, expected| {
        tally.same(Held::Rules, || format!("record of {} bytes", record.len()), ours, Err(refused(expected)));
    };
    check(lent::k_v_pixel(record, 0).map_err(refused_of).map(|_| ()), 2);
    check(lent::k_v_pixel(record, 768).map_err(refused_of).map(|_| ()), 11);
    for pattern in 0..3u32 {
        for pixel in [0, 767, 768] {
            let expected = match pixel {
                _ if pattern > 1 => 14,
                768 => 11,
                _ => 2,
            };
            let ours = lent::interleave_correction_pixel(record, pattern, pixel);
            check(ours.map_err(refused_of).map(|_| ()), expected);
        }
        for subpage in 0..3u32 {
            let ours = lent::interleave_correction_cp(record, pattern, subpage);
            check(ours.map_err(refused_of).map(|_| ()), if pattern > 1 || subpage > 1 { 14 } else { 2 });
        }
    }
    for subpage in 0..3u32 {
        let expected = if subpage > 1 { 14 } else { 2 };
        check(lent::alpha_cp(record, subpage).map_err(refused_of).map(|_| ()), expected);
        check(lent::offset_reference_cp(record, subpage).map_err(refused_of).map(|_| ()), expected);
    }
}

/// What an expectation comes from: an answer from the crate, a refusal from the rules.
fn held_to<T>(expected: &Result<T, Refused>) -> Held {
    match expected {
        Ok(_) => Held::Crate,
        Err(_) => Held::Rules,
    }
}

/// Patterns, subpages: the two that there are, and others.
const ANY: [u32; 7] = [0, 1, 2, 3, 255, 256, u32::MAX];

/// Masks, ranges, compensation pixels, resolutions, and every refusal of these questions.
pub fn camera(tally: &mut Tally) {
    tally.part("masks, ranges, resolution");
    for pattern in ANY {
        let ours = lent::pixel_range_count(pattern).map_err(refused_of);
        let expected = if pattern < 2 { Ok(Release::ranges(pattern, 0).len()) } else { Err(refused(14)) };
        tally.same(held_to(&expected), || format!("count {}", pattern), ours, expected);
        for subpage in ANY {
            masks(tally, pattern, subpage);
            ranges(tally, pattern, subpage);
        }
    }
    for subpage in ANY {
        let expected = if subpage < 2 { Ok(Release::compensation_pixel(subpage)) } else { Err(refused(14)) };
        let ours = lent::compensation_pixel(subpage).map_err(refused_of);
        tally.same(held_to(&expected), || format!("compensation pixel {}", subpage), ours, expected);
    }
    resolutions(tally);
    tally.same(Held::Rules, || "sizes".into(), lent::sizes(), [1664, 1536, 3072, 3072, 122, 2496, 10, 74]);
    use mofuleka::{Mlx90640, RamAddress};
    let ours: Vec<u16> = compare::addresses!();
    tally.list(Held::Crate, |i| format!("address {}", i), ours.into_iter(), Release::addresses().into_iter());
}

fn masks(tally: &mut Tally, pattern: u32, subpage: u32) {
    let known = pattern < 2 && subpage < 2;
    let mask = if known { Release::mask(pattern, subpage) } else { vec![] };
    if known {
        tally.same(Held::Judges, || "the mask's length".into(), mask.len(), 768);
    }
    for pixel in (0..800).chain([65536, usize::MAX]) {
        let expected = match mask.get(pixel) {
            Some(inside) => Ok(*inside),
            None if known => Err(refused(11)),
            None => Err(refused(14)),
        };
        let ours = lent::pixel_in_subpage(pattern, subpage, pixel).map_err(refused_of);
        tally.same(held_to(&expected), || format!("mask {} {} {}", pattern, subpage, pixel), ours, expected);
    }
}

fn ranges(tally: &mut Tally, pattern: u32, subpage: u32) {
    let known = pattern < 2 && subpage < 2;
    let ranges = if known { Release::ranges(pattern, subpage) } else { vec![] };
    for number in (0..20).chain([256, 65536, usize::MAX]) {
        let expected = match ranges.get(number) {
            Some(text) => Ok(text.clone()),
            None if known => Err(refused(12)),
            None => Err(refused(14)),
        };
        let ours = lent::pixel_range(pattern, subpage, number).map_err(refused_of).map(|(address, offset, length)| {
            format!(
                "PixelAddressRange {{ start_address: Address({:#X}), buffer_offset: {}, length: {} }}",
                address, offset, length
            )
        });
        tally.same(held_to(&expected), || format!("range {} {} {}", pattern, subpage, number), ours, expected);
    }
}

fn resolutions(tally: &mut Tally) {
    for calibrated in (0..32u32).chain([255, 256, 65536, u32::MAX]) {
        for current in (0..32u32).chain([255, 256, 65536, u32::MAX]) {
            let expected = if calibrated < 16 && current < 16 {
                let release = Release::resolution_correction(calibrated as u8, current as u8).answer();
                let checked = Checked::resolution_correction(calibrated as u8, current as u8).answer();
                tally.same(Held::Judges, || "both builds' resolution correction".into(), release, checked);
                Ok(release.expect("the original crate answers up to 15"))
            } else {
                Err(refused(13))
            };
            let ours = lent::resolution_correction(calibrated, current).map(f32::to_bits).map_err(refused_of);
            tally.same(held_to(&expected), || format!("resolution {} {}", calibrated, current), ours, expected);
        }
    }
}
