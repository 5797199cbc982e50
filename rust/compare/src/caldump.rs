//! The program caldump on a sample of images: the listing that the original crate's answers give, with the datasheet's alpha_ptat.
use compare::apart::Apart;
use compare::images::{self, Numbers};
use compare::judge::{Judge, Release};
use compare::leaving;
use compare::model;
use compare::tally::{Held, Tally};
use mofuleka::place;

use crate::program::{self, ask, Source};

fn listing(image: &[u8]) -> String {
    if let Err(refused) = model::verdict(image) {
        return format!("refused {} {} {}\n", refused.number, refused.table, refused.place);
    }
    let judge = Release::decode(image).answer().expect("the original crate takes an accepted image");
    let record = Apart::of(image).record(judge.record());
    let whole = |at: usize| i16::from_be_bytes([record[at], record[at + 1]]).to_string();
    let float =
        |at: usize| format!("{:08X}", u32::from_be_bytes([record[at], record[at + 1], record[at + 2], record[at + 3]]));
    let wholes = |at: usize, count: usize| (0..count).map(|i| whole(at + 2 * i)).collect::<Vec<_>>().join(" ");
    let floats = |at: usize, count: usize| (0..count).map(|i| float(at + 4 * i)).collect::<Vec<_>>().join(" ");
    let gradient = match record[place::TEMPERATURE_GRADIENT_PRESENT] {
        0 => "none".to_string(),
        _ => float(place::TEMPERATURE_GRADIENT_COEFFICIENT),
    };
    let lines = [
        ("k_v_dd", whole(place::K_V_DD)),
        ("v_dd_25", whole(place::V_DD_25)),
        ("resolution", record[place::RESOLUTION].to_string()),
        ("k_v_ptat", float(place::K_V_PTAT)),
        ("k_t_ptat", float(place::K_T_PTAT)),
        ("v_ptat_25", float(place::V_PTAT_25)),
        ("alpha_ptat", float(place::ALPHA_PTAT)),
        ("gain", float(place::GAIN)),
        ("k_s_ta", float(place::K_S_TA)),
        ("corner_temperatures", wholes(place::CORNER_TEMPERATURES, 4)),
        ("k_s_to", floats(place::K_S_TO, 4)),
        ("alpha_cp", floats(place::ALPHA_CP, 2)),
        ("offset_reference_cp", wholes(place::OFFSET_REFERENCE_CP, 2)),
        ("k_v_pattern", floats(place::K_V_PATTERN, 4)),
        ("k_v_cp", float(place::K_V_CP)),
        ("k_ta_cp", float(place::K_TA_CP)),
        ("temperature_gradient_coefficient", gradient),
        ("interleave_correction_pixels", floats(place::INTERLEAVE_CORRECTION_PIXELS, 6)),
        ("interleave_correction_cp", float(place::INTERLEAVE_CORRECTION_CP)),
    ];
    lines.iter().map(|(name, values)| format!("{} {}\n", name, values)).collect()
}

/// Inputs whose length decides, and how each is given: beside an image's length and a page's, two images joined, and far more.
fn lengths() -> Vec<(Vec<u8>, Source)> {
    let far = 10 << 20;
    let mut all = Vec::new();
    for len in [0, 1, 831, 1663, 1664, 1665, 2047, 2048, 2049, 2050, 3328, far] {
        for source in [Source::File, Source::Pipe, Source::Pieces] {
            let mut input = [images::lifelike(2), images::lifelike(3)].concat();
            input.resize(len, 0x5A);
            all.push((input, source));
        }
    }
    all
}

/// Images of every kind: accepted ones and refused ones.
fn sample(seed: u64) -> Vec<(Vec<u8>, Source)> {
    let mut numbers = Numbers::new(seed ^ 0xCA1D);
    let mut sample: Vec<Vec<u8>> = vec![
        vec![0; 1664],
        vec![0xFF; 1664],
        images::with(&[(0x2410, 0x0F00), (0x2412, 0x0001)]).to_vec(),
        images::with(&[(0x2411, 0x7FFF), (0x2413, 0x0010)]).to_vec(),
        images::with(&[(0x243C, 0x0080)]).to_vec(),
    ];
    for i in 0..30 {
        sample.push(images::lifelike(i).to_vec());
        sample.push(images::tame(&mut numbers).to_vec());
        sample.push(images::near(&mut numbers).to_vec());
        sample.push(images::sparse(&mut numbers).to_vec());
        sample.push(leaving::leaving(&mut numbers).to_vec());
        sample.push(images::damaged(&mut numbers));
    }
    sample.into_iter().map(|image| (image, Source::Pipe)).chain(lengths()).collect()
}

/// Counts a listing that is as it must be: its numbers are the crate's, but for alpha_ptat where the crate has another.
fn count_listing(tally: &mut Tally, apart: &Apart, numbers: u64) {
    let of_datasheet = u64::from(apart.quarters.is_some());
    tally.nibbles[apart.nibble] += 1;
    tally.equal(Held::Crate, numbers - of_datasheet);
    tally.equal(Held::Datasheet, of_datasheet);
}

/// The lines of a listing but that of alpha_ptat.
fn others(listing: &str) -> Vec<&str> {
    listing.lines().filter(|line| !line.starts_with("alpha_ptat ")).collect()
}

/// What a listing that differs was held to: the datasheet, where only alpha_ptat differs and the crate has another.
fn held_where(held: Held, image: &[u8], ours: &str, expected: &str) -> Held {
    let quarters = held == Held::Crate && Apart::of(image).quarters.is_some();
    if quarters && others(ours) == others(expected) {
        Held::Datasheet
    } else {
        held
    }
}

pub fn run(tally: &mut Tally, seed: u64) {
    let program = match program::named("CALDUMP") {
        Some(program) => program,
        None => {
            tally.left_out("the listing through caldump (the program is not there)");
            return;
        }
    };
    tally.part("through caldump");
    for (i, (image, source)) in sample(seed).iter().enumerate() {
        tally.image(image);
        let expected = listing(image);
        let held = match expected.starts_with("refused") {
            true => Held::Walk,
            false => {
                tally.accepted();
                Held::Crate
            }
        };
        match ask(&program, &[], image, *source) {
            Ok(ours) if ours == expected => {
                let numbers = expected.split_whitespace().count() - expected.lines().count();
                match held {
                    Held::Crate => count_listing(tally, &Apart::of(image), numbers as u64),
                    _ => tally.equal(held, numbers as u64),
                }
            }
            ours => tally.different(held_where(held, image, ours.as_deref().unwrap_or(""), &expected), || {
                format!("image {}, {} bytes, {:?}: {:?}, must be {:?}", i, image.len(), source, ours, expected)
            }),
        }
    }
}
