//! Gathers an EEPROM image from a file of blocks and prints the calibration.
//!
//! ```text
//! cargo run --example gather -- FILE
//! ```
//! FILE holds blocks one after the other: two bytes of length, then that many bytes. Blocks that are refused are named
//! and passed over. Without FILE the program makes up a file of its own, with the blocks out of order and one sent twice.
use std::env;
use std::error::Error;
use std::fs;

use mofuleka::{AccessPattern, Gathering, Pixel};

/// Thirteen blocks of 64 words each, last one first, the first of them sent twice.
fn made_up() -> Vec<u8> {
    let mut words = [0u16; Gathering::WORDS];
    words[0x10..0x12].copy_from_slice(&[0x4210, 0xFFC0]);
    words[0x20..0x22].copy_from_slice(&[0x7000, 0x2000]);
    words[0x30..0x34].copy_from_slice(&[0x18EF, 0x2FF1, 0x5952, 0x9D68]);
    words[0x35] = 0x0841;
    words[0x38] = 0x2363;
    words[0x3C] = 0xF020;
    let mut file = Vec::new();
    for block in (0..13u16).rev().chain(std::iter::once(12)) {
        let first = 64 * block;
        file.extend_from_slice(&(3 + 2 * 64u16).to_be_bytes());
        file.push(1);
        file.extend_from_slice(&first.to_be_bytes());
        for word in &words[usize::from(first)..][..64] {
            file.extend_from_slice(&word.to_be_bytes());
        }
    }
    file
}

fn main() -> Result<(), Box<dyn Error>> {
    let file = match env::args_os().nth(1) {
        Some(path) => fs::read(path)?,
        None => made_up(),
    };
    let mut gathering = Gathering::new();
    let mut rest = &file[..];
    let mut number = 0;
    while !rest.is_empty() {
        let said = match rest {
            [high, low, ..] => 2 + usize::from(u16::from_be_bytes([*high, *low])),
            _ => rest.len(),
        };
        let (block, after) = rest.split_at(said.min(rest.len()));
        if let Err(refusal) = gathering.accept(block) {
            println!("block {number}: {refusal}");
        }
        rest = after;
        number += 1;
    }
    let status = gathering.status();
    println!("{} blocks: {} words missing, {} in conflict", number, status.missing, status.in_conflict);

    let calibration = match gathering.calibration() {
        Ok(calibration) => calibration,
        Err(refusal) => {
            println!("no calibration: {refusal}");
            return Ok(());
        }
    };
    println!("{calibration:#?}");
    for pixel in [0, 1, 32, 33, 767] {
        let Pixel { offset, alpha, k_ta } = calibration.pixel(pixel)?;
        println!(
            "pixel {}: offset {}, alpha {:e}, Kta {}, Kv {}, interleave correction {}",
            pixel,
            offset,
            alpha,
            k_ta,
            calibration.k_v_pixel(pixel)?,
            calibration.access_pattern_compensation_pixel(pixel, AccessPattern::Interleave)?.unwrap_or(0.0),
        );
    }
    Ok(())
}
