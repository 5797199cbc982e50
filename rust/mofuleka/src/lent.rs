//! The C interface on slices: every byte is lent by the caller, nothing is allocated or copied here.
//!
//! Tables, records and gatherings are big-endian bytes, laid out in `docs/INTERFACE.md`; [`place`](crate::place) has the
//! record's places. A refused call writes nothing; bytes of a slice past its layout keep their content. An image and a block
//! have none past theirs: another length is refused. Patterns, subpages and tables are numbers here (0 Interleave, 1 Chess;
//! 0 Zero, 1 One; 0 offset, 1 alpha, 2 Kta), so that every refusal of the interface can be met. Refusals are named as in
//! [`Reason`](crate::Reason), in the order in which they are looked for.
//!
//! ```
//! use mofuleka::{lent, place, Reason};
//!
//! let image = [0u8; lent::IMAGE_BYTES];
//! let mut offset = [0u8; lent::OFFSET_TABLE_BYTES];
//! let mut alpha = [0u8; lent::ALPHA_TABLE_BYTES];
//! let mut k_ta = [0u8; lent::K_TA_TABLE_BYTES];
//! let mut record = [0u8; lent::RECORD_BYTES];
//! lent::from_data(&image, &mut offset, &mut alpha, &mut k_ta, &mut record)?;
//! assert_eq!(record[place::V_DD_25..][..2], (-16384i16).to_be_bytes());
//!
//! let refusal = lent::from_data(&image, &mut [], &mut alpha, &mut k_ta, &mut record).unwrap_err();
//! assert_eq!(refusal.reason(), Reason::ShortSlice);
//! # Ok::<(), mofuleka::Refusal>(())
//! ```
use crate::refusal::Refusal;
use crate::sys;

/// The bytes of an EEPROM image: 832 words.
pub const IMAGE_BYTES: usize = 1664;
/// The bytes of the offset table: 768 signed 16-bit numbers.
pub const OFFSET_TABLE_BYTES: usize = 1536;
/// The bytes of the alpha table: 768 floats.
pub const ALPHA_TABLE_BYTES: usize = 3072;
/// The bytes of the Kta table: 768 floats.
pub const K_TA_TABLE_BYTES: usize = 3072;
/// The bytes of the record: all fields but the three tables.
pub const RECORD_BYTES: usize = 122;
/// The bytes of a gathering: 832 words and 832 marks.
pub const GATHERING_BYTES: usize = 2496;
/// The bytes of one pixel: its offset, a signed 16-bit number, then alpha and Kta, floats.
pub const PIXEL_BYTES: usize = 10;
/// The bytes of an explanation: what was found, four parts with the sums behind them, the exponent and the entry.
pub const EXPLANATION_BYTES: usize = 74;

/// The value of an accepted answer.
fn taken(answer: u64) -> Result<u64, Refusal> {
    match Refusal::from_answer(answer) {
        Some(refusal) => Err(refusal),
        None => Ok(answer >> 16),
    }
}

/// The same of a call that only writes.
fn done(answer: u64) -> Result<(), Refusal> {
    taken(answer).map(|_| ())
}

fn taken_f32(answer: u64) -> Result<f32, Refusal> {
    let [a, b, c, d, ..] = taken(answer)?.to_le_bytes();
    Ok(f32::from_bits(u32::from_le_bytes([a, b, c, d])))
}

fn taken_correction(answer: u64) -> Result<Option<f32>, Refusal> {
    let value = taken_f32(answer)?;
    let [_, present, ..] = answer.to_le_bytes();
    Ok(if present == 0 { None } else { Some(value) })
}

/// The three 16-bit numbers of a value, the lowest first.
fn thirds(value: u64) -> [u16; 3] {
    [value, value >> 16, value >> 32].map(|value| {
        let [low, high, ..] = value.to_le_bytes();
        u16::from_le_bytes([low, high])
    })
}

/// The sizes as the archive gives them: image, offset table, alpha table, Kta table, record, gathering, pixel,
/// explanation.
pub fn sizes() -> [usize; 8] {
    // SAFETY: these functions take nothing and touch no memory.
    unsafe {
        [
            sys::mofuleka_image_bytes(),
            sys::mofuleka_offset_table_bytes(),
            sys::mofuleka_alpha_table_bytes(),
            sys::mofuleka_k_ta_table_bytes(),
            sys::mofuleka_record_bytes(),
            sys::mofuleka_gathering_bytes(),
            sys::mofuleka_pixel_bytes(),
            sys::mofuleka_explanation_bytes(),
        ]
    }
}

/// Decodes an image, or a page of 2,048 bytes that begins with one, into three tables and a record.
///
/// # Errors
/// `ImageLength`, for every other length; `ShortSlice` for one of the four written slices, then `TermOutside` and `SumOutside`.
pub fn from_data(
    image: &[u8],
    offset: &mut [u8],
    alpha: &mut [u8],
    k_ta: &mut [u8],
    record: &mut [u8],
) -> Result<(), Refusal> {
    // SAFETY: each pointer is a slice's, so it is not null and valid for the length that goes with it; the four written slices
    // are borrowed exclusively, so none of them overlaps another or the image. Nothing is kept.
    done(unsafe {
        sys::mofuleka_from_data(
            image.as_ptr(),
            image.len(),
            offset.as_mut_ptr(),
            offset.len(),
            alpha.as_mut_ptr(),
            alpha.len(),
            k_ta.as_mut_ptr(),
            k_ta.len(),
            record.as_mut_ptr(),
            record.len(),
        )
    })
}

/// Gives one pixel's offset, alpha and Kta out of an image, or a page of one, from the words that this pixel needs.
///
/// ```
/// use mofuleka::lent;
///
/// let mut image = [0u8; lent::IMAGE_BYTES];
/// image[2 * 0x11..][..2].copy_from_slice(&0x1234u16.to_be_bytes()); // 0x2411, the offset average
/// let mut out = [0x5A; lent::PIXEL_BYTES];
/// assert_eq!(lent::pixel(&image, 767, &mut out[..9]).unwrap_err().number(), 2);
/// assert_eq!(out, [0x5A; lent::PIXEL_BYTES]);
/// lent::pixel(&image, 767, &mut out)?;
/// assert_eq!(out, [0x12, 0x34, 0, 0, 0, 0, 0, 0, 0, 0]);
/// # Ok::<(), mofuleka::Refusal>(())
/// ```
///
/// # Errors
/// `ImageLength`, `PastTheEnd` for a pixel above 767, `ShortSlice` for `out`, then `TermOutside` and `SumOutside` for
/// this pixel: of its offset, its alpha, its Kta.
pub fn pixel(image: &[u8], pixel: usize, out: &mut [u8]) -> Result<(), Refusal> {
    // SAFETY: each pointer is a slice's, with that slice's length; `out`, which is written, is borrowed exclusively and
    // so does not overlap the image. The pixel may be any.
    done(unsafe { sys::mofuleka_pixel(image.as_ptr(), image.len(), pixel, out.as_mut_ptr(), out.len()) })
}

/// Explains a table's entry for one pixel of an image, or of a page of one; where [`from_data`] refuses the image with 3
/// or 4, the table and pixel that it names. [`Explanation`](crate::Explanation) has the same numbers by name.
///
/// ```
/// use mofuleka::{lent, Reason};
///
/// let mut image = [0u8; lent::IMAGE_BYTES];
/// image[2 * 0x11..][..2].copy_from_slice(&0x1234u16.to_be_bytes()); // 0x2411, the offset average
/// let mut out = [0; lent::EXPLANATION_BYTES];
/// lent::explain(&image, 0, 767, &mut out)?;
/// assert_eq!(out[..5], [0, 0, 0x02, 0xFF, 0]); // accepted; offset, pixel 767; nothing fails
/// assert_eq!(out[5..18], [0x24, 0x11, 15, 0, 0x12, 0x34, 0x12, 0x34, 0, 0, 0, 0x12, 0x34]); // the average
/// assert_eq!(out[70..], [0, 0, 0x12, 0x34]); // the entry
/// assert_eq!(lent::explain(&image, 3, 767, &mut out).unwrap_err().reason(), Reason::TableNumber);
/// # Ok::<(), mofuleka::Refusal>(())
/// ```
///
/// # Errors
/// `ImageLength`, `PastTheEnd` for a pixel above 767, `TableNumber`, then `ShortSlice` for `out`.
pub fn explain(image: &[u8], table: u32, pixel: usize, out: &mut [u8]) -> Result<(), Refusal> {
    // SAFETY: each pointer is a slice's, with that slice's length; `out`, which is written, is borrowed exclusively and
    // so does not overlap the image. Table and pixel may be any.
    done(unsafe { sys::mofuleka_explain(image.as_ptr(), image.len(), table, pixel, out.as_mut_ptr(), out.len()) })
}

/// Makes the bytes a fresh gathering.
///
/// # Errors
/// `ShortSlice`.
pub fn gathering_fresh(gathering: &mut [u8]) -> Result<(), Refusal> {
    // SAFETY: pointer and length are one slice's, borrowed exclusively, and nothing else is passed.
    done(unsafe { sys::mofuleka_gathering_fresh(gathering.as_mut_ptr(), gathering.len()) })
}

/// Takes a block into the gathering.
///
/// # Errors
/// `ShortSlice` for the gathering, then `BlockLength`, `BlockCount`, `BlockVersion`, `BlockRange`.
pub fn gathering_accept(gathering: &mut [u8], block: &[u8]) -> Result<(), Refusal> {
    // SAFETY: each pointer is a slice's, with that slice's length; the gathering, which is written, is borrowed exclusively
    // and so does not overlap the block.
    done(unsafe {
        sys::mofuleka_gathering_accept(gathering.as_mut_ptr(), gathering.len(), block.as_ptr(), block.len())
    })
}

/// Merges the other gathering into the first.
///
/// # Errors
/// `ShortSlice` for either.
pub fn gathering_merge(gathering: &mut [u8], other: &[u8]) -> Result<(), Refusal> {
    // SAFETY: each pointer is a slice's, with that slice's length; the first, which is written, is borrowed exclusively and so
    // does not overlap the other.
    done(unsafe { sys::mofuleka_gathering_merge(gathering.as_mut_ptr(), gathering.len(), other.as_ptr(), other.len()) })
}

/// The number of words missing and of words in conflict.
///
/// # Errors
/// `ShortSlice`.
pub fn gathering_status(gathering: &[u8]) -> Result<(usize, usize), Refusal> {
    // SAFETY: pointer and length are one slice's, which is only read.
    let value = taken(unsafe { sys::mofuleka_gathering_status(gathering.as_ptr(), gathering.len()) })?;
    let [in_conflict, missing, _] = thirds(value);
    Ok((usize::from(missing), usize::from(in_conflict)))
}

/// One word's mark (0 missing, 1 held, 2 in conflict) and value.
///
/// # Errors
/// `PastTheEnd` for a word above 831, then `ShortSlice`.
pub fn gathering_word(gathering: &[u8], word: usize) -> Result<(u8, u16), Refusal> {
    // SAFETY: pointer and length are one slice's, which is only read; the word's number may be any.
    let value = taken(unsafe { sys::mofuleka_gathering_word(gathering.as_ptr(), gathering.len(), word) })?;
    let [low, high, mark, ..] = value.to_le_bytes();
    Ok((mark, u16::from_le_bytes([low, high])))
}

/// Decodes a full gathering.
///
/// # Errors
/// `ShortSlice` for the gathering, `WordInConflict`, `WordMissing`, `ShortSlice` for one of the four written slices, then
/// `TermOutside` and `SumOutside`.
pub fn gathering_from_data(
    gathering: &[u8],
    offset: &mut [u8],
    alpha: &mut [u8],
    k_ta: &mut [u8],
    record: &mut [u8],
) -> Result<(), Refusal> {
    // SAFETY: each pointer is a slice's, so it is not null and valid for the length that goes with it; the four written slices
    // are borrowed exclusively, so none of them overlaps another or the gathering. Nothing is kept.
    done(unsafe {
        sys::mofuleka_gathering_from_data(
            gathering.as_ptr(),
            gathering.len(),
            offset.as_mut_ptr(),
            offset.len(),
            alpha.as_mut_ptr(),
            alpha.len(),
            k_ta.as_mut_ptr(),
            k_ta.len(),
            record.as_mut_ptr(),
            record.len(),
        )
    })
}

/// Gives one pixel's offset, alpha and Kta as soon as the gathering holds the words that this pixel needs.
///
/// # Errors
/// `PastTheEnd` for a pixel above 767, `ShortSlice` for the gathering or for `out`, `WordInConflict` and `WordMissing`
/// for the lowest of those words, then `TermOutside` and `SumOutside` for this pixel.
pub fn gathering_pixel(gathering: &[u8], pixel: usize, out: &mut [u8]) -> Result<(), Refusal> {
    // SAFETY: each pointer is a slice's, with that slice's length; `out`, which is written, is borrowed exclusively and
    // so does not overlap the gathering. The pixel may be any.
    done(unsafe {
        sys::mofuleka_gathering_pixel(gathering.as_ptr(), gathering.len(), pixel, out.as_mut_ptr(), out.len())
    })
}

/// Whether the pixel is in the subpage.
///
/// # Errors
/// `PatternOrSubpage`, then `PastTheEnd` for a pixel above 767.
pub fn pixel_in_subpage(pattern: u32, subpage: u32, pixel: usize) -> Result<bool, Refusal> {
    // SAFETY: only numbers are passed, and any are answered.
    taken(unsafe { sys::mofuleka_pixel_in_subpage(pattern, subpage, pixel) }).map(|value| value != 0)
}

/// How many ranges are read for a subpage.
///
/// # Errors
/// `PatternOrSubpage`.
pub fn pixel_range_count(pattern: u32) -> Result<usize, Refusal> {
    // SAFETY: only a number is passed, and any is answered.
    let [count, ..] = thirds(taken(unsafe { sys::mofuleka_pixel_range_count(pattern) })?);
    Ok(usize::from(count))
}

/// One range to read: camera address in words, buffer offset in bytes, length in bytes.
///
/// # Errors
/// `PatternOrSubpage`, then `RangeNumber`.
pub fn pixel_range(pattern: u32, subpage: u32, number: usize) -> Result<(u16, u16, u16), Refusal> {
    // SAFETY: only numbers are passed, and any are answered.
    let [length, offset, address] = thirds(taken(unsafe { sys::mofuleka_pixel_range(pattern, subpage, number) })?);
    Ok((address, offset, length))
}

/// The camera address of the subpage's compensation pixel.
///
/// # Errors
/// `PatternOrSubpage`.
pub fn compensation_pixel(subpage: u32) -> Result<u16, Refusal> {
    // SAFETY: only a number is passed, and any is answered.
    let [address, ..] = thirds(taken(unsafe { sys::mofuleka_compensation_pixel(subpage) })?);
    Ok(address)
}

/// 2 to the power calibrated minus current.
///
/// # Errors
/// `Resolution` where one of them is above 15.
pub fn resolution_correction(calibrated: u32, current: u32) -> Result<f32, Refusal> {
    // SAFETY: only numbers are passed, and any are answered.
    taken_f32(unsafe { sys::mofuleka_resolution_correction(calibrated, current) })
}

/// Kv of one pixel, from a record's bytes.
///
/// # Errors
/// `PastTheEnd` for a pixel above 767, then `ShortSlice`.
pub fn k_v_pixel(record: &[u8], pixel: usize) -> Result<f32, Refusal> {
    // SAFETY: pointer and length are one slice's, which is only read; the pixel may be any.
    taken_f32(unsafe { sys::mofuleka_k_v_pixel(record.as_ptr(), record.len(), pixel) })
}

/// The correction of one pixel, from a record's bytes.
///
/// # Errors
/// `PatternOrSubpage`, `PastTheEnd` for a pixel above 767, then `ShortSlice`.
pub fn interleave_correction_pixel(record: &[u8], pattern: u32, pixel: usize) -> Result<Option<f32>, Refusal> {
    // SAFETY: pointer and length are one slice's, which is only read; pattern and pixel may be any.
    taken_correction(unsafe {
        sys::mofuleka_interleave_correction_pixel(record.as_ptr(), record.len(), pattern, pixel)
    })
}

/// The correction of the subpage's compensation pixel, from a record's bytes.
///
/// # Errors
/// `PatternOrSubpage`, then `ShortSlice`.
pub fn interleave_correction_cp(record: &[u8], pattern: u32, subpage: u32) -> Result<Option<f32>, Refusal> {
    // SAFETY: pointer and length are one slice's, which is only read; pattern and subpage may be any.
    taken_correction(unsafe { sys::mofuleka_interleave_correction_cp(record.as_ptr(), record.len(), pattern, subpage) })
}

/// Alpha of the subpage's compensation pixel, from a record's bytes.
///
/// # Errors
/// `PatternOrSubpage`, then `ShortSlice`.
pub fn alpha_cp(record: &[u8], subpage: u32) -> Result<f32, Refusal> {
    // SAFETY: pointer and length are one slice's, which is only read; the subpage may be any.
    taken_f32(unsafe { sys::mofuleka_alpha_cp(record.as_ptr(), record.len(), subpage) })
}

/// The offset reference of the subpage's compensation pixel, from a record's bytes.
///
/// # Errors
/// `PatternOrSubpage`, then `ShortSlice`.
pub fn offset_reference_cp(record: &[u8], subpage: u32) -> Result<i16, Refusal> {
    // SAFETY: pointer and length are one slice's, which is only read; the subpage may be any.
    let value = taken(unsafe { sys::mofuleka_offset_reference_cp(record.as_ptr(), record.len(), subpage) })?;
    let [low, high, ..] = value.to_le_bytes();
    Ok(i16::from_le_bytes([low, high]))
}
