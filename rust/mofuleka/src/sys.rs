//! The C interface as it is: what `include/mofuleka.h` declares. [`lent`](crate::lent) has the same functions on slices, safe.
//!
//! # Safety
//! Every pointer must be valid for the length behind it and not null (also where the length is 0), and a slice that is
//! written must overlap no other slice of the call. Nothing is kept after a call returns. Numbers and bytes may be any.
#![allow(missing_docs)]

extern "C" {
    pub fn mofuleka_image_bytes() -> usize;
    pub fn mofuleka_offset_table_bytes() -> usize;
    pub fn mofuleka_alpha_table_bytes() -> usize;
    pub fn mofuleka_k_ta_table_bytes() -> usize;
    pub fn mofuleka_record_bytes() -> usize;
    pub fn mofuleka_gathering_bytes() -> usize;
    pub fn mofuleka_pixel_bytes() -> usize;
    pub fn mofuleka_explanation_bytes() -> usize;

    pub fn mofuleka_from_data(
        image: *const u8,
        image_len: usize,
        offset: *mut u8,
        offset_len: usize,
        alpha: *mut u8,
        alpha_len: usize,
        k_ta: *mut u8,
        k_ta_len: usize,
        record: *mut u8,
        record_len: usize,
    ) -> u64;
    pub fn mofuleka_pixel(image: *const u8, image_len: usize, pixel: usize, out: *mut u8, out_len: usize) -> u64;
    pub fn mofuleka_explain(
        image: *const u8,
        image_len: usize,
        table: u32,
        pixel: usize,
        out: *mut u8,
        out_len: usize,
    ) -> u64;

    pub fn mofuleka_gathering_fresh(gathering: *mut u8, gathering_len: usize) -> u64;
    pub fn mofuleka_gathering_accept(
        gathering: *mut u8,
        gathering_len: usize,
        block: *const u8,
        block_len: usize,
    ) -> u64;
    pub fn mofuleka_gathering_merge(
        gathering: *mut u8,
        gathering_len: usize,
        other: *const u8,
        other_len: usize,
    ) -> u64;
    pub fn mofuleka_gathering_status(gathering: *const u8, gathering_len: usize) -> u64;
    pub fn mofuleka_gathering_word(gathering: *const u8, gathering_len: usize, word: usize) -> u64;
    pub fn mofuleka_gathering_from_data(
        gathering: *const u8,
        gathering_len: usize,
        offset: *mut u8,
        offset_len: usize,
        alpha: *mut u8,
        alpha_len: usize,
        k_ta: *mut u8,
        k_ta_len: usize,
        record: *mut u8,
        record_len: usize,
    ) -> u64;
    pub fn mofuleka_gathering_pixel(
        gathering: *const u8,
        gathering_len: usize,
        pixel: usize,
        out: *mut u8,
        out_len: usize,
    ) -> u64;

    pub fn mofuleka_pixel_in_subpage(pattern: u32, subpage: u32, pixel: usize) -> u64;
    pub fn mofuleka_pixel_range_count(pattern: u32) -> u64;
    pub fn mofuleka_pixel_range(pattern: u32, subpage: u32, number: usize) -> u64;
    pub fn mofuleka_compensation_pixel(subpage: u32) -> u64;
    pub fn mofuleka_resolution_correction(calibrated: u32, current: u32) -> u64;

    pub fn mofuleka_k_v_pixel(record: *const u8, record_len: usize, pixel: usize) -> u64;
    pub fn mofuleka_interleave_correction_pixel(
        record: *const u8,
        record_len: usize,
        pattern: u32,
        pixel: usize,
    ) -> u64;
    pub fn mofuleka_interleave_correction_cp(record: *const u8, record_len: usize, pattern: u32, subpage: u32) -> u64;
    pub fn mofuleka_alpha_cp(record: *const u8, record_len: usize, subpage: u32) -> u64;
    pub fn mofuleka_offset_reference_cp(record: *const u8, record_len: usize, subpage: u32) -> u64;
}
