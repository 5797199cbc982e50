/* mofuleka.h: the C interface of libmofuleka.a (rust/archive).
 *
 * Decodes the calibration of an MLX90640 thermal camera from its EEPROM image, explains where its numbers come from and
 * why an image is refused, gathers such an image from blocks, and answers questions about pixels, read ranges and
 * resolution. docs/INTERFACE.md lays out every byte.
 *
 * Every slice is a pointer and the number of bytes behind it. There is no alignment to keep. A pointer is never null,
 * not even where the length is 0, and a slice that a function writes overlaps no other slice of the same call.
 * Numbers in slices are big-endian. A call that is refused writes nothing.
 *
 * An image has exactly 1,664 bytes. Older head firmware sends it at the front of a page of 2,048: an image's slice of
 * exactly that length stands for its first 1,664 bytes, whatever follows there. Every other length is refused.
 *
 * Patterns: 0 Interleave, 1 Chess. Subpages: 0 Zero, 1 One. Tables: 0 offset, 1 alpha, 2 Kta. Pixels: 0..767, row by
 * row, 32 to a row.
 */
#ifndef MOFULEKA_H
#define MOFULEKA_H

#include <stddef.h>
#include <stdint.h>
#include <string.h>

#ifdef __cplusplus
extern "C" {
#endif

/* The answer of every function but the sizes:
 *   bits 0..7    0, or the number of the refusal
 *   bits 8..15   the table of refusals 3 and 4 (0 offset, 1 alpha, 2 Kta); of a correction that was asked for: 1 if there is one
 *   bits 16..63  the place of the refusal; of an accepted question: the value */
typedef uint64_t mofuleka_answer;

/* Patterns and subpages by name. */
#define MOFULEKA_INTERLEAVE 0u
#define MOFULEKA_CHESS 1u
#define MOFULEKA_ZERO 0u
#define MOFULEKA_ONE 1u

/* Tables by name. */
#define MOFULEKA_OFFSET 0u
#define MOFULEKA_ALPHA 1u
#define MOFULEKA_K_TA 2u

/* The marks of a gathering's words. */
#define MOFULEKA_MISSING 0u
#define MOFULEKA_HELD 1u
#define MOFULEKA_IN_CONFLICT 2u

/* What fails in an explanation: nothing, or the first number that is outside 16 bits. */
#define MOFULEKA_NO_FAILURE 0u
#define MOFULEKA_ROW_TERM 1u
#define MOFULEKA_COLUMN_TERM 2u
#define MOFULEKA_REMAINDER_TERM 3u
#define MOFULEKA_FINAL_SUM 4u

/* The refusals by name. */
#define MOFULEKA_ACCEPTED 0u
#define MOFULEKA_IMAGE_LENGTH 1u        /* the image has neither 1,664 bytes nor, as a page, 2,048 */
#define MOFULEKA_SHORT_SLICE 2u         /* a slice is too short for what goes into it */
#define MOFULEKA_TERM_OUTSIDE 3u        /* a scaled term is outside 16 bits; table and pixel given */
#define MOFULEKA_SUM_OUTSIDE 4u         /* the final sum is outside 16 bits; table and pixel given */
#define MOFULEKA_BLOCK_LENGTH 5u        /* the block has under 2 bytes, or not as many as it says */
#define MOFULEKA_BLOCK_COUNT 6u         /* the block's length field is below 5, above 131, or even */
#define MOFULEKA_BLOCK_VERSION 7u       /* the block's version is not 1 */
#define MOFULEKA_BLOCK_RANGE 8u         /* the block reaches past word 831 */
#define MOFULEKA_WORD_IN_CONFLICT 9u    /* the gathering has a word in conflict; the lowest one given */
#define MOFULEKA_WORD_MISSING 10u       /* the gathering lacks a word; the lowest one given */
#define MOFULEKA_PAST_THE_END 11u       /* a pixel above 767, or a word above 831 */
#define MOFULEKA_RANGE_NUMBER 12u       /* a range number at or past the count */
#define MOFULEKA_RESOLUTION 13u         /* a resolution above 15 */
#define MOFULEKA_PATTERN_OR_SUBPAGE 14u /* a pattern or subpage above 1 */
#define MOFULEKA_TABLE_NUMBER 15u       /* a table number above 2 */

/* How many bytes each layout has: for buffers of a fixed size. */
#define MOFULEKA_IMAGE_BYTES 1664u
#define MOFULEKA_OFFSET_TABLE_BYTES 1536u
#define MOFULEKA_ALPHA_TABLE_BYTES 3072u
#define MOFULEKA_K_TA_TABLE_BYTES 3072u
#define MOFULEKA_RECORD_BYTES 122u
#define MOFULEKA_GATHERING_BYTES 2496u
#define MOFULEKA_PIXEL_BYTES 10u
#define MOFULEKA_EXPLANATION_BYTES 74u

/* Where each field of a record starts in its bytes. docs/INTERFACE.md has the forms. */
#define MOFULEKA_RECORD_K_V_DD 0u
#define MOFULEKA_RECORD_V_DD_25 2u
#define MOFULEKA_RECORD_RESOLUTION 4u
#define MOFULEKA_RECORD_K_V_PTAT 5u
#define MOFULEKA_RECORD_K_T_PTAT 9u
#define MOFULEKA_RECORD_V_PTAT_25 13u
#define MOFULEKA_RECORD_ALPHA_PTAT 17u
#define MOFULEKA_RECORD_GAIN 21u
#define MOFULEKA_RECORD_K_S_TA 25u
#define MOFULEKA_RECORD_CORNER_TEMPERATURES 29u
#define MOFULEKA_RECORD_K_S_TO 37u
#define MOFULEKA_RECORD_ALPHA_CP 53u
#define MOFULEKA_RECORD_OFFSET_REFERENCE_CP 61u
#define MOFULEKA_RECORD_K_V_PATTERN 65u
#define MOFULEKA_RECORD_K_V_CP 81u
#define MOFULEKA_RECORD_K_TA_CP 85u
#define MOFULEKA_RECORD_TEMPERATURE_GRADIENT_PRESENT 89u
#define MOFULEKA_RECORD_TEMPERATURE_GRADIENT_COEFFICIENT 90u
#define MOFULEKA_RECORD_INTERLEAVE_CORRECTION_PIXELS 94u
#define MOFULEKA_RECORD_INTERLEAVE_CORRECTION_CP 118u

/* The same of one pixel's numbers: signed 16 bits, and two floats. */
#define MOFULEKA_PIXEL_OFFSET 0u
#define MOFULEKA_PIXEL_ALPHA 2u
#define MOFULEKA_PIXEL_K_TA 6u

/* The same of an explanation. NUMBER is what the decoder answers for the image: 0, 3 or 4. AVERAGE, ROW, COLUMN and
 * REMAINDER are parts; AFTER_ROW, AFTER_COLUMN and NUMERATOR, the final sum, are signed 32 bits. ENTRY is the numerator
 * over 2 to the power EXPONENT: in the offset table signed 32 bits, in the others a float. */
#define MOFULEKA_EXPLANATION_NUMBER 0u
#define MOFULEKA_EXPLANATION_TABLE 1u
#define MOFULEKA_EXPLANATION_PIXEL 2u
#define MOFULEKA_EXPLANATION_FAILURE 4u
#define MOFULEKA_EXPLANATION_AVERAGE 5u
#define MOFULEKA_EXPLANATION_ROW 18u
#define MOFULEKA_EXPLANATION_AFTER_ROW 31u
#define MOFULEKA_EXPLANATION_COLUMN 35u
#define MOFULEKA_EXPLANATION_AFTER_COLUMN 48u
#define MOFULEKA_EXPLANATION_REMAINDER 52u
#define MOFULEKA_EXPLANATION_NUMERATOR 65u
#define MOFULEKA_EXPLANATION_EXPONENT 69u
#define MOFULEKA_EXPLANATION_ENTRY 70u

/* The same of a part, from its first byte: the address of the field's word, the field's highest and lowest bit there,
 * its bits, the number that they are in two's complement, its scale, and its term: the number times 2 to that scale. */
#define MOFULEKA_PART_ADDRESS 0u
#define MOFULEKA_PART_HIGH 2u
#define MOFULEKA_PART_LOW 3u
#define MOFULEKA_PART_RAW 4u
#define MOFULEKA_PART_VALUE 6u
#define MOFULEKA_PART_SCALE 8u
#define MOFULEKA_PART_TERM 9u

/* ---- taking an answer apart ---- */

/* The refusal's number, 0 where the call was accepted. */
static inline unsigned mofuleka_number(mofuleka_answer a) { return (unsigned)(a & 0xFFu); }

/* Whether the call was refused. */
static inline int mofuleka_refused(mofuleka_answer a) { return (a & 0xFFu) != 0; }

/* The refusal's table: 0 offset, 1 alpha, 2 Kta. */
static inline unsigned mofuleka_table(mofuleka_answer a) { return (unsigned)((a >> 8) & 0xFFu); }

/* The refusal's place: a pixel, or a word of a gathering. */
static inline uint64_t mofuleka_place(mofuleka_answer a) { return a >> 16; }

/* Whether there is a correction, of an accepted correction question. */
static inline int mofuleka_present(mofuleka_answer a) { return ((a >> 8) & 0xFFu) != 0; }

/* The value of an accepted question, as a whole number. */
static inline uint64_t mofuleka_value(mofuleka_answer a) { return a >> 16; }

/* The value of an accepted question that is answered by a float. */
static inline float mofuleka_value_f32(mofuleka_answer a) {
  uint32_t bits = (uint32_t)(a >> 16);
  float value;
  memcpy(&value, &bits, sizeof value);
  return value;
}

/* The value of an accepted question that is answered by a signed 16-bit number. */
static inline int16_t mofuleka_value_i16(mofuleka_answer a) {
  int32_t value = (int32_t)((a >> 16) & 0xFFFFu);
  return (int16_t)(value < 32768 ? value : value - 65536);
}

/* The two counts of mofuleka_gathering_status. */
static inline unsigned mofuleka_status_missing(mofuleka_answer a) { return (unsigned)((a >> 32) & 0xFFFFu); }
static inline unsigned mofuleka_status_in_conflict(mofuleka_answer a) { return (unsigned)((a >> 16) & 0xFFFFu); }

/* The mark and the value of mofuleka_gathering_word. */
static inline unsigned mofuleka_word_mark(mofuleka_answer a) { return (unsigned)((a >> 32) & 0xFFFFu); }
static inline uint16_t mofuleka_word_value(mofuleka_answer a) { return (uint16_t)((a >> 16) & 0xFFFFu); }

/* The three numbers of mofuleka_pixel_range: the address counts camera words, offset and length count bytes. */
static inline uint16_t mofuleka_range_address(mofuleka_answer a) { return (uint16_t)((a >> 48) & 0xFFFFu); }
static inline uint16_t mofuleka_range_offset(mofuleka_answer a) { return (uint16_t)((a >> 32) & 0xFFFFu); }
static inline uint16_t mofuleka_range_length(mofuleka_answer a) { return (uint16_t)((a >> 16) & 0xFFFFu); }

/* Numbers out of a table, a record, a pixel or an explanation. */
static inline uint16_t mofuleka_read_u16(const uint8_t *at) { return (uint16_t)((at[0] << 8) | at[1]); }
static inline int16_t mofuleka_read_i16(const uint8_t *at) {
  int32_t value = (at[0] << 8) | at[1];
  return (int16_t)(value < 32768 ? value : value - 65536);
}
static inline uint32_t mofuleka_read_u32(const uint8_t *at) {
  return ((uint32_t)at[0] << 24) | ((uint32_t)at[1] << 16) | ((uint32_t)at[2] << 8) | (uint32_t)at[3];
}
static inline int32_t mofuleka_read_i32(const uint8_t *at) {
  uint32_t bits = mofuleka_read_u32(at);
  return bits < 0x80000000u ? (int32_t)bits : -(int32_t)(0xFFFFFFFFu - bits) - 1;
}
static inline float mofuleka_read_f32(const uint8_t *at) {
  uint32_t bits = mofuleka_read_u32(at);
  float value;
  memcpy(&value, &bits, sizeof value);
  return value;
}

/* ---- the sizes, in bytes; never refused ---- */

/* MOFULEKA_IMAGE_BYTES: an EEPROM image. */
size_t mofuleka_image_bytes(void);
/* MOFULEKA_OFFSET_TABLE_BYTES: the offset table, 768 signed 16-bit numbers. */
size_t mofuleka_offset_table_bytes(void);
/* MOFULEKA_ALPHA_TABLE_BYTES: the alpha table, 768 floats. */
size_t mofuleka_alpha_table_bytes(void);
/* MOFULEKA_K_TA_TABLE_BYTES: the Kta table, 768 floats. */
size_t mofuleka_k_ta_table_bytes(void);
/* MOFULEKA_RECORD_BYTES: the record of all other fields. */
size_t mofuleka_record_bytes(void);
/* MOFULEKA_GATHERING_BYTES: a gathering. */
size_t mofuleka_gathering_bytes(void);
/* MOFULEKA_PIXEL_BYTES: the offset, alpha and Kta of one pixel. */
size_t mofuleka_pixel_bytes(void);
/* MOFULEKA_EXPLANATION_BYTES: what one entry is made of, or the first failure of an image. */
size_t mofuleka_explanation_bytes(void);

/* ---- decoding ---- */

/* Decodes an image, or a page of one, into the three tables and the record. Refusals: 1, 2, then 3 and 4. */
mofuleka_answer mofuleka_from_data(const uint8_t *image, size_t image_len, uint8_t *offset, size_t offset_len,
                                   uint8_t *alpha, size_t alpha_len, uint8_t *k_ta, size_t k_ta_len, uint8_t *record,
                                   size_t record_len);
/* Gives one pixel's offset, alpha and Kta out of an image, or a page of one, from the words that this pixel needs: also
 * where only another pixel is at fault. Refusals: 1, 11, 2, then 3 and 4 for this pixel. */
mofuleka_answer mofuleka_pixel(const uint8_t *image, size_t image_len, size_t pixel, uint8_t *out, size_t out_len);
/* Explains where a table's entry for a pixel of an image, or of a page of one, comes from: its fields, their scales and
 * terms, and each running sum. Where mofuleka_from_data refuses the image with 3 or 4, the table and pixel that this
 * refusal names are explained in place of those asked for, up to the number that fails; what would come after it is
 * zero. Kta has no row and no column: these parts are zero, and the running sums stay the average's. Refusals: 1, 11,
 * 15, 2. */
mofuleka_answer mofuleka_explain(const uint8_t *image, size_t image_len, uint32_t table, size_t pixel, uint8_t *out,
                                 size_t out_len);

/* ---- gatherings ---- */

/* Makes the bytes a fresh gathering: every word missing. Refusal: 2. */
mofuleka_answer mofuleka_gathering_fresh(uint8_t *gathering, size_t gathering_len);
/* Takes a block into the gathering. Refusals: 2, 5, 6, 7, 8. */
mofuleka_answer mofuleka_gathering_accept(uint8_t *gathering, size_t gathering_len, const uint8_t *block,
                                          size_t block_len);
/* Merges the other gathering into the first. Refusal: 2. */
mofuleka_answer mofuleka_gathering_merge(uint8_t *gathering, size_t gathering_len, const uint8_t *other,
                                         size_t other_len);
/* Counts the words missing and those in conflict (mofuleka_status_missing, mofuleka_status_in_conflict). Refusal: 2. */
mofuleka_answer mofuleka_gathering_status(const uint8_t *gathering, size_t gathering_len);
/* Gives one word's mark and value (mofuleka_word_mark, mofuleka_word_value). Refusals: 11, 2. */
mofuleka_answer mofuleka_gathering_word(const uint8_t *gathering, size_t gathering_len, size_t word);
/* Decodes a full gathering. Refusals: 2 for the gathering's own slice, then 9, 10, 2, then 3 and 4. */
mofuleka_answer mofuleka_gathering_from_data(const uint8_t *gathering, size_t gathering_len, uint8_t *offset,
                                             size_t offset_len, uint8_t *alpha, size_t alpha_len, uint8_t *k_ta,
                                             size_t k_ta_len, uint8_t *record, size_t record_len);
/* Gives one pixel's numbers as soon as the words that it needs are held. Refusals: 11, 2 for either slice, 9 and 10 for
 * the lowest of those words, then 3 and 4 for this pixel. */
mofuleka_answer mofuleka_gathering_pixel(const uint8_t *gathering, size_t gathering_len, size_t pixel, uint8_t *out,
                                         size_t out_len);

/* ---- the camera ---- */

/* Whether the pixel is in the subpage: 0 or 1. Refusals: 14, 11. */
mofuleka_answer mofuleka_pixel_in_subpage(uint32_t pattern, uint32_t subpage, size_t pixel);
/* How many ranges are read for a subpage: 12 in Interleave, 1 in Chess. Refusal: 14. */
mofuleka_answer mofuleka_pixel_range_count(uint32_t pattern);
/* One range to read (mofuleka_range_address, mofuleka_range_offset, mofuleka_range_length). Refusals: 14, 12. */
mofuleka_answer mofuleka_pixel_range(uint32_t pattern, uint32_t subpage, size_t number);
/* The camera address of the subpage's compensation pixel. Refusal: 14. */
mofuleka_answer mofuleka_compensation_pixel(uint32_t subpage);
/* 2 to the power calibrated minus current, a float. Refusal: 13. */
mofuleka_answer mofuleka_resolution_correction(uint32_t calibrated, uint32_t current);

/* ---- questions over a record's bytes ---- */

/* Kv of one pixel, a float. Refusals: 11, 2. */
mofuleka_answer mofuleka_k_v_pixel(const uint8_t *record, size_t record_len, size_t pixel);
/* The correction of one pixel, a float where mofuleka_present. Refusals: 14, 11, 2. */
mofuleka_answer mofuleka_interleave_correction_pixel(const uint8_t *record, size_t record_len, uint32_t pattern,
                                                     size_t pixel);
/* The correction of the subpage's compensation pixel, a float where mofuleka_present. Refusals: 14, 2. */
mofuleka_answer mofuleka_interleave_correction_cp(const uint8_t *record, size_t record_len, uint32_t pattern,
                                                  uint32_t subpage);
/* Alpha of the subpage's compensation pixel, a float. Refusals: 14, 2. */
mofuleka_answer mofuleka_alpha_cp(const uint8_t *record, size_t record_len, uint32_t subpage);
/* The offset reference of the subpage's compensation pixel, signed 16 bits. Refusals: 14, 2. */
mofuleka_answer mofuleka_offset_reference_cp(const uint8_t *record, size_t record_len, uint32_t subpage);

#ifdef __cplusplus
}
#endif

#endif
