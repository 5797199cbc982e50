/* The header compiled and every function of the archive called, from C and from C++. Says what failed; exit status 1 then. */
#include <stdio.h>
#include <string.h>

#include "mofuleka.h"

static int failed;

static void check(int good, const char *what, int line) {
  if (!good) {
    printf("test.c:%d: %s\n", line, what);
    failed = 1;
  }
}
#define CHECK(what) check((what), #what, __LINE__)

enum { RECORD = MOFULEKA_RECORD_BYTES };

/* An image, and behind it as much as another one has. */
static uint8_t image[2 * MOFULEKA_IMAGE_BYTES];
static uint8_t offset[MOFULEKA_OFFSET_TABLE_BYTES + 8], alpha[MOFULEKA_ALPHA_TABLE_BYTES + 8];
static uint8_t k_ta[MOFULEKA_K_TA_TABLE_BYTES + 8], record[RECORD + 8];
static uint8_t gathering[MOFULEKA_GATHERING_BYTES + 8], other[MOFULEKA_GATHERING_BYTES + 8];
static uint8_t out[MOFULEKA_PIXEL_BYTES + 8], why[MOFULEKA_EXPLANATION_BYTES + 8];

static void set(unsigned address, unsigned word) {
  image[2 * (address - 0x2400)] = (uint8_t)(word >> 8);
  image[2 * (address - 0x2400) + 1] = (uint8_t)word;
}

static void fill(void) {
  memset(offset, 0x5A, sizeof offset);
  memset(alpha, 0x5A, sizeof alpha);
  memset(k_ta, 0x5A, sizeof k_ta);
  memset(record, 0x5A, sizeof record);
}

/* Whether every byte from some place on is as filled. */
static int kept(const uint8_t *bytes, size_t from, size_t size) {
  for (; from < size; from++)
    if (bytes[from] != 0x5A) return 0;
  return 1;
}

static int nothing_written(void) {
  return kept(offset, 0, sizeof offset) && kept(alpha, 0, sizeof alpha) && kept(k_ta, 0, sizeof k_ta) &&
         kept(record, 0, sizeof record);
}

static mofuleka_answer decode(size_t len) {
  return mofuleka_from_data(image, len, offset, 1536, alpha, 3072, k_ta, 3072, record, RECORD);
}

static void sizes(void) {
  CHECK(mofuleka_image_bytes() == 1664);
  CHECK(mofuleka_offset_table_bytes() == 1536);
  CHECK(mofuleka_alpha_table_bytes() == 3072);
  CHECK(mofuleka_k_ta_table_bytes() == 3072);
  CHECK(mofuleka_record_bytes() == 122);
  CHECK(mofuleka_gathering_bytes() == 2496);
  CHECK(mofuleka_pixel_bytes() == 10);
  CHECK(mofuleka_explanation_bytes() == 74);
}

static void decoding(void) {
  mofuleka_answer a;
  memset(image, 0, sizeof image);
  fill();
  CHECK(mofuleka_number(decode(0)) == MOFULEKA_IMAGE_LENGTH);
  CHECK(mofuleka_number(decode(1663)) == MOFULEKA_IMAGE_LENGTH);
  CHECK(mofuleka_number(decode(1665)) == MOFULEKA_IMAGE_LENGTH);
  CHECK(mofuleka_number(decode(2047)) == MOFULEKA_IMAGE_LENGTH);
  CHECK(mofuleka_number(decode(2049)) == MOFULEKA_IMAGE_LENGTH);
  CHECK(mofuleka_number(decode(3328)) == MOFULEKA_IMAGE_LENGTH);
  CHECK(nothing_written());
  a = mofuleka_from_data(image, 1664, offset, 1535, alpha, 3072, k_ta, 3072, record, RECORD);
  CHECK(mofuleka_number(a) == MOFULEKA_SHORT_SLICE && nothing_written());
  a = mofuleka_from_data(image, 1664, offset, 1536, alpha, 3071, k_ta, 3072, record, RECORD);
  CHECK(mofuleka_number(a) == MOFULEKA_SHORT_SLICE && nothing_written());
  a = mofuleka_from_data(image, 1664, offset, 1536, alpha, 3072, k_ta, 0, record, RECORD);
  CHECK(mofuleka_number(a) == MOFULEKA_SHORT_SLICE && nothing_written());
  a = mofuleka_from_data(image, 1664, offset, 1536, alpha, 3072, k_ta, 3072, record, 121);
  CHECK(mofuleka_number(a) == MOFULEKA_SHORT_SLICE && nothing_written());

  /* A page, whose tail is not looked at; over-long slices, whose ends keep their content. */
  set(0x2433, 0x9D68);
  set(0x2435, 0x0841);
  set(0x2434, 0x1234);
  set(0x2439, 0x0046);
  set(0x243A, 0xFBB5);
  set(0x243C, 0x0080);
  set(0x2410, 0x5000);
  set(0x2411, 0xFFC9);
  set(0x2420, 0x7000);
  set(0x2421, 0x2000);
  set(0x2436, 0x0500);
  memset(image + MOFULEKA_IMAGE_BYTES, 0xEE, MOFULEKA_IMAGE_BYTES);
  a = mofuleka_from_data(image, 2048, offset, sizeof offset, alpha, sizeof alpha, k_ta, sizeof k_ta, record,
                         sizeof record);
  CHECK(a == MOFULEKA_ACCEPTED && !mofuleka_refused(a));
  CHECK(kept(offset, 1536, sizeof offset) && kept(alpha, 3072, sizeof alpha));
  CHECK(kept(k_ta, 3072, sizeof k_ta) && kept(record, RECORD, sizeof record));
  CHECK(mofuleka_read_i16(record) == -3168 && mofuleka_read_i16(record + 2) == -13056);
  CHECK(mofuleka_read_f32(record + MOFULEKA_RECORD_ALPHA_PTAT) == 9.25f);
  CHECK(mofuleka_read_i16(offset) == -55 && mofuleka_read_i16(offset + 1534) == -55);
  CHECK(mofuleka_read_f32(alpha) == 8192.0f / 137438953472.0f);
  CHECK(mofuleka_read_f32(k_ta) == 5.0f / 256.0f);
  CHECK(mofuleka_read_u16(record + 29) == 0xFFD8);
  CHECK(record[89] == 1 && mofuleka_read_f32(record + 90) == -4.0f);

  /* Questions over the record. */
  CHECK(mofuleka_value_f32(mofuleka_k_v_pixel(record, RECORD, 33)) == 4.0f);
  CHECK(mofuleka_number(mofuleka_k_v_pixel(record, RECORD, 768)) == MOFULEKA_PAST_THE_END);
  CHECK(mofuleka_number(mofuleka_k_v_pixel(record, 121, 0)) == MOFULEKA_SHORT_SLICE);
  a = mofuleka_interleave_correction_pixel(record, RECORD, MOFULEKA_INTERLEAVE, 3);
  CHECK(mofuleka_present(a) && mofuleka_value_f32(a) == -0.625f);
  a = mofuleka_interleave_correction_pixel(record, RECORD, MOFULEKA_CHESS, 3);
  CHECK(!mofuleka_refused(a) && !mofuleka_present(a));
  CHECK(mofuleka_number(mofuleka_interleave_correction_pixel(record, 0, 2, 768)) == MOFULEKA_PATTERN_OR_SUBPAGE);
  CHECK(mofuleka_number(mofuleka_interleave_correction_pixel(record, 0, 1, 768)) == MOFULEKA_PAST_THE_END);
  CHECK(mofuleka_number(mofuleka_interleave_correction_pixel(record, 0, 1, 767)) == MOFULEKA_SHORT_SLICE);
  a = mofuleka_interleave_correction_cp(record, RECORD, MOFULEKA_INTERLEAVE, MOFULEKA_ONE);
  CHECK(mofuleka_present(a) && mofuleka_value_f32(a) == 0.0625f);
  CHECK(!mofuleka_present(mofuleka_interleave_correction_cp(record, RECORD, MOFULEKA_INTERLEAVE, MOFULEKA_ZERO)));
  CHECK(mofuleka_number(mofuleka_interleave_correction_cp(record, RECORD, 0, 2)) == MOFULEKA_PATTERN_OR_SUBPAGE);
  CHECK(mofuleka_value_f32(mofuleka_alpha_cp(record, RECORD, MOFULEKA_ZERO)) == 70.0f / 17179869184.0f);
  CHECK(mofuleka_number(mofuleka_alpha_cp(record, RECORD, 2)) == MOFULEKA_PATTERN_OR_SUBPAGE);
  CHECK(mofuleka_value_i16(mofuleka_offset_reference_cp(record, RECORD, MOFULEKA_ZERO)) == -75);
  CHECK(mofuleka_value_i16(mofuleka_offset_reference_cp(record, RECORD, MOFULEKA_ONE)) == -77);
  CHECK(mofuleka_number(mofuleka_offset_reference_cp(record, 121, MOFULEKA_ONE)) == MOFULEKA_SHORT_SLICE);

  /* A refused image: number, table, place, and nothing written. */
  memset(image, 0, sizeof image);
  set(0x2411, 0x7FFF);
  set(0x2413, 0x0010);
  fill();
  a = decode(1664);
  CHECK(mofuleka_number(a) == MOFULEKA_SUM_OUTSIDE && mofuleka_table(a) == 0 && mofuleka_place(a) == 160);
  CHECK(nothing_written());
  memset(image, 0, sizeof image);
  set(0x2438, 0x000F);
  set(0x273F, 0x0002);
  a = decode(1664);
  CHECK(mofuleka_number(a) == MOFULEKA_TERM_OUTSIDE && mofuleka_table(a) == 2 && mofuleka_place(a) == 767);
  CHECK(nothing_written());
}

/* A sum that leaves 16 bits and comes back is accepted, and so is alpha's that stays outside. */
static void sums(void) {
  unsigned address;
  memset(image, 0, sizeof image);
  set(0x2411, 0x7FFF);
  for (address = 0x2412; address < 0x2418; address++) set(address, 0x1111);
  for (address = 0x2418; address < 0x2420; address++) set(address, 0xFFFF);
  set(0x2421, 0x7FFF);
  set(0x2422, 0x0001);
  CHECK(decode(1664) == MOFULEKA_ACCEPTED);
  CHECK(mofuleka_read_i16(offset) == 32767 && mofuleka_read_i16(offset + 1534) == 32767);
  CHECK(mofuleka_read_f32(alpha) == 32768.0f / 1073741824.0f);
  CHECK(mofuleka_read_f32(alpha + 3068) == 32767.0f / 1073741824.0f);
  set(0x241F, 0x0FFF);
  CHECK(mofuleka_number(decode(1664)) == MOFULEKA_SUM_OUTSIDE && mofuleka_place(decode(1664)) == 31);
}

/* Whether a call was refused with this number and left every byte. */
static int pixel_refused(mofuleka_answer a, unsigned number) {
  return mofuleka_number(a) == number && kept(out, 0, sizeof out);
}

static void one_pixel(void) {
  mofuleka_answer a;
  memset(image, 0, sizeof image);
  memset(out, 0x5A, sizeof out);
  set(0x2411, 0x7FFF);
  set(0x2413, 0x0010);
  set(0x2421, 0x2000);
  set(0x2437, 0x0005);
  CHECK(pixel_refused(mofuleka_pixel(image, 1663, 768, out, 9), MOFULEKA_IMAGE_LENGTH));
  CHECK(pixel_refused(mofuleka_pixel(image, 3328, 768, out, 9), MOFULEKA_IMAGE_LENGTH));
  CHECK(pixel_refused(mofuleka_pixel(image, 1664, 768, out, 9), MOFULEKA_PAST_THE_END));
  CHECK(pixel_refused(mofuleka_pixel(image, 1664, SIZE_MAX, out, 10), MOFULEKA_PAST_THE_END));
  CHECK(pixel_refused(mofuleka_pixel(image, 1664, 160, out, 9), MOFULEKA_SHORT_SLICE));
  a = mofuleka_pixel(image, 1664, 191, out, 10);
  CHECK(pixel_refused(a, MOFULEKA_SUM_OUTSIDE) && mofuleka_table(a) == 0 && mofuleka_place(a) == 191);

  /* Beside the row at fault there are answers; the bytes behind one keep their content. */
  memset(image + MOFULEKA_IMAGE_BYTES, 0xEE, MOFULEKA_IMAGE_BYTES);
  CHECK(mofuleka_pixel(image, 2048, 33, out, sizeof out) == MOFULEKA_ACCEPTED);
  CHECK(mofuleka_read_i16(out + MOFULEKA_PIXEL_OFFSET) == 32767);
  CHECK(mofuleka_read_f32(out + MOFULEKA_PIXEL_ALPHA) == 8192.0f / 1073741824.0f);
  CHECK(mofuleka_read_f32(out + MOFULEKA_PIXEL_K_TA) == 5.0f / 256.0f);
  CHECK(kept(out, MOFULEKA_PIXEL_BYTES, sizeof out));
}

/* A pixel of a gathering that holds the words 0x10 to 0x4F: all that the first sixteen pixels need. */
static void one_pixel_gathered(void) {
  static const uint8_t another[] = {0x00, 0x05, 0x01, 0x00, 0x4F, 0x00, 0x01};
  uint8_t block[5 + 128] = {0, 131, 1, 0, 0x10, 0, 0, 0x12, 0x34};
  mofuleka_answer a;
  memset(out, 0x5A, sizeof out);
  CHECK(mofuleka_gathering_fresh(gathering, 2496) == MOFULEKA_ACCEPTED);
  CHECK(pixel_refused(mofuleka_gathering_pixel(gathering, 2495, 768, out, 9), MOFULEKA_PAST_THE_END));
  CHECK(pixel_refused(mofuleka_gathering_pixel(gathering, 2495, 15, out, 10), MOFULEKA_SHORT_SLICE));
  CHECK(pixel_refused(mofuleka_gathering_pixel(gathering, 2496, 15, out, 9), MOFULEKA_SHORT_SLICE));
  a = mofuleka_gathering_pixel(gathering, 2496, 15, out, 10);
  CHECK(pixel_refused(a, MOFULEKA_WORD_MISSING) && mofuleka_place(a) == 0x10);
  CHECK(mofuleka_gathering_accept(gathering, 2496, block, sizeof block) == MOFULEKA_ACCEPTED);
  a = mofuleka_gathering_pixel(gathering, 2496, 16, out, 10);
  CHECK(pixel_refused(a, MOFULEKA_WORD_MISSING) && mofuleka_place(a) == 0x50);
  CHECK(mofuleka_gathering_pixel(gathering, sizeof gathering, 15, out, sizeof out) == MOFULEKA_ACCEPTED);
  CHECK(mofuleka_read_i16(out) == 0x1234 && kept(out, MOFULEKA_PIXEL_BYTES, sizeof out));
  memset(out, 0x5A, sizeof out);
  CHECK(mofuleka_gathering_accept(gathering, 2496, another, sizeof another) == MOFULEKA_ACCEPTED);
  a = mofuleka_gathering_pixel(gathering, 2496, 15, out, 10);
  CHECK(pixel_refused(a, MOFULEKA_WORD_IN_CONFLICT) && mofuleka_place(a) == 0x4F);
  CHECK(mofuleka_gathering_pixel(gathering, 2496, 14, out, 10) == MOFULEKA_ACCEPTED);
}

/* Whether a call was refused with this number and left every byte. */
static int explain_refused(size_t len, unsigned table, size_t pixel, size_t why_len, unsigned number) {
  mofuleka_answer a = mofuleka_explain(image, len, table, pixel, why, why_len);
  return a == number && kept(why, 0, sizeof why);
}

/* Whether a part of the explanation is this field with this scale and term. */
static int part_is(unsigned at, unsigned address, unsigned high, unsigned low, unsigned raw, int value, unsigned scale,
                   long term) {
  const uint8_t *part = why + at;
  return mofuleka_read_u16(part + MOFULEKA_PART_ADDRESS) == address && part[MOFULEKA_PART_HIGH] == high &&
         part[MOFULEKA_PART_LOW] == low && mofuleka_read_u16(part + MOFULEKA_PART_RAW) == raw &&
         mofuleka_read_i16(part + MOFULEKA_PART_VALUE) == value && part[MOFULEKA_PART_SCALE] == scale &&
         mofuleka_read_i32(part + MOFULEKA_PART_TERM) == term;
}

/* Whether the explanation is about this table and pixel, where the decoder answers so and this fails. */
static int explained(unsigned number, unsigned table, unsigned pixel, unsigned failure) {
  return why[MOFULEKA_EXPLANATION_NUMBER] == number && why[MOFULEKA_EXPLANATION_TABLE] == table &&
         mofuleka_read_u16(why + MOFULEKA_EXPLANATION_PIXEL) == pixel && why[MOFULEKA_EXPLANATION_FAILURE] == failure;
}

/* Whether every byte of the explanation from some place on is zero. */
static int blank_from(unsigned from) {
  for (; from < MOFULEKA_EXPLANATION_BYTES; from++)
    if (why[from] != 0) return 0;
  return 1;
}

static long whole_at(unsigned at) { return mofuleka_read_i32(why + at); }

/* Where the entries of an accepted image come from. */
static void entries_explained(void) {
  memset(image, 0, sizeof image);
  set(0x2410, 0x4210);
  set(0x2411, 0xFFC0);
  set(0x2412, 0x000F);
  set(0x2418, 0x0007);
  set(0x2421, 0x2000);
  set(0x2436, 0x0500);
  set(0x2438, 0x2001);
  set(0x2440, 0xFC0E);
  memset(image + MOFULEKA_IMAGE_BYTES, 0xEE, MOFULEKA_IMAGE_BYTES);
  memset(why, 0x5A, sizeof why);
  CHECK(mofuleka_explain(image, 2048, MOFULEKA_OFFSET, 0, why, sizeof why) == MOFULEKA_ACCEPTED);
  CHECK(kept(why, MOFULEKA_EXPLANATION_BYTES, sizeof why) && explained(0, 0, 0, MOFULEKA_NO_FAILURE));
  CHECK(part_is(MOFULEKA_EXPLANATION_AVERAGE, 0x2411, 15, 0, 0xFFC0, -64, 0, -64));
  CHECK(part_is(MOFULEKA_EXPLANATION_ROW, 0x2412, 3, 0, 15, -1, 2, -4));
  CHECK(whole_at(MOFULEKA_EXPLANATION_AFTER_ROW) == -68);
  CHECK(part_is(MOFULEKA_EXPLANATION_COLUMN, 0x2418, 3, 0, 7, 7, 1, 14));
  CHECK(whole_at(MOFULEKA_EXPLANATION_AFTER_COLUMN) == -54);
  CHECK(part_is(MOFULEKA_EXPLANATION_REMAINDER, 0x2440, 15, 10, 63, -1, 0, -1));
  CHECK(whole_at(MOFULEKA_EXPLANATION_NUMERATOR) == -55 && why[MOFULEKA_EXPLANATION_EXPONENT] == 0);
  CHECK(whole_at(MOFULEKA_EXPLANATION_ENTRY) == -55);

  CHECK(mofuleka_explain(image, 1664, MOFULEKA_ALPHA, 767, why, 74) == MOFULEKA_ACCEPTED);
  CHECK(explained(0, 1, 767, MOFULEKA_NO_FAILURE) && why[MOFULEKA_EXPLANATION_EXPONENT] == 30);
  CHECK(part_is(MOFULEKA_EXPLANATION_REMAINDER, 0x273F, 9, 4, 0, 0, 0, 0));
  CHECK(mofuleka_read_f32(why + MOFULEKA_EXPLANATION_ENTRY) == 8192.0f / 1073741824.0f);

  CHECK(mofuleka_explain(image, 1664, MOFULEKA_K_TA, 0, why, 74) == MOFULEKA_ACCEPTED);
  CHECK(part_is(MOFULEKA_EXPLANATION_AVERAGE, 0x2436, 15, 8, 5, 5, 0, 5));
  CHECK(part_is(MOFULEKA_EXPLANATION_ROW, 0, 0, 0, 0, 0, 0, 0) && whole_at(MOFULEKA_EXPLANATION_AFTER_ROW) == 5);
  CHECK(part_is(MOFULEKA_EXPLANATION_COLUMN, 0, 0, 0, 0, 0, 0, 0) && whole_at(MOFULEKA_EXPLANATION_AFTER_COLUMN) == 5);
  CHECK(part_is(MOFULEKA_EXPLANATION_REMAINDER, 0x2440, 3, 1, 7, -1, 1, -2));
  CHECK(whole_at(MOFULEKA_EXPLANATION_NUMERATOR) == 3 && why[MOFULEKA_EXPLANATION_EXPONENT] == 8);
  CHECK(mofuleka_read_f32(why + MOFULEKA_EXPLANATION_ENTRY) == 3.0f / 256.0f);
}

/* Why an image is refused, whatever table and pixel were asked for. */
static void failures_explained(void) {
  memset(image, 0, sizeof image);
  memset(why, 0x5A, sizeof why);
  set(0x2411, 0x7FFF);
  set(0x2413, 0x0010);
  CHECK(explain_refused(1663, 3, 768, 73, MOFULEKA_IMAGE_LENGTH));
  CHECK(explain_refused(3328, 3, 768, 73, MOFULEKA_IMAGE_LENGTH));
  CHECK(explain_refused(1664, 3, 768, 73, MOFULEKA_PAST_THE_END));
  CHECK(explain_refused(1664, 0, SIZE_MAX, 74, MOFULEKA_PAST_THE_END));
  CHECK(explain_refused(1664, 3, 767, 73, MOFULEKA_TABLE_NUMBER));
  CHECK(explain_refused(1664, 0xFFFFFFFFu, 0, 74, MOFULEKA_TABLE_NUMBER));
  CHECK(explain_refused(1664, 2, 767, 73, MOFULEKA_SHORT_SLICE));
  CHECK(explain_refused(2048, 2, 767, 0, MOFULEKA_SHORT_SLICE));

  CHECK(mofuleka_explain(image, 1664, MOFULEKA_K_TA, 7, why, 74) == MOFULEKA_ACCEPTED);
  CHECK(explained(MOFULEKA_SUM_OUTSIDE, MOFULEKA_OFFSET, 160, MOFULEKA_FINAL_SUM));
  CHECK(part_is(MOFULEKA_EXPLANATION_ROW, 0x2413, 7, 4, 1, 1, 0, 1));
  CHECK(whole_at(MOFULEKA_EXPLANATION_NUMERATOR) == 32768 && blank_from(MOFULEKA_EXPLANATION_EXPONENT));
}

/* The same of a term of each kind; what comes after it is zero. */
static void terms_explained(void) {
  memset(image, 0, sizeof image);
  set(0x2411, 0x7FFF);
  set(0x2410, 0x000B);
  set(0x2440, 0xBC00);
  CHECK(mofuleka_explain(image, 1664, 0, 0, why, 74) == MOFULEKA_ACCEPTED);
  CHECK(explained(MOFULEKA_TERM_OUTSIDE, 0, 0, MOFULEKA_REMAINDER_TERM));
  CHECK(part_is(MOFULEKA_EXPLANATION_REMAINDER, 0x2440, 15, 10, 47, -17, 11, -34816));
  CHECK(whole_at(MOFULEKA_EXPLANATION_AFTER_COLUMN) == 32767 && blank_from(MOFULEKA_EXPLANATION_NUMERATOR));
  set(0x2410, 0x00FB);
  set(0x2418, 0x0001);
  CHECK(mofuleka_explain(image, 1664, 0, 0, why, 74) == MOFULEKA_ACCEPTED);
  CHECK(explained(MOFULEKA_TERM_OUTSIDE, 0, 0, MOFULEKA_COLUMN_TERM));
  CHECK(part_is(MOFULEKA_EXPLANATION_COLUMN, 0x2418, 3, 0, 1, 1, 15, 32768));
  CHECK(whole_at(MOFULEKA_EXPLANATION_AFTER_ROW) == 32767 && blank_from(MOFULEKA_EXPLANATION_AFTER_COLUMN));
  set(0x2410, 0x0FFB);
  set(0x2412, 0x000E);
  CHECK(mofuleka_explain(image, 1664, 0, 0, why, 74) == MOFULEKA_ACCEPTED);
  CHECK(explained(MOFULEKA_TERM_OUTSIDE, 0, 0, MOFULEKA_ROW_TERM));
  CHECK(part_is(MOFULEKA_EXPLANATION_ROW, 0x2412, 3, 0, 14, -2, 15, -65536));
  CHECK(blank_from(MOFULEKA_EXPLANATION_AFTER_ROW));
}

static void gatherings(void) {
  static const uint8_t last[] = {0x00, 0x05, 0x01, 0x03, 0x3F, 0xAB, 0xCD};
  static const uint8_t beyond[] = {0x00, 0x07, 0x01, 0x03, 0x3F, 0x12, 0x34, 0x56, 0x78};
  static const uint8_t version[] = {0x00, 0x05, 0x02, 0x00, 0x00, 0x00, 0x00};
  static const uint8_t even[] = {0x00, 0x06, 0x01, 0x00, 0x00, 0x00, 0x00, 0x00};
  uint8_t block[5 + 128];
  mofuleka_answer a;
  unsigned first;
  memset(gathering, 0x5A, sizeof gathering);
  CHECK(mofuleka_number(mofuleka_gathering_fresh(gathering, 2495)) == MOFULEKA_SHORT_SLICE);
  CHECK(kept(gathering, 0, sizeof gathering));
  CHECK(mofuleka_gathering_fresh(gathering, sizeof gathering) == MOFULEKA_ACCEPTED);
  CHECK(kept(gathering, 2496, sizeof gathering));
  a = mofuleka_gathering_status(gathering, 2496);
  CHECK(mofuleka_status_missing(a) == 832 && mofuleka_status_in_conflict(a) == 0);
  CHECK(mofuleka_number(mofuleka_gathering_status(gathering, 0)) == MOFULEKA_SHORT_SLICE);
  CHECK(mofuleka_number(mofuleka_gathering_accept(gathering, 2496, last, 0)) == MOFULEKA_BLOCK_LENGTH);
  CHECK(mofuleka_number(mofuleka_gathering_accept(gathering, 2496, even, sizeof even)) == MOFULEKA_BLOCK_COUNT);
  CHECK(mofuleka_number(mofuleka_gathering_accept(gathering, 2496, version, sizeof version)) == MOFULEKA_BLOCK_VERSION);
  CHECK(mofuleka_number(mofuleka_gathering_accept(gathering, 2496, beyond, sizeof beyond)) == MOFULEKA_BLOCK_RANGE);
  CHECK(mofuleka_number(mofuleka_gathering_accept(gathering, 2495, last, sizeof last)) == MOFULEKA_SHORT_SLICE);
  CHECK(mofuleka_gathering_accept(gathering, 2496, last, sizeof last) == MOFULEKA_ACCEPTED);
  a = mofuleka_gathering_word(gathering, 2496, 831);
  CHECK(mofuleka_word_mark(a) == MOFULEKA_HELD && mofuleka_word_value(a) == 0xABCD);
  a = mofuleka_gathering_word(gathering, 2496, 830);
  CHECK(mofuleka_word_mark(a) == MOFULEKA_MISSING && mofuleka_word_value(a) == 0);
  CHECK(mofuleka_number(mofuleka_gathering_word(gathering, 0, 832)) == MOFULEKA_PAST_THE_END);
  CHECK(mofuleka_number(mofuleka_gathering_word(gathering, 0, 831)) == MOFULEKA_SHORT_SLICE);
  fill();
  a = mofuleka_gathering_from_data(gathering, 2496, offset, 0, alpha, 0, k_ta, 0, record, 0);
  CHECK(mofuleka_number(a) == MOFULEKA_WORD_MISSING && mofuleka_place(a) == 0);

  /* A full one: the zero image. Merged with the first it has one word in conflict. */
  CHECK(mofuleka_gathering_fresh(other, 2496) == MOFULEKA_ACCEPTED);
  for (first = 0; first < 832; first += 64) {
    memset(block, 0, sizeof block);
    block[1] = 131;
    block[2] = 1;
    block[3] = (uint8_t)(first >> 8);
    block[4] = (uint8_t)first;
    CHECK(mofuleka_gathering_accept(other, 2496, block, sizeof block) == MOFULEKA_ACCEPTED);
  }
  a = mofuleka_gathering_from_data(other, 2496, offset, 1536, alpha, 3072, k_ta, 3072, record, RECORD);
  CHECK(a == MOFULEKA_ACCEPTED && mofuleka_read_i16(record + 2) == -16384);
  a = mofuleka_gathering_from_data(other, 2496, offset, 1536, alpha, 3072, k_ta, 3071, record, RECORD);
  CHECK(mofuleka_number(a) == MOFULEKA_SHORT_SLICE);
  CHECK(mofuleka_number(mofuleka_gathering_merge(other, 2496, gathering, 2495)) == MOFULEKA_SHORT_SLICE);
  CHECK(mofuleka_gathering_merge(other, 2496, gathering, 2496) == MOFULEKA_ACCEPTED);
  a = mofuleka_gathering_status(other, 2496);
  CHECK(mofuleka_status_missing(a) == 0 && mofuleka_status_in_conflict(a) == 1);
  a = mofuleka_gathering_from_data(other, 2496, offset, 1536, alpha, 3072, k_ta, 3072, record, RECORD);
  CHECK(mofuleka_number(a) == MOFULEKA_WORD_IN_CONFLICT && mofuleka_place(a) == 831);
}

static void camera(void) {
  mofuleka_answer a;
  CHECK(mofuleka_value(mofuleka_pixel_in_subpage(MOFULEKA_CHESS, MOFULEKA_ONE, 1)) == 1);
  CHECK(mofuleka_value(mofuleka_pixel_in_subpage(MOFULEKA_INTERLEAVE, MOFULEKA_ONE, 1)) == 0);
  CHECK(mofuleka_number(mofuleka_pixel_in_subpage(0, 0, 768)) == MOFULEKA_PAST_THE_END);
  CHECK(mofuleka_number(mofuleka_pixel_in_subpage(2, 0, 768)) == MOFULEKA_PATTERN_OR_SUBPAGE);
  CHECK(mofuleka_value(mofuleka_pixel_range_count(MOFULEKA_CHESS)) == 1);
  CHECK(mofuleka_value(mofuleka_pixel_range_count(MOFULEKA_INTERLEAVE)) == 12);
  CHECK(mofuleka_number(mofuleka_pixel_range_count(2)) == MOFULEKA_PATTERN_OR_SUBPAGE);
  a = mofuleka_pixel_range(MOFULEKA_INTERLEAVE, MOFULEKA_ONE, 11);
  CHECK(mofuleka_range_address(a) == 0x06E0 && mofuleka_range_offset(a) == 1472 && mofuleka_range_length(a) == 64);
  a = mofuleka_pixel_range(MOFULEKA_CHESS, MOFULEKA_ONE, 0);
  CHECK(mofuleka_range_address(a) == 0x0400 && mofuleka_range_offset(a) == 0 && mofuleka_range_length(a) == 1536);
  CHECK(mofuleka_number(mofuleka_pixel_range(0, 0, 12)) == MOFULEKA_RANGE_NUMBER);
  CHECK(mofuleka_number(mofuleka_pixel_range(0, 2, 12)) == MOFULEKA_PATTERN_OR_SUBPAGE);
  CHECK(mofuleka_value(mofuleka_compensation_pixel(MOFULEKA_ZERO)) == 0x0708);
  CHECK(mofuleka_value(mofuleka_compensation_pixel(MOFULEKA_ONE)) == 0x0728);
  CHECK(mofuleka_number(mofuleka_compensation_pixel(2)) == MOFULEKA_PATTERN_OR_SUBPAGE);
  CHECK(mofuleka_value_f32(mofuleka_resolution_correction(0, 15)) == 1.0f / 32768.0f);
  CHECK(mofuleka_number(mofuleka_resolution_correction(16, 0)) == MOFULEKA_RESOLUTION);
}

int main(void) {
  sizes();
  decoding();
  sums();
  one_pixel();
  one_pixel_gathered();
  entries_explained();
  failures_explained();
  terms_explained();
  gatherings();
  camera();
  if (!failed) printf("the C interface answers as declared\n");
  return failed;
}
