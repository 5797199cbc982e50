/* A firmware that asks for a part of the library alone: which one, a name that is given to the compiler says. rust/compare/firmware
 * links it and counts what the library adds; nothing runs it. */
#include "mofuleka.h"

/* What the archive calls. */
void *memcpy(void *to, const void *from, size_t count) {
  volatile uint8_t *write = (volatile uint8_t *)to;
  const uint8_t *read = (const uint8_t *)from;
  while (count--) *write++ = *read++;
  return to;
}

void *memset(void *to, int byte, size_t count) {
  volatile uint8_t *write = (volatile uint8_t *)to;
  while (count--) *write++ = (uint8_t)byte;
  return to;
}

uint8_t image[MOFULEKA_IMAGE_BYTES], record[MOFULEKA_RECORD_BYTES], block[133];
uint8_t offset[MOFULEKA_OFFSET_TABLE_BYTES], alpha[MOFULEKA_ALPHA_TABLE_BYTES], k_ta[MOFULEKA_K_TA_TABLE_BYTES];
uint8_t gathering[MOFULEKA_GATHERING_BYTES], other[MOFULEKA_GATHERING_BYTES];
uint8_t out[MOFULEKA_PIXEL_BYTES], why[MOFULEKA_EXPLANATION_BYTES];
volatile uint32_t number;
volatile mofuleka_answer answer;

void start(void) {
#ifdef DECODER
  answer = mofuleka_from_data(image, sizeof image, offset, sizeof offset, alpha, sizeof alpha, k_ta, sizeof k_ta, record,
                              sizeof record);
#endif
#ifdef GATHERING
  answer = mofuleka_gathering_fresh(gathering, sizeof gathering);
  answer = mofuleka_gathering_accept(gathering, sizeof gathering, block, sizeof block);
  answer = mofuleka_gathering_merge(gathering, sizeof gathering, other, sizeof other);
  answer = mofuleka_gathering_status(gathering, sizeof gathering);
  answer = mofuleka_gathering_word(gathering, sizeof gathering, number);
#endif
#ifdef GATHERED
  answer = mofuleka_gathering_from_data(gathering, sizeof gathering, offset, sizeof offset, alpha, sizeof alpha, k_ta,
                                        sizeof k_ta, record, sizeof record);
#endif
#ifdef PIXEL
  answer = mofuleka_pixel(image, sizeof image, number, out, sizeof out);
#endif
#ifdef EXPLANATION
  answer = mofuleka_explain(image, sizeof image, number, number, why, sizeof why);
#endif
#ifdef GATHERED_PIXEL
  answer = mofuleka_gathering_pixel(gathering, sizeof gathering, number, out, sizeof out);
#endif
#ifdef CAMERA
  answer = mofuleka_pixel_in_subpage(number, number, number);
  answer = mofuleka_pixel_range_count(number);
  answer = mofuleka_pixel_range(number, number, number);
  answer = mofuleka_compensation_pixel(number);
  answer = mofuleka_resolution_correction(number, number);
#endif
#ifdef RECORD
  answer = mofuleka_k_v_pixel(record, sizeof record, number);
  answer = mofuleka_interleave_correction_pixel(record, sizeof record, number, number);
  answer = mofuleka_interleave_correction_cp(record, sizeof record, number, number);
  answer = mofuleka_alpha_cp(record, sizeof record, number);
  answer = mofuleka_offset_reference_cp(record, sizeof record, number);
#endif
}
