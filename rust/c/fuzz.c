/* fuzz [SECONDS [SEED]]: every function of the C interface called with random and damaged images, blocks, records and
 * gatherings, in slices of every length, with any numbers. 600 seconds unless said otherwise; the seed is printed, and
 * the same seed makes the same calls.
 *
 * Each slice lies in memory between pages that cannot be touched. Every call is made twice: once with a slice's start
 * against the page in front, once with its end against the page behind; a byte read or written past either end is a
 * fault. Slices that are only read lie in memory that cannot be written. What must be answered and written is worked
 * out here, without the library, from docs/INTERFACE.md and the image's rules; rust/compare compares decoded numbers.
 *
 * First every length of every slice and every small number is gone through, one at a time; then chance chooses, and the
 * same sweep goes on beside it. What is found is printed with the seed and the step; exit status 1 then. */
#ifndef _GNU_SOURCE
#define _GNU_SOURCE 1
#endif
#include <errno.h>
#include <signal.h>
#include <stdio.h>
#include <stdlib.h>
#include <string.h>
#include <sys/mman.h>
#include <sys/time.h>
#include <time.h>
#include <unistd.h>

#include "mofuleka.h"

#define IMAGE_BYTES 1664u
/* A page that stands for its first IMAGE_BYTES, and two images joined. */
#define PAGE_BYTES 2048u
#define JOINED_BYTES 3328u
#define OFFSET_BYTES 1536u
#define FLOATS_BYTES 3072u
#define RECORD_BYTES 122u
#define GATHERING_BYTES 2496u
#define PIXEL_BYTES 10u
#define EXPLANATION_BYTES 74u
#define BLOCK_BYTES 133u
#define LARGEST_LAYOUT 3072u
#define WORDS 832u
#define PIXELS 768u

/* ---- the functions, their slices and their numbers ---- */

enum use { READ, WRITTEN, READ_AND_WRITTEN };
enum what { AN_IMAGE, A_TABLE, A_RECORD, A_GATHERING, A_BLOCK };
enum number { NO_NUMBER, A_SELECTOR, A_TABLE_NUMBER, A_RESOLUTION, A_RANGE, A_PIXEL, A_WORD };

/* How many numbers of each kind there are, from 0 on. */
static const unsigned number_limits[] = {1, 2, 3, 16, 12, PIXELS, WORDS};

struct slice {
  const char *name;
  unsigned layout; /* its bytes; of a block, the most that it may have */
  enum what what;
  enum use use;
};

#define MOST_SLICES 5
#define MOST_NUMBERS 3

struct function {
  const char *name;
  unsigned weight; /* how often chance chooses it */
  unsigned slice_count;
  const struct slice *slices;
  unsigned number_count;
  enum number numbers[MOST_NUMBERS];
};

enum {
  SIZE_OF_IMAGE,
  SIZE_OF_OFFSET_TABLE,
  SIZE_OF_ALPHA_TABLE,
  SIZE_OF_K_TA_TABLE,
  SIZE_OF_RECORD,
  SIZE_OF_GATHERING,
  SIZE_OF_PIXEL,
  SIZE_OF_EXPLANATION,
  FROM_DATA,
  FRESH,
  ACCEPT,
  MERGE,
  STATUS,
  WORD,
  GATHERING_FROM_DATA,
  ONE_PIXEL,
  GATHERING_PIXEL,
  EXPLAIN,
  PIXEL_IN_SUBPAGE,
  PIXEL_RANGE_COUNT,
  PIXEL_RANGE,
  COMPENSATION_PIXEL,
  RESOLUTION_CORRECTION,
  K_V_PIXEL,
  CORRECTION_PIXEL,
  CORRECTION_CP,
  ALPHA_CP,
  OFFSET_REFERENCE_CP,
  FUNCTIONS
};

static const struct slice image_and_tables[] = {{"image", IMAGE_BYTES, AN_IMAGE, READ},
                                                {"offset", OFFSET_BYTES, A_TABLE, WRITTEN},
                                                {"alpha", FLOATS_BYTES, A_TABLE, WRITTEN},
                                                {"k_ta", FLOATS_BYTES, A_TABLE, WRITTEN},
                                                {"record", RECORD_BYTES, A_TABLE, WRITTEN}};
static const struct slice gathering_and_tables[] = {{"gathering", GATHERING_BYTES, A_GATHERING, READ},
                                                    {"offset", OFFSET_BYTES, A_TABLE, WRITTEN},
                                                    {"alpha", FLOATS_BYTES, A_TABLE, WRITTEN},
                                                    {"k_ta", FLOATS_BYTES, A_TABLE, WRITTEN},
                                                    {"record", RECORD_BYTES, A_TABLE, WRITTEN}};
static const struct slice gathering_and_block[] = {{"gathering", GATHERING_BYTES, A_GATHERING, READ_AND_WRITTEN},
                                                   {"block", BLOCK_BYTES, A_BLOCK, READ}};
static const struct slice two_gatherings[] = {{"gathering", GATHERING_BYTES, A_GATHERING, READ_AND_WRITTEN},
                                              {"other", GATHERING_BYTES, A_GATHERING, READ}};
static const struct slice image_and_pixel[] = {{"image", IMAGE_BYTES, AN_IMAGE, READ},
                                               {"out", PIXEL_BYTES, A_TABLE, WRITTEN}};
static const struct slice gathering_and_pixel[] = {{"gathering", GATHERING_BYTES, A_GATHERING, READ},
                                                   {"out", PIXEL_BYTES, A_TABLE, WRITTEN}};
static const struct slice image_and_explanation[] = {{"image", IMAGE_BYTES, AN_IMAGE, READ},
                                                     {"out", EXPLANATION_BYTES, A_TABLE, WRITTEN}};
static const struct slice gathering_written[] = {{"gathering", GATHERING_BYTES, A_GATHERING, WRITTEN}};
static const struct slice gathering_read[] = {{"gathering", GATHERING_BYTES, A_GATHERING, READ}};
static const struct slice record_read[] = {{"record", RECORD_BYTES, A_RECORD, READ}};

static const struct function functions[FUNCTIONS] = {
    {"mofuleka_image_bytes", 1, 0, NULL, 0, {NO_NUMBER}},
    {"mofuleka_offset_table_bytes", 1, 0, NULL, 0, {NO_NUMBER}},
    {"mofuleka_alpha_table_bytes", 1, 0, NULL, 0, {NO_NUMBER}},
    {"mofuleka_k_ta_table_bytes", 1, 0, NULL, 0, {NO_NUMBER}},
    {"mofuleka_record_bytes", 1, 0, NULL, 0, {NO_NUMBER}},
    {"mofuleka_gathering_bytes", 1, 0, NULL, 0, {NO_NUMBER}},
    {"mofuleka_pixel_bytes", 1, 0, NULL, 0, {NO_NUMBER}},
    {"mofuleka_explanation_bytes", 1, 0, NULL, 0, {NO_NUMBER}},
    {"mofuleka_from_data", 16, 5, image_and_tables, 0, {NO_NUMBER}},
    {"mofuleka_gathering_fresh", 4, 1, gathering_written, 0, {NO_NUMBER}},
    {"mofuleka_gathering_accept", 32, 2, gathering_and_block, 0, {NO_NUMBER}},
    {"mofuleka_gathering_merge", 8, 2, two_gatherings, 0, {NO_NUMBER}},
    {"mofuleka_gathering_status", 8, 1, gathering_read, 0, {NO_NUMBER}},
    {"mofuleka_gathering_word", 8, 1, gathering_read, 1, {A_WORD}},
    {"mofuleka_gathering_from_data", 16, 5, gathering_and_tables, 0, {NO_NUMBER}},
    {"mofuleka_pixel", 16, 2, image_and_pixel, 1, {A_PIXEL}},
    {"mofuleka_gathering_pixel", 16, 2, gathering_and_pixel, 1, {A_PIXEL}},
    {"mofuleka_explain", 16, 2, image_and_explanation, 2, {A_TABLE_NUMBER, A_PIXEL}},
    {"mofuleka_pixel_in_subpage", 6, 0, NULL, 3, {A_SELECTOR, A_SELECTOR, A_PIXEL}},
    {"mofuleka_pixel_range_count", 2, 0, NULL, 1, {A_SELECTOR}},
    {"mofuleka_pixel_range", 6, 0, NULL, 3, {A_SELECTOR, A_SELECTOR, A_RANGE}},
    {"mofuleka_compensation_pixel", 2, 0, NULL, 1, {A_SELECTOR}},
    {"mofuleka_resolution_correction", 4, 0, NULL, 2, {A_RESOLUTION, A_RESOLUTION}},
    {"mofuleka_k_v_pixel", 8, 1, record_read, 1, {A_PIXEL}},
    {"mofuleka_interleave_correction_pixel", 8, 1, record_read, 2, {A_SELECTOR, A_PIXEL}},
    {"mofuleka_interleave_correction_cp", 8, 1, record_read, 2, {A_SELECTOR, A_SELECTOR}},
    {"mofuleka_alpha_cp", 8, 1, record_read, 1, {A_SELECTOR}},
    {"mofuleka_offset_reference_cp", 8, 1, record_read, 1, {A_SELECTOR}},
};

/* The most bytes of a slice that are filled and compared: past 65,537, the longest block that says its own length. */
#define ROOM 69632u

/* One call that is to be made: what goes into its slices is in content. */
struct call {
  unsigned function;
  size_t len[MOST_SLICES];
  uint64_t number[MOST_NUMBERS];
  unsigned behind; /* a bit for each slice: whether its end touches the page behind in the first of the two calls */
};

static uint8_t content[MOST_SLICES][ROOM];
/* What lay in the slices before the call. */
static uint8_t before[MOST_SLICES][ROOM];
/* What the first of the two calls left in the written slices. */
static uint8_t after[MOST_SLICES][LARGEST_LAYOUT];

static const struct slice *slice_of(const struct call *c, unsigned i) { return &functions[c->function].slices[i]; }

static size_t least(size_t a, size_t b) { return a < b ? a : b; }

static int is_size(const struct call *c) { return c->function <= SIZE_OF_EXPLANATION; }

static int is_pixel(const struct call *c) { return c->function == ONE_PIXEL || c->function == GATHERING_PIXEL; }

static int is_refused(const struct call *c, mofuleka_answer a) { return !is_size(c) && mofuleka_refused(a); }

/* ---- numbers by chance ---- */

static uint64_t seed, chance;
/* The step that is being made. */
static volatile uint64_t step;

static uint64_t next(void) {
  chance ^= chance >> 12;
  chance ^= chance << 25;
  chance ^= chance >> 27;
  return chance * 0x2545F4914F6CDD1Du;
}

static size_t below(size_t bound) { return (size_t)((next() >> 16) % bound); }

static void noise(uint8_t *to, size_t size) {
  for (; size >= 8; size -= 8, to += 8) {
    uint64_t bits = next();
    memcpy(to, &bits, 8);
  }
  for (; size > 0; size--) *to++ = (uint8_t)(next() >> 24);
}

/* ---- counts and findings ---- */

/* One more than the largest number of a refusal. */
#define REFUSALS 16

struct count {
  uint64_t calls, accepted, refused[REFUSALS];
  uint64_t front[MOST_SLICES], behind[MOST_SLICES];
};

static struct count counts[FUNCTIONS];

static void tell_call(const struct call *c) {
  const struct function *f = &functions[c->function];
  unsigned i;
  printf("  %s, seed %llu, step %llu\n", f->name, (unsigned long long)seed, (unsigned long long)step);
  for (i = 0; i < f->slice_count; i++) printf("  %s: %zu bytes\n", f->slices[i].name, c->len[i]);
  for (i = 0; i < f->number_count; i++) printf("  number %u: %llu\n", i, (unsigned long long)c->number[i]);
}

/* Says what is wrong and ends. */
static void wrong(const struct call *c, const char *what, uint64_t found, const char *must_be, uint64_t must) {
  printf("wrong: %s: %#llx, must be %s%#llx\n", what, (unsigned long long)found, must_be, (unsigned long long)must);
  tell_call(c);
  fflush(stdout);
  exit(1);
}

static void same_number(const struct call *c, const char *what, uint64_t found, uint64_t must) {
  if (found != must) wrong(c, what, found, "", must);
}

static void at_most(const struct call *c, const char *what, uint64_t found, uint64_t most) {
  if (found > most) wrong(c, what, found, "at most ", most);
}

/* Compares bytes, from a byte of a slice on; names the first that differs. */
static void same_bytes(const struct call *c, const char *what, const char *where, size_t from, const uint8_t *found,
                       const uint8_t *must, size_t size) {
  char text[120];
  size_t at = 0;
  if (memcmp(found, must, size) == 0) return;
  while (found[at] == must[at]) at++;
  snprintf(text, sizeof text, "%s: byte %zu of %s", what, from + at, where);
  wrong(c, text, found[at], "", must[at]);
}

/* ---- memory between pages that cannot be touched ---- */

/* Wide enough for lengths past 2^32; only what is touched takes up memory. */
#define ARENA (((size_t)1 << 32) + ((size_t)1 << 18))
#define GUARD ((size_t)1 << 20)
/* Bytes on the free side of a slice that must stay as they are. */
#define MARGIN 128u

/* The same memory seen twice, each time between guards: as this program writes it, and read-only. */
struct arena {
  uint8_t *open, *read_only;
};

struct lent {
  uint8_t *at; /* as the library sees it */
  size_t start, len;
};

static struct arena arenas[MOST_SLICES];
static struct lent lent[MOST_SLICES];
/* The call that the library is in, or NULL. */
static const struct call *volatile inside;

static void give_up(const char *what) {
  printf("%s: %s\n", what, strerror(errno));
  exit(2);
}

static uint8_t *guarded_view(int file, int protection) {
  int flags = MAP_PRIVATE | MAP_ANONYMOUS | MAP_NORESERVE;
  uint8_t *all = (uint8_t *)mmap(NULL, ARENA + 2 * GUARD, PROT_NONE, flags, -1, 0);
  if (all == MAP_FAILED) give_up("no room for the guarded memory");
  flags = MAP_SHARED | MAP_FIXED | MAP_NORESERVE;
  if (mmap(all + GUARD, ARENA, protection, flags, file, 0) == MAP_FAILED) give_up("no guarded memory");
  return all + GUARD;
}

static void make_arenas(void) {
  unsigned i;
  for (i = 0; i < MOST_SLICES; i++) {
    int file = memfd_create("arena", 0);
    if (file < 0 || ftruncate(file, (off_t)ARENA) != 0) give_up("no memory to share");
    arenas[i].open = guarded_view(file, PROT_READ | PROT_WRITE);
    arenas[i].read_only = guarded_view(file, PROT_READ);
    close(file);
  }
}

/* Says in which slice's surroundings a fault lies. */
static int tell_place(char *to, size_t size, const struct call *c, const uint8_t *at) {
  unsigned i;
  for (i = 0; i < functions[c->function].slice_count; i++) {
    const uint8_t *view = slice_of(c, i)->use == READ ? arenas[i].read_only : arenas[i].open;
    if (at >= view - GUARD && at < view + ARENA + GUARD)
      return snprintf(to, size, ", at byte %lld of the %zu of %s", (long long)(at - lent[i].at), lent[i].len,
                      slice_of(c, i)->name);
  }
  return snprintf(to, size, ", at %p", (const void *)at);
}

static void on_fault(int signal_number, siginfo_t *info, void *context) {
  char text[400], place[120] = "";
  const struct call *c = inside;
  int size, has_place = signal_number == SIGSEGV || signal_number == SIGBUS;
  (void)context;
  if (c != NULL && has_place) tell_place(place, sizeof place, c, (const uint8_t *)info->si_addr);
  size = snprintf(text, sizeof text, "fault: %s %d in %s%s, seed %llu, step %llu\n",
                  signal_number == SIGVTALRM ? "no end, signal" : "signal", signal_number,
                  c != NULL ? functions[c->function].name : "the harness itself", place, (unsigned long long)seed,
                  (unsigned long long)step);
  if (write(1, text, (size_t)size) != size) _exit(3);
  _exit(1);
}

/* Every ten seconds of this program's own time: a step that is still the same one does not end. */
static void on_time(int signal_number, siginfo_t *info, void *context) {
  static uint64_t last = UINT64_MAX;
  if (inside != NULL && step == last) on_fault(signal_number, info, context);
  last = step;
}

static void catch_signal(int signal_number, void (*handler)(int, siginfo_t *, void *)) {
  struct sigaction action;
  memset(&action, 0, sizeof action);
  action.sa_sigaction = handler;
  action.sa_flags = SA_SIGINFO | SA_ONSTACK;
  if (sigaction(signal_number, &action, NULL) != 0) give_up("sigaction");
}

static void catch_faults(void) {
  static const int signals[] = {SIGSEGV, SIGBUS, SIGILL, SIGTRAP, SIGFPE};
  static uint8_t other_stack[1 << 16];
  struct itimerval every = {{10, 0}, {10, 0}};
  stack_t stack;
  size_t i;
  memset(&stack, 0, sizeof stack);
  stack.ss_sp = other_stack;
  stack.ss_size = sizeof other_stack;
  if (sigaltstack(&stack, NULL) != 0) give_up("sigaltstack");
  for (i = 0; i < sizeof signals / sizeof signals[0]; i++) catch_signal(signals[i], on_fault);
  catch_signal(SIGVTALRM, on_time);
  if (setitimer(ITIMER_VIRTUAL, &every, NULL) != 0) give_up("setitimer");
}

/* ---- what must be answered ---- */

static mofuleka_answer refusal(unsigned number, unsigned table, size_t place) {
  return (mofuleka_answer)number | (mofuleka_answer)table << 8 | (mofuleka_answer)place << 16;
}

static mofuleka_answer plain(unsigned number) { return refusal(number, 0, 0); }

static mofuleka_answer value(uint64_t number) { return number << 16; }

static unsigned word_at(const uint8_t *image, unsigned address) {
  const uint8_t *at = image + 2 * (address - 0x2400);
  return (unsigned)at[0] << 8 | at[1];
}

/* Some bits of a word, from a lowest one on, in two's complement. */
static int signed_bits(unsigned word, unsigned lowest, unsigned width) {
  int bits = (int)(word >> lowest & ((1u << width) - 1));
  return bits < 1 << (width - 1) ? bits : bits - (1 << width);
}

/* The four-bit field of a row or a column. */
static int fourth(const uint8_t *image, unsigned start, unsigned i) {
  return signed_bits(word_at(image, start + i / 4), 4 * (i % 4), 4);
}

static int fits(int number) { return number >= -32768 && number <= 32767; }

/* What makes up one pixel's sum in the offset table (0), in alpha (1) or in Kta (2), which has no row and column. */
struct sum {
  int average, row, column, remainder;
};

static struct sum k_ta_sum(const uint8_t *image, unsigned pixel) {
  unsigned odd_row = pixel / 32 % 2, odd_column = pixel % 2;
  struct sum s = {0, 0, 0, 0};
  s.average = signed_bits(word_at(image, 0x2436 + odd_column), odd_row ? 0 : 8, 8);
  s.remainder = signed_bits(word_at(image, 0x2440 + pixel), 1, 3) * (1 << (word_at(image, 0x2438) & 15));
  return s;
}

static struct sum sum_of(const uint8_t *image, unsigned table, unsigned pixel) {
  unsigned start = 0x2410 + 16 * table, scales = word_at(image, start);
  struct sum s;
  if (table == 2) return k_ta_sum(image, pixel);
  s.average = signed_bits(word_at(image, start + 1), 0, 16);
  s.row = fourth(image, start + 2, pixel / 32) * (1 << (scales >> 8 & 15));
  s.column = fourth(image, start + 8, pixel % 32) * (1 << (scales >> 4 & 15));
  s.remainder = signed_bits(word_at(image, 0x2440 + pixel), 10 - 6 * table, 6) * (1 << (scales & 15));
  return s;
}

static int whole(struct sum s) { return s.average + s.row + s.column + s.remainder; }

/* What fails first in such a pixel; 0 if nothing does. All terms come before the sum, and alpha's sum may be anything. */
static unsigned pixel_failure(const uint8_t *image, unsigned table, unsigned pixel) {
  struct sum s = sum_of(image, table, pixel);
  if (!fits(s.row) || !fits(s.column) || !fits(s.remainder)) return MOFULEKA_TERM_OUTSIDE;
  return table != 1 && !fits(whole(s)) ? MOFULEKA_SUM_OUTSIDE : 0;
}

/* Whether an offset is outside 16 bits before all its terms are in, which is no failure. */
static int is_returning(const uint8_t *image) {
  unsigned pixel;
  for (pixel = 0; pixel < PIXELS; pixel++) {
    struct sum s = sum_of(image, 0, pixel);
    if (!fits(s.average + s.row) || !fits(s.average + s.row + s.column)) return 1;
  }
  return 0;
}

/* Accepted images with an offset that left 16 bits and came back. */
static uint64_t returning;

/* The first failure of the walk over a whole image, or that it is accepted. */
static mofuleka_answer first_failure(const uint8_t *image) {
  unsigned table, pixel;
  for (table = 0; table < 3; table++)
    for (pixel = 0; pixel < PIXELS; pixel++) {
      unsigned failure = pixel_failure(image, table, pixel);
      if (failure != 0) return refusal(failure, table, pixel);
    }
  return MOFULEKA_ACCEPTED;
}

/* The same of an image that is decoded. */
static mofuleka_answer walk(const uint8_t *image) {
  mofuleka_answer a = first_failure(image);
  if (!mofuleka_refused(a)) returning += is_returning(image);
  return a;
}

static int short_tables(const struct call *c) {
  return c->len[1] < OFFSET_BYTES || c->len[2] < FLOATS_BYTES || c->len[3] < FLOATS_BYTES || c->len[4] < RECORD_BYTES;
}

/* Accepted pages. */
static uint64_t pages;

static int is_image_length(size_t len) { return len == IMAGE_BYTES || len == PAGE_BYTES; }

static mofuleka_answer answer_from_data(const struct call *c) {
  mofuleka_answer a;
  if (!is_image_length(c->len[0])) return plain(MOFULEKA_IMAGE_LENGTH);
  a = short_tables(c) ? plain(MOFULEKA_SHORT_SLICE) : walk(content[0]);
  pages += c->len[0] == PAGE_BYTES && a == MOFULEKA_ACCEPTED;
  return a;
}

/* A word of a gathering: what its mark and value count as. */
struct state {
  unsigned mark, value;
};

static struct state state_at(const uint8_t *gathering, unsigned word) {
  struct state s = {gathering[IMAGE_BYTES + word], 0};
  if (s.mark > MOFULEKA_IN_CONFLICT) s.mark = MOFULEKA_IN_CONFLICT;
  if (s.mark == MOFULEKA_HELD) s.value = mofuleka_read_u16(gathering + 2 * word);
  return s;
}

/* The lowest word with a mark, WORDS if there is none; and how many there are. */
static unsigned lowest_marked(const uint8_t *gathering, unsigned mark) {
  unsigned word = 0;
  while (word < WORDS && state_at(gathering, word).mark != mark) word++;
  return word;
}

static unsigned count_marked(const uint8_t *gathering, unsigned mark) {
  unsigned word, sum = 0;
  for (word = 0; word < WORDS; word++) sum += state_at(gathering, word).mark == mark;
  return sum;
}

static mofuleka_answer answer_gathering_from_data(const struct call *c) {
  unsigned in_conflict, missing;
  if (c->len[0] < GATHERING_BYTES) return plain(MOFULEKA_SHORT_SLICE);
  in_conflict = lowest_marked(content[0], MOFULEKA_IN_CONFLICT);
  if (in_conflict < WORDS) return refusal(MOFULEKA_WORD_IN_CONFLICT, 0, in_conflict);
  missing = lowest_marked(content[0], MOFULEKA_MISSING);
  if (missing < WORDS) return refusal(MOFULEKA_WORD_MISSING, 0, missing);
  return short_tables(c) ? plain(MOFULEKA_SHORT_SLICE) : walk(content[0]);
}

#define NEEDED_WORDS 11

/* The words that one pixel needs, rising. */
static void needed_words(unsigned pixel, unsigned *words) {
  unsigned start, four_rows = pixel / 32 / 4, four_columns = pixel % 32 / 4;
  for (start = 0x10; start <= 0x20; start += 0x10) {
    *words++ = start;
    *words++ = start + 1;
    *words++ = start + 2 + four_rows;
    *words++ = start + 8 + four_columns;
  }
  *words++ = 0x36 + pixel % 2;
  *words++ = 0x38;
  *words = 0x40 + pixel;
}

static int is_needed(unsigned pixel, unsigned word) {
  unsigned words[NEEDED_WORDS], i;
  needed_words(pixel, words);
  for (i = 0; i < NEEDED_WORDS; i++)
    if (words[i] == word) return 1;
  return 0;
}

/* The lowest of the words that a pixel needs with a mark, WORDS if there is none. */
static unsigned lowest_needed(const uint8_t *gathering, unsigned pixel, unsigned mark) {
  unsigned words[NEEDED_WORDS], i;
  needed_words(pixel, words);
  for (i = 0; i < NEEDED_WORDS; i++)
    if (state_at(gathering, words[i]).mark == mark) return words[i];
  return WORDS;
}

/* The first failure of one pixel by itself, or that it is answered. */
static mofuleka_answer pixel_walk(const uint8_t *image, unsigned pixel) {
  unsigned table;
  for (table = 0; table < 3; table++) {
    unsigned failure = pixel_failure(image, table, pixel);
    if (failure != 0) return refusal(failure, table, pixel);
  }
  return MOFULEKA_ACCEPTED;
}

static mofuleka_answer answer_pixel(const struct call *c) {
  unsigned pixel = (unsigned)c->number[0];
  int is_image = c->function == ONE_PIXEL;
  if (is_image && !is_image_length(c->len[0])) return plain(MOFULEKA_IMAGE_LENGTH);
  if (c->number[0] >= PIXELS) return plain(MOFULEKA_PAST_THE_END);
  if (!is_image && c->len[0] < GATHERING_BYTES) return plain(MOFULEKA_SHORT_SLICE);
  if (c->len[1] < PIXEL_BYTES) return plain(MOFULEKA_SHORT_SLICE);
  if (!is_image) {
    unsigned in_conflict = lowest_needed(content[0], pixel, MOFULEKA_IN_CONFLICT);
    unsigned missing = lowest_needed(content[0], pixel, MOFULEKA_MISSING);
    if (in_conflict < WORDS) return refusal(MOFULEKA_WORD_IN_CONFLICT, 0, in_conflict);
    if (missing < WORDS) return refusal(MOFULEKA_WORD_MISSING, 0, missing);
  }
  return pixel_walk(content[0], pixel);
}

/* What an image is refused with by the decoder is explained, and no refusal of this call. */
static mofuleka_answer answer_explain(const struct call *c) {
  if (!is_image_length(c->len[0])) return plain(MOFULEKA_IMAGE_LENGTH);
  if (c->number[1] >= PIXELS) return plain(MOFULEKA_PAST_THE_END);
  if (c->number[0] > MOFULEKA_K_TA) return plain(MOFULEKA_TABLE_NUMBER);
  return c->len[1] < EXPLANATION_BYTES ? plain(MOFULEKA_SHORT_SLICE) : MOFULEKA_ACCEPTED;
}

static unsigned block_says(const uint8_t *block) { return mofuleka_read_u16(block); }

static unsigned block_first(const uint8_t *block) { return mofuleka_read_u16(block + 3); }

static unsigned block_words(const uint8_t *block) { return (block_says(block) - 3) / 2; }

static mofuleka_answer answer_accept(const struct call *c) {
  const uint8_t *block = content[1];
  if (c->len[0] < GATHERING_BYTES) return plain(MOFULEKA_SHORT_SLICE);
  if (c->len[1] < 2 || c->len[1] != (size_t)block_says(block) + 2) return plain(MOFULEKA_BLOCK_LENGTH);
  if (block_says(block) < 5 || block_says(block) > 131 || block_says(block) % 2 == 0)
    return plain(MOFULEKA_BLOCK_COUNT);
  if (block[2] != 1) return plain(MOFULEKA_BLOCK_VERSION);
  if (block_first(block) + block_words(block) > WORDS) return plain(MOFULEKA_BLOCK_RANGE);
  return MOFULEKA_ACCEPTED;
}

static mofuleka_answer answer_gatherings(const struct call *c) {
  const uint8_t *gathering = content[0];
  struct state s;
  if (c->function == ACCEPT) return answer_accept(c);
  if (c->function == WORD && c->number[0] >= WORDS) return plain(MOFULEKA_PAST_THE_END);
  if (c->len[0] < GATHERING_BYTES) return plain(MOFULEKA_SHORT_SLICE);
  if (c->function == FRESH) return MOFULEKA_ACCEPTED;
  if (c->function == MERGE) return c->len[1] < GATHERING_BYTES ? plain(MOFULEKA_SHORT_SLICE) : MOFULEKA_ACCEPTED;
  if (c->function == STATUS)
    return value((uint64_t)count_marked(gathering, MOFULEKA_MISSING) << 16 |
                 count_marked(gathering, MOFULEKA_IN_CONFLICT));
  s = state_at(gathering, (unsigned)c->number[0]);
  return value((uint64_t)s.mark << 16 | s.value);
}

static mofuleka_answer answer_range(const uint64_t *n) {
  uint64_t number = n[2];
  if (n[0] > 1 || n[1] > 1) return plain(MOFULEKA_PATTERN_OR_SUBPAGE);
  if (number >= (n[0] == MOFULEKA_CHESS ? 1u : 12u)) return plain(MOFULEKA_RANGE_NUMBER);
  if (n[0] == MOFULEKA_CHESS) return value((uint64_t)0x0400 << 32 | 1536);
  return value((0x0400 + 64 * number + 32 * n[1]) << 32 | (128 * number + 64 * n[1]) << 16 | 64);
}

static mofuleka_answer answer_in_subpage(const uint64_t *n) {
  uint64_t row = n[2] / 32, column = n[2] % 32;
  if (n[0] > 1 || n[1] > 1) return plain(MOFULEKA_PATTERN_OR_SUBPAGE);
  if (n[2] >= PIXELS) return plain(MOFULEKA_PAST_THE_END);
  return value((n[0] == MOFULEKA_CHESS ? (row + column) % 2 : row % 2) == n[1]);
}

static mofuleka_answer answer_camera(const struct call *c) {
  const uint64_t *n = c->number;
  if (c->function == PIXEL_IN_SUBPAGE) return answer_in_subpage(n);
  if (c->function == PIXEL_RANGE) return answer_range(n);
  if (c->function == RESOLUTION_CORRECTION)
    return n[0] > 15 || n[1] > 15 ? plain(MOFULEKA_RESOLUTION) : value((127 + n[0] - n[1]) << 23);
  if (n[0] > 1) return plain(MOFULEKA_PATTERN_OR_SUBPAGE);
  if (c->function == PIXEL_RANGE_COUNT) return value(n[0] == MOFULEKA_CHESS ? 1 : 12);
  return value(n[0] == MOFULEKA_ONE ? 0x0728 : 0x0708);
}

/* The bits of a float in a record. */
static mofuleka_answer float_in_record(unsigned at) {
  const uint8_t *b = content[0] + at;
  uint32_t bits = (uint32_t)b[0] << 24 | (uint32_t)b[1] << 16 | (uint32_t)b[2] << 8 | b[3];
  return value((bits & 0x7FFFFFFFu) > 0x7F800000u ? 0x7FC00000u : bits);
}

/* What a question over a record of enough bytes gives, its numbers being in range. */
static mofuleka_answer read_record(const struct call *c) {
  static const unsigned column_place[] = {0, 1, 0, 2};
  const mofuleka_answer present = 1u << 8;
  const uint64_t *n = c->number;
  unsigned pixel = (unsigned)n[c->function == CORRECTION_PIXEL ? 1 : 0];
  unsigned odd_row = pixel / 32 % 2;
  switch (c->function) {
    case K_V_PIXEL: return float_in_record(65 + 4 * (odd_row + 2 * (pixel % 2)));
    case CORRECTION_PIXEL:
      if (n[0] == MOFULEKA_CHESS) return MOFULEKA_ACCEPTED;
      return present | float_in_record(94 + 4 * (3 * odd_row + column_place[pixel % 4]));
    case CORRECTION_CP:
      if (n[0] == MOFULEKA_CHESS || n[1] == MOFULEKA_ZERO) return MOFULEKA_ACCEPTED;
      return present | float_in_record(118);
    case ALPHA_CP: return float_in_record(53 + 4 * (unsigned)n[0]);
    default: return value(mofuleka_read_u16(content[0] + 61 + 2 * n[0]));
  }
}

static mofuleka_answer answer_record(const struct call *c) {
  const struct function *f = &functions[c->function];
  unsigned i;
  for (i = 0; i < f->number_count; i++)
    if (f->numbers[i] == A_SELECTOR && c->number[i] > 1) return plain(MOFULEKA_PATTERN_OR_SUBPAGE);
  for (i = 0; i < f->number_count; i++)
    if (f->numbers[i] == A_PIXEL && c->number[i] >= PIXELS) return plain(MOFULEKA_PAST_THE_END);
  return c->len[0] < RECORD_BYTES ? plain(MOFULEKA_SHORT_SLICE) : read_record(c);
}

static mofuleka_answer must_answer(const struct call *c) {
  static const unsigned sizes[] = {IMAGE_BYTES,  OFFSET_BYTES,    FLOATS_BYTES, FLOATS_BYTES,
                                   RECORD_BYTES, GATHERING_BYTES, PIXEL_BYTES,  EXPLANATION_BYTES};
  if (is_size(c)) return sizes[c->function];
  if (c->function == FROM_DATA) return answer_from_data(c);
  if (c->function == GATHERING_FROM_DATA) return answer_gathering_from_data(c);
  if (c->function < GATHERING_FROM_DATA) return answer_gatherings(c);
  if (is_pixel(c)) return answer_pixel(c);
  if (c->function == EXPLAIN) return answer_explain(c);
  return c->function < K_V_PIXEL ? answer_camera(c) : answer_record(c);
}

/* ---- what must be written ---- */

static struct state joined(struct state a, struct state b) {
  static const struct state conflict = {MOFULEKA_IN_CONFLICT, 0};
  if (a.mark == MOFULEKA_MISSING) return b;
  if (b.mark == MOFULEKA_MISSING) return a;
  return a.mark == MOFULEKA_HELD && b.mark == MOFULEKA_HELD && a.value == b.value ? a : conflict;
}

/* What an accepted fresh, accept or merge makes of one word. */
static struct state state_after(const struct call *c, unsigned word) {
  struct state had = {MOFULEKA_MISSING, 0}, gets = {MOFULEKA_MISSING, 0};
  unsigned in_block = word - block_first(content[1]);
  if (c->function == FRESH) return had;
  had = state_at(content[0], word);
  if (c->function == MERGE) return joined(had, state_at(content[1], word));
  if (word < block_first(content[1]) || in_block >= block_words(content[1])) return had;
  gets.mark = MOFULEKA_HELD;
  gets.value = mofuleka_read_u16(content[1] + 5 + 2 * in_block);
  return joined(had, gets);
}

static void check_gathering(const struct call *c) {
  uint8_t must[GATHERING_BYTES];
  unsigned word;
  for (word = 0; word < WORDS; word++) {
    struct state s = state_after(c, word);
    must[2 * word] = (uint8_t)(s.value >> 8);
    must[2 * word + 1] = (uint8_t)s.value;
    must[IMAGE_BYTES + word] = (uint8_t)s.mark;
  }
  same_bytes(c, "the gathering as written", "gathering", 0, after[0], must, sizeof must);
}

/* A full gathering is decoded as the image of its values is. */
static void check_same_image(const struct call *c) {
  static uint8_t tables[MOST_SLICES][LARGEST_LAYOUT];
  mofuleka_answer a = mofuleka_from_data(content[0], IMAGE_BYTES, tables[1], OFFSET_BYTES, tables[2], FLOATS_BYTES,
                                         tables[3], FLOATS_BYTES, tables[4], RECORD_BYTES);
  unsigned i;
  same_number(c, "the answer to the gathering's image", a, MOFULEKA_ACCEPTED);
  for (i = 1; i < MOST_SLICES; i++)
    same_bytes(c, "decoded from the gathering, not as from its image", slice_of(c, i)->name, 0, after[i], tables[i],
               slice_of(c, i)->layout);
}

/* n / 2^k, exactly, as its bytes. */
static void put_over(uint8_t *to, int n, unsigned k) {
  float number = (float)n;
  uint32_t bits;
  for (; k > 0; k--) number /= 2;
  memcpy(&bits, &number, sizeof bits);
  to[0] = (uint8_t)(bits >> 24);
  to[1] = (uint8_t)(bits >> 16);
  to[2] = (uint8_t)(bits >> 8);
  to[3] = (uint8_t)bits;
}

/* The three numbers of one pixel, out of the words that it needs. */
static void check_pixel(const struct call *c) {
  const uint8_t *image = content[0];
  unsigned pixel = (unsigned)c->number[0];
  int offset = whole(sum_of(image, 0, pixel));
  uint8_t must[PIXEL_BYTES];
  must[0] = (uint8_t)((unsigned)offset >> 8);
  must[1] = (uint8_t)offset;
  put_over(must + 2, whole(sum_of(image, 1, pixel)), 30 + (word_at(image, 0x2420) >> 12));
  put_over(must + 6, whole(sum_of(image, 2, pixel)), 8 + (word_at(image, 0x2438) >> 4 & 15));
  same_bytes(c, "the pixel as written", "out", 0, after[1], must, sizeof must);
}

/* Pixels that were answered although the decoder refuses an image with the same words. */
static uint64_t answered_alone;

/* Where the decoder accepts an image with the same words, a pixel's numbers are the entries of its tables. */
static void check_entries(const struct call *c) {
  static uint8_t tables[MOST_SLICES][LARGEST_LAYOUT];
  size_t pixel = (size_t)c->number[0];
  mofuleka_answer a = mofuleka_from_data(content[0], IMAGE_BYTES, tables[1], OFFSET_BYTES, tables[2], FLOATS_BYTES,
                                         tables[3], FLOATS_BYTES, tables[4], RECORD_BYTES);
  answered_alone += mofuleka_refused(a);
  if (mofuleka_refused(a)) return;
  same_bytes(c, "not the offset table's entry", "out", 0, after[1], tables[1] + 2 * pixel, 2);
  same_bytes(c, "not the alpha table's entry", "out", 2, after[1] + 2, tables[2] + 4 * pixel, 4);
  same_bytes(c, "not the Kta table's entry", "out", 6, after[1] + 6, tables[3] + 4 * pixel, 4);
}

/* ---- explanations ---- */

/* A number of so many bytes. */
static void put_number(uint8_t *to, unsigned bytes, int number) {
  for (; bytes > 0; bytes--) *to++ = (uint8_t)((unsigned)number >> (8 * (bytes - 1)));
}

/* A field of an image, and the scale that it is used with. */
struct field {
  unsigned address, high, low, scale;
};

static struct field fourth_field(unsigned start, unsigned i, unsigned scale) {
  struct field f = {start + i / 4, 4 * (i % 4) + 3, 4 * (i % 4), scale};
  return f;
}

/* Of a pixel in the offset table or in alpha: the average (0), the row's field (1), the column's (2), its own (3). */
static struct field shared_field(const uint8_t *image, unsigned table, unsigned pixel, unsigned which) {
  unsigned start = 0x2410 + 16 * table, scales = word_at(image, start);
  struct field average = {start + 1, 15, 0, 0}, own = {0x2440 + pixel, 15 - 6 * table, 10 - 6 * table, scales & 15};
  if (which == 1) return fourth_field(start + 2, pixel / 32, scales >> 8 & 15);
  if (which == 2) return fourth_field(start + 8, pixel % 32, scales >> 4 & 15);
  return which == 0 ? average : own;
}

/* The same in Kta, which has no row and no column; of odd rows the average is the low byte. */
static struct field field_of(const uint8_t *image, unsigned table, unsigned pixel, unsigned which) {
  unsigned low = pixel / 32 % 2 == 1 ? 0 : 8;
  struct field average = {0x2436 + pixel % 2, low + 7, low, 0};
  struct field own = {0x2440 + pixel, 3, 1, word_at(image, 0x2438) & 15};
  if (table != 2) return shared_field(image, table, pixel, which);
  return which == 0 ? average : own;
}

/* Writes a part; gives its term. */
static int put_part(uint8_t *to, const uint8_t *image, struct field f) {
  unsigned word = word_at(image, f.address), width = f.high - f.low + 1;
  int value = signed_bits(word, f.low, width), term = value * (1 << f.scale);
  put_number(to, 2, (int)f.address);
  put_number(to + 2, 1, (int)f.high);
  put_number(to + 3, 1, (int)f.low);
  put_number(to + 4, 2, (int)(word >> f.low & ((1u << width) - 1)));
  put_number(to + 6, 2, value);
  put_number(to + 8, 1, (int)f.scale);
  put_number(to + 9, 4, term);
  return term;
}

static void put_entry(uint8_t *to, const uint8_t *image, unsigned table, int sum) {
  unsigned exponents[] = {0, 30 + (word_at(image, 0x2420) >> 12), 8 + (word_at(image, 0x2438) >> 4 & 15)};
  put_number(to, 1, (int)exponents[table]);
  if (table == 0)
    put_number(to + 1, 4, sum);
  else
    put_over(to + 1, sum, exponents[table]);
}

/* Writes what a pixel is made of into zeros, up to what fails; gives that, 0 for nothing. */
static unsigned put_pixel(uint8_t *to, const uint8_t *image, unsigned table, unsigned pixel) {
  static const unsigned places[] = {5, 18, 35, 52};
  unsigned which;
  int sum = 0;
  for (which = 0; which < 4; which++) {
    uint8_t *part = to + places[which];
    int is_there = table != 2 || which == 0 || which == 3;
    int term = is_there ? put_part(part, image, field_of(image, table, pixel, which)) : 0;
    if (!fits(term)) return which;
    sum += term;
    if (which > 0) put_number(part + 13, 4, sum);
  }
  if (table != 1 && !fits(sum)) return MOFULEKA_FINAL_SUM;
  put_entry(to + 69, image, table, sum);
  return MOFULEKA_NO_FAILURE;
}

/* Explanations by table and by what fails. */
static uint64_t explanations[3][5];

static void check_explanation(const struct call *c) {
  const uint8_t *image = content[0];
  mofuleka_answer found = first_failure(image);
  int is_asked = !mofuleka_refused(found);
  unsigned table = is_asked ? (unsigned)c->number[0] : mofuleka_table(found);
  unsigned pixel = is_asked ? (unsigned)c->number[1] : (unsigned)mofuleka_place(found), failure;
  uint8_t must[EXPLANATION_BYTES] = {0};
  put_number(must, 1, (int)mofuleka_number(found));
  put_number(must + 1, 1, (int)table);
  put_number(must + 2, 2, (int)pixel);
  failure = put_pixel(must, image, table, pixel);
  put_number(must + 4, 1, (int)failure);
  same_bytes(c, "the explanation as written", "out", 0, after[1], must, sizeof must);
  explanations[table][failure]++;
}

/* The decoder answers for the same image what the explanation says, and has its entry. */
static void check_explained(const struct call *c) {
  static uint8_t tables[MOST_SLICES][LARGEST_LAYOUT];
  const uint8_t *out = after[1];
  size_t pixel = mofuleka_read_u16(out + 2);
  mofuleka_answer a = mofuleka_from_data(content[0], IMAGE_BYTES, tables[1], OFFSET_BYTES, tables[2], FLOATS_BYTES,
                                         tables[3], FLOATS_BYTES, tables[4], RECORD_BYTES);
  if (mofuleka_refused(a)) {
    same_number(c, "what the decoder refuses", a, refusal(out[0], out[1], pixel));
    return;
  }
  same_number(c, "the decoder's number for an accepted image", out[0], MOFULEKA_ACCEPTED);
  if (out[1] == 0)
    same_bytes(c, "not the offset table's entry", "out", 72, out + 72, tables[1] + 2 * pixel, 2);
  else
    same_bytes(c, "not the table's entry", "out", 70, out + 70, tables[1 + out[1]] + 4 * pixel, 4);
}

/* ---- one call, made twice ---- */

/* A block has no bytes past its layout. */
static size_t layout_held(const struct call *c, unsigned i) {
  size_t held = least(c->len[i], ROOM);
  return slice_of(c, i)->what == A_BLOCK ? held : least(held, slice_of(c, i)->layout);
}

static void turn(uint8_t *bytes, size_t size) {
  for (; size > 0; size--, bytes++) *bytes ^= 0xFF;
}

/* Turns the words that a pixel does not need, of an image or of a gathering, whose marks go with them. */
static void turn_others(const struct call *c, size_t size) {
  unsigned word;
  for (word = 0; word < WORDS; word++) {
    if (c->number[0] < PIXELS && is_needed((unsigned)c->number[0], word)) continue;
    if (2 * word + 2 <= size) turn(before[0] + 2 * word, 2);
    if (IMAGE_BYTES + word < size) turn(before[0] + IMAGE_BYTES + word, 1);
  }
}

/* Turns the words of an image that no table is made of: in an explanation none of them counts. */
static void turn_unread(size_t size) {
  unsigned word;
  for (word = 0; word < 0x40; word++) {
    int is_read = (word >= 0x10 && word < 0x30) || (word >= 0x36 && word <= 0x38);
    if (!is_read && 2 * word + 2 <= size) turn(before[0] + 2 * word, 2);
  }
}

/* Makes every byte another one in the second call that the answer must not depend on. */
static void make_different(const struct call *c, unsigned i) {
  const struct slice *s = slice_of(c, i);
  size_t held = least(c->len[i], ROOM), layout = layout_held(c, i);
  turn(before[i] + layout, held - layout);
  if (s->use == WRITTEN) turn(before[i], layout);
  if (is_pixel(c) && i == 0)
    turn_others(c, layout);
  else if (c->function == EXPLAIN && i == 0)
    turn_unread(layout);
  else if (s->what == AN_IMAGE)
    turn(before[i], least(layout, 32));
}

/* The bytes on the free side of a slice. */
static uint8_t *margin_of(unsigned i) {
  return lent[i].start > 0 ? arenas[i].open + lent[i].start - MARGIN : arenas[i].open + lent[i].len;
}

static uint8_t margin_byte(int second) { return second ? 0xA5 : 0x5A; }

static void lend(const struct call *c, unsigned i, int second) {
  const struct slice *s = slice_of(c, i);
  size_t held = least(c->len[i], ROOM);
  int behind = (int)(c->behind >> i & 1) != second;
  lent[i].len = c->len[i];
  lent[i].start = behind ? ARENA - c->len[i] : 0;
  lent[i].at = (s->use == READ ? arenas[i].read_only : arenas[i].open) + lent[i].start;
  memcpy(before[i], content[i], held);
  if (second) make_different(c, i);
  memcpy(arenas[i].open + lent[i].start, before[i], held);
  memset(margin_of(i), margin_byte(second), MARGIN);
  if (behind)
    counts[c->function].behind[i]++;
  else
    counts[c->function].front[i]++;
}

/* A slice's surroundings, and all of it that the call had to leave alone, are as they were. */
static void check_kept(const struct call *c, unsigned i, mofuleka_answer a, int second) {
  const struct slice *s = slice_of(c, i);
  const uint8_t *now = arenas[i].open + lent[i].start;
  size_t from = s->use == READ || is_refused(c, a) ? 0 : layout_held(c, i);
  uint8_t margin[MARGIN];
  const char *what = is_refused(c, a) ? "written by a refused call"
                     : s->use == READ ? "a slice that is only read was written"
                                      : "written past the layout";
  same_bytes(c, what, s->name, from, now + from, before[i] + from, least(c->len[i], ROOM) - from);
  memset(margin, margin_byte(second), MARGIN);
  same_bytes(c, "written beside the slice", "the bytes beside it", 0, margin_of(i), margin, MARGIN);
}

/* An answer's number, table and place are in their ranges. */
static void check_form(const struct call *c, mofuleka_answer a) {
  unsigned number = mofuleka_number(a), table = mofuleka_table(a);
  int is_correction = c->function == CORRECTION_PIXEL || c->function == CORRECTION_CP;
  int has_pixel = number == MOFULEKA_TERM_OUTSIDE || number == MOFULEKA_SUM_OUTSIDE;
  int has_word = number == MOFULEKA_WORD_IN_CONFLICT || number == MOFULEKA_WORD_MISSING;
  unsigned most_table = has_pixel ? 2 : is_correction && number == MOFULEKA_ACCEPTED ? 1 : 0;
  uint64_t most_place = has_pixel ? PIXELS - 1 : has_word ? WORDS - 1 : 0;
  if (is_size(c)) return;
  at_most(c, "the answer's number", number, REFUSALS - 1);
  at_most(c, "the answer's table", table, most_table);
  if (number != MOFULEKA_ACCEPTED) at_most(c, "the answer's place", mofuleka_place(a), most_place);
}

static mofuleka_answer invoke_gatherings(const struct call *c) {
  struct lent *s = lent;
  size_t number = (size_t)c->number[0];
  switch (c->function) {
    case FROM_DATA:
      return mofuleka_from_data(s[0].at, s[0].len, s[1].at, s[1].len, s[2].at, s[2].len, s[3].at, s[3].len, s[4].at,
                                s[4].len);
    case FRESH: return mofuleka_gathering_fresh(s[0].at, s[0].len);
    case ACCEPT: return mofuleka_gathering_accept(s[0].at, s[0].len, s[1].at, s[1].len);
    case MERGE: return mofuleka_gathering_merge(s[0].at, s[0].len, s[1].at, s[1].len);
    case STATUS: return mofuleka_gathering_status(s[0].at, s[0].len);
    case WORD: return mofuleka_gathering_word(s[0].at, s[0].len, number);
    case ONE_PIXEL: return mofuleka_pixel(s[0].at, s[0].len, number, s[1].at, s[1].len);
    case GATHERING_PIXEL: return mofuleka_gathering_pixel(s[0].at, s[0].len, number, s[1].at, s[1].len);
    case EXPLAIN:
      return mofuleka_explain(s[0].at, s[0].len, (uint32_t)number, (size_t)c->number[1], s[1].at, s[1].len);
    default:
      return mofuleka_gathering_from_data(s[0].at, s[0].len, s[1].at, s[1].len, s[2].at, s[2].len, s[3].at, s[3].len,
                                          s[4].at, s[4].len);
  }
}

static mofuleka_answer invoke_sizes_and_camera(const struct call *c) {
  uint32_t first = (uint32_t)c->number[0], second = (uint32_t)c->number[1];
  size_t third = (size_t)c->number[2];
  switch (c->function) {
    case SIZE_OF_IMAGE: return mofuleka_image_bytes();
    case SIZE_OF_OFFSET_TABLE: return mofuleka_offset_table_bytes();
    case SIZE_OF_ALPHA_TABLE: return mofuleka_alpha_table_bytes();
    case SIZE_OF_K_TA_TABLE: return mofuleka_k_ta_table_bytes();
    case SIZE_OF_RECORD: return mofuleka_record_bytes();
    case SIZE_OF_GATHERING: return mofuleka_gathering_bytes();
    case SIZE_OF_PIXEL: return mofuleka_pixel_bytes();
    case SIZE_OF_EXPLANATION: return mofuleka_explanation_bytes();
    case PIXEL_IN_SUBPAGE: return mofuleka_pixel_in_subpage(first, second, third);
    case PIXEL_RANGE_COUNT: return mofuleka_pixel_range_count(first);
    case PIXEL_RANGE: return mofuleka_pixel_range(first, second, third);
    case COMPENSATION_PIXEL: return mofuleka_compensation_pixel(first);
    default: return mofuleka_resolution_correction(first, second);
  }
}

static mofuleka_answer invoke_record(const struct call *c) {
  const uint8_t *record = lent[0].at;
  size_t len = lent[0].len;
  const uint64_t *n = c->number;
  switch (c->function) {
    case K_V_PIXEL: return mofuleka_k_v_pixel(record, len, (size_t)n[0]);
    case CORRECTION_PIXEL: return mofuleka_interleave_correction_pixel(record, len, (uint32_t)n[0], (size_t)n[1]);
    case CORRECTION_CP: return mofuleka_interleave_correction_cp(record, len, (uint32_t)n[0], (uint32_t)n[1]);
    case ALPHA_CP: return mofuleka_alpha_cp(record, len, (uint32_t)n[0]);
    default: return mofuleka_offset_reference_cp(record, len, (uint32_t)n[0]);
  }
}

static mofuleka_answer invoke(const struct call *c) {
  if (c->function >= FROM_DATA && c->function <= EXPLAIN) return invoke_gatherings(c);
  return c->function < K_V_PIXEL ? invoke_sizes_and_camera(c) : invoke_record(c);
}

static mofuleka_answer call_once(const struct call *c, int second) {
  unsigned i, slices = functions[c->function].slice_count;
  struct count *count = &counts[c->function];
  mofuleka_answer a;
  for (i = 0; i < slices; i++) lend(c, i, second);
  inside = c;
  a = invoke(c);
  inside = NULL;
  check_form(c, a);
  for (i = 0; i < slices; i++) check_kept(c, i, a, second);
  count->calls++;
  if (is_refused(c, a))
    count->refused[mofuleka_number(a)]++;
  else
    count->accepted++;
  return a;
}

/* Keeps what the first call wrote, or finds the same bytes after the second. */
static void compare_written(const struct call *c, int second) {
  unsigned i;
  for (i = 0; i < functions[c->function].slice_count; i++) {
    const struct slice *s = slice_of(c, i);
    const uint8_t *now = arenas[i].open + lent[i].start;
    if (s->use == READ) continue;
    if (second)
      same_bytes(c, "the same call wrote other bytes", s->name, 0, now, after[i], s->layout);
    else
      memcpy(after[i], now, s->layout);
  }
}

/* Makes the call both ways, and holds it to what must be answered and written. */
static mofuleka_answer call_twice(const struct call *c) {
  mofuleka_answer must = must_answer(c), first = call_once(c, 0), again;
  same_number(c, "the answer", first, must);
  if (!is_refused(c, first)) compare_written(c, 0);
  again = call_once(c, 1);
  same_number(c, "the answer to the same call made again", again, first);
  if (is_refused(c, first)) return first;
  compare_written(c, 1);
  if (c->function == FRESH || c->function == ACCEPT || c->function == MERGE) check_gathering(c);
  if (c->function == GATHERING_FROM_DATA && below(4) == 0) check_same_image(c);
  if (is_pixel(c)) check_pixel(c);
  if (is_pixel(c) && below(4) == 0) check_entries(c);
  if (c->function == EXPLAIN) check_explanation(c);
  if (c->function == EXPLAIN && below(4) == 0) check_explained(c);
  return first;
}

/* ---- images ---- */

/* Whether contents are to be ones that are accepted. */
static int calm;

static void set_word(uint8_t *image, unsigned address, unsigned word) {
  image[2 * (address - 0x2400)] = (uint8_t)(word >> 8);
  image[2 * (address - 0x2400) + 1] = (uint8_t)word;
}

/* A plausible camera: the words of the datasheet's worked example, with rows, columns and remainders made up. */
static void make_lifelike(uint8_t *image) {
  static const unsigned fixed[] = {0x18EF, 0x2FF1, 0x5952, 0x9D68, 0x5454, 0x0841, 0x5354, 0x5152,
                                   0x2363, 0xE446, 0xFBB5, 0x044B, 0xF020, 0x9797, 0x9797, 0x2889};
  unsigned i;
  noise(image, IMAGE_BYTES);
  set_word(image, 0x2410, 0x4210);
  set_word(image, 0x2411, 0xFFBB);
  set_word(image, 0x2420, 0x79A6);
  set_word(image, 0x2421, 0x2F44);
  for (i = 0; i < 16; i++) set_word(image, 0x2430 + i, fixed[i]);
  for (i = 0; i < PIXELS; i++) {
    unsigned offset = (unsigned)(below(17) - 8) & 0x3F;
    unsigned alpha = (unsigned)(below(25) - 12) & 0x3F;
    unsigned k_ta = (unsigned)(below(5) - 2) & 0x7;
    set_word(image, 0x2440 + i, offset << 10 | alpha << 4 | k_ta << 1);
  }
}

/* A word of four scales, each below its bound. */
static unsigned scales_below(unsigned first, unsigned row, unsigned column, unsigned remainder) {
  unsigned word = (unsigned)below(first);
  word = word << 4 | (unsigned)below(row);
  word = word << 4 | (unsigned)below(column);
  return word << 4 | (unsigned)below(remainder);
}

/* Every word anything, but the scales and averages small enough for most images to be accepted. */
static void make_tame(uint8_t *image) {
  unsigned start;
  noise(image, IMAGE_BYTES);
  for (start = 0x2410; start <= 0x2420; start += 0x10) {
    set_word(image, start, scales_below(16, 12, 12, 10));
    set_word(image, start + 1, (unsigned)(below(16384) - 8192) & 0xFFFF);
  }
  set_word(image, 0x2438, scales_below(16, 16, 16, 13));
}

/* Averages and scales with which terms and sums come close to the limits, on either side of them. */
static void make_near_limits(uint8_t *image) {
  static const unsigned masks[] = {0xFFFF, 0xFC00, 0x03F1, 0x000F};
  unsigned start, word;
  size_t i, pixels = below(3) == 0 ? PIXELS : below(8);
  memset(image, 0, IMAGE_BYTES);
  noise(image + 96, 32);
  for (start = 0x2410; start <= 0x2420; start += 0x10) {
    unsigned inside_by = (unsigned)below((size_t)1 << below(14));
    unsigned averages[] = {0x7FFF - inside_by, 0x8000 + inside_by, (unsigned)below(65536)};
    set_word(image, start, scales_below(16, 15, 15, 12));
    set_word(image, start + 1, averages[below(3)]);
    for (i = below(5); i > 0; i--) {
      word = (unsigned)below(16);
      word <<= 4 * below(4);
      set_word(image, start + 2 + (unsigned)below(14), word);
    }
  }
  set_word(image, 0x2438, scales_below(16, 16, 16, 5) + 10);
  for (i = 0; i < pixels; i++) {
    size_t pixel = pixels == PIXELS ? i : below(PIXELS);
    word = masks[below(4)];
    set_word(image, 0x2440 + (unsigned)pixel, (unsigned)below(65536) & word);
  }
}

/* Four fields of a row or a column that are zero or this one. */
static unsigned some_fourths(unsigned field) {
  unsigned i, word = 0;
  for (i = 0; i < 4; i++) word = word << 4 | (below(2) == 0 ? field : 0);
  return word;
}

/* Rows that bring sums outside 16 bits, above or below, and columns or remainders that bring them back. */
static void make_returning(uint8_t *image) {
  unsigned table, i;
  memset(image, 0, IMAGE_BYTES);
  noise(image + 96, 32);
  set_word(image, 0x2438, scales_below(16, 16, 16, 13));
  for (table = 0; table < 2; table++) {
    unsigned start = 0x2410 + 16 * table, down = (unsigned)below(2), by_columns = (unsigned)below(2);
    unsigned scale = (unsigned)below(11), size = 1 + (unsigned)below(7), inside_by = (unsigned)below(size << scale);
    unsigned back = down ? size : 64 - size;
    set_word(image, start, (unsigned)below(16) << 12 | scale << 8 | scale << 4 | scale);
    set_word(image, start + 1, down ? 0x8000 + inside_by : 0x7FFF - inside_by);
    for (i = 2; i < 8; i++) set_word(image, start + i, some_fourths(down ? 16 - size : size));
    for (i = 8; by_columns && i < 16; i++) set_word(image, start + i, 0x1111 * (back & 15));
    for (i = 0x2440; !by_columns && i < 0x2740; i++)
      set_word(image, i, word_at(image, i) | back << (10 - 6 * table));
  }
}

static void make_sparse(uint8_t *image) {
  size_t words;
  memset(image, 0, IMAGE_BYTES);
  for (words = 1 + below(6); words > 0; words--) {
    unsigned place = (unsigned)(below(4) == 0 ? below(WORDS) : 16 + below(48));
    set_word(image, 0x2400 + place, (unsigned)below(65536));
  }
}

/* A flipped bit, another byte, a word at the limits, erased cells, or a byte lost and all after it moved. */
static void damage(uint8_t *bytes, size_t size) {
  static const unsigned words[] = {0, 1, 0x7FFF, 0x8000, 0xFFFF};
  size_t at = below(size), run = 1 + below(64);
  unsigned word = words[below(5)];
  switch (below(8)) {
    case 0: bytes[at] = (uint8_t)next(); break;
    case 1:
    case 2:
      at &= ~(size_t)1;
      bytes[at] = (uint8_t)(word >> 8);
      if (at + 1 < size) bytes[at + 1] = (uint8_t)word;
      break;
    case 3: memset(bytes + at, below(2) == 0 ? 0 : 0xFF, least(size - at, run)); break;
    case 4: memmove(bytes + at, bytes + at + 1, size - at - 1); break;
    default: bytes[at] ^= (uint8_t)(1u << below(8));
  }
}

/* Lifelike images, a few at a time. */
static uint8_t lifelike[16][IMAGE_BYTES];

static void make_image(uint8_t *image) {
  uint8_t *one = lifelike[below(16)];
  size_t kind = calm ? 0 : below(11), damages;
  if (below(64) == 0) make_lifelike(one);
  if (kind < 5) memcpy(image, one, IMAGE_BYTES);
  if (kind == 5) make_tame(image);
  if (kind == 6 || kind == 7) make_near_limits(image);
  if (kind == 8) make_sparse(image);
  if (kind == 9) make_returning(image);
  if (kind == 10) noise(image, IMAGE_BYTES);
  if (calm) return;
  for (damages = below(4); damages > 0; damages--)
    if (below(2) == 0)
      damage(image + 32, 96);
    else
      damage(image, IMAGE_BYTES);
}

/* ---- gatherings, blocks and records ---- */

/* Gatherings as the library has written them, each out of blocks of one image. */
#define POOL 8
struct gathered {
  uint8_t bytes[GATHERING_BYTES];
  uint8_t image[IMAGE_BYTES];
};
static struct gathered pool[POOL];
/* The one that this step is about, and whether its bytes went into the first slice. */
static struct gathered *current;
static int from_pool;

/* Records as the library has written them. */
static uint8_t records[POOL][RECORD_BYTES];

static void make_held(uint8_t *gathering) {
  make_image(gathering);
  memset(gathering + IMAGE_BYTES, MOFULEKA_HELD, WORDS);
}

static void make_marks(uint8_t *gathering) {
  static const uint8_t marks[] = {0, 1, 1, 1, 2, 3, 128, 255};
  size_t word, kinds = 1 + below(sizeof marks);
  for (word = 0; word < WORDS; word++) gathering[IMAGE_BYTES + word] = marks[below(kinds)];
}

static void make_gathering(uint8_t *gathering, unsigned i) {
  size_t kind = calm ? 0 : below(12), damages;
  const struct gathered *one = i == 0 || below(3) == 0 ? current : &pool[below(POOL)];
  if (i == 0) from_pool = 0;
  if (kind < 3) {
    make_held(gathering);
  } else if (kind < 5) {
    noise(gathering, GATHERING_BYTES);
    if (kind == 3) make_marks(gathering);
  } else {
    memcpy(gathering, one->bytes, GATHERING_BYTES);
    if (i == 0) from_pool = 1;
  }
  if (calm || below(4) != 0) return;
  if (i == 0) from_pool = 0;
  for (damages = 1 + below(3); damages > 0; damages--)
    if (below(3) == 0)
      damage(gathering + IMAGE_BYTES, WORDS);
    else
      damage(gathering, GATHERING_BYTES);
}

/* A first word: the lowest one that the current gathering lacks, any, or one at the limits. */
static size_t make_first(size_t words) {
  size_t missing = lowest_marked(current->bytes, MOFULEKA_MISSING);
  switch (calm ? 15 : below(16)) {
    case 0: return 832 - words;
    case 1: return 832 - words + 1 + below(3);
    case 2: return 65535 - below(130);
    case 3: return below(65536);
    case 4:
    case 5:
    case 6:
    case 7:
    case 8: return least(missing, 832 - words);
    default: return below(832 - words + 1);
  }
}

/* Makes a block's head wrong. */
static void damage_head(uint8_t *block, size_t held) {
  static const uint8_t versions[] = {0, 2, 3, 129, 254, 255};
  size_t says = mofuleka_read_u16(block);
  switch (below(6)) {
    case 0: says += 1; break;
    case 1: says -= 1 + below(2); break;
    case 2: says += 2 + 254 * below(2); break;
    case 3: says = below(140); break;
    case 4: block[2] = versions[below(sizeof versions)]; break;
    default: damage(block, held > 0 ? held : 1); return;
  }
  block[0] = (uint8_t)(says >> 8);
  block[1] = (uint8_t)says;
}

/* A block of a length, out of the current gathering's image; its length field says that length, cut to 16 bits. */
static void make_block(uint8_t *block, size_t len) {
  size_t held = least(len, ROOM), words = len < 7 ? 1 : least((len - 5) / 2, 64), first = make_first(words), i;
  noise(block, held > BLOCK_BYTES ? held : BLOCK_BYTES);
  if (!calm && below(32) == 0) return;
  block[0] = (uint8_t)((len - 2) >> 8);
  block[1] = (uint8_t)(len - 2);
  block[2] = 1;
  block[3] = (uint8_t)(first >> 8);
  block[4] = (uint8_t)first;
  for (i = 0; i < words && first + i < WORDS; i++) memcpy(block + 5 + 2 * i, current->image + 2 * (first + i), 2);
  if (calm) return;
  if (below(4) == 0) damage_head(block, held);
  if (below(16) == 0) damage(block + 5, 2 * words);
}

/* A record, or one whose floats are the strangest ones. */
static void make_record(uint8_t *record) {
  static const uint8_t floats[] = {5,  9,  13, 17, 21, 25, 37, 41, 45,  49,  53,  57,  65,
                                   69, 73, 77, 81, 85, 90, 94, 98, 102, 106, 110, 114, 118};
  static const uint8_t strange[][4] = {{0x7F, 0xC0, 0, 0},       {0x7F, 0x80, 0, 1}, {0xFF, 0xFF, 0xFF, 0xFF},
                                       {0x7F, 0x80, 0, 0},       {0xFF, 0x80, 0, 0}, {0xFF, 0x80, 0, 1},
                                       {0x7F, 0xBF, 0xFF, 0xFF}, {0x80, 0, 0, 0},    {0, 0, 0, 1},
                                       {0x7F, 0x7F, 0xFF, 0xFF}, {0xFF, 0xC0, 0, 0}, {0x80, 0x7F, 0xFF, 0xFF}};
  size_t kind = below(4), i;
  if (kind == 0) noise(record, RECORD_BYTES);
  if (kind != 0) memcpy(record, records[below(POOL)], RECORD_BYTES);
  for (i = 0; kind == 1 && i < sizeof floats; i++) memcpy(record + floats[i], strange[below(12)], 4);
  for (i = below(3); kind == 2 && i > 0; i--) damage(record, RECORD_BYTES);
}

static void make_content(const struct call *c, unsigned i) {
  const struct slice *s = slice_of(c, i);
  size_t held = least(c->len[i], ROOM);
  switch (s->what) {
    case AN_IMAGE: make_image(content[i]); break;
    case A_GATHERING: make_gathering(content[i], i); break;
    case A_RECORD: make_record(content[i]); break;
    case A_BLOCK: make_block(content[i], c->len[i]); return;
    case A_TABLE: memset(content[i], (int)below(256), s->layout); break;
  }
  if (held > s->layout) noise(content[i] + s->layout, held - s->layout);
}

/* Whether a gathering still takes blocks in: it lacks a word and has none in conflict. */
static int is_growing(const uint8_t *gathering) {
  return lowest_marked(gathering, MOFULEKA_MISSING) < WORDS && lowest_marked(gathering, MOFULEKA_IN_CONFLICT) == WORDS;
}

/* Starts the current gathering anew; now and then from an image that another one has too. */
static void begin_gathering(void) {
  memcpy(current->bytes, after[0], GATHERING_BYTES);
  if (below(2) == 0)
    memcpy(current->image, pool[below(POOL)].image, IMAGE_BYTES);
  else
    make_image(current->image);
}

/* Keeps what the library has written, for later steps; of gatherings in conflict only some, so that others get full. */
static void remember(const struct call *c, mofuleka_answer a) {
  if (is_refused(c, a)) return;
  switch (c->function) {
    case FROM_DATA:
    case GATHERING_FROM_DATA: memcpy(records[below(POOL)], after[4], RECORD_BYTES); break;
    case ACCEPT:
    case MERGE:
      if (from_pool && (lowest_marked(after[0], MOFULEKA_IN_CONFLICT) == WORDS || below(16) == 0))
        memcpy(current->bytes, after[0], GATHERING_BYTES);
      break;
    case FRESH:
      if (below(is_growing(current->bytes) ? 64 : 4) == 0) begin_gathering();
      break;
    default: break;
  }
}

/* ---- lengths and numbers ---- */

/* Lengths far past the layout; those that are the layout's when cut to 16 or 32 bits among them. */
static size_t long_length(size_t layout) {
  size_t far[] = {4096, 65536, (size_t)1 << 31, (size_t)1 << 32};
  size_t more[] = {0, 1, layout - 1, layout, layout + 1, 0, 0}, base = far[below(4)];
  more[5] = 5 + 2 * below(65);
  more[6] = below(layout);
  return base + more[below(7)];
}

static size_t odd_length(size_t layout) {
  switch (below(8)) {
    case 0:
    case 1: return layout - 1;
    case 2: return layout + 1;
    case 3: return below(4);
    case 4: return layout + below(32);
    case 5: return below(8) == 0 ? long_length(layout) : layout;
    default: return below(layout + 16);
  }
}

/* An image's: mostly its own or a page's; else any, those beside these two and that of two images joined among them. */
static size_t image_length(void) {
  static const size_t beside[] = {IMAGE_BYTES - 1, IMAGE_BYTES + 1, PAGE_BYTES - 1, PAGE_BYTES + 1, JOINED_BYTES};
  switch (below(16)) {
    case 0: return beside[below(5)];
    case 1: return below(2101);
    case 2: return odd_length(IMAGE_BYTES);
    case 3:
    case 4:
    case 5: return PAGE_BYTES;
    default: return IMAGE_BYTES;
  }
}

static size_t block_length(void) {
  switch (below(16)) {
    case 0: return below(150);
    case 1: return below(8);
    case 2: return BLOCK_BYTES - 1 + below(3);
    case 3: return below(4) != 0 ? below(150) : below(2) == 0 ? long_length(BLOCK_BYTES) : 65535 + below(4);
    case 4:
    case 5:
    case 6: return BLOCK_BYTES;
    default: return 7 + 2 * below(64);
  }
}

static void choose_lengths(struct call *c) {
  const struct function *f = &functions[c->function];
  size_t way = below(4), odd = below(MOST_SLICES);
  unsigned i;
  for (i = 0; i < f->slice_count; i++) {
    size_t layout = f->slices[i].layout;
    if (f->slices[i].what == A_BLOCK)
      c->len[i] = block_length();
    else if (f->slices[i].what == AN_IMAGE)
      c->len[i] = image_length();
    else if (way == 0 || (way == 1 && i == odd % f->slice_count))
      c->len[i] = odd_length(layout);
    else
      c->len[i] = layout + (below(4) == 0 ? below(16) : 0);
  }
}

static uint64_t choose_number(enum number kind) {
  static const uint64_t limits[] = {0,   1,   2,   3,     11,    12,         13,         15,        16,
                                    17,  127, 128, 255,   256,   257,        767,        768,       769,
                                    831, 832, 833, 65535, 65536, 0x7FFFFFFF, 0x80000000, 0xFFFFFFFF};
  static const uint64_t wide[] = {(uint64_t)1 << 32, ((uint64_t)1 << 63) - 1, (uint64_t)1 << 63, UINT64_MAX - 1,
                                  UINT64_MAX};
  unsigned limit = number_limits[kind];
  uint64_t number = below(limit), more = 1 + below(3), any = next();
  switch (below(8)) {
    case 0: number = limits[below(sizeof limits / sizeof limits[0])]; break;
    case 1: number = wide[below(5)]; break;
    case 2: number = any >> below(64); break;
    case 3: number += more << (8 + 8 * below(7)); break;
    default: break;
  }
  return kind == A_SELECTOR || kind == A_TABLE_NUMBER || kind == A_RESOLUTION ? number & 0xFFFFFFFF : number;
}

/* ---- the steps ---- */

/* Where the sweep is: the next value of one length or one number of one function. */
static struct {
  unsigned function, part;
  size_t value;
  uint64_t completed;
} sweep;

/* The last length of a slice that is gone through: of an image that of two images joined, behind all up to 2100. */
static size_t last_length(const struct slice *s) { return s->what == AN_IMAGE ? 2101 : s->layout + 16; }

static size_t swept_length(const struct slice *s, size_t value) {
  return s->what == AN_IMAGE && value == last_length(s) ? JOINED_BYTES : value;
}

static void advance_sweep(void) {
  const struct function *f = &functions[sweep.function];
  size_t past = 16;
  if (sweep.part < f->slice_count)
    past = last_length(&f->slices[sweep.part]);
  else if (sweep.part < f->slice_count + f->number_count)
    past += number_limits[f->numbers[sweep.part - f->slice_count]];
  else
    past = 0;
  if (sweep.value++ < past) return;
  sweep.value = 0;
  sweep.part++;
  if (sweep.part < f->slice_count + f->number_count) return;
  sweep.part = 0;
  sweep.function++;
  if (sweep.function < FUNCTIONS) return;
  sweep.function = 0;
  sweep.completed++;
}

/* All of the call is whole and in range but for one length or one number. */
static void choose_by_sweep(struct call *c) {
  const struct function *f;
  unsigned i;
  c->function = sweep.function;
  f = &functions[c->function];
  calm = below(4) != 0;
  for (i = 0; i < f->slice_count; i++) c->len[i] = f->slices[i].layout;
  for (i = 0; i < f->number_count; i++) c->number[i] = below(number_limits[f->numbers[i]]);
  if (sweep.part < f->slice_count)
    c->len[sweep.part] = swept_length(&f->slices[sweep.part], sweep.value);
  else if (sweep.part < f->slice_count + f->number_count)
    c->number[sweep.part - f->slice_count] = sweep.value;
  advance_sweep();
}

static unsigned choose_function(void) {
  unsigned i, sum = 0;
  size_t at;
  for (i = 0; i < FUNCTIONS; i++) sum += functions[i].weight;
  at = below(sum);
  for (i = 0; at >= functions[i].weight; i++) at -= functions[i].weight;
  return i;
}

static void choose_by_chance(struct call *c) {
  unsigned i;
  c->function = choose_function();
  calm = 0;
  choose_lengths(c);
  for (i = 0; i < functions[c->function].number_count; i++)
    c->number[i] = choose_number(functions[c->function].numbers[i]);
}

static void make_step(void) {
  static struct call c;
  unsigned i;
  step++;
  memset(&c, 0, sizeof c);
  if (sweep.completed == 0 || below(4) == 0)
    choose_by_sweep(&c);
  else
    choose_by_chance(&c);
  current = &pool[below(POOL)];
  for (i = 0; i < functions[c.function].slice_count; i++) make_content(&c, i);
  c.behind = (unsigned)below(1u << MOST_SLICES);
  remember(&c, call_twice(&c));
}

/* ---- the table and the beginning ---- */

/* Prints one function's counts; whether every slice of it was seen both ways. */
static int tell_counts(unsigned function, uint64_t *calls) {
  const struct count *n = &counts[function];
  uint64_t front = 0, behind = 0;
  int seen = n->calls > 0;
  unsigned i;
  for (i = 0; i < functions[function].slice_count; i++) {
    front += n->front[i];
    behind += n->behind[i];
    seen = seen && n->front[i] > 0 && n->behind[i] > 0;
  }
  printf("%-36s %9llu %9llu %9llu %9llu ", functions[function].name, (unsigned long long)n->calls,
         (unsigned long long)n->accepted, (unsigned long long)front, (unsigned long long)behind);
  for (i = 1; i < REFUSALS; i++)
    if (n->refused[i] > 0) printf(" %u: %llu", i, (unsigned long long)n->refused[i]);
  printf("\n");
  *calls += n->calls;
  return seen;
}

/* Prints explanations by table and by what fails; whether each of that came up. */
static int tell_explanations(void) {
  static const char *const names[] = {"offset", "alpha", "Kta"};
  unsigned table, failure;
  int seen = 1;
  printf("%-36s %9s %9s %9s %9s %9s\n", "explanations, by what fails", "nothing", "row", "column", "remainder", "sum");
  for (table = 0; table < 3; table++) {
    printf("%-36s", names[table]);
    for (failure = 0; failure < 5; failure++) printf(" %9llu", (unsigned long long)explanations[table][failure]);
    printf("\n");
  }
  for (failure = 0; failure < 5; failure++)
    seen = seen && explanations[0][failure] + explanations[1][failure] + explanations[2][failure] > 0;
  return seen;
}

static int tell_table(double seconds) {
  uint64_t calls = 0;
  unsigned i;
  int seen = 1;
  printf("in front: slices whose start touched the page in front; behind: whose end touched the one behind\n");
  printf("%-36s %9s %9s %9s %9s  %s\n", "function", "calls", "accepted", "in front", "behind", "refused, by number");
  for (i = 0; i < FUNCTIONS; i++) seen = tell_counts(i, &calls) && seen;
  printf("%llu steps; every length and small number gone through %llu times\n", (unsigned long long)step,
         (unsigned long long)sweep.completed);
  printf("%llu accepted images with an offset that left 16 bits and came back\n", (unsigned long long)returning);
  printf("%llu accepted pages\n", (unsigned long long)pages);
  printf("%llu pixels answered of images that are refused\n", (unsigned long long)answered_alone);
  seen = tell_explanations() && seen && returning > 0 && pages > 0 && answered_alone > 0;
  if (!seen) printf("wrong: no call of a function, a slice not placed both ways, or none of what these lines count\n");
  printf("%llu calls in %.0f seconds, 0 faults, %d wrong\n", (unsigned long long)calls, seconds, !seen);
  return !seen;
}

static double now(void) {
  struct timespec time;
  clock_gettime(CLOCK_MONOTONIC, &time);
  return (double)time.tv_sec + (double)time.tv_nsec / 1e9;
}

static void usage(void) {
  fprintf(stderr, "fuzz [SECONDS [SEED]]\n");
  exit(2);
}

static uint64_t argument(const char *text) {
  char *end;
  uint64_t number = strtoull(text, &end, 0);
  if (*text < '0' || *text > '9' || *end != 0) usage();
  return number;
}

static void begin(void) {
  unsigned i;
  chance = seed * 0x9E3779B97F4A7C15u ^ 0x2545F4914F6CDD1Du;
  if (chance == 0) chance = 1;
  for (i = 0; i < 16; i++) make_lifelike(lifelike[i]);
  for (i = 0; i < POOL; i++) make_image(pool[i].image);
  make_arenas();
  catch_faults();
}

int main(int count, char **arguments) {
  double start = now(), seconds = count > 1 ? (double)argument(arguments[1]) : 600.0;
  seed = count > 2 ? argument(arguments[2]) : (uint64_t)time(NULL) << 16 ^ (uint64_t)getpid();
  if (count > 3) usage();
  printf("seed %llu, %.0f seconds\n", (unsigned long long)seed, seconds);
  fflush(stdout);
  begin();
  while (sweep.completed == 0 || step % 64 != 0 || now() - start < seconds) make_step();
  return tell_table(now() - start);
}
