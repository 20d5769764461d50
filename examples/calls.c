/* calls: tries each function of the header on the paper's sample, accepted and refused, and says
 * how many calls were made and whether each expectation was met. With layout.h it holds the header
 * to the library. Every field of an answer is other than 0 in some expectation. */
#include <stdbool.h>
#include <stdio.h>
#include <string.h>

#include "layout.h"
#include "tasselbrook.h"

/* A call of the library, counted. */
#define CALL(call) (calls++, (call))

/* K(4,3), as the paper prints it */
static const uint8_t sheet[] = {1, 0, 2, 0, 2, 0, 0, 0, 20, 0, 0, 0, 28, 0, 0, 0,
                                3, 0, 0, 0, 1, 0, 3, 0, 2,  0, 2, 0, 0,  0, 1, 0,
                                1, 0, 2, 0, 0, 0, 1, 0, 0,  0, 2, 0, 1,  0, 4, 0};
static const size_t length = sizeof sheet;
static int calls, met, not_met;

static void expect(bool holds, const char *what) {
  if (holds) {
    met++;
  } else {
    not_met++;
    printf("not as expected: %s\n", what);
  }
}

/* The sheet with a delay of 4,100 on queue 1: refusal 5, place 1 */
static const uint8_t *bad_field(void) {
  static uint8_t bad[sizeof sheet];
  memcpy(bad, sheet, length);
  bad[length - 1] = 16;
  return bad;
}

/* Whether all bytes are those of a buffer that nothing was written to. */
static bool untouched(const void *buffer, size_t bytes) {
  const uint8_t *byte = buffer;
  for (size_t i = 0; i < bytes; i++)
    if (byte[i] != 0xAA) return false;
  return true;
}

static void try_read(void) {
  struct tasselbrook_reading r = CALL(tasselbrook_read(sheet, length));
  const struct tasselbrook_sheet *s = &r.sheet;
  expect(r.number == TASSELBROOK_ACCEPTED && r.place == 0, "read accepts");
  expect(s->version == 1 && s->n == 2 && s->m == 2 && s->target == 3, "read header");
  expect(s->tag[0] == 1 && s->tag[1] == 2 && s->tag[2] == 0 && s->tag[31] == 0, "read tags");
  expect(s->time[0] == 3 && s->time[1] == 2 && s->time[31] == 0, "read times");
  expect(s->source[1] == 1 && s->sink[0] == 1 && s->source[63] == 0, "read ends of queues");
  expect(s->produced[1] == 2 && s->consumed[0] == 2 && s->sink[63] == 0, "read rates");
  expect(s->delay[0] == 0 && s->delay[1] == 4 && s->delay[63] == 0, "read delays");
  r = CALL(tasselbrook_read(sheet, length - 1));
  expect(r.number == TASSELBROOK_LAYOUT && r.place == 0 && r.sheet.n == 0, "read 4");
  r = CALL(tasselbrook_read(bad_field(), length));
  expect(r.number == TASSELBROOK_FIELD && r.place == 1 && r.sheet.delay[1] == 0, "read 5");
}

/* Writes the sheet into a buffer of 60 bytes, of which the first are lent. */
static struct tasselbrook_written write_sheet(const struct tasselbrook_sheet *s, uint16_t version,
                                              size_t delays, uint8_t *buffer, size_t lent) {
  memset(buffer, 0xAA, 60);
  return CALL(tasselbrook_write(version, s->n, s->m, s->target, s->tag, 2, s->time, 2, s->source, 2,
                                s->sink, 2, s->produced, 2, s->consumed, 2, s->delay, delays,
                                buffer, lent));
}

static void try_write(void) {
  struct tasselbrook_sheet s = CALL(tasselbrook_read(sheet, length)).sheet;
  uint8_t buffer[60];
  struct tasselbrook_written w = write_sheet(&s, 1, 2, buffer, 60);
  expect(w.number == TASSELBROOK_ACCEPTED && w.place == 0 && w.length == length, "write accepts");
  expect(memcmp(buffer, sheet, length) == 0 && untouched(buffer + length, 60 - length),
         "write writes the sheet alone");
  w = write_sheet(&s, 2, 2, buffer, 60);
  expect(w.number == TASSELBROOK_VERSION && w.length == 0 && untouched(buffer, 60), "write 2");
  w = write_sheet(&s, 1, 3, buffer, 60);
  expect(w.number == TASSELBROOK_COUNTS && w.length == 0 && untouched(buffer, 60), "write 3");
  w = write_sheet(&s, 1, 2, buffer, length - 1);
  expect(w.number == TASSELBROOK_ROOM && w.length == 0 && untouched(buffer, 60), "write 11");
  s.delay[1] = 4096;
  w = write_sheet(&s, 1, 2, buffer, 60);
  expect(w.number == TASSELBROOK_FIELD && w.place == 1 && untouched(buffer, 60), "write 5");
}

static void try_plan(void) {
  uint16_t start[4], round[4];
  uint32_t times[4];
  memset(start, 0xAA, sizeof start);
  memset(round, 0xAA, sizeof round);
  memset(times, 0xAA, sizeof times);
  struct tasselbrook_planning p =
      CALL(tasselbrook_plan(bad_field(), length, start, 4, round, 4, times, 4));
  expect(p.number == TASSELBROOK_FIELD && p.place == 1 && p.n == 0, "plan 5");
  p = CALL(tasselbrook_plan(sheet, length, start, 1, round, 4, times, 4));
  expect(p.number == TASSELBROOK_ROOM && p.place == 0 && p.n == 0 && p.room[1] == 0, "plan 11");
  expect(untouched(start, sizeof start) && untouched(round, sizeof round) &&
             untouched(times, sizeof times),
         "plan 5 and 11 write nothing");
  p = CALL(tasselbrook_plan(sheet, length, start, 4, round, 4, times, 4));
  expect(p.number == TASSELBROOK_ACCEPTED && p.n == 2 && p.m == 2 && p.period == 3, "plan accepts");
  expect(p.rounds == 1 && p.back == 1 && p.starts == 2 && p.total == 3, "plan numbers");
  expect(p.tag[1] == 2 && p.q[0] == 2 && p.retiming[1] == 1 && p.start[0] == 2, "plan stations");
  expect(p.delay[0] == 2 && p.delay[1] == 2 && p.delay[2] == 0, "plan delays");
  expect(p.room[0] == 4 && p.room[1] == 4 && p.room[2] == 0, "plan rooms");
  expect(start[0] == 0 && start[1] == 0 && untouched(start + 2, 4), "plan start list");
  expect(round[1] == 0 && round[2] == 1 && untouched(round + 3, 2), "plan round list");
  expect(times[0] == 0 && times[2] == 0 && untouched(times + 3, 4), "plan time table");
}

static void expect_hand(size_t entries, int32_t first, int32_t second,
                        struct tasselbrook_hand_period is, const char *what) {
  int32_t list[3] = {first, second, 0};
  struct tasselbrook_hand_period h = CALL(tasselbrook_hand_period(sheet, length, list, entries));
  expect(h.number == is.number && h.place == is.place && h.period == is.period, what);
}

static void try_hand(void) {
  expect_hand(2, -2, 0, (struct tasselbrook_hand_period){0, 0, 3}, "hand -2 0");
  expect_hand(2, 0, -1, (struct tasselbrook_hand_period){TASSELBROOK_NEGATIVE, 0, 0}, "hand 0 -1");
  expect_hand(2, 0, 3, (struct tasselbrook_hand_period){TASSELBROOK_NEGATIVE, 1, 0}, "hand 0 3");
  expect_hand(2, 0, 0, (struct tasselbrook_hand_period){TASSELBROOK_SLOW, 0, 0}, "hand 0 0");
  expect_hand(3, -2, 0, (struct tasselbrook_hand_period){TASSELBROOK_HAND, 0, 0},
              "hand of three entries");
  expect_hand(2, -65536, 0, (struct tasselbrook_hand_period){TASSELBROOK_HAND, 0, 0},
              "hand -65,536 0");
}

static void expect_move(const uint8_t *bytes, size_t station, uint32_t copy, int32_t r,
                        struct tasselbrook_moved is, const char *what) {
  struct tasselbrook_moved m = CALL(tasselbrook_one_move(bytes, length, station, copy, r));
  expect(m.number == is.number && m.place == is.place && m.copy == is.copy && m.shift == is.shift,
         what);
}

static void try_move(void) {
  expect_move(sheet, 0, 1, -1, (struct tasselbrook_moved){0, 0, 2, -1}, "move copy 1 by -1");
  expect_move(sheet, 0, 2, 65535, (struct tasselbrook_moved){0, 0, 1, 32768},
              "move copy 2 by 65,535");
  expect_move(sheet, 2, 1, 0, (struct tasselbrook_moved){TASSELBROOK_HAND, 0, 0, 0},
              "move of no station");
  expect_move(sheet, 0, 3, 0, (struct tasselbrook_moved){TASSELBROOK_HAND, 0, 0, 0},
              "move of no copy");
  expect_move(bad_field(), 0, 1, 0, (struct tasselbrook_moved){TASSELBROOK_FIELD, 1, 0, 0},
              "move 5");
}

static void expect_origin(const uint8_t *bytes, size_t queue, uint32_t firing, uint32_t token,
                          struct tasselbrook_origin is, const char *what) {
  struct tasselbrook_origin o = CALL(tasselbrook_origin_of(bytes, length, queue, firing, token));
  expect(o.number == is.number && o.place == is.place && o.kind == is.kind &&
             o.firing == is.firing && o.token == is.token,
         what);
}

static void try_origin(void) {
  expect_origin(sheet, 1, 4, 1, (struct tasselbrook_origin){0, 0, TASSELBROOK_INITIAL, 0, 3},
                "origin of an initial token");
  expect_origin(sheet, 1, 6, 1, (struct tasselbrook_origin){0, 0, TASSELBROOK_MADE, 1, 2},
                "origin of a made token");
  expect_origin(sheet, 0, 1000000, 2,
                (struct tasselbrook_origin){0, 0, TASSELBROOK_MADE, 2000000, 1},
                "origin of the last firing");
  expect_origin(sheet, 2, 1, 1, (struct tasselbrook_origin){TASSELBROOK_TOKEN, 0, 0, 0, 0},
                "origin on no queue");
  expect_origin(bad_field(), 1, 1, 1, (struct tasselbrook_origin){TASSELBROOK_FIELD, 1, 0, 0, 0},
                "origin 5");
}

static void expect_rest(size_t rounds, uint64_t done, struct tasselbrook_rest is,
                        const char *what) {
  static const uint16_t start[2] = {0, 0}, round[3] = {0, 0, 1};
  struct tasselbrook_rest r = CALL(tasselbrook_rest(start, 2, round, rounds, done));
  expect(r.list == is.list && r.place == is.place && r.length == is.length, what);
}

static void try_rest(void) {
  expect_rest(3, 1, (struct tasselbrook_rest){0, 1, 1}, "rest of the start list");
  expect_rest(3, 4, (struct tasselbrook_rest){1, 2, 1}, "rest of the round list");
  expect_rest(3, 5, (struct tasselbrook_rest){1, 0, 3}, "the round list once more");
  expect_rest(0, 5, (struct tasselbrook_rest){1, 0, 0}, "rest of an empty round list");
}

int main(void) {
  try_read();
  try_write();
  try_plan();
  try_hand();
  try_move();
  try_origin();
  try_rest();
  printf("%d calls, %d expectations met, %d not\n", calls, met, not_met);
  return not_met == 0 ? 0 : 1;
}
