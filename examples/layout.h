/* The layout of the library's structs on x86-64: the size of each struct, and the offset and the
 * size of each field, in bytes. The numbers are worked out from the structs marked #[repr(C)] under
 * crates/, not from the header, so that a header with another layout doesn't compile. The refusals'
 * numbers are those of crates/refusals. */
#ifndef LAYOUT_H
#define LAYOUT_H

#include "tasselbrook.h"

#define SIZE(type, bytes) \
  _Static_assert(sizeof(struct tasselbrook_##type) == (bytes), "size of tasselbrook_" #type)

#define FIELD(type, field, offset, bytes)                                        \
  _Static_assert(offsetof(struct tasselbrook_##type, field) == (offset) &&       \
                     sizeof(((struct tasselbrook_##type *)0)->field) == (bytes), \
                 "offset or size of " #field " in tasselbrook_" #type)

#define REFUSAL(name, number) \
  _Static_assert(TASSELBROOK_##name == (number), "number of TASSELBROOK_" #name)

REFUSAL(SHORT, 1);
REFUSAL(VERSION, 2);
REFUSAL(COUNTS, 3);
REFUSAL(LAYOUT, 4);
REFUSAL(FIELD, 5);
REFUSAL(APART, 6);
REFUSAL(COUNTS_FAIL, 7);
REFUSAL(STUCK, 8);
REFUSAL(NO_RETIMING, 9);
REFUSAL(ROOM, 11);
REFUSAL(HAND, 12);
REFUSAL(NEGATIVE, 13);
REFUSAL(SLOW, 14);
REFUSAL(TOKEN, 15);
REFUSAL(UNBALANCED, 16);

/* Planning, crates/exports */
SIZE(planning, 1024);
FIELD(planning, number, 0, 4);
FIELD(planning, place, 4, 4);
FIELD(planning, n, 8, 8);
FIELD(planning, m, 16, 8);
FIELD(planning, period, 24, 4);
FIELD(planning, rounds, 32, 8);
FIELD(planning, back, 40, 4);
FIELD(planning, starts, 48, 8);
FIELD(planning, total, 56, 8);
FIELD(planning, tag, 64, 64);
FIELD(planning, q, 128, 128);
FIELD(planning, retiming, 256, 128);
FIELD(planning, start, 384, 128);
FIELD(planning, delay, 512, 256);
FIELD(planning, room, 768, 256);

/* Sheet, crates/sheet */
SIZE(sheet, 800);
FIELD(sheet, version, 0, 2);
FIELD(sheet, n, 8, 8);
FIELD(sheet, m, 16, 8);
FIELD(sheet, target, 24, 4);
FIELD(sheet, tag, 28, 64);
FIELD(sheet, time, 92, 64);
FIELD(sheet, source, 156, 128);
FIELD(sheet, sink, 284, 128);
FIELD(sheet, produced, 412, 128);
FIELD(sheet, consumed, 540, 128);
FIELD(sheet, delay, 668, 128);

/* Reading, crates/exports */
SIZE(reading, 808);
FIELD(reading, number, 0, 4);
FIELD(reading, place, 4, 4);
FIELD(reading, sheet, 8, 800);

/* Written, crates/exports */
SIZE(written, 16);
FIELD(written, number, 0, 4);
FIELD(written, place, 4, 4);
FIELD(written, length, 8, 8);

/* HandPeriod, crates/exports */
SIZE(hand_period, 12);
FIELD(hand_period, number, 0, 4);
FIELD(hand_period, place, 4, 4);
FIELD(hand_period, period, 8, 4);

/* Moved, crates/exports */
SIZE(moved, 16);
FIELD(moved, number, 0, 4);
FIELD(moved, place, 4, 4);
FIELD(moved, copy, 8, 4);
FIELD(moved, shift, 12, 4);

/* TokenOrigin, crates/exports */
SIZE(origin, 20);
FIELD(origin, number, 0, 4);
FIELD(origin, place, 4, 4);
FIELD(origin, kind, 8, 4);
FIELD(origin, firing, 12, 4);
FIELD(origin, token, 16, 4);

/* Rest, crates/exports */
SIZE(rest, 24);
FIELD(rest, list, 0, 4);
FIELD(rest, place, 8, 8);
FIELD(rest, length, 16, 8);

#endif
