/* Tasselbrook for programs in C: plans of an optical seed sorter, from the bytes of a sheet.
 *
 * `rt lib` in crates/exports proves the library and writes out/libexports.a there, which links into
 * x86-64 Linux programs. Each function is proved to answer what the library's function of the
 * same name does. No proof holds this header to them, so a change there is made here too;
 * `examples/build` tries each function, and the layout of each struct.
 *
 * A list passes as a pointer to its first entry and its number of entries. The pointer isn't null,
 * even where there are no entries, and is aligned for its type. A buffer that is written shares no
 * byte with another list of the same call. No function keeps a pointer, allocates, or remembers
 * anything between calls.
 *
 * No theorem bounds the stack that a call takes. The figure is measured (docs/SPEED.md): 51
 * KiB are enough to plan every sheet of the book there. A caller gives the calling thread at least
 * that, beside what its own code and lists take.
 *
 * Every answer but a dispatcher's part begins with a refusal's number and place. Number 0 means
 * accepted, and place is 0 then. On a refusal every other number of the answer is 0, and no buffer
 * was written.
 *
 * Above each struct stand its size and the offsets of its fields in their order, in bytes. */
#ifndef TASSELBROOK_H
#define TASSELBROOK_H

#include <stddef.h>
#include <stdint.h>

#ifdef __cplusplus
extern "C" {
#endif

/* The limits of a sheet: stations, queues, and the bytes of the longest one. */
#define TASSELBROOK_STATIONS 32
#define TASSELBROOK_QUEUES 64
#define TASSELBROOK_SHEET_BYTES 788

/* Entries of buffers that no plan outgrows: start list, round list and time table. */
#define TASSELBROOK_START_ENTRIES 65536
#define TASSELBROOK_ROUND_ENTRIES 256
#define TASSELBROOK_TIMES_ENTRIES 256

/* The refusals. The first that applies is given; the place is 0 where nothing else is said. There
 * is no refusal 10. */
enum tasselbrook_refusal {
  TASSELBROOK_ACCEPTED = 0,
  TASSELBROOK_SHORT = 1,       /* under 20 bytes */
  TASSELBROOK_VERSION = 2,     /* version not 1 */
  TASSELBROOK_COUNTS = 3,      /* stations or queues outside the limits, or the zero field not 0 */
  TASSELBROOK_LAYOUT = 4,      /* an offset or the length is wrong */
  TASSELBROOK_FIELD = 5,       /* a queue field outside its limits; place: the lowest such queue */
  TASSELBROOK_APART = 6,       /* the stations aren't joined */
  TASSELBROOK_COUNTS_FAIL = 7, /* no counts with a sum of at most 256 balance every queue */
  TASSELBROOK_STUCK = 8,       /* one round can't be fired */
  TASSELBROOK_NO_RETIMING = 9, /* no retiming meets the target period */
  TASSELBROOK_ROOM = 11,       /* a lent buffer is shorter than needed */
  TASSELBROOK_HAND = 12,       /* a hand list's length or an entry; a move's station, copy or r */
  TASSELBROOK_NEGATIVE = 13,   /* a new delay below 0; place: the lowest such queue */
  TASSELBROOK_SLOW = 14,       /* the hand period is above the target */
  TASSELBROOK_TOKEN = 15,      /* no such queue, firing or token */
  TASSELBROOK_UNBALANCED = 16  /* after 6 and before 7: no counts of any size balance every queue;
                                * place: the lowest queue that can't be balanced with those below */
};

/* A plan. Entries past n stations and m queues are 0.
 * A queue's room is the most tokens that it holds, at the start or after any firing, when the start
 * list is fired from the sheet's delays and then the round list once, one station at a time. A
 * firing takes, then puts; tokens are counted when both are done. Further rounds never need more.
 * For firings side by side by the time table this room isn't promised: a queue may then hold more.
 * Size 1,024; offsets 0, 4, 8, 16, 24, 32, 40, 48, 56, 64, 128, 256, 384, 512, 768. */
struct tasselbrook_planning {
  uint32_t number;                          /* a refusal's number, or 0 */
  uint32_t place;                           /* a refusal's place, or 0 */
  size_t n;                                 /* stations */
  size_t m;                                 /* queues */
  uint32_t period;                          /* period of the retimed sheet, in ticks */
  size_t rounds;                            /* rounds of the search */
  uint32_t back;                            /* the least c with c * q >= retiming at each station */
  size_t starts;                            /* entries of the start list */
  size_t total;                             /* entries of the round list and of the time table */
  uint16_t tag[TASSELBROOK_STATIONS];       /* each station's tag */
  uint32_t q[TASSELBROOK_STATIONS];         /* its firings in a round */
  uint32_t retiming[TASSELBROOK_STATIONS];  /* its retiming */
  uint32_t start[TASSELBROOK_STATIONS];     /* its firings in the start list */
  uint32_t delay[TASSELBROOK_QUEUES];       /* each queue's new delay */
  uint32_t room[TASSELBROOK_QUEUES];        /* its room, as above */
};

/* The numbers of a sheet. Entries past n stations and m queues are 0.
 * Size 800; offsets 0, 8, 16, 24, 28, 92, 156, 284, 412, 540, 668. */
struct tasselbrook_sheet {
  uint16_t version;                       /* 1 */
  size_t n;                               /* stations */
  size_t m;                               /* queues */
  uint32_t target;                        /* target period, in ticks */
  uint16_t tag[TASSELBROOK_STATIONS];     /* each station's tag */
  uint16_t time[TASSELBROOK_STATIONS];    /* its time, in ticks */
  uint16_t source[TASSELBROOK_QUEUES];    /* the station that puts onto each queue */
  uint16_t sink[TASSELBROOK_QUEUES];      /* the station that takes from it */
  uint16_t produced[TASSELBROOK_QUEUES];  /* tokens that a firing of the source puts */
  uint16_t consumed[TASSELBROOK_QUEUES];  /* tokens that a firing of the sink takes */
  uint16_t delay[TASSELBROOK_QUEUES];     /* tokens at the beginning */
};

/* A sheet that was read. Size 808; offsets 0, 4, 8. */
struct tasselbrook_reading {
  uint32_t number;                /* a refusal's number, or 0 */
  uint32_t place;                 /* a refusal's place, or 0 */
  struct tasselbrook_sheet sheet; /* the sheet; all 0 on a refusal */
};

/* What writing a sheet answers. Size 16; offsets 0, 4, 8. */
struct tasselbrook_written {
  uint32_t number; /* a refusal's number, or 0 */
  uint32_t place;  /* a refusal's place, or 0 */
  size_t length;   /* the sheet's length in bytes */
};

/* The period of a hand retiming. Size 12; offsets 0, 4, 8. */
struct tasselbrook_hand_period {
  uint32_t number; /* a refusal's number, or 0 */
  uint32_t place;  /* a refusal's place, or 0 */
  uint32_t period; /* the resulting period, in ticks */
};

/* Where a copy moves. Size 16; offsets 0, 4, 8, 12. */
struct tasselbrook_moved {
  uint32_t number; /* a refusal's number, or 0 */
  uint32_t place;  /* a refusal's place, or 0 */
  uint32_t copy;   /* the copy that it moves to, from 1 */
  int32_t shift;   /* its shift in rounds, of either sign */
};

/* The kinds of an origin. */
enum tasselbrook_kind {
  TASSELBROOK_REFUSED = 0,
  TASSELBROOK_INITIAL = 1,
  TASSELBROOK_MADE = 2
};

/* The origin of a token. Size 20; offsets 0, 4, 8, 12, 16. */
struct tasselbrook_origin {
  uint32_t number; /* a refusal's number, or 0 */
  uint32_t place;  /* a refusal's place, or 0 */
  uint32_t kind;   /* an enum tasselbrook_kind */
  uint32_t firing; /* made: the source's firing, from 1; else 0 */
  uint32_t token;  /* initial: its place on the queue, from 0; made: in the firing, from 1 */
};

/* The lists that a dispatcher lends. */
enum tasselbrook_list {
  TASSELBROOK_START_LIST = 0,
  TASSELBROOK_ROUND_LIST = 1
};

/* A part of a lent list: that list's entries from place on. Size 24; offsets 0, 8, 16. */
struct tasselbrook_rest {
  uint32_t list; /* an enum tasselbrook_list */
  size_t place;  /* the part's first entry, from 0 */
  size_t length; /* entries from there to the end of the list */
};

/* Plans a sheet. Reads the sheet's bytes s; writes the start list and the round list, as station
 * numbers, and the start times, in ticks, to the first `starts`, `total` and `total` entries of the
 * three buffers, and no other entry. Refuses by 1 to 9 with 16, or by 11, and then every buffer is
 * as it was. */
struct tasselbrook_planning tasselbrook_plan(const uint8_t *s, size_t s_length,
                                             uint16_t *start, size_t start_length,
                                             uint16_t *round, size_t round_length,
                                             uint32_t *times, size_t times_length);

/* Reads a sheet, whether it could be planned or not. Reads the bytes s and writes to no buffer.
 * Refuses by 1 to 5, with a sheet that is all 0. */
struct tasselbrook_reading tasselbrook_read(const uint8_t *s, size_t s_length);

/* Writes a sheet of n stations and m queues. Reads the seven columns, of n and of m entries; writes
 * the sheet's own length of bytes to the front of out, and no other byte. Refuses by 2, 3 (also
 * where a column has another length), 5 and 11, and then out is as it was. */
struct tasselbrook_written tasselbrook_write(uint16_t version, size_t n, size_t m, uint32_t target,
                                             const uint16_t *tag, size_t tag_length,
                                             const uint16_t *time, size_t time_length,
                                             const uint16_t *source, size_t source_length,
                                             const uint16_t *sink, size_t sink_length,
                                             const uint16_t *produced, size_t produced_length,
                                             const uint16_t *consumed, size_t consumed_length,
                                             const uint16_t *delay, size_t delay_length,
                                             uint8_t *out, size_t out_length);

/* Tells the period that a hand retiming gives. Reads the sheet's bytes s and the hand list, with an
 * entry from -65,535 to 65,535 for each station, and writes to no buffer. Refuses by 1 to 8 with
 * 16, then by 12 where the list's length or an entry is out of range, by 13 and by 14. */
struct tasselbrook_hand_period tasselbrook_hand_period(const uint8_t *s, size_t s_length,
                                                       const int32_t *hand, size_t hand_length);

/* Tells where a retiming by r moves a station's copy (from 1). Reads the sheet's bytes s and writes
 * to no buffer. Refuses by 1 to 8 with 16, and by 12 where the station, the copy or r (-65,535 to
 * 65,535) is out of range. */
struct tasselbrook_moved tasselbrook_one_move(const uint8_t *s, size_t s_length, size_t station,
                                              uint32_t copy, int32_t r);

/* Tells the origin of a token (from 1) that a firing (1 to 1,000,000) of a queue's sink takes, by
 * the sheet's own delays. Reads the sheet's bytes s and writes to no buffer. Refuses by 1 to 8 with
 * 16, and by 15 where there is no such queue, firing or token. */
struct tasselbrook_origin tasselbrook_origin_of(const uint8_t *s, size_t s_length, size_t queue,
                                                uint32_t firing, uint32_t token);

/* Tells the part that a dispatcher fires next after `done` firings: the rest of the start list, and
 * once that is done the round list from its place in the round. The library hands out the part
 * itself; here it is named by list, place and length. Reads the lengths alone, writes to no buffer
 * and refuses nothing; an empty round list gives place 0 and length 0. */
struct tasselbrook_rest tasselbrook_rest(const uint16_t *start, size_t start_length,
                                         const uint16_t *round, size_t round_length,
                                         uint64_t done);

#ifdef __cplusplus
}
#endif

#endif
