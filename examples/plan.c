/* plan [SHEET]: plans a sheet, the paper's sample if none is named, and prints the plan or the
 * refusal. */
#include <inttypes.h>
#include <stdio.h>

#include "tasselbrook.h"

/* by number; with buffers that no plan outgrows, planning gives no other refusal */
static const char *const words[] = {
    "",      "short",       "version", "counts",      "layout",           "field",
    "apart", "counts-fail", "stuck",   "no-retiming", [16] = "unbalanced"};

static uint16_t start_list[TASSELBROOK_START_ENTRIES];
static uint16_t round_list[TASSELBROOK_ROUND_ENTRIES];
static uint32_t times[TASSELBROOK_TIMES_ENTRIES];

static void print_list(const char *word, const uint16_t *list, size_t length) {
  printf("%s", word);
  for (size_t i = 0; i < length; i++) printf(" %" PRIu16, list[i]);
  printf("\n");
}

static void print_plan(const struct tasselbrook_planning *p) {
  printf("accepted period %" PRIu32 " rounds %zu back %" PRIu32 "\n", p->period, p->rounds,
         p->back);
  for (size_t v = 0; v < p->n; v++)
    printf("station %zu tag %" PRIu16 " count %" PRIu32 " retime %" PRIu32 " start %" PRIu32 "\n",
           v, p->tag[v], p->q[v], p->retiming[v], p->start[v]);
  for (size_t e = 0; e < p->m; e++)
    printf("queue %zu delay %" PRIu32 " room %" PRIu32 "\n", e, p->delay[e], p->room[e]);
  print_list("start", start_list, p->starts);
  print_list("round", round_list, p->total);
  printf("times");
  for (size_t i = 0; i < p->total; i++) printf(" %" PRIu32, times[i]);
  printf("\n");
}

int main(int argc, char **argv) {
  const char *name = argc > 1 ? argv[1] : "samples/k43.sheet";
  FILE *file = fopen(name, "rb");
  if (file == NULL) {
    perror(name);
    return 1;
  }
  /* one byte more than the longest sheet, so that a longer file is refused by its length */
  uint8_t sheet[TASSELBROOK_SHEET_BYTES + 1];
  size_t length = fread(sheet, 1, sizeof sheet, file);
  fclose(file);

  struct tasselbrook_planning p =
      tasselbrook_plan(sheet, length, start_list, TASSELBROOK_START_ENTRIES, round_list,
                       TASSELBROOK_ROUND_ENTRIES, times, TASSELBROOK_TIMES_ENTRIES);
  if (p.number == TASSELBROOK_ACCEPTED)
    print_plan(&p);
  else
    printf("refused %" PRIu32 " %s place %" PRIu32 "\n", p.number, words[p.number], p.place);
  return 0;
}
