/* The library's method in plain C, to be timed beside it. It answers questions of kinds 1 and 2
 * byte for byte as the program bench does; to it every other kind is malformed. Like bench it fills
 * the lent buffers before each plan. It gathers the answers to many questions and writes them at once,
 * where bench writes each answer when it is whole. */
#define _POSIX_C_SOURCE 200809L
#include <stdbool.h>
#include <stdint.h>
#include <string.h>
#include <unistd.h>

enum {
    MOST_STATIONS = 32,
    MOST_QUEUES = 64,
    MOST_COPIES = 256,
    MOST_STARTS = 65536,
    MOST_RATE = 64,
    MOST_DELAY = 4095,
    LIMBS = 4,
    LIMB_BITS = 56,
    MOST_BODY = 70000
};

struct station {
    unsigned tag, time;
    unsigned count;
    unsigned base; /* the place of its first copy in the time table */
    unsigned into; /* the lowest queue into it, or m */
    unsigned out;  /* the lowest queue out of it, or m */
};

struct queue {
    unsigned source, sink, produced, consumed;
    unsigned next_in;  /* the next queue into the same sink, or m */
    unsigned next_out; /* the next queue out of the same source, or m */
};

struct sheet {
    unsigned n, m, target;
    unsigned total; /* the sum of the counts */
    struct station station[MOST_STATIONS];
    struct queue queue[MOST_QUEUES];
    unsigned delay[MOST_QUEUES];
};

/* A tree of queues over all stations. The station at place i was reached by a queue from place up[i],
 * with rate near[i] at place i and far[i] at the other end. */
struct tree {
    unsigned place[MOST_STATIONS];
    unsigned up[MOST_STATIONS], near[MOST_STATIONS], far[MOST_STATIONS];
};

/* Three buffers and how many entries of each are lent. */
struct lent {
    uint16_t *start, *round;
    uint32_t *times;
    uint32_t starts, rounds, tables;
};

/* What is worked out of a sheet; of a refusal, its place alone. */
struct plan {
    unsigned place;
    unsigned period, rounds, back, starts;
    unsigned retiming[MOST_STATIONS];
    unsigned firings[MOST_STATIONS];
    unsigned delay[MOST_QUEUES];
    unsigned room[MOST_QUEUES];
};

static unsigned u16_at(const unsigned char *s)
{
    return s[0] | s[1] << 8;
}

static uint32_t u32_at(const unsigned char *s)
{
    return u16_at(s) | (uint32_t)u16_at(s + 2) << 16;
}

/* The first of refusals 1 to 4 that applies, or 0. */
static unsigned header_fault(const unsigned char *s, size_t size)
{
    if (size < 20)
        return 1;
    if (u16_at(s) != 1)
        return 2;
    unsigned n = u16_at(s + 2), m = u16_at(s + 4);
    if (n < 1 || n > MOST_STATIONS || m > MOST_QUEUES || u16_at(s + 6) != 0)
        return 3;
    if (u32_at(s + 8) != 20 || u32_at(s + 12) != 20 + 4 * n || size != 20 + 4 * n + 10 * m)
        return 4;
    return 0;
}

static void read_fields(const unsigned char *s, struct sheet *sheet)
{
    sheet->n = u16_at(s + 2);
    sheet->m = u16_at(s + 4);
    sheet->target = u32_at(s + 16);
    s += 20;
    for (unsigned v = 0; v < sheet->n; v++, s += 4) {
        sheet->station[v].tag = u16_at(s);
        sheet->station[v].time = u16_at(s + 2);
    }
    for (unsigned e = 0; e < sheet->m; e++, s += 10) {
        struct queue *queue = &sheet->queue[e];
        queue->source = u16_at(s);
        queue->sink = u16_at(s + 2);
        queue->produced = u16_at(s + 4);
        queue->consumed = u16_at(s + 6);
        sheet->delay[e] = u16_at(s + 8);
    }
}

/* The lowest queue with a field outside its limits, or m. */
static unsigned bad_queue(const struct sheet *sheet)
{
    unsigned e;
    for (e = 0; e < sheet->m; e++) {
        const struct queue *queue = &sheet->queue[e];
        if (queue->source >= sheet->n || queue->sink >= sheet->n ||
            queue->produced < 1 || queue->produced > MOST_RATE ||
            queue->consumed < 1 || queue->consumed > MOST_RATE || sheet->delay[e] > MOST_DELAY)
            break;
    }
    return e;
}

/* The lowest queue with just one marked end, or m. */
static unsigned crossing(const struct sheet *sheet, const bool *marked)
{
    unsigned e;
    for (e = 0; e < sheet->m; e++)
        if (marked[sheet->queue[e].source] != marked[sheet->queue[e].sink])
            break;
    return e;
}

static bool joined(const struct sheet *sheet)
{
    bool marked[MOST_STATIONS] = {true};
    for (unsigned count = 1; count < sheet->n; count++) {
        unsigned e = crossing(sheet, marked);
        if (e == sheet->m)
            return false;
        marked[sheet->queue[e].source] = marked[sheet->queue[e].sink] = true;
    }
    return true;
}

/* Raises the short end of the lowest queue that doesn't balance; false if every queue does. */
static bool raise_count(struct sheet *sheet)
{
    for (unsigned e = 0; e < sheet->m; e++) {
        const struct queue *queue = &sheet->queue[e];
        struct station *source = &sheet->station[queue->source];
        struct station *sink = &sheet->station[queue->sink];
        unsigned made = source->count * queue->produced, taken = sink->count * queue->consumed;
        if (made == taken)
            continue;
        struct station *less = made < taken ? source : sink;
        unsigned count = made < taken ? (taken + queue->produced - 1) / queue->produced
                                      : (made + queue->consumed - 1) / queue->consumed;
        sheet->total += count - less->count;
        less->count = count;
        return true;
    }
    return false;
}

/* The smallest counts; false if their sum is above the limit. */
static bool find_counts(struct sheet *sheet)
{
    for (unsigned v = 0; v < sheet->n; v++)
        sheet->station[v].count = 1;
    sheet->total = sheet->n;
    while (sheet->total <= MOST_COPIES)
        if (!raise_count(sheet))
            return true;
    return false;
}

/* Gives each station of a joined sheet its place in a tree that grows from station 0 by the lowest
 * queue that leads to one more. */
static void grow_tree(const struct sheet *sheet, struct tree *tree)
{
    bool marked[MOST_STATIONS] = {true};
    tree->place[0] = 0;
    for (unsigned count = 1; count < sheet->n; count++) {
        const struct queue *queue = &sheet->queue[crossing(sheet, marked)];
        bool ahead = marked[queue->source];
        unsigned v = ahead ? queue->sink : queue->source;
        tree->up[count] = tree->place[ahead ? queue->source : queue->sink];
        tree->near[count] = ahead ? queue->consumed : queue->produced;
        tree->far[count] = ahead ? queue->produced : queue->consumed;
        tree->place[v] = count;
        marked[v] = true;
    }
}

/* The product with a rate, in place. */
static void times_rate(uint64_t *limbs, uint64_t rate)
{
    uint64_t carry = 0;
    for (unsigned i = 0; i < LIMBS; i++) {
        uint64_t all = limbs[i] * rate + carry;
        limbs[i] = all & (((uint64_t)1 << LIMB_BITS) - 1);
        carry = all >> LIMB_BITS;
    }
}

/* Whether the products of the rates agree round the loop of a queue and the tree's way between its
 * ends. */
static bool agrees(const struct tree *tree, const struct queue *queue)
{
    uint64_t left[LIMBS] = {queue->produced}, right[LIMBS] = {queue->consumed};
    unsigned i = tree->place[queue->source], j = tree->place[queue->sink];
    while (i != j) {
        if (i < j) {
            times_rate(left, tree->near[j]);
            times_rate(right, tree->far[j]);
            j = tree->up[j];
        } else {
            times_rate(left, tree->far[i]);
            times_rate(right, tree->near[i]);
            i = tree->up[i];
        }
    }
    return memcmp(left, right, sizeof left) == 0;
}

/* The lowest queue that can't be balanced with those before it, or m. */
static unsigned spoiled(const struct sheet *sheet)
{
    struct tree tree;
    unsigned e;
    grow_tree(sheet, &tree);
    for (e = 0; e < sheet->m; e++)
        if (!agrees(&tree, &sheet->queue[e]))
            break;
    return e;
}

/* Threads the queues into each station and out of it, and finds where its copies begin in the time
 * table. */
static void thread_queues(struct sheet *sheet)
{
    unsigned base = 0;
    for (unsigned v = 0; v < sheet->n; v++) {
        struct station *station = &sheet->station[v];
        station->into = station->out = sheet->m;
        station->base = base;
        base += station->count;
    }
    for (unsigned e = sheet->m; e-- > 0;) {
        struct queue *queue = &sheet->queue[e];
        struct station *sink = &sheet->station[queue->sink];
        struct station *source = &sheet->station[queue->source];
        queue->next_in = sink->into;
        sink->into = e;
        queue->next_out = source->out;
        source->out = e;
    }
}

/* Whether every queue into v holds what one more firing takes. */
static bool has_tokens(const struct sheet *sheet, const unsigned *delay, const unsigned *fired,
                       unsigned v)
{
    for (unsigned e = sheet->station[v].into; e < sheet->m; e = sheet->queue[e].next_in) {
        const struct queue *queue = &sheet->queue[e];
        if (delay[e] + fired[queue->source] * queue->produced < (fired[v] + 1) * queue->consumed)
            return false;
    }
    return true;
}

/* The lowest station that has firings left and enough tokens, or n. */
static unsigned ready(const struct sheet *sheet, const unsigned *delay, const unsigned *wanted,
                      const unsigned *fired)
{
    unsigned v;
    for (v = 0; v < sheet->n; v++)
        if (fired[v] < wanted[v] && has_tokens(sheet, delay, fired, v))
            break;
    return v;
}

/* Fires every station as often as wanted, total firings in all; false if that can't be completed. */
static bool fire_list(const struct sheet *sheet, const unsigned *delay, const unsigned *wanted,
                      unsigned total, uint16_t *list)
{
    unsigned fired[MOST_STATIONS] = {0};
    for (unsigned k = 0; k < total; k++) {
        unsigned v = ready(sheet, delay, wanted, fired);
        if (v == sheet->n)
            return false;
        list[k] = v;
        fired[v]++;
    }
    return true;
}

/* Each station as often as it counts. */
static bool fire_round(const struct sheet *sheet, const unsigned *delay, uint16_t *list)
{
    unsigned count[MOST_STATIONS];
    for (unsigned v = 0; v < sheet->n; v++)
        count[v] = sheet->station[v].count;
    return fire_list(sheet, delay, count, sheet->total, list);
}

/* Pushes the finish of a copy of v into the copies of this round that take its first tokens. */
static void push(const struct sheet *sheet, const unsigned *delay, unsigned v, unsigned copy,
                 unsigned finish, uint32_t *times)
{
    for (unsigned e = sheet->station[v].out; e < sheet->m; e = sheet->queue[e].next_out) {
        const struct queue *queue = &sheet->queue[e];
        const struct station *sink = &sheet->station[queue->sink];
        unsigned token = delay[e] + copy * queue->produced;
        if (token >= sink->count * queue->consumed)
            continue;
        uint32_t *entry = &times[sink->base + token / queue->consumed];
        if (*entry < finish)
            *entry = finish;
    }
}

/* The start of every copy, from an order in which the round can be fired. A copy that starts with the
 * one before it has nothing to push. */
static void time_table(const struct sheet *sheet, const unsigned *delay, const uint16_t *order,
                       uint32_t *times)
{
    unsigned fired[MOST_STATIONS] = {0};
    memset(times, 0, sheet->total * sizeof *times);
    for (unsigned k = 0; k < sheet->total; k++) {
        unsigned v = order[k], copy = fired[v]++;
        uint32_t *entry = &times[sheet->station[v].base + copy];
        if (copy > 0 && *entry <= entry[-1])
            *entry = entry[-1];
        else
            push(sheet, delay, v, copy, *entry + sheet->station[v].time, times);
    }
}

/* The latest finish: a station's last copy is its latest. */
static unsigned latest_end(const struct sheet *sheet, const uint32_t *times)
{
    unsigned latest = 0;
    for (unsigned v = 0; v < sheet->n; v++) {
        const struct station *station = &sheet->station[v];
        unsigned end = times[station->base + station->count - 1] + station->time;
        if (latest < end)
            latest = end;
    }
    return latest;
}

/* The number of late copies of each station. */
static void count_late(const struct sheet *sheet, const uint32_t *times, unsigned *late)
{
    for (unsigned v = 0; v < sheet->n; v++) {
        const struct station *station = &sheet->station[v];
        late[v] = 0;
        for (unsigned i = 0; i < station->count; i++)
            if (times[station->base + i] + station->time > sheet->target)
                late[v]++;
    }
}

/* Puts the late copies first and the others behind them, both in the order that they had. */
static void reorder(const struct sheet *sheet, const unsigned *late, uint16_t *order)
{
    unsigned kept[MOST_STATIONS], fired[MOST_STATIONS] = {0};
    uint16_t list[MOST_COPIES];
    unsigned first = 0, behind = 0;
    for (unsigned v = 0; v < sheet->n; v++) {
        kept[v] = sheet->station[v].count - late[v];
        behind += late[v];
    }
    memcpy(list, order, sheet->total * sizeof *list);
    for (unsigned k = 0; k < sheet->total; k++) {
        unsigned v = list[k];
        if (fired[v]++ < kept[v])
            order[behind++] = v;
        else
            order[first++] = v;
    }
}

static void raise_by(const struct sheet *sheet, const unsigned *late, struct plan *plan)
{
    for (unsigned e = 0; e < sheet->m; e++) {
        const struct queue *queue = &sheet->queue[e];
        plan->delay[e] += queue->consumed * late[queue->sink];
        plan->delay[e] -= queue->produced * late[queue->source];
    }
    for (unsigned v = 0; v < sheet->n; v++)
        plan->retiming[v] += late[v];
}

/* Raises every station at once by its late copies until none is late; false if nothing serves. The
 * list is an order in which the round can be fired from the sheet's delays. */
static bool search(const struct sheet *sheet, const uint16_t *list, struct plan *plan,
                   uint32_t *times)
{
    uint16_t order[MOST_COPIES];
    unsigned late[MOST_STATIONS];
    memcpy(order, list, sheet->total * sizeof *order);
    memcpy(plan->delay, sheet->delay, sheet->m * sizeof *plan->delay);
    memset(plan->retiming, 0, sizeof plan->retiming);
    for (plan->rounds = 0; plan->rounds < sheet->total; plan->rounds++) {
        time_table(sheet, plan->delay, order, times);
        plan->period = latest_end(sheet, times);
        if (plan->period <= sheet->target)
            return true;
        count_late(sheet, times, late);
        reorder(sheet, late, order);
        raise_by(sheet, late, plan);
    }
    return false;
}

/* Back, and how often each station fires in the start list. */
static void find_starts(const struct sheet *sheet, struct plan *plan)
{
    plan->back = 0;
    for (unsigned v = 0; v < sheet->n; v++) {
        unsigned count = sheet->station[v].count;
        unsigned rounds = (plan->retiming[v] + count - 1) / count;
        if (plan->back < rounds)
            plan->back = rounds;
    }
    plan->starts = 0;
    for (unsigned v = 0; v < sheet->n; v++) {
        plan->firings[v] = plan->back * sheet->station[v].count - plan->retiming[v];
        plan->starts += plan->firings[v];
    }
}

/* Lifts the room of each queue out of v to at least what it holds after these firings. */
static void lift_from(const struct sheet *sheet, const unsigned *delay, unsigned v,
                      const unsigned *fired, unsigned *room)
{
    for (unsigned e = sheet->station[v].out; e < sheet->m; e = sheet->queue[e].next_out) {
        const struct queue *queue = &sheet->queue[e];
        unsigned fill =
            delay[e] + fired[v] * queue->produced - fired[queue->sink] * queue->consumed;
        if (room[e] < fill)
            room[e] = fill;
    }
}

/* The place behind the entries from this one on that name the same station. */
static unsigned stretch_end(const uint16_t *list, unsigned count, unsigned from)
{
    unsigned end = from + 1;
    while (end < count && list[end] == list[from])
        end++;
    return end;
}

/* Lifts each room to at least what its queue holds after any firing of the list: a queue is fullest
 * before or behind a stretch of firings of one station, and holds more only behind one of its
 * source. */
static void lift_over(const struct sheet *sheet, const unsigned *delay, const uint16_t *list,
                      unsigned count, unsigned *room)
{
    unsigned fired[MOST_STATIONS] = {0};
    for (unsigned k = 0; k < count;) {
        unsigned v = list[k], end = stretch_end(list, count, k);
        fired[v] += end - k;
        lift_from(sheet, delay, v, fired, room);
        k = end;
    }
}

/* The most that each queue holds over both lists of the plan. */
static void find_rooms(const struct sheet *sheet, const struct lent *lent, struct plan *plan)
{
    memcpy(plan->room, sheet->delay, sheet->m * sizeof *plan->room);
    lift_over(sheet, sheet->delay, lent->start, plan->starts, plan->room);
    lift_over(sheet, plan->delay, lent->round, sheet->total, plan->room);
}

/* Checks 1 to 8 with 16. Leaves the sheet and its round list. */
static unsigned check(const unsigned char *s, size_t size, struct sheet *sheet, uint16_t *list,
                      unsigned *place)
{
    *place = 0;
    unsigned number = header_fault(s, size);
    if (number != 0)
        return number;
    read_fields(s, sheet);
    unsigned bad = bad_queue(sheet);
    if (bad < sheet->m) {
        *place = bad;
        return 5;
    }
    if (!joined(sheet))
        return 6;
    if (!find_counts(sheet)) {
        unsigned e = spoiled(sheet);
        if (e == sheet->m)
            return 7;
        *place = e;
        return 16;
    }
    thread_queues(sheet);
    return fire_round(sheet, sheet->delay, list) ? 0 : 8;
}

/* The first of refusals 1 to 9 with 16, and 11, that applies; or 0, and both lists and the time table
 * in the lent buffers. */
static unsigned make_plan(const unsigned char *s, size_t size, const struct lent *lent,
                          struct sheet *sheet, struct plan *plan)
{
    uint16_t list[MOST_COPIES];
    uint32_t times[MOST_COPIES];
    unsigned number = check(s, size, sheet, list, &plan->place);
    if (number != 0)
        return number;
    if (!search(sheet, list, plan, times))
        return 9;
    find_starts(sheet, plan);
    if (lent->starts < plan->starts || lent->rounds < sheet->total || lent->tables < sheet->total)
        return 11;
    fire_list(sheet, sheet->delay, plan->firings, plan->starts, lent->start);
    fire_round(sheet, plan->delay, lent->round);
    memcpy(lent->times, times, sheet->total * sizeof *times);
    find_rooms(sheet, lent, plan);
    return 0;
}

static char gathered[65536];
static size_t held;

static void write_all(const char *text, size_t size)
{
    while (size > 0) {
        ssize_t put = write(STDOUT_FILENO, text, size);
        if (put <= 0)
            _exit(1);
        text += put;
        size -= put;
    }
}

static void flush(void)
{
    write_all(gathered, held);
    held = 0;
}

static void print_piece(const char *text, size_t size)
{
    if (sizeof gathered - held < size)
        flush();
    memcpy(gathered + held, text, size);
    held += size;
}

static void print_text(const char *text)
{
    print_piece(text, strlen(text));
}

/* A word and a number behind it. */
static void print_number(const char *word, unsigned number)
{
    char digits[10];
    char *first = digits + sizeof digits;
    do {
        *--first = '0' + number % 10;
        number /= 10;
    } while (number > 0);
    print_text(word);
    print_piece(first, digits + sizeof digits - first);
}

static void print_refusal(unsigned number, unsigned place)
{
    /* by number; there is no refusal 10, and no plan is refused by 12 to 15 */
    static const char *const word[] = {
        "", "short", "version", "counts", "layout", "field", "apart", "counts-fail",
        "stuck", "no-retiming", "", "room", "", "", "", "", "unbalanced"
    };
    print_number("refused ", number);
    print_text(" ");
    print_text(word[number]);
    print_number(" place ", place);
    print_text("\n");
}

static void print_stations(const struct sheet *sheet, const struct plan *plan)
{
    for (unsigned v = 0; v < sheet->n; v++) {
        print_number("station ", v);
        print_number(" tag ", sheet->station[v].tag);
        print_number(" count ", sheet->station[v].count);
        print_number(" retime ", plan->retiming[v]);
        print_number(" start ", plan->firings[v]);
        print_text("\n");
    }
}

static void print_queues(const struct sheet *sheet, const struct plan *plan)
{
    for (unsigned e = 0; e < sheet->m; e++) {
        print_number("queue ", e);
        print_number(" delay ", plan->delay[e]);
        print_number(" room ", plan->room[e]);
        print_text("\n");
    }
}

static void print_list(const char *word, const uint16_t *list, unsigned length)
{
    print_text(word);
    for (unsigned k = 0; k < length; k++)
        print_number(" ", list[k]);
    print_text("\n");
}

static void print_times(const uint32_t *times, unsigned length)
{
    print_text("times");
    for (unsigned k = 0; k < length; k++)
        print_number(" ", times[k]);
    print_text("\n");
}

static void print_plan(const struct sheet *sheet, const struct plan *plan, const struct lent *lent)
{
    print_number("accepted period ", plan->period);
    print_number(" rounds ", plan->rounds);
    print_number(" back ", plan->back);
    print_text("\n");
    print_stations(sheet, plan);
    print_queues(sheet, plan);
    print_list("start", lent->start, plan->starts);
    print_list("round", lent->round, sheet->total);
    print_times(lent->times, sheet->total);
}

static void answer_sheet(const unsigned char *s, size_t size, const struct lent *lent)
{
    struct sheet sheet;
    struct plan plan;
    unsigned number = make_plan(s, size, lent, &sheet, &plan);
    if (number != 0)
        print_refusal(number, plan.place);
    else
        print_plan(&sheet, &plan, lent);
}

/* How many entries at the end still hold the filler. */
static unsigned kept_firings(const uint16_t *list, uint32_t length)
{
    uint32_t end = length;
    while (end > 0 && list[end - 1] == UINT16_MAX)
        end--;
    return length - end;
}

static unsigned kept_times(const uint32_t *times, uint32_t length)
{
    uint32_t end = length;
    while (end > 0 && times[end - 1] == UINT32_MAX)
        end--;
    return length - end;
}

static void print_kept(const struct lent *lent)
{
    print_number("kept ", kept_firings(lent->start, lent->starts));
    print_number(" ", kept_firings(lent->round, lent->rounds));
    print_number(" ", kept_times(lent->times, lent->tables));
    print_text("\n");
}

/* Takes the three lengths of a question of kind 2; false if they are missing or too large. */
static bool take_lengths(const unsigned char *body, size_t size, struct lent *lent)
{
    if (size < 12)
        return false;
    lent->starts = u32_at(body);
    lent->rounds = u32_at(body + 4);
    lent->tables = u32_at(body + 8);
    return lent->starts <= MOST_STARTS && lent->rounds <= MOST_COPIES &&
           lent->tables <= MOST_COPIES;
}

/* Kind 1 lends whole buffers, filled with 0. Kind 2 lends parts of them, filled with ones, and its
 * sheet follows the lengths. False if the question can't be taken apart. */
static bool answer(unsigned kind, const unsigned char *body, size_t size)
{
    uint16_t start[MOST_STARTS], round[MOST_COPIES];
    uint32_t times[MOST_COPIES];
    struct lent lent = {start, round, times, MOST_STARTS, MOST_COPIES, MOST_COPIES};
    if (kind != 1 && (kind != 2 || !take_lengths(body, size, &lent)))
        return false;
    int filler = kind == 1 ? 0 : 255;
    memset(start, filler, sizeof start);
    memset(round, filler, sizeof round);
    memset(times, filler, sizeof times);
    if (kind == 1) {
        answer_sheet(body, size, &lent);
    } else {
        answer_sheet(body + 12, size - 12, &lent);
        print_kept(&lent);
    }
    return true;
}

/* Reads until the buffer is full or the input ends. How many bytes came. */
static size_t read_full(unsigned char *buffer, size_t size)
{
    size_t done = 0;
    while (done < size) {
        ssize_t got = read(STDIN_FILENO, buffer + done, size - done);
        if (got <= 0)
            break;
        done += got;
    }
    return done;
}

/* Passes over a body that is too long; false if the input ends before. */
static bool skip(uint32_t size, unsigned char *space)
{
    while (size > 0) {
        size_t part = size < MOST_BODY ? size : MOST_BODY;
        if (read_full(space, part) < part)
            return false;
        size -= part;
    }
    return true;
}

/* Reads the body of a question and answers it; false if the input ends inside it. */
static bool answer_body(unsigned kind, uint32_t size, unsigned char *space)
{
    bool whole = size > MOST_BODY || read_full(space, size) == size;
    if (!whole || size > MOST_BODY || !answer(kind, space, size))
        print_text("malformed\n");
    return size > MOST_BODY ? skip(size, space) : whole;
}

/* Reads and answers one question; false at the end of the input. */
static bool answer_next(unsigned index, unsigned char *space)
{
    unsigned char head[5];
    size_t got = read_full(head, sizeof head);
    if (got == 0)
        return false;
    print_number("question ", index);
    print_text("\n");
    if (got < sizeof head) {
        print_text("malformed\n");
        return false;
    }
    return answer_body(head[0], u32_at(head + 1), space);
}

int main(void)
{
    unsigned char space[MOST_BODY];
    for (unsigned index = 0; answer_next(index, space); index++)
        continue;
    flush();
    return 0;
}
