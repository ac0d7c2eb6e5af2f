/* The comparison: see compare.h. */
#define _DEFAULT_SOURCE /* for mmap */
#include "compare.h"
#include "../include/flemorix.h"
#include <stdbool.h>
#include <stdio.h>
#include <stdlib.h>
#include <string.h>
#include <sys/mman.h>

/* ---- the calls */

static uint64_t proved_open(struct lent *m, const uint64_t *a) {
    return flemorix_open(m->day, m->day_length, m->book, m->book_length, m->reply, m->reply_length, a[0], a[1]);
}

static uint64_t proved_order(struct lent *m, const uint64_t *a) {
    return flemorix_order(m->day, m->day_length, m->book, m->book_length, m->list, m->list_length, m->reply, m->reply_length,
                          a[0], a[1], a[2], a[3], a[4], a[5]);
}

static uint64_t proved_cancel(struct lent *m, const uint64_t *a) {
    return flemorix_cancel(m->day, m->day_length, m->book, m->book_length, m->reply, m->reply_length, a[0], a[1]);
}

static uint64_t proved_clock(struct lent *m, const uint64_t *a) {
    return flemorix_clock(m->day, m->day_length, m->book, m->book_length, m->list, m->list_length, m->reply, m->reply_length,
                          a[0]);
}

static uint64_t proved_report(struct lent *m, const uint64_t *a) {
    (void)a;
    return flemorix_report(m->day, m->day_length, m->book, m->book_length, m->reply, m->reply_length);
}

static uint64_t proved_list(struct lent *m, const uint64_t *a) {
    return flemorix_list(m->day, m->day_length, m->book, m->book_length, m->list, m->list_length, m->reply, m->reply_length,
                         a[0]);
}

static uint64_t proved_judge(struct lent *m, const uint64_t *a) {
    return flemorix_judge(m->day, m->day_length, m->book, m->book_length, m->list, m->list_length, m->reply, m->reply_length,
                          a[0]);
}

static uint64_t proved_read_file(struct lent *m, const uint64_t *a) {
    (void)a;
    return flemorix_read_file(m->book, m->book_length, m->list, m->list_length, m->reply, m->reply_length);
}

const struct engines calls[ALL_CALLS] = {
    [OPEN] = {"open", proved_open, engine_open},         [ORDER] = {"order", proved_order, engine_order},
    [CANCEL] = {"cancel", proved_cancel, engine_cancel}, [CLOCK] = {"clock", proved_clock, engine_clock},
    [REPORT] = {"report", proved_report, engine_report}, [LIST] = {"list", proved_list, engine_list},
    [JUDGE] = {"judge", proved_judge, engine_judge},     [READ_FILE] = {"read_file", proved_read_file, engine_read_file},
};

/* ---- memory: each slice stands between guards */

enum { DAY, BOOK, TRADES_OR_PRICES, REPLY, SLICES };
enum { GUARD = 64 };

struct memory {
    uint8_t bytes[SLICES][GUARD + LONGEST + GUARD];
};

static struct memory expected, proved, kept;
static bool exactly;
struct lent lent;

static struct lent lent_from(struct memory *m, size_t day, size_t book, size_t list, size_t reply) {
    uint8_t *slices[SLICES];
    for (int s = 0; s < SLICES; s++) slices[s] = m->bytes[s] + GUARD;
    return (struct lent){slices[DAY], slices[BOOK], slices[TRADES_OR_PRICES], slices[REPLY], day, book, list, reply};
}

void lend(size_t day, size_t book, size_t list, size_t reply) { lent = lent_from(&expected, day, book, list, reply); }

void lend_exactly(void) { exactly = true; }

static size_t length_of(const struct lent *m, int slice) {
    const size_t lengths[SLICES] = {m->day_length, m->book_length, m->list_length, m->reply_length};
    return lengths[slice];
}

static void copy_lent(struct memory *to, const struct memory *from, const struct lent *m) {
    for (int s = 0; s < SLICES; s++) memcpy(to->bytes[s], from->bytes[s], GUARD + length_of(m, s) + GUARD);
}

void fill_memory(uint64_t (*next)(void)) {
    for (int s = 0; s < SLICES; s++)
        for (size_t i = 0; i < sizeof expected.bytes[s] / 8; i++) put_number(expected.bytes[s], i, next());
}

void clear_memory(uint8_t with) { memset(&expected, with, sizeof expected); }

static struct lent kept_lent;

void keep_memory(void) {
    kept_lent = lent;
    copy_lent(&kept, &expected, &kept_lent);
}

void restore_memory(void) {
    lent = kept_lent;
    copy_lent(&expected, &kept, &kept_lent);
}

int is_as_kept(void) {
    for (int s = 0; s < REPLY; s++)
        if (memcmp(expected.bytes[s], kept.bytes[s], GUARD + length_of(&kept_lent, s) + GUARD)) return 0;
    return 1;
}

static void exchange(size_t i, size_t j) {
    uint64_t number = number_at(lent.book, i);
    put_number(lent.book, i, number_at(lent.book, j));
    put_number(lent.book, j, number);
}

void exchange_numbers(size_t p, size_t q) { exchange(5 * p + 4, 5 * q + 4); }

static void exchange_neighbours(size_t p) {
    for (size_t i = 0; i < 5; i++) exchange(5 * p + i, 5 * (p + 1) + i);
}

void move_place(size_t from, size_t to) {
    while (from < to) exchange_neighbours(from++);
    while (from > to) exchange_neighbours(--from);
}

static uint8_t *to_heap(const uint8_t *bytes, size_t length) {
    uint8_t *block = malloc(length);
    if (length) memcpy(block, bytes, length);
    return block;
}

static void from_heap(uint8_t *bytes, uint8_t *block, size_t length) {
    if (length) memcpy(bytes, block, length);
    free(block);
}

static uint64_t call_exactly(call *made, const struct lent *m, const uint64_t *asked) {
    struct lent blocks = *m;
    blocks.day = to_heap(m->day, m->day_length);
    blocks.book = to_heap(m->book, m->book_length);
    blocks.list = to_heap(m->list, m->list_length);
    blocks.reply = to_heap(m->reply, m->reply_length);
    uint64_t number = made(&blocks, asked);
    from_heap(m->day, blocks.day, m->day_length);
    from_heap(m->book, blocks.book, m->book_length);
    from_heap(m->list, blocks.list, m->list_length);
    from_heap(m->reply, blocks.reply, m->reply_length);
    return number;
}

/* ---- rooms between walls: pages that may not be touched */

enum { WALL = 65536, ROOM = (LONGEST / WALL + 1) * WALL }; /* no machine has larger pages than a wall */

static uint8_t *rooms[SLICES];

void lend_between_walls(void) {
    for (int s = 0; s < SLICES; s++) {
        uint8_t *walls = mmap(NULL, WALL + ROOM + WALL, PROT_NONE, MAP_PRIVATE | MAP_ANONYMOUS, -1, 0);
        if (walls == MAP_FAILED || mprotect(walls + WALL, ROOM, PROT_READ | PROT_WRITE)) abort();
        rooms[s] = walls + WALL;
    }
}

/* Each slice stands at its room's end or, in about every other call, at its start. */
static uint64_t call_between_walls(call *made, const struct lent *m, const uint64_t *asked) {
    static uint64_t turn;
    bool at_start = ++turn * 0x9e3779b97f4a7c15ull >> 63;
    uint8_t *slices[SLICES] = {m->day, m->book, m->list, m->reply}, *at[SLICES];
    for (int s = 0; s < SLICES; s++) {
        at[s] = at_start ? rooms[s] : rooms[s] + ROOM - length_of(m, s);
        memcpy(at[s], slices[s], length_of(m, s));
    }
    struct lent walled = {at[DAY],       at[BOOK],       at[TRADES_OR_PRICES], at[REPLY],
                          m->day_length, m->book_length, m->list_length,       m->reply_length};
    uint64_t number = made(&walled, asked);
    for (int s = 0; s < SLICES; s++) memcpy(slices[s], at[s], length_of(m, s));
    return number;
}

/* ---- a byte of what is expected, flipped */

enum {
    NO_PART,
    NUMBER_PART,
    DAY_PART,
    SCREEN_PART,
    BOOK_PART,
    TRADES_PART,
    PRICES_PART,
    FILE_PART,
    RECORDS_PART,
    REPLY_PART,
    GUARD_PART,
    PRINTED_PART,
    PARTS
};

static int damaged_part;
static uint64_t damaged_nth, times_seen;

int damage_expected(const char *part, uint64_t nth) {
    static const char *const parts[PARTS] = {"",       "number", "day",     "screen", "book",  "trades",
                                             "prices", "file",   "records", "reply",  "guard", "printed"};
    for (int p = NO_PART + 1; p < PARTS; p++)
        if (!strcmp(part, parts[p])) damaged_part = p;
    damaged_nth = nth;
    return damaged_part;
}

static bool is_damaged_now(void) { return ++times_seen == damaged_nth; }

/* A byte of the slice: among its first for an odd nth, where records were written, and anywhere for an even one. */
static uint8_t *byte_of_slice(int slice) {
    size_t length = length_of(&lent, slice), span = damaged_nth % 2 && length > TRADE_BYTES ? TRADE_BYTES : length;
    if (!length || !is_damaged_now()) return NULL;
    return expected.bytes[slice] + GUARD + damaged_nth * 0x9e3779b97f4a7c15ull % span;
}

/* Where the screen stands in a day, and the bytes of the day without it, of which the last come behind the screen. */
enum { SCREEN_FROM = offsetof(struct flemorix_day, screen), SCREEN_BYTES = sizeof(struct flemorix_screen) };
enum { OTHER_BYTES = DAY_BYTES - SCREEN_BYTES };

static int has_screen(void) { return lent.day_length == DAY_BYTES; }

static uint8_t *byte_of_day(void) {
    uint8_t *day = expected.bytes[DAY] + GUARD;
    if (!has_screen() || !is_damaged_now()) return NULL;
    size_t at = damaged_nth * 0x9e3779b97f4a7c15ull % OTHER_BYTES;
    return day + (at < SCREEN_FROM ? at : at + SCREEN_BYTES);
}

static uint8_t *byte_of_screen(void) {
    uint8_t *screen = expected.bytes[DAY] + GUARD + SCREEN_FROM;
    return has_screen() && is_damaged_now() ? screen + damaged_nth * 0x9e3779b97f4a7c15ull % SCREEN_BYTES : NULL;
}

static uint8_t *byte_of_guard(void) {
    if (!is_damaged_now()) return NULL;
    size_t slice = damaged_nth / 2 % SLICES, at = damaged_nth * 7 % GUARD;
    return expected.bytes[slice] + (damaged_nth % 2 ? at : GUARD + length_of(&lent, (int)slice) + at);
}

/* The byte to flip in this call's expected result, NULL where it is not this call's turn. */
static uint8_t *damaged_byte(int which, uint64_t *number) {
    bool trades = which == ORDER || which == CLOCK;
    switch (damaged_part) {
    case NUMBER_PART: return is_damaged_now() ? (uint8_t *)number + damaged_nth % 8 : NULL;
    case DAY_PART: return byte_of_day();
    case SCREEN_PART: return byte_of_screen();
    case BOOK_PART: return which != READ_FILE ? byte_of_slice(BOOK) : NULL;
    case TRADES_PART: return trades ? byte_of_slice(TRADES_OR_PRICES) : NULL;
    case PRICES_PART: return which == LIST ? byte_of_slice(TRADES_OR_PRICES) : NULL;
    case FILE_PART: return which == READ_FILE ? byte_of_slice(BOOK) : NULL;
    case RECORDS_PART: return which == READ_FILE ? byte_of_slice(TRADES_OR_PRICES) : NULL;
    case REPLY_PART: return byte_of_slice(REPLY);
    case GUARD_PART: return byte_of_guard();
    default: return NULL;
    }
}

/* ---- the comparison */

uint64_t passed, failed;
enum { NUMBERS = 32 }; /* no refusal number is so large */
static uint64_t told[ALL_CALLS][NUMBERS];

static bool guard_differs(int slice) {
    size_t behind = GUARD + length_of(&lent, slice);
    return memcmp(proved.bytes[slice], expected.bytes[slice], GUARD) ||
           memcmp(proved.bytes[slice] + behind, expected.bytes[slice] + behind, GUARD);
}

static bool slice_differs(int slice) {
    return memcmp(proved.bytes[slice] + GUARD, expected.bytes[slice] + GUARD, length_of(&lent, slice)) != 0;
}

/* Nothing of the day but its screen differs. */
static bool screen_alone_differs(void) {
    const uint8_t *p = proved.bytes[DAY] + GUARD, *e = expected.bytes[DAY] + GUARD;
    size_t behind = SCREEN_FROM + SCREEN_BYTES;
    return has_screen() && !memcmp(p, e, SCREEN_FROM) && !memcmp(p + behind, e + behind, DAY_BYTES - behind);
}

/* The first thing that differs, NULL where nothing does. */
static const char *difference(int which, uint64_t got, uint64_t want) {
    if (got != want) return "the number differs";
    if (slice_differs(DAY)) return screen_alone_differs() ? "the screen differs" : "the day differs";
    if (slice_differs(BOOK)) return which == READ_FILE ? "the file differs" : "the book differs";
    if (slice_differs(TRADES_OR_PRICES))
        return which == LIST ? "the prices differ" : which == READ_FILE ? "the records differ" : "the trades differ";
    if (slice_differs(REPLY)) return "the reply differs";
    for (int s = 0; s < SLICES; s++)
        if (guard_differs(s)) return "a guard differs";
    return NULL;
}

static void count(const char *differs, uint64_t seed, const char *name) {
    if (!differs) {
        passed++;
    } else if (++failed <= 20) {
        printf("seed %llu: %s: %s\n", (unsigned long long)seed, name, differs);
    }
}

uint64_t compare(uint64_t seed, int which, const uint64_t *asked) {
    copy_lent(&proved, &expected, &lent);
    struct lent copy = lent_from(&proved, lent.day_length, lent.book_length, lent.list_length, lent.reply_length);
    uint64_t want = calls[which].independent(&lent, asked);
    uint64_t got = exactly    ? call_exactly(calls[which].proved, &copy, asked)
                   : rooms[0] ? call_between_walls(calls[which].proved, &copy, asked)
                              : calls[which].proved(&copy, asked);
    told[which][want]++;
    uint8_t *flipped = damaged_byte(which, &want);
    if (flipped) *flipped ^= 1;
    count(difference(which, got, want), seed, calls[which].name);
    if (flipped) *flipped ^= 1;
    return want;
}

void expect(const char *what, uint64_t got, uint64_t want) {
    if (damaged_part == PRINTED_PART && is_damaged_now()) want ^= 1;
    if (got == want) {
        passed++;
    } else if (++failed <= 20) {
        printf("printed: %s: %llu, not %llu\n", what, (unsigned long long)got, (unsigned long long)want);
    }
}

void print_told(void) {
    for (int which = 0; which < ALL_CALLS; which++) {
        printf("%s:", calls[which].name);
        for (int r = 0; r < NUMBERS; r++)
            if (told[which][r]) printf(" %llu times %d", (unsigned long long)told[which][r], r);
        printf("\n");
    }
}
