/* Measures each call on bytes beside the yardstick of plain.c, in passes: a pass is a plain sum of the book's 64-bit numbers,
 * measured in the same run. The books are nearly full, regular or random. Events come one after the other, each on a book that is
 * restored before it, outside the measured time; none comes again before all others of its table have had their turn, so that no
 * branch is foreseen because it has just been taken. The least time of all rounds counts, as what else runs on the machine only
 * adds, less what it takes to read the clock. Prints docs/SPEED.md's tables: means over the books, and the dearest of them. */
#define _POSIX_C_SOURCE 199309L
#include "chance.h"
#include "plain.h"
#include <stdbool.h>
#include <stdio.h>
#include <stdlib.h>
#include <string.h>
#include <time.h>

enum { ROUNDS = 50, BOOKS = 24, SUMS = 16, MOST = 4096, PRICES = 50 };

/* The lent memory: as it is, as it was before the event, and as the independent engine leaves it. */
struct memory {
    uint8_t day[DAY_BYTES], book[40 * MOST], list[TRADE_BYTES * MOST], reply[48];
};
static struct memory now, before, after;
static size_t places, live, buys, claims;

/* ---- the books */

/* Both sides apart, both sides over each other, or sells alone. */
enum { APART, CROSSED, SELLS, SHAPES };

/* Regular: sides in turn, 100 shares each, 50 prices in turn. Random: any side, account, shares and price, with the numbers close
 * together or far apart; the first two orders are a buy and a sell. */
static void put_order(size_t p, int shape, int random, uint64_t number) {
    uint64_t side = shape == SELLS ? 1 : random && p > 1 ? chance(2) : p % 2, step = random ? chance(PRICES) : p / 2 % PRICES;
    uint64_t price = shape == CROSSED ? 976 + step : side ? 1001 + step : 999 - step;
    uint64_t account = random ? 1 + chance(200) : 7, shares = random ? 100 + chance(140) : 100;
    const uint64_t order[5] = {side, account, shares, price, number};
    for (size_t i = 0; i < 5; i++) put_number(before.book, 5 * p + i, order[i]);
    buys += !side;
}

/* A limited day with close 1,000. The orders arrive in any order, and are arranged; the screen shows them. */
static void prepare(int shape, int random) {
    static uint64_t numbers[MOST];
    const uint64_t apart = random && chance(2) ? 999000 / live : 1;
    const uint64_t day[4] = {1000, 1, shape == CROSSED ? 33300 : 34200, apart * live}; /* all else is 0 */
    for (size_t p = 0; p < live; p++) {
        size_t other = random ? chance(p + 1) : p;
        numbers[p] = numbers[other];
        numbers[other] = apart * (p + 1);
    }
    buys = 0;
    memset(&before, 0, sizeof before);
    for (size_t i = 0; i < 4; i++) put_number(before.day, i, day[i]);
    for (size_t p = 0; p < live; p++) put_order(p, shape, random, numbers[p]);
    arrange_book(before.book, places);
    mend_screen(before.day, before.book, places);
}

/* ---- the events */

static void ask_open(uint64_t *a) { a[0] = 1000, a[1] = 1; }

static void ask_second(uint64_t *a) { a[0] = 34201; }

static void ask_auction(uint64_t *a) { a[0] = 33900; }

static void ask_nothing(uint64_t *a) { a[0] = 1; } /* the list is asked from the lowest price on */

static void ask_cancel(uint64_t *a) {
    size_t p = chance(live);
    a[0] = number_at(before.book, 5 * p + 1);
    a[1] = number_at(before.book, 5 * p + 4);
}

/* A limit order. */
static void ask_order(uint64_t *a, uint64_t side, uint64_t quantity, uint64_t price) {
    const uint64_t order[ASKED] = {side, 0, 9, quantity, price, 0};
    memcpy(a, order, sizeof order);
}

static void ask_rest(uint64_t *a) {
    uint64_t side = chance(2), step = chance(PRICES);
    ask_order(a, side, 100, side ? 1001 + step : 999 - step);
}

/* An order that waits among the others until the auction, whose figures the screen shows anew. */
static void ask_call(uint64_t *a) {
    uint64_t side = chance(2);
    ask_order(a, side, 100, 976 + chance(PRICES));
}

/* An order against the other side's orders from the best on, as many as there are. */
static void take(uint64_t *a, size_t orders) {
    uint64_t side = buys ? chance(2) : 0, shares = 0;
    size_t first = side ? 0 : buys, end = side ? buys : live;
    for (size_t p = first; p < end && p < first + orders; p++) shares += number_at(before.book, 5 * p + 2);
    ask_order(a, side, shares, side ? 1000 - PRICES : 1000 + PRICES);
}

/* All of the best order, or a part of it. */
static void ask_one(uint64_t *a) {
    take(a, 1);
    a[3] = 100 + chance(a[3] - 99);
}

static void ask_64(uint64_t *a) { take(a, 64); }

static void ask_side(uint64_t *a) { take(a, MOST); }

static void ask_any(uint64_t *a) {
    take(a, 1 + chance(live));
    a[1] = chance(5);
}

static struct lent lend_now(int which) {
    size_t list = which == JUDGE ? 24 * claims : sizeof now.list;
    return (struct lent){now.day, now.book, now.list, now.reply, sizeof now.day, 40 * places, list, sizeof now.reply};
}

static void put_claim(uint64_t shares, size_t trade) {
    put_number(before.list, 3 * claims, shares);
    for (size_t i = 1; i < 3; i++) put_number(before.list, 3 * claims + i, number_at(now.list, 6 * trade + 1 + i));
    claims++;
}

/* The judge is asked about the auction that would be held: its price, and of each trade a share and the others as a claim each, so that
 * a nearly full book has nearly as many claims as places. The list is the judge's from then on, so it comes last. */
static void ask_verdict(uint64_t *a) {
    const uint64_t opening[ASKED] = {33900};
    struct lent m = lend_now(CLOCK);
    now = before;
    calls[CLOCK].proved(&m, opening);
    a[0] = number_at(now.list, 0);
    claims = 0;
    for (size_t t = 0; t < MOST && number_at(now.list, 6 * t); t++) {
        uint64_t shares = number_at(now.list, 6 * t + 1);
        put_claim(1, t);
        if (shares > 1) put_claim(shares - 1, t);
    }
}

static const struct event {
    const char *name;
    int which, shape;
    void (*ask)(uint64_t *asked);
} events[] = {
    {"open", OPEN, APART, ask_open},
    {"clock, nothing passed", CLOCK, APART, ask_second},
    {"clock, opening auction", CLOCK, CROSSED, ask_auction},
    {"cancel", CANCEL, APART, ask_cancel},
    {"cancel in the opening call", CANCEL, CROSSED, ask_cancel},
    {"order that rests", ORDER, APART, ask_rest},
    {"order in the opening call", ORDER, CROSSED, ask_call},
    {"order that trades once", ORDER, APART, ask_one},
    {"order that takes 64, or a whole side", ORDER, APART, ask_64},
    {"order of any kind and size", ORDER, APART, ask_any},
    {"order that takes all, sells alone", ORDER, SELLS, ask_side},
    {"report", REPORT, CROSSED, ask_nothing},
    {"list", LIST, CROSSED, ask_nothing},
    {"judge", JUDGE, CROSSED, ask_verdict},
};

enum { EVENTS = sizeof events / sizeof events[0] };

/* All engines accept the event and leave the same bytes; the plain one does not judge. Returns how many trades it has, or claims. */
static size_t must_agree(const struct event *e, const uint64_t *asked) {
    call *const ways[] = {calls[e->which].independent, calls[e->which].proved, plain[e->which]};
    struct lent m = lend_now(e->which);
    for (int way = 0; way < 3; way++) {
        if (!ways[way]) continue;
        now = before;
        uint64_t refusal = ways[way](&m, asked);
        if (way == 0) after = now;
        bool no = e->which == JUDGE && number_at(now.reply, 1) != 1;
        if (refusal || no || memcmp(&now, &after, sizeof now)) {
            printf("%s: refused, a no, or the engines differ\n", e->name);
            exit(1);
        }
    }
    if (e->which == JUDGE) return claims;
    size_t trades = 0;
    while (e->which != LIST && trades < MOST && number_at(after.list, 6 * trades)) trades++;
    return trades;
}

/* ---- time */

static double clock_takes;

static double nanoseconds(void) {
    struct timespec t;
    clock_gettime(CLOCK_MONOTONIC, &t);
    return 1e9 * (double)t.tv_sec + (double)t.tv_nsec;
}

static void keep_least(double *least, double time) {
    if (*least == 0 || time < *least) *least = time;
}

static void time_clock(void) {
    for (int i = 0; i < 1000; i++) {
        double start = nanoseconds();
        keep_least(&clock_takes, nanoseconds() - start);
    }
}

static void time_call(int which, call *made, const uint64_t *asked, double *least) {
    struct lent m = lend_now(which);
    if (!made) return;
    memcpy(now.day, before.day, sizeof now.day);
    memcpy(now.book, before.book, m.book_length);
    if (which == JUDGE) memcpy(now.list, before.list, m.list_length);
    double start = nanoseconds();
    made(&m, asked);
    keep_least(least, nanoseconds() - start - clock_takes);
}

/* One pass: not inlined, so that no pass is left out as known already. */
__attribute__((noinline)) static uint64_t sum_of(const uint64_t *numbers, size_t count) {
    uint64_t sum = 0;
    for (size_t i = 0; i < count; i++) sum += numbers[i];
    return sum;
}

static volatile uint64_t sums;

static void time_pass(double *least) {
    static uint64_t numbers[5 * MOST];
    memcpy(numbers, before.book, 40 * places);
    double start = nanoseconds();
    for (int i = 0; i < SUMS; i++) sums += sum_of(numbers, 5 * places);
    keep_least(least, (nanoseconds() - start - clock_takes) / SUMS);
}

/* ---- the tables */

/* The least times and the trades, by event, by whether the book is random, and by book. */
struct times {
    double proved[EVENTS][2][BOOKS], plain[EVENTS][2][BOOKS], trades[EVENTS][2][BOOKS], pass;
};

static void measure(struct times *t, int round, int shape, int random, int book) {
    begin_chance((uint64_t)(book + 1) << 32); /* every run measures the same books and events */
    prepare(shape, random);
    for (int e = 0; e < EVENTS; e++) {
        uint64_t asked[ASKED] = {0};
        int which = events[e].which;
        if (events[e].shape != shape) continue;
        events[e].ask(asked);
        if (round == 0) t->trades[e][random][book] = (double)must_agree(&events[e], asked);
        for (int turn = round; turn < round + 2; turn++) { /* each way is the first in every other round */
            if (turn % 2)
                time_call(which, calls[which].proved, asked, &t->proved[e][random][book]);
            else
                time_call(which, plain[which], asked, &t->plain[e][random][book]);
        }
    }
    time_pass(&t->pass);
}

static double mean(const double *books) {
    double sum = 0;
    for (int book = 0; book < BOOKS; book++) sum += books[book];
    return sum / BOOKS;
}

static double most(const double *books) {
    double largest = 0;
    for (int book = 0; book < BOOKS; book++) largest = books[book] > largest ? books[book] : largest;
    return largest;
}

static void print_row(const struct times *t, int e) {
    printf("| %s |", events[e].name);
    for (int random = 0; random < 2; random++) {
        const double *proved = t->proved[e][random];
        printf(" %.0f |", mean(t->trades[e][random]));
        if (plain[events[e].which])
            printf(" %.1f |", mean(t->plain[e][random]) / t->pass);
        else
            printf(" |");
        printf(" %.1f | %.1f |", mean(proved) / t->pass, most(proved) / t->pass);
    }
    printf("\n");
}

static void print_table(size_t of_places, size_t orders) {
    static struct times t;
    memset(&t, 0, sizeof t);
    places = of_places, live = orders;
    for (int round = 0; round < ROUNDS; round++)
        for (int book = 0; book < BOOKS; book++)
            for (int each = 0; each < 2 * SHAPES; each++) measure(&t, round, each / 2, each % 2, book);
    printf("%zu places, %zu live orders; a pass takes %.3f microseconds. In passes:\n\n", places, live, t.pass / 1000);
    printf("| event | regular: trades | plain | proved | dearest | random: trades | plain | proved | dearest |\n");
    printf("|---|---|---|---|---|---|---|---|---|\n");
    for (int e = 0; e < EVENTS; e++) print_row(&t, e);
    printf("\n");
}

int main(void) {
    time_clock();
    print_table(16, 12);
    print_table(1024, 1016);
    print_table(MOST, MOST - 8);
    return 0;
}
