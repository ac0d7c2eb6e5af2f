/* Random days: each seed opens a day and makes calls on it, some of them with day, book or lengths damaged for one call, or with
 * the book out of order. */
#include "asking.h"
#include "chance.h"
#include "runs.h"
#include "views.h"
#include <stdio.h>

/* ---- chance */

/* A number that is likely to sit on an edge. */
static uint64_t edge(void) {
    static const uint64_t edges[] = {0,     1,     2,     4,     99,    100,   33299,  33300,  33899,   33900,   34800,
                                     41399, 41400, 46800, 47400, 53819, 53820, 53999,  54000,  65535,   65536,   86399,
                                     86400, 999998, 999999, 1000000, 1000001, UINT32_MAX, UINT64_MAX - 1, UINT64_MAX, 1ull << 63};
    return once_in(4) ? chance(2000000) : edges[chance(sizeof edges / sizeof edges[0])];
}

/* One of so many numbers becomes an edge. C leaves open which side of an assignment comes first, and with it whose chance is whose: a
 * seed gives the same day everywhere because no statement here leaves that open. */
static void put_edge(uint64_t *numbers, size_t count) {
    size_t i = chance(count);
    numbers[i] = edge();
}

/* ---- calls on a random day */

struct plan {
    uint64_t seed, close, spread; /* prices are at most the spread away from the close */
    size_t places;
};

static uint64_t random_price(const struct plan *plan) { return plan->close - plan->spread + chance(2 * plan->spread + 1); }

/* Few trades, 64, as many as the book has places or a byte less, or as many as there can be. */
static void random_lengths(void) {
    struct lent *m = &lent;
    size_t list = 64 * TRADE_BYTES + chance(60), all = m->book_length / 40 * TRADE_BYTES;
    if (once_in(3))
        list = chance(600);
    else if (once_in(6) && all && all < LONGEST)
        list = all - chance(2);
    else if (once_in(20))
        list = LONGEST - chance(50);
    lend(m->day_length, m->book_length, list, once_in(2) ? 48 : chance(70));
}

/* Nothing, the quantity, one beside it, or any number. */
static uint64_t any_balance(uint64_t quantity) {
    const uint64_t balances[] = {0, quantity, quantity - 1, quantity + 1, chance(200), any_number()};
    return balances[chance(sizeof balances / sizeof balances[0])];
}

/* A few orders are large enough to take a whole side. Some sells are of a whole balance below 100 shares; of the others, and of few
 * buys, the balance is any. */
static void random_order(const struct plan *plan, uint64_t *a) {
    a[0] = chance(2);
    a[1] = once_in(2) ? 0 : chance(5);
    a[2] = 1 + chance(3);
    a[3] = 100 * (1 + chance(once_in(4) ? 40 : 5));
    a[3] += once_in(5) ? chance(100) : 0;
    a[4] = random_price(plan);
    if (once_in(15)) a[3] = 100 * (1 + chance(10000));
    if (once_in(a[0] ? 6 : 40)) a[3] = once_in(3) ? 1 : once_in(2) ? 99 : chance(102);
    if (a[0] && a[3] < 100)
        a[5] = once_in(4) ? any_balance(a[3]) : a[3];
    else
        a[5] = a[0] || once_in(20) ? any_balance(a[3]) : 0;
    if (once_in(12)) put_edge(a, ASKED);
}

static void random_cancel(uint64_t *a) {
    const struct lent *m = &lent;
    size_t n = m->book_length / 40;
    a[0] = 1 + chance(3);
    a[1] = 1 + chance(60);
    if (n && !once_in(3)) {
        size_t p = chance(n);
        a[0] = number_at(m->book, 5 * p + 1);
        a[1] = number_at(m->book, 5 * p + 4);
    }
    if (once_in(10)) put_edge(a, 2);
}

/* A day on which nothing can be entered is moved on, or opened anew. */
static int is_idle(void) {
    uint64_t now = number_at(lent.day, TIME);
    return now < 33300 || (now >= 33900 && now < 34200) || (now >= 41400 && now < 46800) || now >= 54000;
}

static uint64_t random_time(void) {
    static const uint64_t rows[] = {33300, 33600, 33900, 34200, 41400, 46800, 53820, 54000};
    int is_day = lent.day_length == DAY_BYTES;
    uint64_t now = is_day ? number_at(lent.day, TIME) : 0, halt_end = is_day ? number_at(lent.day, HALT_END) : 0;
    if (once_in(12)) return edge();
    if (halt_end && once_in(2)) return halt_end - once_in(4);
    if (once_in(3) && !is_idle()) return now + chance(100);
    for (size_t i = 0; i < sizeof rows / sizeof rows[0]; i++)
        if (rows[i] > now) {
            uint64_t time = rows[i] - once_in(8);
            return time + (once_in(20) ? chance(30000) : 0);
        }
    return now;
}

/* Day and book are damaged: one number is set to an edge, or one byte is changed, or a length; or a place is moved, or two exchange
 * their numbers, which a book may bear. */
static void damage(void) {
    struct lent *m = &lent;
    size_t n = m->book_length / 40;
    if (once_in(6)) {
        size_t day = once_in(2) ? DAY_BYTES : chance(400), book = once_in(3) ? LONGEST - chance(100) : chance(m->book_length + 81);
        lend(day, book, m->list_length, m->reply_length);
    } else if (once_in(6)) {
        put_number(m->day, ISSUED, 999999);
    } else if (once_in(6) && n) {
        size_t p = chance(n), q = chance(n);
        (once_in(2) ? move_place : exchange_numbers)(p, q);
    } else if (once_in(2) || !n) {
        size_t at = once_in(2) ? chance(SCREEN) : chance(DAY_NUMBERS);
        put_number(m->day, at, edge());
    } else if (once_in(2)) {
        size_t at = chance(5 * n);
        put_number(m->book, at, once_in(2) ? edge() : number_at(m->book, chance(5 * n)));
    } else {
        size_t at = chance(40 * n);
        m->book[at] ^= (uint8_t)(1u << chance(8));
    }
}

static int pick_call(void) {
    static const int likely[] = {ORDER,  ORDER,  ORDER,  ORDER,  ORDER, ORDER, CANCEL,
                                 CANCEL, CANCEL, REPORT, REPORT, LIST,  LIST,  CLOCK};
    if (once_in(150)) return OPEN;
    if (is_idle() && once_in(3)) return number_at(lent.day, TIME) < 54000 ? CLOCK : OPEN;
    return likely[chance(sizeof likely / sizeof likely[0])];
}

static uint64_t one_call(const struct plan *plan, int which) {
    uint64_t a[ASKED] = {0};
    random_lengths();
    if (which == OPEN) {
        a[0] = once_in(6) ? edge() : plan->close;
        a[1] = once_in(6) ? edge() : chance(2);
    } else if (which == ORDER) {
        random_order(plan, a);
    } else if (which == CANCEL) {
        random_cancel(a);
    } else if (which == CLOCK) {
        a[0] = random_time();
    } else if (which == LIST) {
        a[0] = once_in(3) ? edge() : random_price(plan);
    }
    before_view();
    uint64_t refusal = compare(plan->seed, which, a);
    after_view(which, refusal);
    return refusal;
}

/* For one call. Every other time the screen is counted anew, and the damage alone decides. */
static void damaged_call(const struct plan *plan) {
    keep_memory();
    damage();
    if (once_in(2)) mend_day();
    one_call(plan, pick_call());
    restore_memory();
}

/* ---- books out of order */

/* Two neighbours of a side get the price of the first, and the higher number stands first. */
static int younger_first(size_t p, size_t live) {
    const uint8_t *book = lent.book;
    if (p + 1 >= live || number_at(book, 5 * p) != number_at(book, 5 * p + 5)) return 0;
    put_number(lent.book, 5 * p + 8, number_at(book, 5 * p + 3));
    if (number_at(book, 5 * p + 4) < number_at(book, 5 * p + 9)) exchange_numbers(p, p + 1);
    return 1;
}

/* Puts a sound book out of order: an order behind its neighbour, a sell among the buys, a free place in front of an order, an order
 * behind free places, or the younger of two at a price first. Returns 0 where the book has not the orders for it. */
static int disorder(void) {
    size_t n = lent.book_length / 40, live = 0, buys = 0;
    for (; live < n && number_at(lent.book, 5 * live + 4); live++) buys += !number_at(lent.book, 5 * live);
    if (!live) return 0;
    size_t spare = n - live, p = chance(live), from = p, to = p;
    switch (chance(5)) {
    case 0: to = p + 1 < live ? p + 1 : p; break;
    case 1: to = buys && p >= buys ? chance(buys) : p; break;
    case 2: from = spare ? live : p; break;
    case 3: to = spare ? live + chance(spare) : p; break;
    default: return younger_first(p, live);
    }
    move_place(from, to);
    return from != to;
}

/* Then each call but an opening is 15, also where the screen is that of the places as they stand. */
static void disordered_calls(const struct plan *plan) {
    keep_memory();
    if (disorder()) {
        if (once_in(2)) mend_day();
        for (int which = ORDER; which < CALLS; which++) expect("a book out of order", one_call(plan, which), 15);
    }
    restore_memory();
}

/* ---- a day */

/* A book that is nearly full from the start, at a time that takes orders; its sides meet only where they may. Its numbers are the
 * first, those around 65,536, or the last. */
static void fill_book(const struct plan *plan) {
    static const uint64_t times[] = {33300, 33600, 34200, 46800, 53820};
    const struct lent *m = &lent;
    uint64_t time = times[chance(5)], n = m->book_length / 40;
    const uint64_t before[] = {0, 65536 - chance(n + 2), 999999 - n};
    uint64_t first = before[chance(3)];
    int apart = time == 34200 || time == 46800;
    put_number(m->day, TIME, time);
    put_number(m->day, ISSUED, first + n);
    for (uint64_t p = 0; p < n; p++) {
        uint64_t side = chance(2), price = random_price(plan);
        if (once_in(8) || (apart && (price == plan->close || (price > plan->close) != (side == 1)))) continue;
        uint64_t account = 1 + chance(3), left = 1 + chance(5000);
        const uint64_t order[5] = {side, account, left, price, first + n - p};
        for (size_t i = 0; i < 5; i++) put_number(m->book, 5 * p + i, order[i]);
    }
    arrange_book(m->book, n);
    mend_day();
}

static struct plan plan_day(uint64_t seed) {
    static const uint64_t closes[] = {1, 5, 100, 1000, 1001, 25000, 999999};
    static const uint64_t sizes[] = {1, 2, 3, 8, 8, 30, 30, 100, 1024, 1025, 4096};
    struct plan plan = {seed, closes[chance(sizeof closes / sizeof closes[0])], 0, 0};
    plan.spread = 1 + chance(once_in(2) ? 8 : 60);
    if (plan.spread >= plan.close) plan.spread = plan.close - 1;
    plan.places = sizes[chance(sizeof sizes / sizeof sizes[0])];
    return plan;
}

void run_seed(uint64_t seed) {
    begin_chance(seed);
    struct plan plan = plan_day(seed);
    uint64_t opening[] = {plan.close, !once_in(4)}, before = failed, count = plan.places > 100 ? 60 : 250;
    fill_memory(any_number);
    lend(DAY_BYTES, 40 * plan.places + (once_in(2) ? chance(40) : 0), TRADE_BYTES, 48);
    compare(seed, OPEN, opening);
    if (once_in(3)) fill_book(&plan);
    for (uint64_t i = 0; i < count; i++) {
        one_call(&plan, pick_call());
        if (once_in(4)) damaged_call(&plan);
        if (once_in(16)) disordered_calls(&plan);
        if (once_in(8)) change_one_number(seed);
        if (once_in(8)) judge_lists(seed, chance);
    }
    printf("seed %llu: %zu places, close %llu: %s\n", (unsigned long long)seed, plan.places, (unsigned long long)plan.close,
           failed == before ? "same" : "DIFFERENT");
}
