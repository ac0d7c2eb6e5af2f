/* Random days that halt: without limits, with orders far from the open on both sides, calls at the seconds on which a halt's end
 * turns, and days damaged in what they say of halts. */
#include "asking.h"
#include "chance.h"
#include "runs.h"
#include "sights.h"
#include "views.h"
#include <stdio.h>

/* ---- prices */

static uint64_t seed_now, open_price, centre; /* orders of a halt stand around a centre, which changes */

static uint64_t as_price(uint64_t p) { return p < 1 ? 1 : p > 999999 ? 999999 : p; }

/* There, or a fen below or above. */
static uint64_t beside(uint64_t price) { return as_price(once_in(2) ? price : price + chance(3) - (price > 1)); }

/* At one of the thresholds, anywhere between them, or near the open. */
static uint64_t far_price(void) {
    static const uint64_t per_cent[] = {40, 70, 70, 130, 130, 160};
    uint64_t which = chance(9);
    if (which < 6) return beside(open_price * per_cent[which] / 100);
    if (which < 8) return as_price(open_price / 4 + chance(2 * open_price));
    return beside(open_price);
}

/* ---- calls */

static uint64_t call_now(int which, const uint64_t *asked) {
    before_call();
    before_view();
    uint64_t refusal = compare(seed_now, which, asked);
    after_call(which, asked, refusal);
    after_view(which, refusal);
    return refusal;
}

/* The last price of the order range beyond the other side's best: 5% or 10 fen, whichever is more. */
static uint64_t end_of_range(uint64_t side, uint64_t other) {
    uint64_t far = other / 20 > 10 ? other / 20 : 10;
    return side == 0 ? other + far : other > far ? other - far : 1;
}

/* In a halt around the centre or far away; else as far into the other side as the range lets it, or waiting. */
static uint64_t any_price(uint64_t side) {
    uint64_t other = best_now(1 - side);
    if (day_now().halt_end) return once_in(4) ? far_price() : beside(centre);
    if (!other) return once_in(2) ? far_price() : beside(open_price);
    return once_in(2) ? end_of_range(side, other) : once_in(3) ? other : far_price();
}

static void enter_any(void) {
    uint64_t side = chance(2), price = any_price(side), kind = once_in(12) ? chance(5) : 0, account = 1 + chance(3);
    uint64_t quantity = 100 * (1 + chance(once_in(3) ? 12 : 3));
    const uint64_t asked[ASKED] = {side, kind, account, quantity, as_price(price)};
    call_now(ORDER, asked);
}

static void cancel_any(void) {
    size_t place = chance(lent.book_length / 40);
    const uint64_t asked[ASKED] = {number_at(lent.book, 5 * place + 1), number_at(lent.book, 5 * place + 4)};
    call_now(CANCEL, asked);
}

/* A second on which a halt's end turns, or beside which it does, or any. */
static uint64_t turning_second(void) {
    static const uint64_t seconds[] = {34200, 40198, 40199, 40200, 40799, 40799, 40800, 40800, 41399, 46800,
                                       52619, 52620, 53219, 53219, 53220, 53220, 53819};
    return once_in(5) ? 34200 + chance(19620) : seconds[chance(sizeof seconds / sizeof seconds[0])];
}

/* In a halt mostly to its end, before it or past it; else on by some seconds or to a second that matters. */
static void move_any(void) {
    const struct flemorix_day day = day_now();
    uint64_t to = once_in(2) ? day.time + chance(300) : turning_second();
    if (day.halt_end) {
        const uint64_t times[] = {day.halt_end - 1, day.halt_end, day.halt_end, day.halt_end + 1, day.halt_end + 600,
                                  day.halt_end + 601, 41400 + chance(5400), 53820, 54000, 86399};
        to = times[chance(sizeof times / sizeof times[0])];
    }
    const uint64_t asked[ASKED] = {to < day.time ? day.time + chance(60) : to};
    size_t room = lent.list_length;
    if (once_in(6)) lend(lent.day_length, lent.book_length, chance(3 * TRADE_BYTES), lent.reply_length);
    call_now(CLOCK, asked);
    lend(lent.day_length, lent.book_length, room, lent.reply_length);
}

static void ask_any(void) {
    const uint64_t asked[ASKED] = {far_price()};
    call_now(once_in(2) ? REPORT : LIST, asked);
}

/* ---- damaged days */

static int end_has_come(void) { return set_day(TIME, day_now().halt_end + (once_in(2) ? 0 : chance(9))), 1; }

/* One to come, at noon, past 14:57, before all others, or any number. */
static int end_of_no_second(void) {
    uint64_t any = any_number(), some = any % 600, time = day_now().time;
    const uint64_t ends[] = {time + 601 + some, 41400 + 9 * some, 53821 + some, 34799, any};
    uint64_t end = ends[chance(5)];
    return set_day(HALT_END, end), end != 46800 && end != 53820;
}

static int halt_with_none_used(void) { return set_day(USED_30, 0), set_day(USED_60, once_in(2)), 1; }

static int mark_on_limited_day(void) { return set_day(LIMITED, 1), 1; }

static int mark_with_nothing_traded(void) {
    for (size_t n = SHARES; n <= LAST; n++) set_day(n, 0);
    return 1;
}

static int mark_above_1(void) {
    size_t mark = once_in(2) ? USED_30 : USED_60;
    return set_day(mark, once_in(2) ? 2 : 2 + chance(1000)), 1;
}

static int only_60_used(void) { return set_day(USED_30, 0), set_day(USED_60, 1), 1; }

static int crossing_without_halt(void) { return set_day(HALT_END, 0), crosses_now(); }

static struct {
    const char *name;
    int wants_halt;      /* else a threshold that has been used */
    int (*damage)(void); /* says whether the day is damaged now */
    uint64_t least, count;
} damages[] = {
    {"an end that has come", 1, end_has_come, 50, 0},
    {"an end to which no second so far leads", 1, end_of_no_second, 50, 0},
    {"an end with 30% not used", 1, halt_with_none_used, 50, 0},
    {"prices that cross without a halt", 1, crossing_without_halt, 50, 0},
    {"60% used without 30%", 0, only_60_used, 50, 0},
    {"a mark on a limited day", 0, mark_on_limited_day, 50, 0},
    {"a mark with nothing traded", 0, mark_with_nothing_traded, 50, 0},
    {"a mark above 1", 0, mark_above_1, 50, 0},
};

enum { DAMAGES = sizeof damages / sizeof damages[0] };

/* Then each call but an opening is 15. */
static void damage_halt(void) {
    size_t d = chance(DAMAGES);
    const uint64_t asked[ASKED] = {day_now().time};
    if (damages[d].wants_halt ? !day_now().halt_end : !day_now().used_30) return;
    keep_memory();
    if (damages[d].damage()) {
        mend_day();
        damages[d].count++;
        for (int which = ORDER; which < CALLS; which++) expect(damages[d].name, compare(seed_now, which, asked), 15);
    }
    restore_memory();
}

/* Any numbers where the day tells of its time and its halts; what becomes of it is for both engines to say. */
static void damage_any(void) {
    static const uint64_t numbers[] = {0, 1, 2, 34799, 34800, 41399, 41400, 46800, 47400, 53819, 53820, 54000};
    const uint64_t asked[ASKED] = {turning_second()};
    keep_memory();
    set_day(HALT_END, once_in(2) ? turning_second() + 600 : numbers[chance(12)]);
    set_day(USED_30, !once_in(4)), set_day(USED_60, once_in(3));
    if (once_in(2)) set_day(TIME, turning_second());
    mend_day();
    for (int which = ORDER; which < CALLS; which++) compare(seed_now, which, asked);
    restore_memory();
}

/* ---- a day */

/* The open is made in the opening auction, or by the first trade on entry; some orders wait far away from it. */
static void open_day(void) {
    static const uint64_t opens[] = {10, 20, 33, 34, 100, 1000, 1001, 500000};
    open_price = centre = opens[chance(sizeof opens / sizeof opens[0])];
    open_marked(open_price, once_in(12), 33300);
    if (once_in(2)) buy(100, open_price), sell(100, open_price);
    for (uint64_t n = chance(10); n > 0; n--) {
        uint64_t price = far_price(), quantity = 100 * (1 + chance(3));
        (price > open_price ? sell : buy)(quantity, price);
    }
    move_to(34200);
    move_to(turning_second());
}

void run_halting_seed(uint64_t seed) {
    uint64_t before = failed;
    begin_chance(seed ^ 0x68616c7473); /* other days than run_seed's */
    seed_now = seed;
    open_day();
    for (int i = 0; i < 60 && day_now().time < 54000; i++) {
        if (once_in(8)) centre = once_in(2) ? far_price() : as_price(open_price * (once_in(2) ? 35 : 165) / 100);
        switch (chance(10)) {
        case 0: cancel_any(); break;
        case 1: ask_any(); break;
        case 2: move_any(); break;
        case 3: damage_halt(); break;
        default: enter_any();
        }
        if (once_in(12)) damage_any();
        if (once_in(8)) change_one_number(seed);
    }
    printf("halting seed %llu: open %llu: %s\n", (unsigned long long)seed, (unsigned long long)open_price,
           failed == before ? "same" : "DIFFERENT");
}

void print_halts(int all_seeds) {
    print_sights(all_seeds);
    for (int d = 0; d < DAMAGES; d++) {
        printf("damaged: %s: %llu times\n", damages[d].name, (unsigned long long)damages[d].count);
        if (all_seeds) expect(damages[d].name, damages[d].count >= damages[d].least, 1);
    }
}
