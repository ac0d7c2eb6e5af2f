/* What the random days have shown of halts: see sights.h. */
#include "sights.h"
#include "asking.h"
#include <stdio.h>

/* ---- a call, and the day around it */

struct around {
    int which;
    const uint64_t *asked;
    uint64_t refusal, trades;
    struct flemorix_day before, after;
    uint64_t best[2]; /* prices of buy and sell before it, 0 where there is none */
};

static struct around now;

void before_call(void) {
    now.before = day_now();
    for (uint64_t side = 0; side < 2; side++) now.best[side] = best_now(side);
}

/* How far a price is from the open, in hundredths of it, rounded down. */
static uint64_t per_cent(uint64_t price) {
    uint64_t first = now.after.first;
    return first ? 100 * (price > first ? price - first : first - price) / first : 0;
}

static int is_exact(uint64_t price) {
    uint64_t first = now.after.first, far = 100 * (price > first ? price - first : first - price);
    return far == 30 * first || far == 60 * first;
}

static int accepted(int which) { return now.which == which && !now.refusal; }

static int noon(void) { return now.before.time >= 41400 && now.before.time < 46800; }

/* ---- orders that begin a halt */

static int begins(void) { return accepted(ORDER) && !now.before.halt_end && now.after.halt_end; }

static int by_30(void) { return begins() && !now.before.used_30 && !now.after.used_60; }
static int by_60(void) { return begins() && now.before.used_30 && now.after.used_60; }
static int by_both(void) { return begins() && !now.before.used_30 && now.after.used_60; }
static int above(void) { return begins() && trade_at(now.trades - 1).price > now.after.first; }
static int below(void) { return begins() && trade_at(now.trades - 1).price < now.after.first; }
static int exactly_there(void) { return begins() && is_exact(trade_at(now.trades - 1).price); }
static int with_first_trade(void) { return begins() && !now.before.first; }

/* Its first trade has reached the threshold, and there is another. */
static int goes_on(void) { return begins() && now.trades > 1 && per_cent(trade_at(0).price) >= (now.before.used_30 ? 60 : 30); }

/* 30% by one of its trades, 60% by a later one. */
static int one_after_the_other(void) {
    uint64_t first = per_cent(trade_at(0).price);
    return by_both() && first < 60 && per_cent(trade_at(now.trades - 1).price) >= 60;
}

static int leads(uint64_t time, uint64_t end) { return begins() && now.before.time == time && now.after.halt_end == end; }

static int from_40799(void) { return leads(40799, 41399); }
static int from_40800(void) { return leads(40800, 46800); }
static int moved_to_13(void) { return begins() && now.before.time > 40800 && now.after.halt_end == 46800; }
static int from_53219(void) { return leads(53219, 53819); }
static int from_53220(void) { return leads(53220, 53820); }
static int moved_to_1457(void) { return begins() && now.before.time > 53220 && now.after.halt_end == 53820; }

static int used_already(void) {
    return accepted(ORDER) && now.trades && !now.after.halt_end && per_cent(trade_at(now.trades - 1).price) >= 30 &&
           now.before.used_30;
}

/* ---- while a halt runs */

static int halted(void) { return now.before.halt_end && !noon() && now.refusal != 15; }

static int rests_crossing(void) { return halted() && accepted(ORDER) && crosses_now(); }

static int beyond_range(void) {
    const uint64_t price = now.asked[4], buy = now.best[0], sell = now.best[1];
    if (!halted() || !accepted(ORDER)) return 0;
    if (now.asked[0]) return buy && 100 * price < 95 * buy && price + 10 < buy;
    return sell && 100 * price > 105 * sell && price > sell + 10;
}

static int market_kind(void) { return halted() && now.which == ORDER && now.refusal == 5; }
static int cancelled(void) { return halted() && accepted(CANCEL); }
static int reported(void) { return halted() && accepted(REPORT) && value(1); }
static int listed(void) { return halted() && accepted(LIST) && value(1); }
static int noon_order(void) { return now.before.halt_end && noon() && now.which == ORDER && now.refusal == 4; }
static int noon_cancel(void) { return now.before.halt_end && noon() && now.which == CANCEL && now.refusal == 4; }
static int noon_crossed(void) { return now.before.halt_end && noon() && now.refusal != 15 && crosses_now(); }

/* ---- moves of the clock that end one */

static int ends(void) { return accepted(CLOCK) && now.before.halt_end && now.asked[0] >= now.before.halt_end; }

static int ends_trading(void) { return ends() && now.trades; }
static int ends_quietly(void) { return ends() && !now.trades; }
static int fires_60(void) { return ends() && !now.before.used_60 && now.after.used_60; }
static int fires_until_13(void) { return fires_60() && now.before.halt_end < 41400 && now.after.halt_end == 46800; }
static int fires_until_1457(void) { return fires_60() && now.after.halt_end == 53820; }
static int fires_at_13(void) { return fires_60() && now.before.halt_end == 46800; }
static int ends_both(void) { return fires_60() && !now.after.halt_end; }

static int quiet_at_1457(void) {
    return ends_trading() && now.before.halt_end == 53820 && !now.before.used_60 && per_cent(trade_at(0).price) >= 60;
}

static int ends_with_day(void) { return ends() && now.asked[0] >= 54000; }
static int whole_day(void) { return ends_with_day() && fires_60(); }
static int no_room(void) { return now.which == CLOCK && now.refusal == 13 && now.before.halt_end; }

/* ---- all of them */

static struct {
    const char *name;
    uint64_t least; /* where all seeds are run */
    int (*is_seen)(void);
    uint64_t count;
} sights[] = {
    {"a halt by 30%", 100, by_30, 0},
    {"a halt by 60%, later", 50, by_60, 0},
    {"a halt by both at once", 50, by_both, 0},
    {"30% and 60% by trades of one order, one after the other", 5, one_after_the_other, 0},
    {"a halt by a price above the open", 100, above, 0},
    {"a halt by a price below the open", 100, below, 0},
    {"a halt by a price exactly at a threshold", 50, exactly_there, 0},
    {"a halt by the order that made the first trade", 5, with_first_trade, 0},
    {"an order that goes on trading past the threshold", 50, goes_on, 0},
    {"a halt from 40,799 to 41,399", 20, from_40799, 0},
    {"a halt from 40,800 to 13:00", 20, from_40800, 0},
    {"a later halt to 13:00", 20, moved_to_13, 0},
    {"a halt from 53,219 to 53,819", 20, from_53219, 0},
    {"a halt from 53,220 to 14:57", 20, from_53220, 0},
    {"a later halt to 14:57", 20, moved_to_1457, 0},
    {"a trade at a threshold that has had its turn", 100, used_already, 0},
    {"an order in a halt after which prices cross", 100, rests_crossing, 0},
    {"an order in a halt beyond the order range", 100, beyond_range, 0},
    {"a market kind in a halt", 100, market_kind, 0},
    {"a cancel in a halt", 100, cancelled, 0},
    {"a report of a price in a halt", 100, reported, 0},
    {"a list of prices in a halt", 100, listed, 0},
    {"an order at noon, in a halt", 20, noon_order, 0},
    {"a cancel at noon, in a halt", 20, noon_cancel, 0},
    {"prices that cross at noon", 50, noon_crossed, 0},
    {"a halt's auction that trades", 100, ends_trading, 0},
    {"a halt's auction that does not", 100, ends_quietly, 0},
    {"a halt's auction that fires 60%", 20, fires_60, 0},
    {"a halt's auction at 13:00 that fires 60%", 3, fires_at_13, 0},
    {"a halt's auction whose halt goes on to 13:00", 3, fires_until_13, 0},
    {"a halt's auction whose halt goes on to 14:57", 3, fires_until_1457, 0},
    {"a halt's auction that fires 60%, and the new halt ended by the same move", 5, ends_both, 0},
    {"an auction at 14:57 past 60%, which fires nothing", 5, quiet_at_1457, 0},
    {"a move from a running halt past the close", 100, ends_with_day, 0},
    {"such a move over a second halt", 5, whole_day, 0},
    {"a halt's auction whose trades have no room", 20, no_room, 0},
};

enum { SIGHTS = sizeof sights / sizeof sights[0] };

/* How many trades of the list are the call's: those that make up what an order has filled, or as many as the clock says. */
static uint64_t count_trades(void) {
    uint64_t count = 0;
    if (now.refusal || now.which == CLOCK) return now.refusal ? 0 : value(2);
    for (uint64_t filled = now.which == ORDER ? value(2) : 0; filled; count++) filled -= trade_at(count).quantity;
    return count;
}

void after_call(int which, const uint64_t *asked, uint64_t refusal) {
    now.which = which;
    now.asked = asked;
    now.refusal = refusal;
    now.after = day_now();
    now.trades = count_trades();
    for (int i = 0; i < SIGHTS; i++) sights[i].count += sights[i].is_seen() != 0;
}

void print_sights(int all_seeds) {
    for (int i = 0; i < SIGHTS; i++) {
        printf("%s: %llu times\n", sights[i].name, (unsigned long long)sights[i].count);
        if (all_seeds) expect(sights[i].name, sights[i].count >= sights[i].least, 1);
    }
}
