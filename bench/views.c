/* What the random days have shown on their screens: see views.h. */
#include "views.h"
#include "asking.h"
#include <stdio.h>
#include <string.h>

/* ---- a call, and the day around it */

static struct flemorix_day before, after;
static int made;
static uint64_t refused;
static size_t prices[2], most_orders; /* different prices of a side after the call, and the most orders at one of the five shown */
static int crosses;

static int is_auction_phase(uint64_t t) { return (t >= 33300 && t < 33900) || (t >= 53820 && t < 54000); }

static void count_prices(void) {
    size_t orders = 0;
    prices[0] = prices[1] = most_orders = 0;
    for (size_t p = 0; p < lent.book_length / 40 && number_at(lent.book, 5 * p + 4); p++) {
        uint64_t side = number_at(lent.book, 5 * p), price = number_at(lent.book, 5 * p + 3);
        int goes_on = p && number_at(lent.book, 5 * p - 5) == side && number_at(lent.book, 5 * p - 2) == price;
        orders = goes_on ? orders + 1 : 1;
        if (!goes_on) prices[side]++;
        if (prices[side] <= 5 && orders > most_orders) most_orders = orders;
    }
}

static int accepted(int which) { return made == which && !refused; }
static int is_event(void) { return !refused && made <= CLOCK; }

/* ---- both sides */

static int over_five_buys(void) { return is_event() && prices[0] > 5; }
static int over_five_sells(void) { return is_event() && prices[1] > 5; }
static int one_side(void) { return is_event() && (prices[0] == 0) != (prices[1] == 0); }
static int several_orders(void) { return is_event() && most_orders > 2; }

/* The fifth price before it stands higher up after it, and another comes in. */
static int sixth_comes_in(const struct flemorix_level *was, const struct flemorix_level *is) {
    return was[4].price && is[4].price && is[3].price == was[4].price;
}

static int comes_in(int which) {
    return accepted(which) && (sixth_comes_in(before.screen.buys, after.screen.buys) ||
                               sixth_comes_in(before.screen.sells, after.screen.sells));
}

static int comes_in_by_order(void) { return comes_in(ORDER); }
static int comes_in_by_cancel(void) { return comes_in(CANCEL); }

static int same_sides(void) { return !memcmp(before.screen.buys, after.screen.buys, 2 * sizeof after.screen.buys); }

static int out_of_sight(int which) { return accepted(which) && !memcmp(&before.screen, &after.screen, sizeof after.screen); }
static int order_out_of_sight(void) { return out_of_sight(ORDER) && prices[0] + prices[1] > 5; }
static int cancel_out_of_sight(void) { return out_of_sight(CANCEL); }

static int cancel_lowers(void) {
    return accepted(CANCEL) && !same_sides() && before.screen.buys[0].price == after.screen.buys[0].price &&
           before.screen.sells[0].price == after.screen.sells[0].price;
}

/* ---- trades */

static int trades(void) { return is_event() && made != OPEN && after.screen.shares > before.screen.shares; }
static int first_trade(void) { return trades() && !before.screen.shares; }
static int first_at_two_prices(void) { return first_trade() && after.screen.high > after.screen.low; }
static int traded_on(void) { return trades() && before.screen.shares; }
static int high_rises(void) { return traded_on() && after.screen.high > before.screen.high; }
static int low_falls(void) { return traded_on() && after.screen.low < before.screen.low; }
static int both_stay(void) { return traded_on() && !high_rises() && !low_falls(); }
static int lapses(void) { return accepted(CLOCK) && before.time < 54000 && after.time >= 54000 && after.screen.shares; }

/* ---- the auction's figures */

static int shown(void) { return is_event() && after.screen.price; }
static int in_phase_1(void) { return shown() && after.time < 33600; }
static int in_phase_2(void) { return shown() && after.time >= 33600 && after.time < 33900; }
static int in_phase_6(void) { return shown() && after.time >= 53820; }
static int surplus_above(void) { return shown() && after.screen.surplus > 0; }
static int surplus_below(void) { return shown() && after.screen.surplus < 0; }
static int no_surplus(void) { return shown() && !after.screen.surplus; }

static int no_price(void) {
    return is_event() && is_auction_phase(after.time) && prices[0] && prices[1] && !after.screen.price;
}

static int by_cancel(void) { return accepted(CANCEL) && memcmp(&before.screen.price, &after.screen.price, 24); }
static int goes_dark(void) { return accepted(CLOCK) && before.screen.price && !after.screen.price; }
static int goes_on_shown(void) { return accepted(CLOCK) && before.screen.price && before.time < after.time && after.screen.price; }

/* ---- halts, noon, refusals */

static int dark(void) { return is_event() && crosses && after.halt_end; }
static int dark_in_halt(void) { return dark() && !(after.time >= 41400 && after.time < 46800); }
static int dark_at_noon(void) { return dark() && after.time >= 41400 && after.time < 46800; }
static int noon(void) { return is_event() && after.time >= 41400 && after.time < 46800; }
static int ends_halt(void) { return accepted(CLOCK) && before.halt_end && !after.halt_end && trades(); }
static int refused_event(void) { return refused && refused != 15 && made <= CLOCK && before.screen.last; }
static int refused_shown(void) { return refused && refused != 15 && made <= CLOCK && before.screen.price; }

static struct {
    const char *name;
    uint64_t least; /* where all seeds are run */
    int (*is_seen)(void);
    uint64_t count;
} views[] = {
    {"more than five prices of buys", 1000, over_five_buys, 0},
    {"more than five prices of sells", 1000, over_five_sells, 0},
    {"orders on one side alone", 1000, one_side, 0},
    {"three or more orders at one of the prices shown", 1000, several_orders, 0},
    {"a sixth price that comes in by an order", 100, comes_in_by_order, 0},
    {"a sixth price that comes in by a cancel", 20, comes_in_by_cancel, 0},
    {"an order that the screen does not show", 100, order_out_of_sight, 0},
    {"a cancel that the screen does not show", 100, cancel_out_of_sight, 0},
    {"a cancel that changes a side, but not its best", 100, cancel_lowers, 0},
    {"the first trade of a day", 100, first_trade, 0},
    {"the first trades of a day, at several prices", 20, first_at_two_prices, 0},
    {"a trade above the high", 100, high_rises, 0},
    {"a trade below the low", 100, low_falls, 0},
    {"a trade between high and low", 1000, both_stay, 0},
    {"the close of a day with trades", 100, lapses, 0},
    {"a price in phase 1", 100, in_phase_1, 0},
    {"a price in phase 2", 100, in_phase_2, 0},
    {"a price in phase 6", 100, in_phase_6, 0},
    {"a surplus above 0", 100, surplus_above, 0},
    {"a surplus below 0", 100, surplus_below, 0},
    {"a price without a surplus", 100, no_surplus, 0},
    {"both sides in a call, and no price", 100, no_price, 0},
    {"figures that a cancel changes", 20, by_cancel, 0},
    {"figures that the end of a call takes off", 20, goes_dark, 0},
    {"figures that a move of the clock leaves", 20, goes_on_shown, 0},
    {"prices that cross in a halt, and no figures", 1000, dark_in_halt, 0},
    {"prices that cross at noon, and no figures", 10, dark_at_noon, 0},
    {"a screen at noon", 100, noon, 0},
    {"a halt's auction that trades", 100, ends_halt, 0},
    {"a refused event on a day with trades", 1000, refused_event, 0},
    {"a refused event with figures shown", 100, refused_shown, 0},
};

enum { VIEWS = sizeof views / sizeof views[0] };

void before_view(void) {
    if (lent.day_length == DAY_BYTES) before = day_now();
}

/* What is told of an unsound day is nothing to be seen, and an opening reads none. */
void after_view(int which, uint64_t refusal) {
    if (lent.day_length != DAY_BYTES || refusal == 15 || refusal == 14) return;
    made = which, refused = refusal;
    after = day_now();
    count_prices();
    crosses = crosses_now();
    for (int i = 0; i < VIEWS; i++) views[i].count += views[i].is_seen() != 0;
}

void print_views(int all_seeds) {
    for (int i = 0; i < VIEWS; i++) {
        printf("screens: %s: %llu times\n", views[i].name, (unsigned long long)views[i].count);
        if (all_seeds) expect(views[i].name, views[i].count >= views[i].least, 1);
    }
}
