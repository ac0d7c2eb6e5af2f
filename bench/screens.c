/* The screen by hand (rules 5.2.1 and 5.2.2, request #102): what it shows in each phase, what each event does to it, that no single
 * number of it can be another one, and what high and low have to enclose. All numbers are the rules'. */
#include "asking.h"
#include "runs.h"
#include <string.h>

/* ---- what is shown */

static const char *const numbers[SCREEN_NUMBERS] = {
    "screen: last",         "screen: high",         "screen: low",          "screen: shares",        "screen: turnover",
    "screen: 1st buy",      "screen: its shares",   "screen: 2nd buy",      "screen: its shares",    "screen: 3rd buy",
    "screen: its shares",   "screen: 4th buy",      "screen: its shares",   "screen: 5th buy",       "screen: its shares",
    "screen: 1st sell",     "screen: its shares",   "screen: 2nd sell",     "screen: its shares",    "screen: 3rd sell",
    "screen: its shares",   "screen: 4th sell",     "screen: its shares",   "screen: 5th sell",      "screen: its shares",
    "screen: price",        "screen: volume",       "screen: surplus",
};

static void expect_screen(struct flemorix_screen want) {
    uint64_t wanted[SCREEN_NUMBERS];
    memcpy(wanted, &want, sizeof wanted);
    for (size_t i = 0; i < SCREEN_NUMBERS; i++) expect(numbers[i], number_at(lent.day, SCREEN + i), wanted[i]);
}

/* Nothing has traded: both sides, and the figures of the auction. */
#define UNTRADED(bought, sold, p, v, s) \
    ((struct flemorix_screen){.buys = bought, .sells = sold, .price = p, .volume = v, .surplus = s})
#define LEVELS(...) {__VA_ARGS__}
#define NONE {{0, 0}}

/* ---- the opening call: the rules' situations */

static void run_opening_call(void) {
    static const uint64_t closes_and_prices[3][2] = {{1000, 1000}, {980, 990}, {1030, 1010}};
    open_marked(1000, 1, 0);
    expect_screen((struct flemorix_screen){0});
    move_to(33300);
    expect_screen((struct flemorix_screen){0});
    buy(100, 990);
    expect_screen(UNTRADED(LEVELS({990, 100}), NONE, 0, 0, 0));
    sell(100, 1000);
    expect_screen(UNTRADED(LEVELS({990, 100}), LEVELS({1000, 100}), 0, 0, 0));
    open_marked(1000, 1, 33300);
    buy(300, 1000), sell(100, 900);
    expect_screen(UNTRADED(LEVELS({1000, 300}), LEVELS({900, 100}), 1000, 100, 200));
    for (int i = 0; i < 3; i++) {
        open_marked(closes_and_prices[i][0], 1, 33300);
        buy(200, 1010), sell(200, 990);
        expect_screen(UNTRADED(LEVELS({1010, 200}), LEVELS({990, 200}), closes_and_prices[i][1], 200, 0));
    }
    open_marked(1000, 1, 33300);
    buy(100, 1010), buy(100, 1000), sell(100, 990);
    expect_screen(UNTRADED(LEVELS({1010, 100}, {1000, 100}), LEVELS({990, 100}), 1001, 100, 0));
    open_marked(1005, 1, 33300);
    buy(100, 1010), buy(100, 1000), sell(100, 990), sell(100, 1001);
    expect_screen(UNTRADED(LEVELS({1010, 100}, {1000, 100}), LEVELS({990, 100}, {1001, 100}), 1001, 100, -100));
    expect("screen: a cancel", take_out(8, 4), 0);
    expect_screen(UNTRADED(LEVELS({1010, 100}, {1000, 100}), LEVELS({990, 100}), 1005, 100, 0));
    expect("screen: a cancel", take_out(7, 1), 0);
    expect_screen(UNTRADED(LEVELS({1000, 100}), LEVELS({990, 100}), 1000, 100, 0));
    expect("screen: a cancel", take_out(8, 3), 0);
    expect_screen(UNTRADED(LEVELS({1000, 100}), NONE, 0, 0, 0));
}

/* ---- a day from call to call */

/* 100 shares at 1,000 have traded, and a buy of 200 there is left; this is all, but for the figures of an auction. */
static struct flemorix_screen after_opening(void) {
    return (struct flemorix_screen){
        .last = 1000, .high = 1000, .low = 1000, .shares = 100, .turnover = 100000, .buys = {{1000, 200}}};
}

static void run_phases(void) {
    static const uint64_t shown[] = {33599, 33600, 33899};
    static const uint64_t dark[] = {33900, 34199, 34200, 41399, 41400, 46799, 46800, 53819};
    struct flemorix_screen now = UNTRADED(LEVELS({1000, 300}), LEVELS({900, 100}), 1000, 100, 200);
    open_marked(1000, 1, 33300);
    buy(300, 1000), sell(100, 900);
    for (size_t i = 0; i < sizeof shown / sizeof shown[0]; i++) {
        move_to(shown[i]);
        expect_screen(now);
    }
    for (size_t i = 0; i < sizeof dark / sizeof dark[0]; i++) {
        move_to(dark[i]);
        expect_screen(after_opening());
    }
    move_to(53820);
    expect_screen(after_opening());
    sell(300, 999);
    now = after_opening();
    now.sells[0] = (struct flemorix_level){999, 300};
    now.price = 999, now.volume = 200, now.surplus = -100;
    expect_screen(now);
    move_to(53999);
    expect_screen(now);
    move_to(54000);
    expect_screen((struct flemorix_screen){.last = 999, .high = 1000, .low = 999, .shares = 300, .turnover = 299800});
    move_to(86399);
    expect_screen((struct flemorix_screen){.last = 999, .high = 1000, .low = 999, .shares = 300, .turnover = 299800});
    make(OPEN, 1000, 1, 0, 0, 0);
    expect_screen((struct flemorix_screen){0});
}

/* ---- continuous trading */

/* Seven prices of buys and six of sells, and at two of them several orders; then orders and cancels. */
static void run_levels(void) {
    struct flemorix_screen now = {.buys = {{996, 100}, {995, 100}, {994, 700}, {993, 100}, {992, 100}},
                                  .sells = {{1001, 100}, {1002, 100}, {1003, 300}, {1004, 100}, {1005, 100}}};
    open_marked(1000, 1, 34200);
    for (uint64_t p = 990; p < 997; p++) buy(100, p);      /* 1 to 7 */
    for (uint64_t p = 1006; p > 1000; p--) sell(100, p);   /* 8 to 13 */
    buy(200, 994), buy(400, 994), sell(200, 1003);         /* 14 to 16 */
    expect_screen(now);
    take_out(7, 2); /* at 991, the sixth price */
    expect_screen(now);
    take_out(7, 5); /* at 994, one of three */
    now.buys[2].shares = 600;
    expect_screen(now);
    take_out(7, 6); /* at 995, alone there */
    memcpy(now.buys, (struct flemorix_level[]){{996, 100}, {994, 600}, {993, 100}, {992, 100}, {990, 100}}, sizeof now.buys);
    expect_screen(now);
    buy(250, 1003); /* 1,001 and 1,002 go, 50 are taken at 1,003 */
    now.last = 1003, now.high = 1003, now.low = 1001, now.shares = 250, now.turnover = 100100 + 100200 + 50150;
    memcpy(now.sells, (struct flemorix_level[]){{1003, 250}, {1004, 100}, {1005, 100}, {1006, 100}, {0, 0}}, sizeof now.sells);
    expect_screen(now);
    sell(100, 996);
    now.last = 996, now.low = 996, now.shares = 350, now.turnover += 99600;
    memcpy(now.buys, (struct flemorix_level[]){{994, 600}, {993, 100}, {992, 100}, {990, 100}, {0, 0}}, sizeof now.buys);
    expect_screen(now);
    buy_of_kind(3, 9, 50, 1300), buy_of_kind(3, 9, 100, 1300); /* 50 is refused, 100 taken at 1,003 */
    now.last = 1003, now.shares = 450, now.turnover += 100300, now.sells[0].shares = 150;
    expect_screen(now);
}

/* ---- while a halt runs, and at noon */

/* Prices cross, the report has its price, and the screen shows none. */
static void run_halted(void) {
    struct flemorix_screen now = {.last = 1300, .high = 1300, .low = 1000, .shares = 200, .turnover = 230000,
                                  .buys = {{1310, 100}}, .sells = {{1290, 100}}};
    open_marked(1000, 0, 33300);
    buy(100, 1000), sell(100, 1000), sell(100, 1300);
    move_to(40900);
    buy(100, 1300), buy(100, 1310), sell(100, 1290);
    expect_screen(now);
    make(REPORT, 0, 0, 0, 0, 0);
    expect("screen: the report in a halt", value(1), 1300);
    move_to(41399);
    expect_screen(now);
    move_to(41400);
    expect_screen(now);
    move_to(46800);
    expect("screen: the halt's auction", value(2), 1);
    now.shares = 300, now.turnover = 360000;
    now.buys[0] = now.sells[0] = (struct flemorix_level){0, 0};
    expect_screen(now);
}

/* ---- refused events leave it */

static void run_refused(void) {
    open_marked(1000, 1, 33300);
    buy(300, 1000), sell(100, 900);
    keep_memory();
    expect("screen: no such side", make(ORDER, 2, 0, 7, 100, 1000), 2);
    expect("screen: outside the band", buy(100, 1301), 8);
    expect("screen: a stranger's order", take_out(7, 2), 12);
    expect("screen: back in time", move_to(33299), 1);
    lend(lent.day_length, lent.book_length, TRADE_BYTES - 1, lent.reply_length);
    expect("screen: no room for the trade", move_to(33900), 13);
    lend(lent.day_length, lent.book_length, TRADE_BYTES * 64, lent.reply_length);
    expect("screen: refused events leave all", (uint64_t)is_as_kept(), 1);
    expect_screen(UNTRADED(LEVELS({1000, 300}), LEVELS({900, 100}), 1000, 100, 200));
}

/* ---- the largest numbers */

/* 4,095 sells of a million shares each at one price, and a buy of 100, all made by hand. */
static void run_largest(void) {
    open_marked(1000, 1, 33300);
    lend(DAY_BYTES, 40 * 4096, TRADE_BYTES * 64, 48);
    make(OPEN, 1000, 1, 0, 0, 0);
    set_day(TIME, 53820), set_day(ISSUED, 4096);
    for (uint64_t p = 0; p < 4096; p++) {
        const uint64_t order[5] = {p > 0, 7, p > 0 ? 1000000 : 100, 1000, p + 1};
        for (size_t i = 0; i < 5; i++) put_number(lent.book, 5 * p + i, order[i]);
    }
    set_day(SCREEN_BUYS, 1000), set_day(SCREEN_BUYS + 1, 100);
    set_day(SCREEN_SELLS, 1000), set_day(SCREEN_SELLS + 1, 4095000000);
    set_day(SCREEN_PRICE, 1000), set_day(SCREEN_VOLUME, 100), set_day(SCREEN_SURPLUS, (uint64_t)-4094999900);
    expect("screen: the largest surplus", move_to(53821), 0);
    expect_screen(UNTRADED(LEVELS({1000, 100}), LEVELS({1000, 4095000000}), 1000, 100, -4094999900));
    set_day(SCREEN_SURPLUS, (uint32_t)-4094999900);
    expect("screen: its low half", move_to(53821), 15);
}

/* ---- any other number is 15 */

static void open_with_trade(uint64_t mark, uint64_t time) {
    open_marked(1000, mark, 33300);
    sell(100, 990), buy(200, 1000), buy(100, 980), sell(100, 1020), sell(100, 1030);
    move_to(time);
}

/* Before the opening, in each phase with and without trades, and after the close. */
static void run_changed(void) {
    static const uint64_t times[] = {33300, 33600, 33900, 34200, 41400, 46800, 53820, 54000};
    open_marked(1000, 1, 0);
    change_each_number(0);
    for (size_t i = 0; i < sizeof times / sizeof times[0]; i++) {
        open_with_trade(1, times[i]);
        change_each_number(0);
        open_marked(1000, 0, times[i]);
        change_each_number(0);
    }
    open_with_trade(1, 53820);
    buy(300, 1020);
    change_each_number(0); /* a positive surplus */
    sell(900, 1020);
    change_each_number(0); /* a negative one */
    open_with_trade(0, 34200);
    sell(100, 1300), take_out(8, 4), take_out(8, 5), buy(100, 1300);
    expect("screen: a halt", day_now().halt_end, 34800);
    buy(100, 1310), sell(100, 1290);
    change_each_number(0);
}

/* ---- high and low */

/* First trade 1,000 and last one 1,010, or nothing traded. */
static const struct {
    const char *name;
    uint64_t high, low;
    int traded, is_sound;
} pairs[] = {
    {"high and low: as they are", 1010, 1000, 1, 1},
    {"high and low: further apart", 1300, 1, 1, 1},
    {"high and low: as far apart as can be", UINT64_MAX, 0, 1, 1},
    {"high below last", 1009, 1000, 1, 0},
    {"high below first too", 999, 1000, 1, 0},
    {"low above first", 1010, 1001, 1, 0},
    {"low above last too", 1010, 1011, 1, 0},
    {"high and low: exchanged", 1000, 1010, 1, 0},
    {"high 0", 0, 1000, 1, 0},
    {"high and low 0 after trades", 0, 0, 1, 0},
    {"low the largest number", 1010, UINT64_MAX, 1, 0},
    {"high of 32 bits more", 1000 + (1ull << 32), 1000, 1, 1},
    {"low of 32 bits more", 1010, 1000 + (1ull << 32), 1, 0},
    {"nothing traded: all 0", 0, 0, 0, 1},
    {"nothing traded: high", 1000, 0, 0, 0},
    {"nothing traded: low", 0, 1000, 0, 0},
    {"nothing traded: both", 1000, 1000, 0, 0},
};

static void run_high_and_low(void) {
    for (size_t i = 0; i < sizeof pairs / sizeof pairs[0]; i++) {
        open_marked(1000, 1, 34200);
        if (pairs[i].traded) sell(100, 1000), buy(100, 1000), sell(100, 1010), buy(100, 1010);
        set_day(SCREEN_HIGH, pairs[i].high), set_day(SCREEN_LOW, pairs[i].low);
        expect_sound(pairs[i].name, pairs[i].is_sound);
    }
    open_marked(1000, 1, 34200); /* first 1,010, last 1,000 */
    sell(100, 1010), buy(100, 1010), sell(100, 1000), buy(100, 1000);
    set_day(SCREEN_LOW, 1001);
    expect_sound("low above last, below first", 0);
    set_day(SCREEN_LOW, 1000), set_day(SCREEN_HIGH, 1009);
    expect_sound("high below first, above last", 0);
}

/* They go on from the screen: a trade between them moves neither. Only the screen has them, so that 1,200 and 0 stay, of which no
 * trade tells. */
static void run_going_on(void) {
    open_marked(1000, 1, 34200);
    sell(100, 1000), buy(100, 1000);
    set_day(SCREEN_HIGH, 1200), set_day(SCREEN_LOW, 0);
    sell(100, 1010), expect("high and low: between them", buy(100, 1010), 0);
    expect("high: goes on", day_now().screen.high, 1200);
    expect("low: 0 goes on", day_now().screen.low, 0);
    expect("last", day_now().screen.last, 1010);
    expect("they stay sound", make(REPORT, 0, 0, 0, 0, 0), 0);
}

void run_screens(void) {
    run_opening_call();
    run_phases();
    run_levels();
    run_halted();
    run_refused();
    run_largest();
    run_changed();
    run_high_and_low();
    run_going_on();
}
