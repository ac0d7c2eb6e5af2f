/* Halts of days without limits by hand (rules 4.2.5 and 4.2.6, request #103): the price that stops trading, when it goes on, what
 * is taken meanwhile, what the auctions that end halts lead to, and which days are sound. All numbers are the rules'. */
#include "asking.h"
#include "runs.h"

/* ---- days that halt */

static void expect_halt(const char *name, uint64_t end, uint64_t used_30, uint64_t used_60) {
    expect(name, day_now().halt_end, end);
    expect(name, day_now().used_30, used_30);
    expect(name, day_now().used_60, used_60);
}

static void expect_move(const char *name, uint64_t time, uint64_t phase, uint64_t trades) {
    expect(name, move_to(time), 0);
    expect(name, value(1), phase);
    expect(name, value(2), trades);
}

/* A trade at this price, in continuous trading: an order waits there, and is taken. Above the open it is a sell. */
static void trade_at_price(uint64_t price) {
    if (price >= day_now().first)
        sell(100, price), buy(100, price);
    else
        buy(100, price), sell(100, price);
}

/* Without limits, opened with a first trade at this price in the opening auction. */
static void open_with_first(uint64_t price, uint64_t time) {
    open_marked(price, 0, 33300);
    sell(100, price), buy(100, price);
    move_to(time);
}

/* A trade at 1,300 where the open is 1,000, in this second. */
static void open_halted(uint64_t time) {
    open_with_first(1000, time);
    trade_at_price(1300);
}

/* ---- which price, and until when */

static const struct {
    uint64_t open, price, used_30, used_60;
} reached[] = {
    {1000, 1299, 0, 0}, {1000, 1300, 1, 0}, {1000, 1599, 1, 0}, {1000, 1600, 1, 1}, {1000, 999999, 1, 1},
    {1000, 701, 0, 0},  {1000, 700, 1, 0},  {1000, 401, 1, 0},  {1000, 400, 1, 1},  {1000, 1, 1, 1},
    {1001, 1301, 0, 0}, {1001, 1302, 1, 0}, {1001, 1601, 1, 0}, {1001, 1602, 1, 1}, /* 300.3 and 600.6 away, without rounding */
    {1001, 701, 0, 0},  {1001, 700, 1, 0},  {1001, 401, 1, 0},  {1001, 400, 1, 1},
    {1, 1, 0, 0},       {1, 2, 1, 1},       {3, 4, 1, 0},       {3, 2, 1, 0},       {3, 5, 1, 1},
    {3, 1, 1, 1},       {999999, 700000, 0, 0}, {999999, 699999, 1, 0},
};

static void run_prices(void) {
    for (size_t i = 0; i < sizeof reached / sizeof reached[0]; i++) {
        open_with_first(reached[i].open, 34200);
        trade_at_price(reached[i].price);
        expect_halt("halts: a price and its threshold", reached[i].used_30 ? 34800 : 0, reached[i].used_30, reached[i].used_60);
    }
    open_marked(1000, 1, 34200);
    sell(100, 1000), buy(100, 1000), trade_at_price(1300);
    expect("halts: a limited day has none", trade_at(0).price, 1300);
    expect_halt("halts: a limited day has none", 0, 0, 0);
}

static void run_ends(void) {
    static const uint64_t rows[][2] = {{34200, 34800}, {40799, 41399}, {40800, 46800}, {41399, 46800},
                                       {46800, 47400}, {53219, 53819}, {53220, 53820}, {53819, 53820}};
    for (size_t i = 0; i < sizeof rows / sizeof rows[0]; i++) {
        uint64_t noon = rows[i][0] < 41400 && rows[i][1] == 46800;
        open_halted(rows[i][0]);
        expect_halt("halts: an end", rows[i][1], 1, 0);
        expect_move("halts: the same second", rows[i][0], 7, 0);
        expect_move("halts: a second before its end", rows[i][1] - 1, noon ? 5 : 7, 0);
        expect_move("halts: its end", rows[i][1], rows[i][1] == 53820 ? 6 : 4, 0);
        expect_halt("halts: after its end", 0, 1, 0);
    }
}

/* ---- orders that fire */

static void run_orders(void) {
    open_with_first(1000, 34200);
    sell(100, 1300), sell(100, 1310), sell(100, 1365);
    buy(400, 1365);
    expect("halts: the order in hand finishes", value(2), 300);
    expect("halts: and its remainder rests", value(3), 100);
    expect_halt("halts: the order in hand finishes", 34800, 1, 0);
    open_with_first(1000, 34200);
    sell(100, 1530), sell(100, 1606);
    buy(200, 1606);
    expect("halts: both by one order", value(2), 200);
    expect_halt("halts: both by one order", 34800, 1, 1);
    open_marked(33, 0, 34200);
    sell(100, 33), sell(100, 43);
    buy(200, 43);
    expect_halt("halts: the order of the first trade", 34800, 1, 0);
    open_marked(34, 0, 34200);
    sell(100, 34), sell(100, 44);
    buy(200, 44);
    expect_halt("halts: 10 fen are not 30% of 34", 0, 0, 0);
    open_with_first(1000, 34200);
    sell(100, 1300), sell(100, 1310);
    lend(lent.day_length, lent.book_length, 2 * TRADE_BYTES - 1, lent.reply_length);
    expect("halts: no room for the order's trades", buy(200, 1310), 13);
    expect_halt("halts: no room for the order's trades", 0, 0, 0);
}

/* Each threshold once, whatever the direction. */
static void run_turns_of_thresholds(void) {
    open_halted(34200);
    move_to(34800);
    trade_at_price(700), trade_at_price(1300), trade_at_price(1599);
    expect_halt("halts: 30% once", 0, 1, 0);
    trade_at_price(400);
    expect_halt("halts: 60% after it", 35400, 1, 1);
    move_to(35400);
    trade_at_price(1700), trade_at_price(300);
    expect_halt("halts: none is left", 0, 1, 1);
}

/* ---- while it runs */

static void run_phase_7(void) {
    open_halted(40900);
    lend(lent.day_length, lent.book_length, 0, lent.reply_length);
    expect("halts: a buy without a range", buy(100, 999999), 0);
    expect("halts: it rests", value(3), 100);
    expect("halts: a sell without a range", sell(100, 1), 0);
    expect("halts: it rests too", value(3), 100);
    for (uint64_t kind = 1; kind < 5; kind++) expect("halts: a market kind", buy_of_kind(kind, 7, 100, 1300), 5);
    expect("halts: price 0", buy(100, 0), 7);
    expect("halts: the report answers", make(REPORT, 0, 0, 0, 0, 0), 0);
    expect("halts: the report's price", value(1), 1300);
    expect("halts: a cancel", take_out(7, 5), 0);
    expect("halts: noon", move_to(41400), 0);
    expect("halts: noon is phase 5", value(1), 5);
    expect("halts: noon takes no order", buy(100, 1300), 4);
    expect("halts: noon takes no cancel", take_out(8, 6), 4);
    expect_halt("halts: noon", 46800, 1, 0);
}

/* ---- auctions that end halts */

/* Orders of a halt at 1,700, where the open is 1,000. */
static void cross_at_1700(void) { buy(200, 1700), sell(200, 1700); }

static void run_auctions_of_halts(void) {
    open_halted(34200);
    buy(300, 1010), sell(200, 990);
    expect_move("halts: the auction", 34800, 4, 1);
    expect("halts: the auction's price", trade_at(0).price, 1010);
    expect_halt("halts: the auction", 0, 1, 0);
    open_halted(34200), cross_at_1700();
    expect_move("halts: the auction fires 60%", 34800, 7, 1);
    expect_halt("halts: the auction fires 60%", 35400, 1, 1);
    expect_move("halts: until its end", 35399, 7, 0);
    expect_move("halts: the second end", 35400, 4, 0);
    open_halted(34200), cross_at_1700();
    expect_move("halts: both ends in one move", 35400, 4, 1);
    expect_halt("halts: both ends in one move", 0, 1, 1);
    open_halted(34200), cross_at_1700();
    expect_move("halts: the whole day in one move", 54000, 0, 1);
    expect_halt("halts: the whole day in one move", 0, 1, 1);
    open_halted(34200), cross_at_1700();
    lend(lent.day_length, lent.book_length, TRADE_BYTES - 1, lent.reply_length);
    expect("halts: no room for the trade", move_to(86399), 13);
    expect_halt("halts: no room for the trade", 34800, 1, 0);
    open_halted(34200);
    set_day(LAST, 1700), mend_day();
    expect_move("halts: no trade fires nothing, whatever was the last", 34800, 4, 0);
    expect_halt("halts: no trade fires nothing, whatever was the last", 0, 1, 0);
}

/* When the next halt ends where an auction fires 60%: of a halt from this second on. */
static void run_ends_of_second_halts(void) {
    static const struct {
        uint64_t from, end, next, phase, used_60;
    } rows[] = {
        {40199, 40799, 41399, 7, 1}, {40200, 40800, 46800, 7, 1}, {40799, 41399, 46800, 7, 1}, {40800, 46800, 47400, 7, 1},
        {52619, 53219, 53819, 7, 1}, {52620, 53220, 53820, 7, 1}, {53219, 53819, 53820, 7, 1}, {53220, 53820, 0, 6, 0},
        {53819, 53820, 0, 6, 0},
    };
    for (size_t i = 0; i < sizeof rows / sizeof rows[0]; i++) {
        open_halted(rows[i].from), cross_at_1700();
        expect_move("halts: an auction at its end", rows[i].end, rows[i].phase, 1);
        expect("halts: the auction's price", trade_at(0).price, 1700);
        expect_halt("halts: the end after it", rows[i].next, 1, rows[i].used_60);
    }
}

/* The opening auction makes the open, and the closing one fires nothing. */
static void run_other_auctions(void) {
    open_marked(1000, 0, 33300);
    sell(100, 5000), buy(100, 5000);
    move_to(34200);
    expect_halt("halts: the opening auction", 0, 0, 0);
    move_to(53820);
    sell(100, 50000), buy(100, 50000);
    expect_move("halts: the closing auction", 54000, 0, 1);
    expect_halt("halts: the closing auction", 0, 0, 0);
}

/* ---- soundness */

static void set_halt(uint64_t time, uint64_t end, uint64_t used_30, uint64_t used_60) {
    set_day(TIME, time);
    set_day(HALT_END, end);
    set_day(USED_30, used_30);
    set_day(USED_60, used_60);
    mend_day();
}

static const struct {
    const char *name;
    uint64_t time, end, used_30, used_60;
    int is_sound;
} days[] = {
    {"sound: no mark", 34200, 0, 0, 0, 1},
    {"sound: 30% used", 34200, 0, 1, 0, 1},
    {"sound: both used", 34200, 0, 1, 1, 1},
    {"sound: both used before trading begins", 0, 0, 1, 1, 1},
    {"sound: both used after the close", 86399, 0, 1, 1, 1},
    {"sound: 60% without 30%", 34200, 0, 0, 1, 0},
    {"sound: 30% marked 2", 34200, 0, 2, 0, 0},
    {"sound: 60% marked 2", 34200, 0, 1, 2, 0},
    {"sound: 30% marked 257", 34200, 34800, 257, 0, 0},
    {"sound: 60% marked the largest number", 34200, 34800, 1, UINT64_MAX, 0},
    {"sound: an end with none used", 34200, 34800, 0, 0, 0},
    {"sound: an end with 60% used alone", 34200, 34800, 0, 1, 0},
    {"sound: the first end", 34200, 34800, 1, 0, 1},
    {"sound: the first end, both used", 34200, 34800, 1, 1, 1},
    {"sound: an end before the first", 34200, 34799, 1, 0, 0},
    {"sound: led to by a second to come", 34200, 34801, 1, 0, 0},
    {"sound: led to by this second", 34201, 34801, 1, 0, 1},
    {"sound: not continuous yet", 34199, 34800, 1, 0, 0},
    {"sound: its last second", 34799, 34800, 1, 0, 1},
    {"sound: an end that has come", 34800, 34800, 1, 0, 0},
    {"sound: an end long past", 34801, 34800, 1, 0, 0},
    {"sound: the last end of the morning", 40799, 41399, 1, 0, 1},
    {"sound: an end at 11:30", 40800, 41400, 1, 0, 0},
    {"sound: 13:00, a second too early", 40799, 46800, 1, 0, 0},
    {"sound: 13:00 from 40,800", 40800, 46800, 1, 0, 1},
    {"sound: 13:00 from 41,399", 41399, 46800, 1, 0, 1},
    {"sound: 13:00, at noon", 41400, 46800, 1, 0, 1},
    {"sound: 13:00, before it", 46799, 46800, 1, 0, 1},
    {"sound: 13:00 has come", 46800, 46800, 1, 0, 0},
    {"sound: an end at noon", 41400, 41999, 1, 0, 0},
    {"sound: an end at noon, the last", 46000, 46799, 1, 0, 0},
    {"sound: before the first end of the afternoon", 46800, 47399, 1, 0, 0},
    {"sound: the first end of the afternoon", 46800, 47400, 1, 0, 1},
    {"sound: the first end of the afternoon, at noon", 46799, 47400, 1, 0, 0},
    {"sound: before 14:57", 53219, 53819, 1, 0, 1},
    {"sound: 14:57, a second too early", 53219, 53820, 1, 0, 0},
    {"sound: 14:57 from 53,220", 53220, 53820, 1, 0, 1},
    {"sound: 14:57 from 53,819", 53819, 53820, 1, 0, 1},
    {"sound: 14:57 has come", 53820, 53820, 1, 0, 0},
    {"sound: an end after 14:57", 53819, 53821, 1, 0, 0},
    {"sound: ten minutes from 53,819", 53819, 54419, 1, 0, 0},
    {"sound: an end after the close", 54000, 54600, 1, 0, 0},
    {"sound: the largest end", 34200, UINT64_MAX, 1, 0, 0},
    {"sound: an end beyond 32 bits", 34200, 34800 + (1ull << 32), 1, 0, 0},
};

/* On a day on which 100 shares have traded at 1,000, with an empty book; then on a limited day, then with nothing traded. */
static void run_soundness(void) {
    for (size_t i = 0; i < sizeof days / sizeof days[0]; i++) {
        int has_any = days[i].end || days[i].used_30 || days[i].used_60;
        open_with_first(1000, 34200);
        set_halt(days[i].time, days[i].end, days[i].used_30, days[i].used_60);
        expect_sound(days[i].name, days[i].is_sound);
        set_day(LIMITED, 1);
        expect_sound("sound: on a limited day", !has_any);
        set_day(LIMITED, 0);
        for (size_t n = SHARES; n <= LAST; n++) set_day(n, 0);
        mend_day();
        expect_sound("sound: with nothing traded", !has_any);
    }
}

/* A buy at 1,010 over a sell at 990, which stand until the halt's auction. */
static void run_crossing(void) {
    static const uint64_t rows[][3] = { /* time, end, sound */
        {34200, 0, 0}, {34200, 34800, 1}, {34799, 34800, 1}, {34800, 0, 0}, {41400, 0, 0}, {41400, 46800, 1},
        {46799, 46800, 1}, {46800, 0, 0}, {53819, 53820, 1}, {53819, 0, 0}, {53820, 0, 1}, {53999, 0, 1}};
    for (size_t i = 0; i < sizeof rows / sizeof rows[0]; i++) {
        open_halted(34200);
        buy(100, 1010), sell(100, 990);
        set_halt(rows[i][0], rows[i][1], 1, 0);
        expect_sound("sound: prices that cross", (int)rows[i][2]);
    }
}

/* A day has 352 bytes. It had 64 once, then 88, and then 312. */
static void run_lengths(void) {
    static const size_t lengths[] = {0, 64, 88, 312, 320, 344, 351, 353, 360};
    for (size_t i = 0; i < sizeof lengths / sizeof lengths[0]; i++) {
        open_with_first(1000, 34200);
        lend(lengths[i], lent.book_length, lent.list_length, lent.reply_length);
        expect_sound("a day of another length", 0);
        expect("a day of another length, opened", make(OPEN, 1000, 0, 0, 0, 0), 14);
    }
}

void run_halts(void) {
    run_prices();
    run_ends();
    run_orders();
    run_turns_of_thresholds();
    run_phase_7();
    run_auctions_of_halts();
    run_ends_of_second_halts();
    run_other_auctions();
    run_soundness();
    run_crossing();
    run_lengths();
}
