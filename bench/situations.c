/* The rehearsed situations of the rules and their whole session, with the numbers that the rules print, the edges of quantity and
 * balance, the order of the places, and the bounds of a sound day's totals. */
#include "asking.h"
#include "runs.h"

static void expect_left(const char *what, size_t i, uint64_t buyer_left, uint64_t seller_left) {
    expect(what, trade_at(i).buyer_left, buyer_left);
    expect(what, trade_at(i).seller_left, seller_left);
}

static void open_at(uint64_t close, uint64_t time) { open_marked(close, 1, time); }

/* How many prices qualify and from which on, and the report. */
static void expect_auction(const char *name, uint64_t count, uint64_t from, uint64_t price, int64_t surplus) {
    make(LIST, 0, 0, 0, 0, 0);
    expect(name, value(1), count);
    if (count) expect(name, number_at(lent.list, 0), from);
    make(REPORT, 0, 0, 0, 0, 0);
    expect(name, value(1), price);
    expect(name, value(3), (uint64_t)surplus);
}

static void run_auctions(void) {
    static const uint64_t closes_and_prices[3][2] = {{1000, 1000}, {980, 990}, {1030, 1010}};
    open_at(1000, 33300);
    expect_auction("a", 0, 0, 0, 0);
    buy(100, 990), sell(100, 1000);
    expect_auction("b", 0, 0, 0, 0);
    open_at(1000, 33300);
    buy(300, 1000), sell(100, 900);
    expect_auction("c", 1, 1000, 1000, 200);
    for (int i = 0; i < 3; i++) {
        open_at(closes_and_prices[i][0], 33300);
        buy(200, 1010), sell(200, 990);
        expect_auction("d", 21, 990, closes_and_prices[i][1], 0);
    }
    open_at(1000, 33300);
    buy(100, 1010), buy(100, 1000), sell(100, 990);
    expect_auction("e", 11, 1000, 1001, 0);
    open_at(1005, 33300);
    buy(100, 1010), buy(100, 1000), sell(100, 990), sell(100, 1001);
    expect_auction("f", 2, 1000, 1001, -100);
}

/* g, h and i: base, the side of the order that makes it, the side asked, a price inside and one outside. */
static void run_ranges(void) {
    static const uint64_t rows[3][5] = {{1050, 1, 0, 1102, 1103}, {950, 0, 1, 903, 902}, {150, 1, 0, 160, 161}};
    for (int i = 0; i < 3; i++) {
        const uint64_t *row = rows[i];
        open_at(row[0], 34200);
        make(ORDER, row[1], 0, 8, 100, row[0]);
        expect("g, h, i: outside", make(ORDER, row[2], 0, 7, 100, row[4]), 9);
        expect("g, h, i: inside", make(ORDER, row[2], 0, 7, 100, row[3]), 0);
    }
}

static void run_refusals(void) {
    open_at(1001, 33300);
    expect("j: 701", buy(100, 701), 0);
    expect("j: 700", buy(100, 700), 8);
    expect("j: 1301", sell(100, 1301), 0);
    expect("j: 1302", sell(100, 1302), 8);
    expect("99 shares", buy(99, 1000), 6);
    expect("1,000,001 shares", buy(1000001, 1000), 6);
    expect("kind 2 at 33,300", buy_of_kind(2, 7, 100, 1000), 5);
}

/* ---- odd lots */

/* Which balances a side and quantity are taken with. */
enum balances { NONE, ZERO, SAME, ANY };

static const struct {
    uint64_t side, quantity;
    enum balances with;
} lots[] = {
    {0, 0, NONE}, {0, 1, NONE}, {0, 99, NONE}, {0, 100, ZERO}, {0, 101, ZERO}, {0, 1000000, ZERO}, {0, 1000001, NONE},
    {1, 0, NONE}, {1, 1, SAME}, {1, 99, SAME}, {1, 100, ANY},  {1, 101, ANY},  {1, 1000000, ANY},  {1, 1000001, NONE},
};

static uint64_t enter(uint64_t side, uint64_t kind, uint64_t quantity, uint64_t balance, uint64_t price) {
    const uint64_t asked[ASKED] = {side, kind, 7, quantity, price, balance};
    return compare(0, ORDER, asked);
}

/* Each row with each balance, on a day with an order on either side. */
static void run_lots(uint64_t kind) {
    for (size_t i = 0; i < sizeof lots / sizeof lots[0]; i++) {
        uint64_t side = lots[i].side, quantity = lots[i].quantity;
        const uint64_t balances[] = {0, 1, 2, 98, 99, 100, 101, 102, 1000000, 1000001, UINT32_MAX, 99 + (1ull << 32), UINT64_MAX};
        open_at(1000, 34200);
        buy(300, 990), sell(300, 1000);
        for (size_t b = 0; b < sizeof balances / sizeof balances[0]; b++) {
            int taken = lots[i].with == ANY || (lots[i].with == ZERO && !balances[b]) ||
                        (lots[i].with == SAME && balances[b] == quantity);
            expect(side ? "a sell's quantity and balance" : "a buy's quantity and balance",
                   enter(side, kind, quantity, balances[b], side ? 990 : 1000), taken ? 0 : 6);
        }
    }
}

/* 5 is tested before 6, and 7, 8 and 9 after it. */
static void run_turns(void) {
    open_at(1000, 33300);
    expect("part of a balance, kind 2 at 33,300", enter(1, 2, 98, 99, 0), 5);
    expect("buy with a balance, kind 1 at 33,300", enter(0, 1, 100, 100, 0), 5);
    expect("part of a balance, price 0", enter(1, 0, 98, 99, 0), 6);
    expect("buy with a balance, price 0", enter(0, 0, 100, 100, 0), 6);
    expect("odd lot, price 0", enter(1, 0, 99, 99, 0), 7);
    expect("odd lot outside the band", enter(1, 0, 99, 99, 699), 8);
    move_to(34200);
    expect("odd lot outside the range", enter(1, 0, 99, 99, 949), 9);
    expect("odd lot inside it", enter(1, 0, 99, 99, 950), 0);
}

/* An odd lot rests, and trades when its turn comes. An account may name a balance again: nothing keeps it. */
static void run_odd_lot(void) {
    open_at(1000, 34200);
    enter(1, 0, 37, 37, 1000), enter(1, 0, 37, 37, 1000);
    expect("odd lot: resting", value(3), 37);
    expect("odd lot: left in the book", number_at(lent.book, 2), 37);
    buy(100, 1000);
    expect("odd lots: filled", value(2), 74);
    expect_left("odd lots: after the first", 0, 63, 0);
    expect_left("odd lots: after the second", 1, 26, 0);
    enter(1, 3, 37, 37, 1000);
    expect("odd lot on entry: filled", value(2), 26);
    expect("odd lot on entry: withdrawn", value(4), 11);
}

/* ---- five prices */

static void open_with_six_sells(void) {
    open_at(1000, 34200);
    for (uint64_t p = 1001; p <= 1006; p++) sell(100, p);
}

/* k and l. What rests is the only buy, so it stands first. */
static void run_five_prices(void) {
    open_with_six_sells();
    buy_of_kind(3, 7, 600, 1300);
    expect("k: filled", value(2), 500);
    expect("k: withdrawn", value(4), 100);
    expect("k: levels", value(5), 5);
    expect_left("k: left after the first trade", 0, 500, 0);
    expect_left("k: left after the last, yet to be withdrawn", 4, 100, 0);
    open_with_six_sells();
    buy_of_kind(4, 7, 600, 1300);
    expect("l: resting", value(3), 100);
    expect("l: at", number_at(lent.book, 3), 1005);
    open_with_six_sells();
    buy_of_kind(4, 7, 600, 1003);
    expect("l, limit 1003: resting", value(3), 300);
    expect("l, limit 1003: at", number_at(lent.book, 3), 1003);
}

/* ---- the order of the places */

/* The numbers in the book, place by place: those named, and from the 0 on free places. */
static void expect_places(const char *name, const uint64_t *numbers) {
    for (size_t p = 0; p < lent.book_length / 40; p++) {
        expect(name, number_at(lent.book, 5 * p + 4), *numbers);
        if (*numbers) numbers++;
    }
}

static void open_with_both_sides(void) {
    open_at(1000, 34200);
    buy(100, 990), buy(100, 991), buy(100, 990);
    sell(100, 1000), sell(100, 1001), sell(100, 1000);
}

static void run_places(void) {
    open_with_both_sides();
    expect_places("places: prices, then numbers", (uint64_t[]){2, 1, 3, 4, 6, 5, 0});
    take_out(7, 1);
    expect_places("places: without 1", (uint64_t[]){2, 3, 4, 6, 5, 0});
    buy(150, 1000);
    expect_places("places: 4 is gone, 6 in part", (uint64_t[]){2, 3, 6, 5, 0});
    sell(300, 990);
    expect_places("places: no buy is left, the rest is the best sell", (uint64_t[]){8, 6, 5, 0});
    buy(100, 985);
    expect_places("places: a buy before all sells", (uint64_t[]){9, 8, 6, 5, 0});
    open_at(1000, 33300);
    sell(300, 990), sell(100, 1020), buy(200, 1010), buy(100, 980);
    expect_places("places: before the auction", (uint64_t[]){3, 4, 1, 2, 0});
    move_to(33900);
    expect_places("places: after it", (uint64_t[]){4, 1, 2, 0});
    move_to(54000);
    expect_places("places: lapsed", (uint64_t[]){0});
}

/* Each call but an opening is answered so. */
static void expect_all(const char *name, uint64_t refusal) {
    keep_memory();
    expect(name, buy(100, 980), refusal), restore_memory();
    expect(name, take_out(8, 4), refusal), restore_memory();
    expect(name, move_to(34201), refusal), restore_memory();
    expect(name, make(REPORT, 0, 0, 0, 0, 0), refusal);
    expect(name, make(LIST, 0, 0, 0, 0, 0), refusal);
}

/* Places moved in the book 2, 1, 3 (buys at 991, 990, 990), 4, 6, 5 (sells at 1000, 1000, 1001) and ten free ones. */
static const struct {
    const char *name;
    size_t from, to;
} moves[] = {
    {"two buys exchanged", 0, 1},
    {"two buys at a price exchanged", 1, 2},
    {"the last buy behind the first sell", 2, 3},
    {"two sells at a price exchanged", 3, 4},
    {"two sells exchanged", 4, 5},
    {"a sell first", 3, 0},
    {"a sell among the buys", 5, 1},
    {"a buy among the sells", 1, 4},
    {"a buy last", 0, 5},
    {"a free place first", 6, 0},
    {"a free place between two buys", 15, 1},
    {"a free place between buys and sells", 6, 3},
    {"a free place before the last order", 6, 5},
    {"the last order behind a free place", 5, 6},
    {"a buy behind free places", 0, 9},
    {"a sell behind all free places", 3, 15},
};

static void run_disorder(void) {
    open_with_both_sides();
    for (size_t i = 0; i < sizeof moves / sizeof moves[0]; i++) {
        move_place(moves[i].from, moves[i].to);
        expect_all(moves[i].name, 15);
        move_place(moves[i].to, moves[i].from);
        expect_all("in order again", 0);
    }
    exchange_numbers(1, 2);
    expect_all("numbers exchanged at a price of buys", 15);
    exchange_numbers(1, 2), exchange_numbers(3, 4);
    expect_all("numbers exchanged at a price of sells", 15);
    exchange_numbers(3, 4), exchange_numbers(0, 1);
    expect_all("numbers exchanged between two prices", 0);
}

/* ---- totals */

/* Of a day on which three numbers are issued and 100 shares rest: twice the shares traded and these are at most 3,000,000. */
static const struct {
    const char *name;
    uint64_t shares, turnover, first, last;
    int is_sound;
} totals[] = {
    {"totals: as few as can be", 1, 1, 1, 1, 1},
    {"totals: as many shares as can be", 1499950, 1499950, 1000, 1000, 1},
    {"totals: one share more", 1499951, 1499951, 1000, 1000, 0},
    {"totals: as many as without the resting ones", 1500000, 1500000, 1000, 1000, 0},
    {"totals: too many by themselves", 1500001, 1500001, 1000, 1000, 0},
    {"totals: shares of which twice is 0", 1ull << 63, 1ull << 63, 1000, 1000, 0},
    {"totals: shares of which twice is 2", (1ull << 63) + 1, UINT64_MAX, 1000, 1000, 0},
    {"totals: as much money as can be", 1499950, 1499950 * 999999ull, 1000, 1000, 1},
    {"totals: one fen more", 1499950, 1499950 * 999999ull + 1, 1000, 1000, 0},
    {"totals: one fen too few", 1499950, 1499949, 1000, 1000, 0},
    {"totals: the highest prices", 1, 1, 999999, 999999, 1},
    {"totals: first above all prices", 1, 1, 1000000, 1000, 0},
    {"totals: last above all prices", 1, 1, 1000, 1000000, 0},
    {"totals: no first", 1, 1, 0, 1000, 0},
    {"totals: no last", 1, 1, 1000, 0, 0},
    {"totals: nothing traded", 0, 0, 0, 0, 1},
    {"totals: money without shares", 0, 1, 0, 0, 0},
    {"totals: first without shares", 0, 0, 1000, 0, 0},
    {"totals: last without shares", 0, 0, 0, 1000, 0},
};

static void run_totals(void) {
    for (size_t i = 0; i < sizeof totals / sizeof totals[0]; i++) {
        open_at(1000, 34200);
        sell(100, 1000), buy(100, 1000), buy(100, 990);
        set_day(SHARES, totals[i].shares), set_day(TURNOVER, totals[i].turnover);
        set_day(FIRST, totals[i].first), set_day(LAST, totals[i].last);
        mend_day();
        expect_sound(totals[i].name, totals[i].is_sound);
    }
}

void run_situations(void) {
    run_auctions();
    run_ranges();
    run_refusals();
    for (uint64_t kind = 0; kind < 5; kind++) run_lots(kind);
    run_turns();
    run_odd_lot();
    run_five_prices();
    run_places();
    run_disorder();
    run_totals();
}

void run_session(void) {
    open_at(1000, 33300);
    expect("session: buy", buy(200, 1010), 0);
    expect("session: sell", sell(300, 990), 0);
    move_to(33600);
    expect("session: locked", take_out(7, 1), 4);
    move_to(34200);
    expect("session: trades", value(2), 1);
    expect("session: price", trade_at(0).price, 990);
    expect("session: quantity", trade_at(0).quantity, 200);
    expect("session: buyer", trade_at(0).buyer, 1);
    expect("session: seller", trade_at(0).seller, 2);
    expect_left("session: left after the auction", 0, 0, 100);
    buy_of_kind(1, 9, 150, 1300);
    expect("session: filled", value(2), 100);
    expect("session: resting", value(3), 50);
    expect("session: levels", value(5), 1);
    expect_left("session: left after the second trade", 0, 50, 0);
    take_out(9, 3);
    expect("session: withdrawn", value(1), 50);
    expect("session: gone", take_out(9, 3), 12);
    move_to(54000);
    expect("session: closed", value(1), 0);
}
