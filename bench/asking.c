/* Calls in few words: see asking.h. */
#include "asking.h"
#include <string.h>

_Static_assert(sizeof(struct flemorix_day) == DAY_BYTES, "the header's day is not as long as one in bytes");
_Static_assert(8 * DAY_NUMBERS == DAY_BYTES, "a day has another count of numbers");
_Static_assert(FLEMORIX_DAY_BYTES == DAY_BYTES, "the header's length of a day is not that of one in bytes");
_Static_assert(offsetof(struct flemorix_day, screen) == 8 * SCREEN, "the header's screen stands elsewhere");
_Static_assert(sizeof(struct flemorix_screen) == 8 * SCREEN_NUMBERS, "the header's screen is not as long as one in bytes");
_Static_assert(FLEMORIX_SCREEN_BYTES == 8 * SCREEN_NUMBERS, "the header's length of a screen is not that of one in bytes");
_Static_assert(offsetof(struct flemorix_day, screen.sells) == 8 * SCREEN_SELLS, "the header's sells stand elsewhere");
_Static_assert(offsetof(struct flemorix_day, screen.surplus) == 8 * SCREEN_SURPLUS, "the header's surplus stands elsewhere");
_Static_assert(offsetof(struct flemorix_day, halt_end) == 8 * HALT_END, "the header's halt_end stands elsewhere");
_Static_assert(sizeof(struct flemorix_trade) == TRADE_BYTES, "the header's trade is not as long as one in bytes");

uint64_t make(int which, uint64_t a, uint64_t b, uint64_t c, uint64_t d, uint64_t e) {
    const uint64_t asked[ASKED] = {a, b, c, d, e};
    return compare(0, which, asked);
}

uint64_t move_to(uint64_t time) { return make(CLOCK, time, 0, 0, 0, 0); }

uint64_t take_out(uint64_t account, uint64_t number) { return make(CANCEL, account, number, 0, 0, 0); }

uint64_t buy(uint64_t quantity, uint64_t price) { return make(ORDER, 0, 0, 7, quantity, price); }

uint64_t sell(uint64_t quantity, uint64_t price) { return make(ORDER, 1, 0, 8, quantity, price); }

uint64_t buy_of_kind(uint64_t kind, uint64_t account, uint64_t quantity, uint64_t limit) {
    return make(ORDER, 0, kind, account, quantity, limit);
}

uint64_t value(size_t i) { return number_at(lent.reply, i); }

struct flemorix_trade trade_at(size_t i) {
    struct flemorix_trade trade;
    memcpy(&trade, lent.list + i * sizeof trade, sizeof trade);
    return trade;
}

struct flemorix_day day_now(void) {
    struct flemorix_day day;
    memcpy(&day, lent.day, sizeof day);
    return day;
}

void set_day(size_t number, uint64_t to) { put_number(lent.day, number, to); }

void mend_day(void) {
    if (lent.day_length == DAY_BYTES) mend_screen(lent.day, lent.book, lent.book_length / 40);
}

void expect_sound(const char *name, int is_sound) {
    const uint64_t asked[ASKED] = {0};
    keep_memory();
    for (int which = ORDER; which < CALLS; which++) {
        expect(name, compare(0, which, asked) != 15, (uint64_t)is_sound);
        restore_memory();
    }
}

/* The book is in order, so the first order of a side is its best. */
uint64_t best_now(uint64_t side) {
    for (size_t p = 0; p < lent.book_length / 40; p++)
        if (number_at(lent.book, 5 * p + 4) && number_at(lent.book, 5 * p) == side) return number_at(lent.book, 5 * p + 3);
    return 0;
}

int crosses_now(void) {
    uint64_t buy = best_now(0), sell = best_now(1);
    return buy && sell && buy >= sell;
}

void open_marked(uint64_t close, uint64_t mark, uint64_t time) {
    clear_memory(0);
    lend(DAY_BYTES, 40 * 16, TRADE_BYTES * 64, 48);
    make(OPEN, close, mark, 0, 0, 0);
    move_to(time);
}
