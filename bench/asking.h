/* Calls and answers in few words, for what the bench writes out by hand. Each call is compared; it returns the refusal number. */
#ifndef ASKING_H
#define ASKING_H

#include "../include/flemorix.h"
#include "compare.h"

uint64_t make(int which, uint64_t a, uint64_t b, uint64_t c, uint64_t d, uint64_t e);

uint64_t move_to(uint64_t time);

uint64_t take_out(uint64_t account, uint64_t number);

/* Limit orders: account 7 buys, account 8 sells. */
uint64_t buy(uint64_t quantity, uint64_t price);
uint64_t sell(uint64_t quantity, uint64_t price);

/* A buy of one of the four market kinds. */
uint64_t buy_of_kind(uint64_t kind, uint64_t account, uint64_t quantity, uint64_t limit);

/* The values of a reply, from 1 on. */
uint64_t value(size_t i);

/* A trade of the list, and the day, as the header names their numbers. */
struct flemorix_trade trade_at(size_t i);
struct flemorix_day day_now(void);

/* Where the numbers of a day stand, for days that are made or damaged by hand. */
enum {
    CLOSE, LIMITED, TIME, ISSUED, SHARES, TURNOVER, FIRST, LAST,
    SCREEN, SCREEN_LAST = SCREEN, SCREEN_HIGH, SCREEN_LOW, SCREEN_SHARES, SCREEN_TURNOVER,
    SCREEN_BUYS, SCREEN_SELLS = SCREEN_BUYS + 10, /* five times price and shares each */
    SCREEN_PRICE = SCREEN_SELLS + 10, SCREEN_VOLUME, SCREEN_SURPLUS,
    HALT_END, USED_30, USED_60,
    FIXED_ISSUED, FIXED_SHARES, FIXED_MONEY, BLOCKS_ISSUED, BLOCKS_SHARES, DAY_NUMBERS
};

enum { SCREEN_NUMBERS = HALT_END - SCREEN };

void set_day(size_t number, uint64_t to);

/* Counts the screen anew, after a day or a book has been changed by hand, so that it is not the screen that is wrong with them. */
void mend_day(void);

/* Each call but an opening tells 15, or none does. Leaves all as it was. */
void expect_sound(const char *name, int is_sound);

/* The best price of a side of the lent book, 0 where it has no order; and whether its buys reach its sells. */
uint64_t best_now(uint64_t side);
int crosses_now(void);

/* A day on sixteen places with this mark, and its clock moved. */
void open_marked(uint64_t close, uint64_t mark, uint64_t time);

#endif
