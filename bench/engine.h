/* The day of docs/C.md a second time, in plain C, written from the rules and not from the proved code: the book sorted anew at each
 * event, price levels with queues, a hash of order numbers, and the auction by trying every price that can matter. The bench
 * compares the two. */
#ifndef ENGINE_H
#define ENGINE_H

#include <stddef.h>
#include <stdint.h>

enum { DAY_BYTES = 352, TRADE_BYTES = 48 }; /* 44 numbers, and six */

/* Lent memory: what a call reads and writes. A call that has no use for a slice does not look at it. */
struct lent {
    uint8_t *day, *book, *list, *reply; /* list: the trades, the prices, the claims or a file's records */
    size_t day_length, book_length, list_length, reply_length;
};

enum { ASKED = 6 }; /* no call is asked with more numbers */

/* The calls, each with its numbers in the order in which docs/C.md names them. They return the refusal number. */
uint64_t engine_open(struct lent *m, const uint64_t *asked);   /* close, mark */
uint64_t engine_order(struct lent *m, const uint64_t *asked);  /* side, kind, account, quantity, price, balance */
uint64_t engine_cancel(struct lent *m, const uint64_t *asked); /* account, number */
uint64_t engine_clock(struct lent *m, const uint64_t *asked);  /* time */
uint64_t engine_report(struct lent *m, const uint64_t *asked);
uint64_t engine_list(struct lent *m, const uint64_t *asked); /* price */

uint64_t engine_judge(struct lent *m, const uint64_t *asked); /* price; the list has the claims (judge.c) */

uint64_t engine_read_file(struct lent *m, const uint64_t *asked); /* nothing; the file stands for the book (files.c) */

/* On how many more small books the engine also tries all 999,999 prices, how often it then found that it had left one out, and
 * how often buys reached sells and the tie rules did not leave exactly one price. */
extern uint64_t engine_tries_left, engine_tries_differed, engine_undecided;

/* For days and books that are made by hand: puts the places in order; and counts the day's screen anew along the places, with high
 * and low as they are, or as far apart as first and last trade ask for. */
void arrange_book(uint8_t *book, size_t count);
void mend_screen(uint8_t *day, const uint8_t *book, size_t count);

/* The number at the i-th 8 bytes, least byte first. */
uint64_t number_at(const uint8_t *b, size_t i);
void put_number(uint8_t *b, size_t i, uint64_t value);

#endif
