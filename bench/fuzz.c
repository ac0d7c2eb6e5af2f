/* The fuzz target: an input is read as a small book and a list of steps. Each step is a call, made by both engines and compared,
 * or it sets a length or a number, or it damages day or book for one call, or it counts the screen anew. A difference aborts. The
 * proved library is linked as doors/library builds it, so libFuzzer counts the branches of the independent engine. bench/corpus_maker
 * spells the steps. */
#include "compare.h"
#include <stdio.h>
#include <stdlib.h>

enum { STEPS = 64 };

/* ---- the input, from front to back; zeros after its end */

static const uint8_t *input;
static size_t input_left;

static uint64_t byte(void) {
    if (!input_left) return 0;
    input_left--;
    return *input++;
}

static uint64_t whole_number(int bytes) {
    uint64_t value = 0;
    for (int i = 0; i < bytes; i++) value |= byte() << 8 * i;
    return value;
}

/* A number on an edge, or one of 1, 3 or 8 bytes. */
static uint64_t number(void) {
    static const uint64_t edges[] = {0,     1,     2,     4,     99,    100,   33300,  33600,   33900,   34200,      41400,
                                     46800, 53819, 53820, 54000, 86399, 86400, 999999, 1000000, 1000001, UINT32_MAX, UINT64_MAX,
                                     34800, 40800, 41399, 47400, 53220};
    size_t count = sizeof edges / sizeof edges[0];
    uint64_t chosen = byte();
    if (chosen < count) return edges[chosen];
    return whole_number(chosen % 3 == 0 ? 1 : chosen % 3 == 1 ? 3 : 8);
}

/* ---- steps */

static uint64_t close_price;

static uint64_t price(void) { return close_price - 128 + byte(); }

static void check(int which, const uint64_t *asked) {
    compare(0, which, asked);
    if (!failed) return;
    printf("asked:");
    for (int i = 0; i < ASKED; i++) printf(" %llu", (unsigned long long)asked[i]);
    printf("\n");
    fflush(stdout);
    abort();
}

/* An order that is likely to be taken: side and kind in one byte, 100 to 1,600 shares and 0 to 3 more. The last byte is 0 for no
 * balance; 1 to 101 for so many shares with that balance, or with one beside it where the byte of the shares has its highest bit;
 * and 90 more than the balance above that. */
static void enter_likely(void) {
    uint64_t chosen = byte(), shares = byte(), at = price(), lot = byte();
    uint64_t quantity = 100 * (1 + shares % 16) + shares / 64, balance = lot > 101 ? lot - 90 : lot ^ (lot ? shares / 128 : 0);
    if (lot >= 1 && lot <= 101) quantity = lot;
    const uint64_t asked[ASKED] = {chosen % 2, chosen / 2 % 8 < 5 ? chosen / 2 % 8 : 0, 1 + chosen / 16 % 4, quantity, at,
                                   balance};
    check(ORDER, asked);
}

static void call_with_any_numbers(void) {
    int which = (int)(byte() % CALLS);
    uint64_t asked[ASKED];
    for (int i = 0; i < ASKED; i++) asked[i] = number();
    check(which, asked);
}

/* Takes out what stands at a place. */
static void cancel_place(void) {
    size_t places = lent.book_length / 40;
    if (!places) return;
    size_t place = byte() % places;
    const uint64_t asked[ASKED] = {number_at(lent.book, 5 * place + 1), number_at(lent.book, 5 * place + 4)};
    check(CANCEL, asked);
}

static void move_clock(void) {
    static const uint64_t times[] = {33300, 33600, 33900, 34200, 41400, 46800, 53820, 54000,
                                     34799, 34800, 40799, 40800, 41399, 47400, 53219, 53220};
    const uint64_t asked[ASKED] = {times[byte() % 16]};
    check(CLOCK, asked);
}

static void ask(void) {
    const uint64_t asked[ASKED] = {price()};
    check(byte() % 2 ? REPORT : LIST, asked);
}

/* The lengths of trade or price list and of the reply, for the calls that follow. */
static void set_room(void) {
    size_t list = whole_number(2), reply = byte();
    lend(lent.day_length, lent.book_length, list, reply);
}

static void set_lengths(void) {
    size_t day = byte(), book = 3 * whole_number(2);
    lend(day % 2 ? DAY_BYTES : day, book, lent.list_length, lent.reply_length);
}

static void set_number(void) {
    uint64_t chosen = byte(), places = lent.book_length / 40;
    if (chosen < 128 || !places)
        put_number(lent.day, chosen % (DAY_BYTES / 8), number());
    else
        put_number(lent.book, chosen % (5 * places), number());
}

static void set_byte(void) {
    size_t at = whole_number(2);
    uint64_t bits = byte();
    if (at < lent.book_length) lent.book[at] ^= (uint8_t)bits;
}

/* Two places named by their bytes; the book may be out of order then. */
static void change_places(void (*change)(size_t, size_t)) {
    uint64_t p = byte(), q = byte(), places = lent.book_length / 40;
    if (places) change(p % places, q % places);
}

static void shift_place(void) { change_places(move_place); }

static void swap_numbers(void) { change_places(exchange_numbers); }

/* After a number has been set: so that it is not the screen that is wrong. */
static void count_anew(void) {
    if (lent.day_length == DAY_BYTES) mend_screen(lent.day, lent.book, lent.book_length / 40);
}

typedef void step(void);

static step *const call_steps[] = {enter_likely, cancel_place, move_clock, ask, call_with_any_numbers};
static step *const damages[] = {set_lengths, set_number, set_byte, shift_place, swap_numbers};

/* A call with day, book or their lengths damaged for this one call, and the screen as it was or as it is counted then. */
static void call_damaged(void) {
    uint64_t chosen = byte();
    keep_memory();
    damages[chosen % 5]();
    if (chosen / 25 % 2) count_anew();
    call_steps[chosen / 5 % 5]();
    restore_memory();
}

static void take_step(uint64_t chosen) {
    static step *const steps[] = {enter_likely, cancel_place, move_clock,   ask,       call_with_any_numbers,
                                  set_room,     set_number,   call_damaged, count_anew};
    steps[chosen % 9]();
}

/* ---- an input */

int LLVMFuzzerTestOneInput(const uint8_t *data, size_t length) {
    static const size_t sizes[] = {1, 2, 3, 5, 8, 16, 30, 64};
    static const uint64_t closes[] = {1000, 150, 999999, 1};
    input = data;
    input_left = length;
    uint64_t chosen = byte();
    close_price = closes[chosen / 8 % 4];
    clear_memory(0x5a);
    lend(DAY_BYTES, 40 * sizes[chosen % 8] + chosen / 64, 64 * TRADE_BYTES, 48);
    const uint64_t opening[ASKED] = {close_price, chosen / 32 % 2};
    check(OPEN, opening);
    for (int i = 0; i < STEPS && input_left; i++) take_step(byte());
    return 0;
}
