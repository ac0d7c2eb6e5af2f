/* The calls of Flemorix for C and C++. What each promises is proved; docs/C.md has an example, and says how day, book, trades,
 * prices and replies lie in memory.
 *
 * Every slice is a pointer and a length in bytes. Any length is taken, also 0. The slices of one call must not overlap.
 * Every call returns its refusal number, 0 where it is accepted, and writes its reply to the lent reply buffer as numbers of
 * 8 bytes, as many whole ones as the buffer holds: the refusal number first, then the values named below, zeros after a
 * refusal. A refused call leaves day, book, trades, prices and records as they were. A call takes up to half a megabyte of stack, and
 * nothing from the heap. There are no globals: calls on different memory may run at once in different threads. */
#ifndef FLEMORIX_H
#define FLEMORIX_H

#include <stddef.h>
#include <stdint.h>

#ifdef __cplusplus
extern "C" {
#endif

/* A book has 1 to so many places. */
#define FLEMORIX_MOST_PLACES 4096

/* A screen shows so many prices a side, and no more. */
#define FLEMORIX_SCREEN_LEVELS 5

/* A day has so many bytes, no more and no less: sizeof (struct flemorix_day). Its screen has so many of them: sizeof
 * (struct flemorix_screen). */
#define FLEMORIX_DAY_BYTES 352
#define FLEMORIX_SCREEN_BYTES 224

/* A price of one side, and all its shares there. Both are 0 where a side has fewer prices than the screen has room for. */
struct flemorix_level {
    uint64_t price;
    uint64_t shares;
};

/* The public screen: what a fresh count over the book and the day's trades gives after each accepted opening, order, cancel and
 * move of the clock; a refused one leaves it. Read it and don't write it: a screen that differs from book and day in one number is
 * 15. Price, volume and surplus are those of flemorix_report in the opening and in the closing call, phases 1, 2 and 6, and 0 in
 * every other phase, also in a halt. */
struct flemorix_screen {
    uint64_t last;     /* price of the last trade, 0 while there is none */
    uint64_t high;     /* highest price of a trade, 0 while there is none */
    uint64_t low;      /* lowest price of a trade, 0 while there is none */
    uint64_t shares;   /* shares traded */
    uint64_t turnover; /* fen traded */
    struct flemorix_level buys[FLEMORIX_SCREEN_LEVELS];  /* best, that is highest, price first */
    struct flemorix_level sells[FLEMORIX_SCREEN_LEVELS]; /* best, that is lowest, price first */
    uint64_t price;    /* of an auction held now, 0 where none qualifies */
    uint64_t volume;   /* shares that it would trade */
    int64_t surplus;   /* demand minus supply at the price */
};

/* A day. All zeros is no day: flemorix_open makes one. The three numbers behind the screen tell of halts, which only a day
 * without a price band has: trading stops for ten minutes at a trade 30% away from the day's first price, and at one 60% away, each once a day. */
struct flemorix_day {
    uint64_t close;    /* the previous close, in fen */
    uint64_t limited;  /* 1 on a day with a price band, else 0 */
    uint64_t time;     /* seconds after midnight */
    uint64_t issued;   /* order numbers issued */
    uint64_t shares;   /* shares traded */
    uint64_t turnover; /* fen traded */
    uint64_t first;    /* price of the first trade, 0 while there is none */
    uint64_t last;     /* price of the last trade, 0 while there is none */
    struct flemorix_screen screen;
    uint64_t halt_end; /* the second at which the halt that runs ends with an auction, 0 while none runs */
    uint64_t used_30;  /* 1 once a trade 30% or more away from the first has had its halt, else 0 */
    uint64_t used_60;  /* 1 once a trade 60% or more away has; then used_30 is 1 too */
    uint64_t fixed_issued;  /* of fixed-price trading after the close: numbers issued, */
    uint64_t fixed_shares;  /* shares traded, */
    uint64_t fixed_money;   /* and fen traded; all 0 on a day that has no such orders */
    uint64_t blocks_issued; /* of block trades: declaration numbers issued, */
    uint64_t blocks_shares; /* and shares confirmed; both 0 on a day that has none */
};

/* The calls read and write these bytes: a compiler that lays the structs out otherwise says so here. */
#if defined(__cplusplus) && __cplusplus >= 201103L
static_assert(sizeof(struct flemorix_screen) == FLEMORIX_SCREEN_BYTES, "a screen is laid out otherwise");
static_assert(sizeof(struct flemorix_day) == FLEMORIX_DAY_BYTES, "a day is laid out otherwise");
#elif !defined(__cplusplus) && defined(__STDC_VERSION__) && __STDC_VERSION__ >= 201112L
_Static_assert(sizeof(struct flemorix_screen) == FLEMORIX_SCREEN_BYTES, "a screen is laid out otherwise");
_Static_assert(sizeof(struct flemorix_day) == FLEMORIX_DAY_BYTES, "a day is laid out otherwise");
#endif

/* A place of the book. A free place is all zeros. The places stand in order: buys from best to worst, then sells from best to
 * worst, free places last; at one price the lower number first. An order's place changes from call to call: its number names it. */
struct flemorix_order {
    uint64_t side; /* 0 buys, 1 sells */
    uint64_t account;
    uint64_t left; /* shares that have not traded */
    uint64_t price;
    uint64_t number;
};

/* A trade. Buyer and seller are order numbers. What is left is of the whole order, right after this trade: in an auction also the
 * shares that get no turn in it, on entry also those that rest or are withdrawn afterwards. */
struct flemorix_trade {
    uint64_t price;
    uint64_t quantity;
    uint64_t buyer;
    uint64_t seller;
    uint64_t buyer_left;
    uint64_t seller_left;
};

enum flemorix_side { FLEMORIX_BUY = 0, FLEMORIX_SELL = 1 };

enum flemorix_kind {
    FLEMORIX_LIMIT = 0,              /* trades while prices meet, the remainder rests */
    FLEMORIX_OPPOSITE_BEST = 1,      /* at the other side's best on entry, then as a limit order */
    FLEMORIX_OWN_BEST = 2,           /* at its own side's best, then as a limit order */
    FLEMORIX_FIVE_BEST_WITHDRAW = 3, /* within the five best prices, the remainder is withdrawn */
    FLEMORIX_FIVE_BEST_REST = 4,     /* within the five best prices, the remainder rests */
};

enum flemorix_phase {
    FLEMORIX_CLOSED = 0,         /* before 9:15 and from 15:00 on */
    FLEMORIX_OPENING_CALL = 1,   /* from 9:15 */
    FLEMORIX_OPENING_LOCKED = 2, /* from 9:20: no cancels */
    FLEMORIX_QUIET = 3,          /* from 9:25 */
    FLEMORIX_CONTINUOUS = 4,     /* from 9:30 and from 13:00 */
    FLEMORIX_NOON = 5,           /* from 11:30 */
    FLEMORIX_CLOSING_CALL = 6,   /* from 14:57: no cancels */
    FLEMORIX_HALTED = 7,         /* in place of 4 while a halt runs: limit orders, which rest, and cancels */
};

enum flemorix_refusal {
    FLEMORIX_ACCEPTED = 0,
    FLEMORIX_TIME = 1,       /* time above 86,399 or before the day's time */
    FLEMORIX_FORM = 2,       /* side not 0, 1, or kind not 0 to 4 */
    FLEMORIX_ACCOUNT = 3,    /* order account 0 */
    FLEMORIX_PHASE = 4,      /* the phase takes no order, or no cancel */
    FLEMORIX_KIND = 5,       /* kind 1 to 4 outside phase 4 or on an unlimited day */
    FLEMORIX_QUANTITY = 6,   /* quantity not 100 to 1,000,000, nor all of a sell's balance below 100; or a buy with a balance */
    FLEMORIX_PRICE = 7,      /* price not 1 to 999,999 */
    FLEMORIX_BAND = 8,       /* outside the band */
    FLEMORIX_RANGE = 9,      /* outside the order range */
    FLEMORIX_FULL = 10,      /* no free place, even if it would trade */
    FLEMORIX_NUMBERS = 11,   /* 999,999 numbers issued */
    FLEMORIX_UNKNOWN = 12,   /* no live order has this number and account */
    FLEMORIX_ROOM = 13,      /* the event's trades outnumber the lent trade list */
    FLEMORIX_OPENING = 14,   /* opening: close not 1 to 999,999, mark not 0 or 1, places not 1 to 4,096, or day not 352 bytes */
    FLEMORIX_UNSOUND = 15,   /* day not sound or not 352 bytes, another screen, book out of order, or places not 1 to 4,096 */
    FLEMORIX_CHECK = 24,     /* day file: a block's check is wrong */
    FLEMORIX_BLOCK = 25,     /* day file: a block's number is not its place */
    FLEMORIX_LAYOUT = 26,    /* day file: any other break of the layout, a tail short of 512 bytes too */
};

/* The replies, one for each call: a buffer may be one of these. The values are 0 where the call is refused. */
struct flemorix_open_reply {
    uint64_t refusal;
};

struct flemorix_order_reply {
    uint64_t refusal;
    uint64_t number;    /* the order's number, to cancel it by */
    uint64_t filled;    /* shares that traded on entry */
    uint64_t resting;   /* shares that rest in the book */
    uint64_t withdrawn; /* shares that were withdrawn */
    uint64_t levels;    /* different prices of its trades */
};

struct flemorix_cancel_reply {
    uint64_t refusal;
    uint64_t shares; /* shares withdrawn */
};

struct flemorix_clock_reply {
    uint64_t refusal;
    uint64_t phase;  /* of the new time */
    uint64_t trades; /* how many stand at the front of the trade list */
};

struct flemorix_report_reply {
    uint64_t refusal;
    uint64_t price;
    uint64_t volume;
    int64_t surplus; /* demand minus supply at the price */
};

struct flemorix_list_reply {
    uint64_t refusal;
    uint64_t count; /* prices written */
    uint64_t next;  /* the next one due, 0 where there is none */
};

/* A trade as another engine claims it. */
struct flemorix_claim {
    uint64_t shares;
    uint64_t buyer;  /* the numbers of the two orders */
    uint64_t seller;
};

struct flemorix_judge_reply {
    uint64_t refusal;
    uint64_t yes; /* 1 or 0 */
};

/* A record of a day file: an event in 20 bytes. Side and kind are those of an order, 0 in the others; so are the numbers that an event
 * does not have. */
struct flemorix_record {
    uint8_t event;
    uint8_t side;
    uint8_t kind;
    uint8_t zero;
    uint32_t numbers[4]; /* open: close, mark; clock: time; order: account, quantity, price, balance; cancel: account, number */
};

enum flemorix_event { FLEMORIX_EVENT_OPEN = 1, FLEMORIX_EVENT_CLOCK = 2, FLEMORIX_EVENT_ORDER = 3, FLEMORIX_EVENT_CANCEL = 4 };

struct flemorix_read_file_reply {
    uint64_t refusal;
    uint64_t records; /* how many the file has, also where the list is too short for them */
};

/* Opens a day: every place of the book becomes free, and the day's bytes are the new day. Reply: the refusal alone. 14. */
uint64_t flemorix_open(uint8_t *day, size_t day_length, uint8_t *book, size_t book_length, uint8_t *reply,
                       size_t reply_length, uint64_t close, uint64_t mark);

/* Enters an order: side 0 buys, 1 sells; for kinds 1 to 4 the price is the protection limit. The balance is what a seller's account
 * has of the share: a sell of 1 to 99 is taken where it equals the balance, one of 100 and more with any. A buy has 0 there. Its
 * trades stand at the front of the trade list, the rest of which stays. Once it is done, a halt may run: the day's halt_end tells.
 * Reply: number, filled, resting, withdrawn, levels. 15, 2 to 11, 13. */
uint64_t flemorix_order(uint8_t *day, size_t day_length, uint8_t *book, size_t book_length, uint8_t *trades,
                        size_t trades_length, uint8_t *reply, size_t reply_length, uint64_t side, uint64_t kind,
                        uint64_t account, uint64_t quantity, uint64_t price, uint64_t balance);

/* Takes out the live order with this number and account. Of the day the screen changes, and nothing else. Reply: the shares
 * withdrawn. 15, 4, 12. */
uint64_t flemorix_cancel(uint8_t *day, size_t day_length, uint8_t *book, size_t book_length, uint8_t *reply,
                         size_t reply_length, uint64_t account, uint64_t number);

/* Moves the clock, and holds the auctions that it passes, in time order: the opening one, the one that ends a halt, and the closing
 * one, after which the book is empty. Their trades stand at the front of the trade list. Reply: the phase of the new time, and how
 * many trades. 15, 1, 13. */
uint64_t flemorix_clock(uint8_t *day, size_t day_length, uint8_t *book, size_t book_length, uint8_t *trades,
                        size_t trades_length, uint8_t *reply, size_t reply_length, uint64_t time);

/* What an auction held now would do. Reply: price, volume, and surplus in two's complement; all 0 where no price qualifies.
 * 15. */
uint64_t flemorix_report(const uint8_t *day, size_t day_length, const uint8_t *book, size_t book_length, uint8_t *reply,
                         size_t reply_length);

/* Writes the qualifying prices from the asked price upward to the front of the lent list, as many as fit. Reply: how many, and
 * the next one due or 0. 15. */
uint64_t flemorix_list(const uint8_t *day, size_t day_length, const uint8_t *book, size_t book_length, uint8_t *prices,
                       size_t prices_length, uint8_t *reply, size_t reply_length, uint64_t asked);

/* Judges a claimed auction, held now on this day and book: its price, and a list of claims of 24 bytes each. Bytes behind the last
 * whole claim are not read. Reply: 1 for yes, 0 for no. 15. */
uint64_t flemorix_judge(const uint8_t *day, size_t day_length, const uint8_t *book, size_t book_length, const uint8_t *claims,
                        size_t claims_length, uint8_t *reply, size_t reply_length, uint64_t price);

/* Reads a day file (docs/DAYFILE.md) and writes its records, 20 bytes each, in their order to the front of the lent list, as many whole ones
 * as fit; the rest of the list stays. A refused file writes none. Reply: how many records the file has. 24, 25, 26. */
uint64_t flemorix_read_file(const uint8_t *file, size_t file_length, uint8_t *records, size_t records_length, uint8_t *reply,
                            size_t reply_length);

#ifdef __cplusplus
}
#endif

#endif
