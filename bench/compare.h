/* The calls of the proved engine and of the independent one, made on the same lent memory and compared: the returned number,
 * every byte of every slice, and guard bytes around each slice. */
#ifndef COMPARE_H
#define COMPARE_H

#include "engine.h"

enum { LONGEST = 200000 }; /* no slice is longer */

/* The calls on a day, and the one that reads a day file, for which the file stands where the others have the book. */
enum { OPEN, ORDER, CANCEL, CLOCK, REPORT, LIST, JUDGE, CALLS, READ_FILE = CALLS, ALL_CALLS };

typedef uint64_t call(struct lent *m, const uint64_t *asked);

struct engines {
    const char *name;
    call *proved, *independent;
};

extern const struct engines calls[ALL_CALLS];

/* The memory with which a run goes on from call to call: the independent engine writes it, the proved one gets a copy. */
extern struct lent lent;

/* Lends so many bytes of each slice from now on. What stands in them stays. */
void lend(size_t day, size_t book, size_t list, size_t reply);

/* Fills all memory, guards included, with numbers of no meaning, or with one byte. */
void fill_memory(uint64_t (*next)(void));
void clear_memory(uint8_t with);

/* Keeps what is lent, and lends it again as it was. */
void keep_memory(void);
void restore_memory(void);

/* Whether day, book and list are still as they were kept. */
int is_as_kept(void);

/* Put the lent book out of order: a place goes elsewhere, and those between close up; or two places exchange their numbers. */
void move_place(size_t from, size_t to);
void exchange_numbers(size_t p, size_t q);

/* From now on the proved calls get heap blocks of exactly the lent lengths, without guards. Valgrind then sees every access
 * outside a slice. */
void lend_exactly(void);

/* For a machine without valgrind: from now on each slice that the proved calls get ends right before a page that may not be touched
 * or, in about every other call, begins right behind one. An access there is a crash. */
void lend_between_walls(void);

/* Makes a call with both engines, counts it as passed or failed, and says what differs. Returns the refusal number expected. */
uint64_t compare(uint64_t seed, int which, const uint64_t *asked);

/* Counts a number that the rules print as passed or failed. */
void expect(const char *what, uint64_t got, uint64_t want);

extern uint64_t passed, failed;

/* How often each call came to each refusal number. */
void print_told(void);

/* For the bench's test of itself: flips one byte of what is expected where this part of a result comes up the nth time. The
 * parts: number, day (all but its screen), screen, book, trades, prices, file, records, reply, guard, printed (a number that the
 * rules print). Returns 0 for any other word. */
int damage_expected(const char *part, uint64_t nth);

#endif
