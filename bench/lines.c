/* Reads well-formed lines of a session from standard input, makes the call that each asks for, and prints its refusal number and the
 * 28 numbers of the screen that the day has then: tests/screens.py compares them with the desk of the tests. Day, book and trades are
 * as long as the program's. */
#include "../include/flemorix.h"
#include <inttypes.h>
#include <stdio.h>

static struct flemorix_day day;
static struct flemorix_order book[1024];
static struct flemorix_trade trades[2048];
static struct flemorix_order_reply reply;

#define BYTES(x) (uint8_t *)&(x), sizeof(x)

static uint64_t ask(const char *line) {
    uint64_t a[6] = {0};
    sscanf(line + 1, "%" SCNu64 "%" SCNu64 "%" SCNu64 "%" SCNu64 "%" SCNu64 "%" SCNu64, a, a + 1, a + 2, a + 3, a + 4, a + 5);
    switch (line[0]) {
    case 'D': return flemorix_open(BYTES(day), BYTES(book), BYTES(reply), a[0], a[1]);
    case 'T': return flemorix_clock(BYTES(day), BYTES(book), BYTES(trades), BYTES(reply), a[0]);
    case 'C': return flemorix_cancel(BYTES(day), BYTES(book), BYTES(reply), a[0], a[1]);
    default:
        return flemorix_order(BYTES(day), BYTES(book), BYTES(trades), BYTES(reply), a[0], a[1], a[2], a[3], a[4], a[5]);
    }
}

static void print_side(const struct flemorix_level *levels) {
    for (int l = 0; l < FLEMORIX_SCREEN_LEVELS; l++) printf(" %" PRIu64 " %" PRIu64, levels[l].price, levels[l].shares);
}

int main(void) {
    const struct flemorix_screen *s = &day.screen;
    char line[100];
    while (fgets(line, sizeof line, stdin)) {
        printf("%" PRIu64, ask(line));
        printf(" %" PRIu64 " %" PRIu64 " %" PRIu64 " %" PRIu64 " %" PRIu64, s->last, s->high, s->low, s->shares, s->turnover);
        print_side(s->buys);
        print_side(s->sells);
        printf(" %" PRIu64 " %" PRIu64 " %" PRId64 "\n", s->price, s->volume, s->surplus);
    }
    return 0;
}
