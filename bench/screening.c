/* Single numbers of a sound day's screen, changed: every call is refused then and leaves all memory, but for a high and a low that
 * are further apart. How often each number was changed, and in which phase, is counted. */
#include "asking.h"
#include "chance.h"
#include "runs.h"
#include "views.h"
#include <stdio.h>

static uint64_t changed[SCREEN_NUMBERS], changed_in[8], enclosing, not_enclosing, surpluses[3]; /* below 0, 0 and above */

static size_t phase_now(void) {
    const struct flemorix_day now = day_now();
    static const uint64_t from[] = {33300, 33600, 33900, 34200, 41400, 46800, 53820, 54000};
    static const size_t phases[] = {0, 1, 2, 3, 4, 5, 4, 6, 0};
    size_t row = 0;
    while (row < 8 && now.time >= from[row]) row++;
    return phases[row] == 4 && now.halt_end ? 7 : phases[row];
}

/* Only high and low have a say of their own: they need but enclose first and last. */
static int may_stand(size_t number) {
    const struct flemorix_day d = day_now();
    const uint64_t high = d.screen.high, low = d.screen.low;
    if (number != SCREEN_HIGH && number != SCREEN_LOW) return 0;
    int encloses = low <= d.first && d.first <= high && low <= d.last && d.last <= high;
    int may = d.shares ? encloses : !high && !low;
    *(may ? &enclosing : &not_enclosing) += 1;
    return may;
}

static void expect_refused(uint64_t seed, size_t number, int may) {
    const uint64_t asked[ASKED] = {day_now().time};
    keep_memory();
    for (int which = ORDER; which < CALLS; which++) {
        uint64_t refusal = compare(seed, which, asked);
        expect("a number of the screen changed: 15", refusal == 15, (uint64_t)!may);
        if (!may) expect("a number of the screen changed: all is left", (uint64_t)is_as_kept(), 1);
        restore_memory();
    }
    changed[number - SCREEN]++;
    changed_in[phase_now()]++;
}

static void change_number(uint64_t seed, size_t number, uint64_t to) {
    uint64_t was = number_at(lent.day, number);
    if (to == was) return;
    if (number == SCREEN_SURPLUS) surpluses[was ? (int64_t)was > 0 ? 2 : 0 : 1]++;
    set_day(number, to);
    expect_refused(seed, number, may_stand(number));
    set_day(number, was);
}

/* Others than the number, by the way in which they are wrong: one too many or too few, 0, 1, its negative, another in one bit, the
 * largest, and its neighbour on the screen. */
enum { CHANGES = 10 };

static uint64_t changed_to(size_t number, size_t way) {
    uint64_t was = number_at(lent.day, number), next = number_at(lent.day, number + 1 < HALT_END ? number + 1 : SCREEN);
    const uint64_t all[CHANGES] = {was + 1,          was - 1,          0,         1,          0 - was,
                                   was ^ 1ull << 32, was ^ 1ull << 63, was ^ 256, UINT64_MAX, next};
    return all[way];
}

static int is_sound_now(uint64_t seed) {
    const uint64_t asked[ASKED] = {0};
    return lent.day_length == DAY_BYTES && !compare(seed, REPORT, asked);
}

void change_each_number(uint64_t seed) {
    expect("the screen's numbers: the day is sound", (uint64_t)is_sound_now(seed), 1);
    for (size_t number = SCREEN; number < HALT_END; number++)
        for (size_t way = 0; way < CHANGES; way++) change_number(seed, number, changed_to(number, way));
}

void change_one_number(uint64_t seed) {
    size_t number = SCREEN + chance(SCREEN_NUMBERS), way = chance(CHANGES);
    if (is_sound_now(seed)) change_number(seed, number, changed_to(number, way));
}

/* ---- counts */

static void print_count(const char *what, uint64_t count, uint64_t least, int all_seeds) {
    printf("screens: %s: %llu times\n", what, (unsigned long long)count);
    if (all_seeds) expect(what, count >= least, 1);
}

void print_screens(int all_seeds) {
    char name[40];
    print_views(all_seeds);
    for (size_t n = 0; n < SCREEN_NUMBERS; n++) {
        snprintf(name, sizeof name, "number %zu changed", n + 1);
        print_count(name, changed[n], 200, all_seeds);
    }
    for (size_t phase = 0; phase < 8; phase++) {
        snprintf(name, sizeof name, "a number changed in phase %zu", phase);
        print_count(name, changed_in[phase], 500, all_seeds);
    }
    print_count("a surplus below 0 changed", surpluses[0], 50, all_seeds);
    print_count("no surplus changed", surpluses[1], 50, all_seeds);
    print_count("a surplus above 0 changed", surpluses[2], 50, all_seeds);
    print_count("high and low that enclose first and last", enclosing, 100, all_seeds);
    print_count("high and low that do not", not_enclosing, 100, all_seeds);
}
