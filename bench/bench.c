/* Runs the rules' situations, random days, days that halt, damaged ones, changed screens and day files through the exported calls and
 * through the independent engine, and compares them after every call. Prints the seeds; the last line is `N passed, M failed`.
 *
 * bench [--exactly | --walls] [--damage PART NTH] [FIRST [LAST]]: the seeds FIRST to LAST, or FIRST alone. compare.h says what the
 * options do. Without seeds all are run, and two things are tested besides: the independent engine, which tries every price on small
 * books, and what was made, days that halt, screens, claims and day files, which has to show everything often enough. */
#include "chance.h"
#include "compare.h"
#include "runs.h"
#include <stdio.h>
#include <stdlib.h>
#include <string.h>

enum { SEEDS = 900, TRIES = 100 };

static uint64_t number_in(const char *word) { return strtoull(word, NULL, 10); }

static int usage(void) {
    fprintf(stderr, "usage: bench [--exactly | --walls] [--damage PART NTH] [FIRST [LAST]]\n");
    return 2;
}

static int run(uint64_t first, uint64_t last, uint64_t tries) {
    engine_tries_left = tries;
    run_situations();
    run_halts();
    run_screens();
    run_session();
    for (uint64_t seed = first; seed <= last; seed++) {
        run_seed(seed);
        run_halting_seed(seed);
        begin_chance(seed);
        read_files(seed, chance);
    }
    print_told();
    print_halts(tries != 0);
    print_screens(tries != 0);
    if (tries) print_judged();
    if (tries) print_files();
    printf("every price tried on %llu small books\n", (unsigned long long)(tries - engine_tries_left));
    expect("books on which trying every price differed", engine_tries_differed, 0);
    expect("auctions in which buys reached sells and not exactly one price was left", engine_undecided, 0);
    printf("%llu passed, %llu failed\n", (unsigned long long)passed, (unsigned long long)failed);
    return failed != 0;
}

int main(int count, char **words) {
    int at = 1;
    if (at < count && !strcmp(words[at], "--exactly")) {
        lend_exactly();
        at++;
    } else if (at < count && !strcmp(words[at], "--walls")) {
        lend_between_walls();
        at++;
    }
    if (at + 2 < count && !strcmp(words[at], "--damage")) {
        if (!damage_expected(words[at + 1], number_in(words[at + 2]))) return usage();
        at += 3;
    }
    if (count - at > 2 || (at < count && words[at][0] == '-')) return usage();
    if (at == count) return run(1, SEEDS, TRIES);
    uint64_t first = number_in(words[at]);
    return run(first, at + 1 < count ? number_in(words[at + 1]) : first, 0);
}
