/* What the bench runs. */
#ifndef RUNS_H
#define RUNS_H

#include <stdint.h>

/* By hand, with the numbers that the rules print. */
void run_situations(void);
void run_halts(void);
void run_screens(void);
void run_session(void);

/* A random day, and one that halts. */
void run_seed(uint64_t seed);
void run_halting_seed(uint64_t seed);

/* What the days that halt have shown; where all seeds have been run, each thing often enough. */
void print_halts(int all_seeds);

/* On the day and the book that are lent, which are sound: each number of the screen becomes each of several others, or one of them
 * one other. Then each call but an opening is 15 and leaves all memory; high and low may also be further apart. */
void change_each_number(uint64_t seed);
void change_one_number(uint64_t seed);

/* What the random days have shown on their screens, and how often each number was changed; where all seeds have been run, each
 * often enough. */
void print_screens(int all_seeds);

/* Asks both judges with lists of claims of every kind, on the day and the book that are lent. */
void judge_lists(uint64_t seed, uint64_t (*draw)(uint64_t n));

/* How many lists of each kind were judged; a kind that never came up is a failure. */
void print_judged(void);

/* Asks both readers with day files, right ones and ones with each fault, and with lists of every length. */
void read_files(uint64_t seed, uint64_t (*draw)(uint64_t n));

/* How many files of each kind were read; a kind that came up too rarely is a failure. */
void print_files(void);

#endif
