/* What the random days have shown of halts: each call that is made is looked at with the day before and after it, and counted under
 * every sight that it gives. A maker of days that misses one is seen so. */
#ifndef SIGHTS_H
#define SIGHTS_H

#include <stdint.h>

/* Around a call: keeps the day and the best prices before it; counts what the call has shown. */
void before_call(void);
void after_call(int which, const uint64_t *asked, uint64_t refusal);

/* Prints each sight and its count. Where all seeds have been run, each has to be there often enough. */
void print_sights(int all_seeds);

#endif
