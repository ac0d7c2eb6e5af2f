/* What the random days have shown on their screens: each call that is made is looked at with the day before and after it, and
 * counted under every view that it gives. A maker of days that misses one is seen so. */
#ifndef VIEWS_H
#define VIEWS_H

#include <stdint.h>

/* Around a call: keeps the day before it; counts what the call has shown. */
void before_view(void);
void after_view(int which, uint64_t refusal);

/* Prints each view and its count. Where all seeds have been run, each has to be there often enough. */
void print_views(int all_seeds);

#endif
