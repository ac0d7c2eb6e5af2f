/* Chance from a seed: the generator SplitMix64, so that a seed gives the same on every machine. */
#ifndef CHANCE_H
#define CHANCE_H

#include <stdint.h>

/* From here on the numbers are those of this seed. */
void begin_chance(uint64_t seed);

uint64_t any_number(void);

uint64_t chance(uint64_t below);

int once_in(uint64_t n);

#endif
