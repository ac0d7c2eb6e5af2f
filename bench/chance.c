/* Chance: see chance.h. */
#include "chance.h"

static uint64_t state;

void begin_chance(uint64_t seed) { state = seed; }

uint64_t any_number(void) {
    state += 0x9e3779b97f4a7c15ull;
    uint64_t z = state;
    z = (z ^ z >> 30) * 0xbf58476d1ce4e5b9ull;
    z = (z ^ z >> 27) * 0x94d049bb133111ebull;
    return z ^ z >> 31;
}

uint64_t chance(uint64_t below) { return any_number() % below; }

int once_in(uint64_t n) { return chance(n) == 0; }
