/* The yardstick of bench/speed: the six calls once more, as plain C makes them on a book in order. */
#ifndef PLAIN_H
#define PLAIN_H

#include "compare.h"

extern call *const plain[CALLS];

#endif
