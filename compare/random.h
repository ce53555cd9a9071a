/* A small generator of numbers: the same seed gives the same numbers everywhere. */
#ifndef RANDOM_H
#define RANDOM_H

#include <stdint.h>

struct random {
    uint64_t state;
};

/* A number of 0 to limit - 1; limit is not 0. */
unsigned below(struct random *random, unsigned limit);

/* Whether the one chance in so many came. */
int one_in(struct random *random, unsigned many);

/* A member of a set of rooms, bit x for room x; the set is not empty. */
unsigned member(struct random *random, unsigned set);

#endif
