#include "random.h"

/* splitmix64 */
static uint64_t next(struct random *random) {
    uint64_t z = random->state += 0x9e3779b97f4a7c15u;
    z = (z ^ (z >> 30)) * 0xbf58476d1ce4e5b9u;
    z = (z ^ (z >> 27)) * 0x94d049bb133111ebu;
    return z ^ (z >> 31);
}

unsigned below(struct random *random, unsigned limit) { return (unsigned)((next(random) >> 32) % limit); }

int one_in(struct random *random, unsigned many) { return below(random, many) == 0; }

unsigned member(struct random *random, unsigned set) {
    unsigned members = 0;
    for (unsigned rest = set; rest != 0; rest &= rest - 1)
        members++;
    for (unsigned skip = below(random, members); skip > 0; skip--)
        set &= set - 1;
    unsigned x = 0;
    while ((set >> x & 1) == 0)
        x++;
    return x;
}
