/* Tests of the rules, the table and the session on what is made by hand. */
#ifndef UNIT_H
#define UNIT_H

#include "rules.h"

struct tally {
    unsigned checks;
    unsigned failed;
};

/* Counts a check, and prints what it was where it does not hold. */
void check(struct tally *tally, int holds, const char *what);

/* The step on *t gives the number; the table is left as it came where that is not 0. */
void check_step(struct tally *tally, struct table *t, struct event e, int number, const char *what);

struct table fresh_of(unsigned n);

/* Puts REDUCE messages from room 1 to room 0 that match no loan on the wires, until there are count. */
void fill_wires(struct table *t, unsigned count);

struct event ask_of(unsigned x, unsigned m);
struct event upgrade_of(unsigned x);
struct event hand_back_of(unsigned x);
struct event deliver_of(unsigned a, unsigned b);

void unit_formed(struct tally *tally);
void unit_rules(struct tally *tally);
void unit_refusals(struct tally *tally);
void unit_session(struct tally *tally);

#endif
