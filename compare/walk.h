/* A walk through the tables: events that make sense on the table as it stands, in phases of several tempers.
 */
#ifndef WALK_H
#define WALK_H

#include "random.h"
#include "rules.h"

struct phase {
    unsigned temper;
    unsigned left;          /* lines still to come */
    unsigned weight[4];     /* of ASK, UPGRADE, HANDBACK, DELIVER */
    uint8_t modes[8];       /* asks choose one of these */
    unsigned askers;        /* the rooms that ask, bit x for room x */
    unsigned keepers;       /* the rooms that hand nothing back */
    unsigned closed[ROOMS]; /* closed[a] bit b: nothing is delivered from a to b */
};

/* Begins a phase that may follow the last one on this table. */
void begin_phase(struct phase *phase, const struct table *t, struct random *random);

/* Chooses an event that makes sense in the phase; 0 where there is none. */
int choose_event(const struct phase *phase, const struct table *t, struct random *random, struct event *e);

/* Whether the phase can't go on well after this event. */
int disturbs(const struct phase *phase, const struct table *t, struct event e);

/* An event without regard to the table; now and then with rooms out of range. */
struct event any_event(unsigned n, struct random *random);

#endif
