/* The rules: events, the numbers given back, and the step. */
#ifndef RULES_H
#define RULES_H

#include "table.h"

/* Kinds of event. */
enum { ASK = 1, UPGRADE, HANDBACK, DELIVER };

/* What a kind does not use is not looked at. */
struct event {
    unsigned kind;
    unsigned room;     /* ASK, UPGRADE, HANDBACK: x; DELIVER: a, the sender */
    unsigned receiver; /* DELIVER: b */
    unsigned mode;     /* ASK: m */
};

/* The limits of BUSY and of ASK's WORN. */
enum { BUSY_MESSAGES = 96 };
#define WORN_COUNTER 4294967000u

/* Takes one step on *t and gives its number. "All but 0 return the table as it came." */
int step(struct table *t, struct event e);

#endif
