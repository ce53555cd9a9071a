/* The table: the rooms' records, the queue that travels with the token, and the messages. */
#ifndef TABLE_H
#define TABLE_H

#include <stdint.h>

#include "modes.h"

enum { ROOMS = 16, QUEUE = 16, MESSAGES = 256, NOBODY = 255 };

/* Kinds of message; a record not in use has none of them, and is zero throughout. */
enum { REQUEST = 1, GRANT, TOKEN, REDUCE };

/* What a kind does not carry is zero. A kind of 16 bits leaves the record without padding. */
struct message {
    uint16_t kind;
    uint8_t sender;
    uint8_t receiver;
    uint8_t origin;    /* REQUEST: who asked */
    uint8_t idle;      /* REQUEST: 1 if the origin owned nothing when it asked */
    uint8_t mode;      /* all kinds; REDUCE: the new mode */
    uint8_t remaining; /* TOKEN: the sender's remaining mode */
    uint32_t link;     /* GRANT, TOKEN, REDUCE */
};

/* A room's entry for room y is entry_mode[y] with entry_link[y]; mode none means no entry. */
struct room {
    uint8_t held;
    uint8_t wanted; /* none if the room doesn't wait */
    uint8_t token;  /* 1 if the room has it */
    uint8_t toward;
    uint8_t lender; /* or NOBODY */
    uint8_t credit; /* the mode it owes for */
    uint32_t link;
    uint32_t counter;
    uint8_t entry_mode[ROOMS];
    uint32_t entry_link[ROOMS];
};

/* A place in the queue: a room with its wanted mode. */
struct place {
    uint8_t room;
    uint8_t mode;
};

struct table {
    uint8_t n;
    uint8_t queued;
    uint16_t messages;
    struct place queue[QUEUE];
    struct room room[ROOMS];
    struct message message[MESSAGES]; /* in the order of sending */
};

/* Numbers given back, in the order they are tried. */
enum { DONE, TABLE, EVENT, ROOM, MODE, WAITING, HELD, NOT_HELD, EMPTY, BUSY, WORN, FULL };

/* Makes *t the fresh table of n rooms and gives 0; for n = 0 or above 16 gives 3 and leaves *t. */
int fresh(struct table *t, unsigned n);

/* Whether each clause of "Well formed" holds of *t, whatever its bytes are. */
int well_formed(const struct table *t);

/* "The strongest of its held mode and its entries." */
uint8_t owned(const struct room *r);

/* Whether r has no entry at all. */
int no_entries(const struct room *r);

/* The place of the oldest message from a to b, or t->messages where there is none. */
unsigned oldest(const struct table *t, unsigned a, unsigned b);

/* The message goes to the end. Past the last place it is counted and not kept. */
void send_message(struct table *t, struct message m);

/* Takes out message i, one of those in use. */
struct message take_message(struct table *t, unsigned i);

/* The room joins the end of the queue, where there is a place left. */
void join_queue(struct table *t, uint8_t room, uint8_t mode);

/* Takes off the head of the queue, which is not empty. */
struct place leave_queue(struct table *t);

#endif
