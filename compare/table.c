#include "table.h"

#include <string.h>

/* Both are read and compared as bytes. */
_Static_assert(sizeof(struct message) == 12, "a message has no padding");
_Static_assert(sizeof(struct place) == 2, "a place has no padding");

/* "Room 0 has the token, all toward 0, the rest none or zero." */
int fresh(struct table *t, unsigned n) {
    if (n == 0 || n > ROOMS)
        return ROOM;
    memset(t, 0, sizeof *t);
    t->n = (uint8_t)n;
    for (unsigned x = 0; x < ROOMS; x++)
        t->room[x].lender = NOBODY;
    t->room[0].token = 1;
    return DONE;
}

static uint8_t strongest_entry(const struct room *r) {
    uint8_t strongest = NONE;
    for (unsigned y = 0; y < ROOMS; y++)
        if (r->entry_mode[y] > strongest)
            strongest = r->entry_mode[y];
    return strongest;
}

uint8_t owned(const struct room *r) {
    uint8_t entry = strongest_entry(r);
    return r->held > entry ? r->held : entry;
}

int no_entries(const struct room *r) { return strongest_entry(r) == NONE; }

unsigned oldest(const struct table *t, unsigned a, unsigned b) {
    unsigned i = 0;
    while (i < t->messages && (t->message[i].sender != a || t->message[i].receiver != b))
        i++;
    return i;
}

/* Past the last place a message is counted and not kept: the step is then refused as FULL, unless it is
   refused as WORN, which comes first. */
void send_message(struct table *t, struct message m) {
    if (t->messages < MESSAGES)
        t->message[t->messages] = m;
    t->messages++;
}

struct message take_message(struct table *t, unsigned i) {
    struct message m = t->message[i];
    t->messages--;
    memmove(t->message + i, t->message + i + 1, sizeof m * (t->messages - i));
    memset(t->message + t->messages, 0, sizeof m);
    return m;
}

/* No room is named twice, so there is a place left for one that is not in the queue. */
void join_queue(struct table *t, uint8_t room, uint8_t mode) {
    t->queue[t->queued] = (struct place){.room = room, .mode = mode};
    t->queued++;
}

struct place leave_queue(struct table *t) {
    struct place head = t->queue[0];
    t->queued--;
    memmove(t->queue, t->queue + 1, sizeof head * t->queued);
    memset(t->queue + t->queued, 0, sizeof head);
    return head;
}
