#include "rules.h"

#include <string.h>

#include "lending.h"

/* "With the token: if the queue is empty and m agrees with owned, x holds m; else x wants m and joins the
   end of the queue. Without it: if owned can lend m, x holds m and nothing is sent; else x wants m and sends
   REQUEST to toward." */
static void ask(struct table *t, uint8_t x, uint8_t mode) {
    struct room *r = &t->room[x];
    uint8_t has = owned(r);
    if (r->token ? t->queued == 0 && agree(mode, has) : can_lend(has, mode)) {
        r->held = mode;
        return;
    }
    r->wanted = mode;
    if (r->token)
        join_queue(t, x, mode);
    else
        send_message(t, (struct message){.kind = REQUEST,
                                         .sender = x,
                                         .receiver = r->toward,
                                         .origin = x,
                                         .idle = has == NONE,
                                         .mode = mode});
}

/* "x holds U. With no entries it holds W; else it wants W and waits, ahead of the queue." */
static void upgrade(struct room *r) {
    if (no_entries(r))
        r->held = W;
    else
        r->wanted = W;
}

/* "Held becomes none. Then settle or serve." */
static int hand_back(struct table *t, uint8_t x) {
    t->room[x].held = NONE;
    return settle_or_serve(t, x);
}

/* "At the room with the token: it joins the end of the queue, then serve. At another room b: if the origin
   owned nothing, isn't b, and owned of b can lend the mode, b lends, then settles; else b sends it on,
   unchanged, to toward." */
static int deliver_request(struct table *t, struct message m) {
    uint8_t b = m.receiver;
    const struct room *r = &t->room[b];
    if (r->token) {
        join_queue(t, m.origin, m.mode);
        return serve(t, b);
    }
    if (m.idle && m.origin != b && can_lend(owned(r), m.mode)) {
        if (lend(t, b, m.origin, m.mode) != DONE)
            return WORN;
        settle(t, b);
        return DONE;
    }
    m.sender = b;
    m.receiver = r->toward;
    send_message(t, m);
    return DONE;
}

/* "If b has a lender other than a, it sends that lender REDUCE to none under the old link." */
static void leave_lender(struct table *t, uint8_t a, uint8_t b) {
    uint8_t lender = t->room[b].lender;
    if (lender != NOBODY && lender != a)
        reduce(t, b, NONE);
}

/* "Then lender a, the new link number, credit and held the mode, wanted none." */
static void deliver_grant(struct table *t, struct message m) {
    struct room *r = &t->room[m.receiver];
    leave_lender(t, m.sender, m.receiver);
    r->lender = m.sender;
    r->link = m.link;
    r->credit = m.mode;
    hold(r, m.mode);
}

/* "The same REDUCE to a lender other than a; then no lender, credit none, toward itself, held the mode,
   wanted none; its entry for a is the remaining mode with the link number; its counter is the larger of its
   own and the link number; then serve." */
static int deliver_token(struct table *t, struct message m) {
    struct room *r = &t->room[m.receiver];
    leave_lender(t, m.sender, m.receiver);
    no_lender(r);
    r->token = 1;
    r->toward = m.receiver;
    hold(r, m.mode);
    set_entry(r, m.sender, m.remaining, m.link);
    if (r->counter < m.link)
        r->counter = m.link;
    return serve(t, m.receiver);
}

/* "If b's entry for a has this link number and a stronger mode than the new one, it takes the new mode; else
   the message is dropped. Then settle or serve." */
static int deliver_reduce(struct table *t, struct message m) {
    struct room *r = &t->room[m.receiver];
    if (r->entry_link[m.sender] == m.link && r->entry_mode[m.sender] > m.mode)
        set_entry(r, m.sender, m.mode, m.link);
    return settle_or_serve(t, m.receiver);
}

/* "Takes the oldest message from a to b." */
static int deliver(struct table *t, unsigned a, unsigned b) {
    struct message m = take_message(t, oldest(t, a, b));
    switch (m.kind) {
    case REQUEST:
        return deliver_request(t, m);
    case GRANT:
        deliver_grant(t, m);
        return DONE;
    case TOKEN:
        return deliver_token(t, m);
    default:
        return deliver_reduce(t, m);
    }
}

static int some_counter_worn(const struct table *t) {
    for (unsigned x = 0; x < t->n; x++)
        if (t->room[x].counter >= WORN_COUNTER)
            return 1;
    return 0;
}

/* The numbers 2 to 9 and ASK's half of 10, "in the order they are tried". */
static int refusal(const struct table *t, struct event e) {
    if (e.kind < ASK || e.kind > DELIVER)
        return EVENT;
    if (e.room >= t->n || (e.kind == DELIVER && e.receiver >= t->n))
        return ROOM;
    if (e.kind == ASK && (e.mode < IR || e.mode > W))
        return MODE;
    if (e.kind == DELIVER)
        return oldest(t, e.room, e.receiver) == t->messages ? EMPTY : DONE;
    const struct room *r = &t->room[e.room];
    if (r->wanted != NONE)
        return WAITING;
    if (e.kind == ASK && r->held != NONE)
        return HELD;
    if ((e.kind == HANDBACK && r->held == NONE) || (e.kind == UPGRADE && r->held != U))
        return NOT_HELD;
    if (e.kind == ASK && t->messages >= BUSY_MESSAGES)
        return BUSY;
    if (e.kind == ASK && some_counter_worn(t))
        return WORN;
    return DONE;
}

/* An event that is not refused by the above; WORN where it needs a link number that is too high. */
static int act(struct table *t, struct event e) {
    switch (e.kind) {
    case ASK:
        ask(t, (uint8_t)e.room, (uint8_t)e.mode);
        return DONE;
    case UPGRADE:
        upgrade(&t->room[e.room]);
        return DONE;
    case HANDBACK:
        return hand_back(t, (uint8_t)e.room);
    default:
        return deliver(t, e.room, e.receiver);
    }
}

/* Whether the event surely meets neither WORN nor FULL. A step gives out at most as many link numbers as the
   queue has places, and sends at most one message more than that. ASK, which finds at most 95 messages, and
   UPGRADE give out none. */
static int surely_fits(const struct table *t, struct event e) {
    if (e.kind == ASK || e.kind == UPGRADE)
        return 1;
    uint32_t highest = t->room[e.room].counter;
    if (e.kind == DELIVER) {
        uint32_t link = t->message[oldest(t, e.room, e.receiver)].link;
        highest = t->room[e.receiver].counter;
        if (highest < link)
            highest = link;
    }
    return t->messages <= MESSAGES - QUEUE - 1 && highest <= UINT32_MAX - QUEUE;
}

int step(struct table *t, struct event e) {
    if (!well_formed(t))
        return TABLE;
    int number = refusal(t, e);
    if (number != DONE)
        return number;
    if (surely_fits(t, e))
        return act(t, e);
    struct table before;
    memcpy(&before, t, sizeof before);
    number = act(t, e);
    if (number == DONE && t->messages > MESSAGES)
        number = FULL;
    if (number != DONE)
        memcpy(t, &before, sizeof before);
    return number;
}
