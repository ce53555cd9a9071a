#include "lending.h"

/* "Wherever below an entry becomes none, [...] the link number there becomes zero." */
void set_entry(struct room *r, uint8_t y, uint8_t mode, uint32_t link) {
    r->entry_mode[y] = mode;
    r->entry_link[y] = mode == NONE ? 0 : link;
}

/* "Wherever [...] a room is left without a lender, the link number there becomes zero." */
void no_lender(struct room *r) {
    r->lender = NOBODY;
    r->credit = NONE;
    r->link = 0;
}

void hold(struct room *r, uint8_t mode) {
    r->held = mode;
    r->wanted = NONE;
}

void reduce(struct table *t, uint8_t x, uint8_t mode) {
    const struct room *r = &t->room[x];
    send_message(t, (struct message){
                        .kind = REDUCE, .sender = x, .receiver = r->lender, .mode = mode, .link = r->link});
}

/* "Lend m to y: the counter goes up by 1 and is the new link number; the entry for y becomes m with it,
   replacing any old one; GRANT to y." */
int lend(struct table *t, uint8_t x, uint8_t y, uint8_t mode) {
    struct room *r = &t->room[x];
    if (r->counter == UINT32_MAX)
        return WORN;
    r->counter++;
    set_entry(r, y, mode, r->counter);
    send_message(
        t, (struct message){.kind = GRANT, .sender = x, .receiver = y, .mode = mode, .link = r->counter});
    return DONE;
}

/* "Settle (without the token): if owned is weaker than credit, send the lender REDUCE to owned, credit
   becomes owned, and at none the lender is nobody." */
void settle(struct table *t, uint8_t x) {
    struct room *r = &t->room[x];
    uint8_t left = owned(r);
    if (left >= r->credit)
        return;
    reduce(t, x, left);
    r->credit = left;
    if (left == NONE)
        no_lender(r);
}

/* "Passing to w: the entry for w is cleared, the counter goes up by 1 and is the link number, TOKEN goes to
   w with the mode and the owned mode that remains; toward is w; if what remains isn't none, lender w, credit
   what remains, that link number." */
static int pass(struct table *t, uint8_t x, uint8_t w, uint8_t mode) {
    struct room *r = &t->room[x];
    if (r->counter == UINT32_MAX)
        return WORN;
    set_entry(r, w, NONE, 0);
    r->counter++;
    uint8_t remaining = owned(r);
    send_message(t, (struct message){.kind = TOKEN,
                                     .sender = x,
                                     .receiver = w,
                                     .mode = mode,
                                     .remaining = remaining,
                                     .link = r->counter});
    r->token = 0;
    r->toward = w;
    if (remaining != NONE) {
        r->lender = w;
        r->credit = remaining;
        r->link = r->counter;
    }
    return DONE;
}

/* "Serve (with the token): a waiting upgrade with no entries becomes a held W. Then, while no upgrade waits
   and the head of the queue agrees with owned, take it off: if it is the room itself, it holds the mode and
   wants none; if owned can lend it, lend; else pass and stop." */
int serve(struct table *t, uint8_t x) {
    struct room *r = &t->room[x];
    if (r->held == U && r->wanted == W && no_entries(r))
        hold(r, W);
    while (!(r->held == U && r->wanted == W) && t->queued > 0 && agree(t->queue[0].mode, owned(r))) {
        struct place head = leave_queue(t);
        if (head.room == x) {
            hold(r, head.mode);
            continue;
        }
        if (!can_lend(owned(r), head.mode))
            return pass(t, x, head.room, head.mode);
        if (lend(t, x, head.room, head.mode) != DONE)
            return WORN;
    }
    return DONE;
}

int settle_or_serve(struct table *t, uint8_t x) {
    if (t->room[x].token)
        return serve(t, x);
    settle(t, x);
    return DONE;
}
