/* A damaged table for each clause of "Well formed", damaged where possible in that clause alone. */
#include <string.h>

#include "unit.h"

/* Places in the sample's messages. */
enum { ITS_REQUEST, ITS_GRANT, ITS_REDUCE };

/* Five rooms: 0 has the token and waits for its upgrade, with an entry for 1; 1 holds R and has an entry for
   4; 2 waits by a REQUEST, 3 in the queue, 4 by a GRANT. */
static struct table sample(void) {
    struct table t = fresh_of(5);
    t.room[0].held = U;
    t.room[0].wanted = W;
    t.room[0].entry_mode[1] = R;
    t.room[0].entry_link[1] = 3;
    t.room[0].counter = 3;
    t.room[1].held = R;
    t.room[1].lender = 0;
    t.room[1].credit = R;
    t.room[1].link = 3;
    t.room[1].entry_mode[4] = R;
    t.room[1].entry_link[4] = 1;
    t.room[1].counter = 1;
    t.room[2].wanted = IR;
    t.room[2].toward = 1;
    t.room[3].wanted = W;
    t.room[4].wanted = R;
    join_queue(&t, 3, W);
    send_message(&t, (struct message){
                         .kind = REQUEST, .sender = 2, .receiver = 1, .origin = 2, .idle = 1, .mode = IR});
    send_message(&t, (struct message){.kind = GRANT, .sender = 1, .receiver = 4, .mode = R, .link = 1});
    send_message(&t, (struct message){.kind = REDUCE, .sender = 4, .receiver = 2, .mode = IR, .link = 9});
    return t;
}

/* Two rooms, the token under way from 0, which still holds IR, to 1. */
static struct table travelling(void) {
    struct table t = fresh_of(2);
    t.room[0].held = IR;
    t.room[0].token = 0;
    t.room[0].toward = 1;
    t.room[0].lender = 1;
    t.room[0].credit = IR;
    t.room[0].link = 1;
    t.room[0].counter = 1;
    t.room[1].wanted = R;
    send_message(&t, (struct message){
                         .kind = TOKEN, .sender = 0, .receiver = 1, .mode = R, .remaining = IR, .link = 1});
    return t;
}

/* The table is not well formed, and each event on it answers 1; then the sample again. */
static void ill(struct tally *tally, struct table *t, const char *what) {
    check(tally, !well_formed(t), what);
    for (unsigned kind = ASK - 1; kind <= DELIVER + 1; kind++)
        check_step(tally, t, (struct event){.kind = kind, .room = 1, .receiver = 4, .mode = IR}, TABLE, what);
    *t = sample();
}

static void counts(struct tally *tally, struct table *t) {
    t->n = 0;
    ill(tally, t, "n = 0");
    t->n = 17;
    ill(tally, t, "n = 17");
    t->n = 255;
    ill(tally, t, "n = 255");
    t->queued = 17;
    ill(tally, t, "17 places of the queue in use");
    *t = travelling();
    t->queued = 17;
    ill(tally, t, "17 places of the queue in use, the token under way");
    t->messages = 257;
    ill(tally, t, "257 messages in use");
}

static void codes(struct tally *tally, struct table *t) {
    t->room[1].held = 6;
    ill(tally, t, "held mode 6");
    t->room[2].wanted = 6;
    t->message[ITS_REQUEST].mode = 6;
    ill(tally, t, "wanted mode 6, named as such");
    t->room[1].credit = 6;
    ill(tally, t, "credit 6");
    t->room[0].entry_mode[1] = 6;
    ill(tally, t, "an entry of mode 6");
    t->room[0].token = 2;
    ill(tally, t, "token neither 0 nor 1");
    t->message[ITS_REDUCE].kind = 0;
    ill(tally, t, "message kind 0 in use");
    t->message[ITS_REDUCE].kind = 5;
    ill(tally, t, "message kind 5");
    t->message[ITS_REDUCE].mode = 6;
    ill(tally, t, "REDUCE to mode 6");
    t->message[ITS_REQUEST].idle = 2;
    ill(tally, t, "owned nothing neither 0 nor 1");
    *t = travelling();
    t->message[0].remaining = 6;
    ill(tally, t, "TOKEN with remaining mode 6");
}

static void numbers(struct tally *tally, struct table *t) {
    t->room[3].toward = 5;
    ill(tally, t, "toward n");
    t->room[1].lender = 5;
    ill(tally, t, "lender n");
    t->queue[0].room = 5;
    ill(tally, t, "room n in the queue");
    t->message[ITS_REDUCE].sender = 5;
    ill(tally, t, "sender n");
    t->message[ITS_REDUCE].receiver = 5;
    ill(tally, t, "receiver n");
    t->message[ITS_REQUEST].origin = 5;
    ill(tally, t, "origin n");
    t->queue[0].room = 255;
    ill(tally, t, "room 255 in the queue");
    t->message[ITS_REQUEST].origin = 255;
    ill(tally, t, "origin 255");
    t->message[ITS_REDUCE].sender = 2;
    ill(tally, t, "a sender that is the receiver");
}

static void token(struct tally *tally, struct table *t) {
    t->room[3].token = 1;
    t->room[3].toward = 3;
    ill(tally, t, "two rooms with the token");
    t->message[ITS_GRANT].kind = TOKEN;
    ill(tally, t, "a room with the token and a TOKEN under way");
    t->room[0].held = t->room[0].wanted = NONE;
    t->room[0].token = 0;
    t->room[0].toward = 1;
    ill(tally, t, "no token");
    t->room[3].toward = 3;
    ill(tally, t, "toward oneself without the token");
    t->room[0].toward = 1;
    ill(tally, t, "toward another with the token");
    t->room[0].lender = 2;
    t->room[0].credit = IR;
    t->room[0].link = 1;
    ill(tally, t, "a lender with the token");
    t->room[0].held = NONE;
    t->room[0].wanted = IR;
    t->message[ITS_REDUCE] = (struct message){.kind = GRANT, .sender = 1, .mode = IR, .link = 2};
    ill(tally, t, "a GRANT under way to the room with the token");
    t->room[1].held = U;
    ill(tally, t, "U held without the token");
    t->room[1].held = W;
    ill(tally, t, "W held without the token");
}

static void loans(struct tally *tally, struct table *t) {
    t->room[0].entry_mode[0] = IR;
    t->room[0].entry_link[0] = 2;
    ill(tally, t, "an entry for oneself");
    t->room[1].lender = 1;
    ill(tally, t, "a lender that is oneself");
    t->room[0].entry_link[2] = 1;
    ill(tally, t, "an entry of mode none with a link number");
    t->room[3].link = 1;
    ill(tally, t, "a link number without a lender");
    t->room[1].credit = NONE;
    ill(tally, t, "a lender without credit");
    t->room[3].credit = IR;
    ill(tally, t, "credit without a lender");
}

static void modes(struct tally *tally, struct table *t) {
    t->room[1].wanted = W;
    ill(tally, t, "R held and W wanted");
    t->room[0].wanted = R;
    ill(tally, t, "U held and R wanted");
    t->room[4].wanted = t->message[ITS_GRANT].mode = U;
    ill(tally, t, "a GRANT of U");
    t->room[4].wanted = t->message[ITS_GRANT].mode = W;
    ill(tally, t, "a GRANT of W");
    t->room[4].wanted = t->message[ITS_GRANT].mode = NONE;
    ill(tally, t, "a GRANT of none");
    t->room[2].wanted = t->message[ITS_REQUEST].mode = NONE;
    ill(tally, t, "a REQUEST of none");
    t->room[3].wanted = t->queue[0].mode = NONE;
    ill(tally, t, "none in the queue");
    *t = travelling();
    t->room[1].wanted = t->message[0].mode = NONE;
    ill(tally, t, "a TOKEN of none");
}

static void naming(struct tally *tally, struct table *t) {
    leave_queue(t);
    ill(tally, t, "a waiting room that nothing names");
    t->queue[0].mode = U;
    ill(tally, t, "named in the queue with another mode");
    t->message[ITS_REQUEST].mode = R;
    ill(tally, t, "named by its REQUEST with another mode");
    t->message[ITS_GRANT].mode = IR;
    ill(tally, t, "named by a GRANT with another mode");
    *t = travelling();
    t->message[0].mode = U;
    ill(tally, t, "named by a TOKEN with another mode");
    join_queue(t, 3, W);
    ill(tally, t, "named twice in the queue");
    join_queue(t, 2, IR);
    ill(tally, t, "named by the queue and a REQUEST");
    t->message[ITS_REDUCE] = (struct message){.kind = GRANT, .sender = 1, .receiver = 2, .mode = IR};
    ill(tally, t, "named by a REQUEST and a GRANT");
    join_queue(t, 1, R);
    ill(tally, t, "a room in the queue that holds and does not wait");
    join_queue(t, 0, W);
    ill(tally, t, "an upgrade in the queue");
    t->room[4].wanted = NONE;
    ill(tally, t, "a GRANT to a room that does not wait");
}

static void unused_records(struct tally *tally, struct table *t) {
    t->room[5].held = IR;
    ill(tally, t, "held past n");
    t->room[5].wanted = IR;
    ill(tally, t, "wanted past n");
    t->room[15].token = 1;
    ill(tally, t, "token past n");
    t->room[5].toward = 1;
    ill(tally, t, "toward past n");
    t->room[5].lender = 0;
    ill(tally, t, "lender past n");
    t->room[15].credit = IR;
    ill(tally, t, "credit past n");
    t->room[5].link = 1;
    ill(tally, t, "link past n");
    t->room[15].counter = 1;
    ill(tally, t, "counter past n");
    t->room[5].entry_mode[0] = IR;
    ill(tally, t, "an entry's mode in a record past n");
    t->room[15].entry_link[15] = 1;
    ill(tally, t, "an entry's link in a record past n");
    t->room[0].entry_mode[5] = IR;
    ill(tally, t, "an entry for room n");
    t->room[4].entry_link[15] = 1;
    ill(tally, t, "an entry's link for room 15");
}

static void unused_places(struct tally *tally, struct table *t) {
    t->queue[1].room = 1;
    ill(tally, t, "a room in the place after the queue");
    t->queue[15].mode = IR;
    ill(tally, t, "a mode in the last place of the queue");
    t->message[3].kind = REDUCE;
    ill(tally, t, "a kind after the messages");
    t->message[255].link = 0x01000000u;
    ill(tally, t, "a link in the last message");
    t->message[ITS_REQUEST].link = 1;
    ill(tally, t, "a REQUEST with a link");
    t->message[ITS_REQUEST].remaining = IR;
    ill(tally, t, "a REQUEST with a remaining mode");
    t->message[ITS_GRANT].remaining = IR;
    ill(tally, t, "a GRANT with a remaining mode");
    t->message[ITS_REDUCE].origin = 1;
    ill(tally, t, "a REDUCE with an origin");
    t->message[ITS_REDUCE].idle = 1;
    ill(tally, t, "a REDUCE that says who owned nothing");
}

/* Tables at the edge that no clause forbids. */
static void allowed(struct tally *tally) {
    struct table t = sample();
    check(tally, well_formed(&t), "the sample is well formed");
    t.room[0].entry_link[1] = 0;
    check(tally, well_formed(&t), "an entry with link number zero");
    t.room[0].entry_mode[1] = W;
    t.room[1].credit = U;
    check(tally, well_formed(&t), "an entry of W, credit U");
    t = travelling();
    check(tally, well_formed(&t), "the token under way");
    t.message[0].remaining = NONE;
    check(tally, well_formed(&t), "nothing remains");
    fill_wires(&t, MESSAGES);
    check(tally, well_formed(&t), "256 messages");
    t = fresh_of(16);
    for (uint8_t x = 0; x < ROOMS; x++) {
        t.room[x].wanted = W;
        join_queue(&t, x, W);
    }
    check(tally, well_formed(&t), "sixteen rooms in the queue");
}

void unit_formed(struct tally *tally) {
    struct table t = sample();
    allowed(tally);
    counts(tally, &t);
    codes(tally, &t);
    numbers(tally, &t);
    token(tally, &t);
    loans(tally, &t);
    modes(tally, &t);
    naming(tally, &t);
    unused_records(tally, &t);
    unused_places(tally, &t);
}
