/* Rules that no session from a fresh table tells from their like, and the order in which messages go. */
#include "unit.h"

/* "Else the message is dropped. Then settle or serve": also after a drop. */
static void dropped_reduce(struct tally *tally) {
    struct table t = fresh_of(3);
    t.room[0].wanted = R;
    join_queue(&t, 0, R);
    fill_wires(&t, 1);
    check_step(tally, &t, deliver_of(1, 0), DONE, "a REDUCE without an entry is delivered");
    check(tally, t.room[0].held == R && t.room[0].wanted == NONE && t.queued == 0, "serve after a drop");
    t.room[2].lender = 0;
    t.room[2].credit = R;
    t.room[2].link = 3;
    send_message(&t, (struct message){.kind = REDUCE, .sender = 1, .receiver = 2, .link = 8});
    check_step(tally, &t, deliver_of(1, 2), DONE, "a REDUCE without an entry, without the token");
    check(tally, t.room[2].lender == NOBODY && t.room[2].link == 0 && t.room[2].credit == NONE,
          "settle after a drop");
    check(tally,
          t.messages == 1 && t.message[0].kind == REDUCE && t.message[0].receiver == 0 &&
              t.message[0].mode == NONE && t.message[0].link == 3,
          "settle's REDUCE goes to the lender under its link number");
}

/* "If the origin owned nothing, isn't b [...]; else b sends it on, unchanged, to toward." */
static void own_request(struct tally *tally) {
    struct table t = fresh_of(3);
    t.room[1].wanted = IR;
    t.room[1].entry_mode[2] = R;
    t.room[1].entry_link[2] = 1;
    struct message m = {.kind = REQUEST, .sender = 2, .receiver = 1, .origin = 1, .idle = 1, .mode = IR};
    send_message(&t, m);
    check_step(tally, &t, deliver_of(2, 1), DONE, "a REQUEST at its own origin");
    check(tally,
          t.messages == 1 && t.message[0].kind == REQUEST && t.message[0].sender == 1 &&
              t.message[0].receiver == 0 && t.message[0].origin == 1 && t.message[0].idle == 1 &&
              t.message[0].mode == IR,
          "is sent on unchanged");
}

/* "The room with the token": a REQUEST it began itself joins the queue there and is served as its own. */
static void token_request(struct tally *tally) {
    struct table t = fresh_of(2);
    t.room[0].wanted = W;
    send_message(
        &t, (struct message){.kind = REQUEST, .sender = 1, .receiver = 0, .origin = 0, .idle = 1, .mode = W});
    check_step(tally, &t, deliver_of(1, 0), DONE, "a REQUEST that the room with the token began");
    check(tally, t.room[0].held == W && t.room[0].wanted == NONE && t.queued == 0 && t.messages == 0,
          "is served as the room itself");
}

/* "Takes the oldest message from a to b", and the others keep their order. */
static void oldest_first(struct tally *tally) {
    struct table t = fresh_of(3);
    for (uint32_t link = 1; link <= 6; link++)
        send_message(
            &t, (struct message){.kind = REDUCE, .sender = 1, .receiver = link % 2 ? 2 : 0, .link = link});
    check_step(tally, &t, deliver_of(1, 0), DONE, "the oldest from 1 to 0");
    check(tally,
          t.messages == 5 && t.message[0].link == 1 && t.message[1].link == 3 && t.message[2].link == 4 &&
              t.message[4].link == 6 && t.message[5].kind == 0,
          "is taken out, and the rest stays in order");
}

/* A REDUCE to a weaker mode that is not none, and the same for the room behind. */
static void part_of_a_loan(struct tally *tally) {
    struct table t = fresh_of(3);
    t.room[1].lender = 0;
    t.room[1].credit = R;
    t.room[1].link = 5;
    t.room[1].entry_mode[2] = R;
    t.room[1].entry_link[2] = 1;
    send_message(&t, (struct message){.kind = REDUCE, .sender = 2, .receiver = 1, .mode = IR, .link = 1});
    check_step(tally, &t, deliver_of(2, 1), DONE, "a REDUCE to IR");
    check(tally, t.room[1].entry_mode[2] == IR && t.room[1].entry_link[2] == 1, "the entry keeps its link");
    check(tally, t.room[1].lender == 0 && t.room[1].credit == IR && t.room[1].link == 5,
          "the room owes less under the same link");
    check(tally, t.messages == 1 && t.message[0].mode == IR && t.message[0].link == 5, "and says so");
}

void unit_rules(struct tally *tally) {
    dropped_reduce(tally);
    own_request(tally);
    token_request(tally);
    oldest_first(tally);
    part_of_a_loan(tally);
}
