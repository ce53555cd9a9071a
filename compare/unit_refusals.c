/* The numbers 2 to 11: each on its edge, which of two comes first, and the late refusals. */
#include "unit.h"

static void events(struct tally *tally) {
    struct table t = fresh_of(3);
    check_step(tally, &t, (struct event){.kind = 0}, EVENT, "kind 0 gives 2");
    check_step(tally, &t, (struct event){.kind = DELIVER + 1}, EVENT, "kind 5 gives 2");
    check_step(tally, &t, (struct event){.kind = 9, .room = 9}, EVENT, "unknown kind before room");
    check_step(tally, &t, ask_of(3, IR), ROOM, "ASK of room n gives 3");
    check_step(tally, &t, upgrade_of(3), ROOM, "UPGRADE of room n gives 3");
    check_step(tally, &t, hand_back_of(256), ROOM, "HANDBACK of room 256 gives 3");
    check_step(tally, &t, deliver_of(3, 0), ROOM, "DELIVER from room n gives 3");
    check_step(tally, &t, deliver_of(0, 3), ROOM, "DELIVER to room n gives 3");
    check_step(tally, &t, ask_of(3, 0), ROOM, "room before mode");
    check_step(tally, &t, ask_of(0, 0), MODE, "ASK of mode 0 gives 4");
    check_step(tally, &t, ask_of(0, 6), MODE, "ASK of mode 6 gives 4");
    check_step(tally, &t, ask_of(0, 257), MODE, "ASK of mode 257 gives 4");
    check_step(tally, &t, deliver_of(1, 0), EMPTY, "DELIVER on an empty wire gives 8");
    check_step(tally, &t, deliver_of(1, 1), EMPTY, "DELIVER from a room to itself gives 8");
    check_step(tally, &t, hand_back_of(0), NOT_HELD, "HANDBACK of none gives 7");
    check_step(tally, &t, upgrade_of(0), NOT_HELD, "UPGRADE of none gives 7");
    struct event far = {.kind = HANDBACK, .room = 0, .receiver = 99, .mode = 99};
    check_step(tally, &t, far, NOT_HELD, "what a kind does not use is not looked at");
}

static void rooms(struct tally *tally) {
    struct table t = fresh_of(3);
    check_step(tally, &t, ask_of(1, R), DONE, "ASK without the token");
    check_step(tally, &t, ask_of(1, 0), MODE, "mode before waiting");
    check_step(tally, &t, ask_of(1, R), WAITING, "ASK of a waiting room gives 5");
    check_step(tally, &t, hand_back_of(1), WAITING, "HANDBACK: waiting before not held");
    check_step(tally, &t, upgrade_of(1), WAITING, "UPGRADE: waiting before not held");
    fill_wires(&t, BUSY_MESSAGES);
    t.room[2].counter = WORN_COUNTER;
    check_step(tally, &t, ask_of(1, R), WAITING, "waiting before busy and worn");
    t.room[0].held = U;
    check_step(tally, &t, ask_of(0, R), HELD, "held before busy and worn");
    check_step(tally, &t, ask_of(2, R), BUSY, "busy before worn");
    t.room[0].entry_mode[2] = IR;
    check_step(tally, &t, upgrade_of(0), DONE, "UPGRADE is neither busy nor worn");
    check_step(tally, &t, ask_of(0, R), WAITING, "waiting before held");
    check_step(tally, &t, hand_back_of(0), WAITING, "HANDBACK of a waiting upgrade gives 5");
    check_step(tally, &t, upgrade_of(0), WAITING, "UPGRADE of a waiting upgrade gives 5");
}

static void busy(struct tally *tally) {
    struct table t = fresh_of(2);
    fill_wires(&t, 95);
    check_step(tally, &t, ask_of(1, R), DONE, "ASK with 95 messages");
    check(tally, t.messages == 96, "the 96th is its REQUEST");
    check_step(tally, &t, ask_of(0, R), BUSY, "ASK with 96 messages gives 9, though it would send none");
    check_step(tally, &t, deliver_of(1, 0), DONE, "DELIVER with 96 messages");
    check_step(tally, &t, ask_of(0, R), DONE, "ASK with 95 messages again");
}

static void worn(struct tally *tally) {
    struct table t = fresh_of(2);
    t.room[1].counter = 4294966999u;
    check_step(tally, &t, ask_of(0, R), DONE, "ASK with another's counter at 4294966999");
    check_step(tally, &t, hand_back_of(0), DONE, "HANDBACK with that counter");
    t.room[1].counter = 4294967000u;
    check_step(tally, &t, ask_of(0, R), WORN, "ASK with another's counter at 4294967000 gives 10");
    check_step(tally, &t, ask_of(1, R), WORN, "ASK with its own counter at 4294967000 gives 10");
}

/* Room 0 holds R with the token and has an entry R for 1; rooms 1 and 2 wait for IR in the queue. */
static struct table two_in_queue(uint32_t counter) {
    struct table t = fresh_of(3);
    t.room[0].held = R;
    t.room[0].counter = counter;
    t.room[1].wanted = IR;
    t.room[2].wanted = IR;
    t.room[0].entry_mode[1] = R;
    t.room[0].entry_link[1] = 1;
    join_queue(&t, 1, IR);
    join_queue(&t, 2, IR);
    return t;
}

/* Each hand-back below lends twice: the entry that is left, R, lends IR. */
static void late_worn(struct tally *tally) {
    struct table t = two_in_queue(4294967293u);
    check_step(tally, &t, hand_back_of(0), DONE, "two link numbers are left");
    check(tally, t.room[0].counter == 4294967295u && t.message[1].link == 4294967295u && t.messages == 2,
          "the last link number is 4294967295");
    check(tally, t.room[0].entry_mode[1] == IR && t.room[0].entry_link[1] == 4294967294u,
          "a loan replaces the old entry");
    t = two_in_queue(4294967294u);
    check_step(tally, &t, hand_back_of(0), WORN, "one link number is left and two are needed");
    fill_wires(&t, MESSAGES);
    check_step(tally, &t, hand_back_of(0), WORN, "worn before full, though full comes first on the way");
    t = fresh_of(2);
    t.room[0].held = W;
    t.room[0].counter = 4294967295u;
    t.room[1].wanted = W;
    join_queue(&t, 1, W);
    check_step(tally, &t, hand_back_of(0), WORN, "a pass needs a link number too");
    t.room[0].counter = 4294967294u;
    check_step(tally, &t, hand_back_of(0), DONE, "a pass takes the last link number");
    check_step(tally, &t, deliver_of(0, 1), DONE, "the TOKEN arrives");
    check(tally, t.room[1].counter == 4294967295u && t.room[1].entry_link[0] == 0,
          "the counter is lifted, and nothing that remains has no link number");
}

/* Room 1 holds R without the token, lent by 0, and a REQUEST of room 2 for IR is under way to it. */
static struct table request_under_way(uint32_t counter) {
    struct table t = fresh_of(3);
    t.room[1].held = R;
    t.room[1].lender = 0;
    t.room[1].credit = R;
    t.room[1].link = 5;
    t.room[1].counter = counter;
    t.room[2].wanted = IR;
    t.room[2].toward = 1;
    send_message(&t, (struct message){
                         .kind = REQUEST, .sender = 2, .receiver = 1, .origin = 2, .idle = 1, .mode = IR});
    return t;
}

static void late_full(struct tally *tally) {
    struct table t = request_under_way(4294967295u);
    check_step(tally, &t, deliver_of(2, 1), WORN, "a loan without the token needs a link number");
    fill_wires(&t, MESSAGES);
    check_step(tally, &t, hand_back_of(1), FULL, "a REDUCE as the 257th message gives 11");
    check_step(tally, &t, deliver_of(2, 1), WORN, "worn, not full: the message taken makes room");
    t.room[1].counter = 0;
    check_step(tally, &t, deliver_of(2, 1), DONE, "the message taken makes room for the GRANT");
    check(tally, t.messages == 256 && t.message[255].kind == GRANT, "the GRANT is the 256th message");
    t = two_in_queue(1);
    fill_wires(&t, 255);
    check_step(tally, &t, hand_back_of(0), FULL, "two GRANTs after 255 messages give 11");
    take_message(&t, 0);
    check_step(tally, &t, hand_back_of(0), DONE, "two GRANTs after 254 messages are done");
    check_step(tally, &t, upgrade_of(0), NOT_HELD, "a full table still answers");
}

/* A TOKEN from 0 to 1 with 1 lent to by 2, and 2 in the queue: on delivery a REDUCE and a GRANT. */
static struct table token_under_way(uint32_t link) {
    struct table t = fresh_of(3);
    t.room[0].token = 0;
    t.room[0].toward = 1;
    t.room[1].wanted = R;
    t.room[1].lender = 2;
    t.room[1].credit = IR;
    t.room[1].link = 4;
    t.room[2].wanted = IR;
    join_queue(&t, 2, IR);
    send_message(&t, (struct message){.kind = TOKEN, .sender = 0, .receiver = 1, .mode = R, .link = link});
    return t;
}

static void late_token(struct tally *tally) {
    struct table t = token_under_way(7);
    fill_wires(&t, 256);
    check_step(tally, &t, deliver_of(0, 1), FULL, "TOKEN: one off and two on from 256 gives 11");
    take_message(&t, 255);
    check_step(tally, &t, deliver_of(0, 1), DONE, "TOKEN: one off and two on from 255 is done");
    check(tally, t.message[254].kind == REDUCE && t.message[254].link == 4 && t.message[255].kind == GRANT,
          "the REDUCE to the old lender goes before the GRANT");
    check(tally,
          t.room[1].token && t.room[1].lender == NOBODY && t.room[1].link == 0 && t.room[1].counter == 8 &&
              t.room[1].toward == 1 && t.room[1].held == R,
          "what the TOKEN leaves");
    t = token_under_way(4294967295u);
    check_step(tally, &t, deliver_of(0, 1), WORN, "the TOKEN's link number leaves none for the loan");
}

void unit_refusals(struct tally *tally) {
    events(tally);
    rooms(tally);
    busy(tally);
    worn(tally);
    late_worn(tally);
    late_full(tally);
    late_token(tally);
}
