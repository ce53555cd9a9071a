#include "unit.h"

#include <stdio.h>
#include <string.h>

void check(struct tally *tally, int holds, const char *what) {
    tally->checks++;
    if (!holds) {
        tally->failed++;
        printf("failed: %s\n", what);
    }
}

void check_step(struct tally *tally, struct table *t, struct event e, int number, const char *what) {
    struct table before;
    memcpy(&before, t, sizeof before);
    int given = step(t, e);
    int same = memcmp(&before, t, sizeof before) == 0;
    check(tally, given == number && (number == DONE || same), what);
}

struct table fresh_of(unsigned n) {
    struct table t;
    fresh(&t, n);
    return t;
}

void fill_wires(struct table *t, unsigned count) {
    while (t->messages < count)
        send_message(t, (struct message){.kind = REDUCE, .sender = 1, .receiver = 0, .link = 9999});
}

struct event ask_of(unsigned x, unsigned m) {
    return (struct event){.kind = ASK, .room = x, .mode = m};
}

struct event upgrade_of(unsigned x) {
    return (struct event){.kind = UPGRADE, .room = x};
}

struct event hand_back_of(unsigned x) {
    return (struct event){.kind = HANDBACK, .room = x};
}

struct event deliver_of(unsigned a, unsigned b) {
    return (struct event){.kind = DELIVER, .room = a, .receiver = b};
}

/* The conflicts as 01 prints them, and what each mode lends, in its words. */
static void modes(struct tally *tally) {
    static const char *const conflicts[MODES] = {"......", ".....x", "....xx", "...xxx", "..xx.x", ".xxxxx"};
    static const char *const lends[MODES] = {"......", ".x....", ".xx...", ".xx...", ".x..x.", "......"};
    for (uint8_t a = NONE; a < MODES; a++)
        for (uint8_t b = NONE; b < MODES; b++) {
            check(tally, agree(a, b) == (conflicts[a][b] == '.'), "the table of conflicts");
            check(tally, agree(a, b) == agree(b, a), "conflicts are symmetric");
            check(tally, can_lend(a, b) == (lends[a][b] == 'x'), "what a mode can lend");
        }
}

/* "Twelve to be proved": an entry IR with link 7 stays on REDUCE link 6. */
static void old_link(struct tally *tally) {
    struct table t = fresh_of(2);
    t.room[0].entry_mode[1] = IR;
    t.room[0].entry_link[1] = 7;
    send_message(&t, (struct message){.kind = REDUCE, .sender = 1, .receiver = 0, .mode = NONE, .link = 6});
    check_step(tally, &t, deliver_of(1, 0), DONE, "REDUCE under an old link is delivered");
    check(tally, t.room[0].entry_mode[1] == IR && t.room[0].entry_link[1] == 7 && t.messages == 0,
          "an entry IR with link 7 stays on REDUCE link 6");
}

/* "A token room that holds U with one entry, IR, waits on UPGRADE and holds W once that entry's REDUCE is
   delivered." */
static void waiting_upgrade(struct tally *tally) {
    struct table t = fresh_of(2);
    t.room[0].held = U;
    t.room[0].entry_mode[1] = IR;
    t.room[0].entry_link[1] = 7;
    check_step(tally, &t, upgrade_of(0), DONE, "UPGRADE with an entry is done");
    check(tally, t.room[0].held == U && t.room[0].wanted == W, "UPGRADE with an entry waits");
    send_message(&t, (struct message){.kind = REDUCE, .sender = 1, .receiver = 0, .mode = NONE, .link = 7});
    check_step(tally, &t, deliver_of(1, 0), DONE, "the entry's REDUCE is delivered");
    check(tally, t.room[0].held == W && t.room[0].wanted == NONE && no_entries(&t.room[0]),
          "the upgrade holds W once the entry is gone");
}

static void twelve(struct tally *tally) {
    struct table t = fresh_of(1);
    check(tally, agree(U, R), "U agrees with R");
    check(tally, !agree(U, U), "U not with U");
    check(tally, !agree(IW, R), "IW not with R");
    check(tally, agree(IR, IW), "IR with IW");
    check(tally, can_lend(IW, IR), "IW lends IR");
    check(tally, !can_lend(R, U), "R does not lend U");
    check_step(tally, &t, ask_of(0, W), DONE, "n = 1, ASK W on fresh is done");
    check(tally, t.room[0].held == W && t.messages == 0, "n = 1, ASK W on fresh holds W at once");
    check(tally, fresh(&t, 16) == DONE && well_formed(&t), "fresh n = 16 done");
    check(tally, fresh(&t, 17) == ROOM && t.n == 16, "fresh n = 17 gives 3 and leaves the table");
    check(tally, fresh(&t, 0) == ROOM && t.n == 16, "fresh n = 0 gives 3 and leaves the table");
    t.room[0].held = R;
    check_step(tally, &t, upgrade_of(0), NOT_HELD, "UPGRADE holding R gives 7");
    old_link(tally);
    waiting_upgrade(tally);
}

int main(void) {
    struct tally tally = {0, 0};
    modes(&tally);
    twelve(&tally);
    unit_formed(&tally);
    unit_rules(&tally);
    unit_refusals(&tally);
    unit_session(&tally);
    printf("unit: %u checks, %u failed\n", tally.checks, tally.failed);
    return tally.failed != 0;
}
