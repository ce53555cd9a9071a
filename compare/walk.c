#include "walk.h"

#include <string.h>

enum { CALM, READERS, WRITERS, STARVED, SLOW, DRAIN, PILE };

struct temper {
    unsigned weight[4];
    uint8_t modes[8];
};

static const struct temper tempers[] = {
    [CALM] = {{6, 2, 5, 12}, {IR, R, U, IW, W, IR, R, U}},
    [READERS] = {{6, 4, 4, 10}, {IR, IR, IR, R, R, R, U, U}},
    [WRITERS] = {{6, 2, 5, 12}, {W, W, IW, IW, IW, IR, U, R}},
    [STARVED] = {{8, 2, 5, 6}, {IR, R, U, IW, W, IR, IR, IW}},
    [SLOW] = {{6, 1, 6, 12}, {IR, IR, IR, R, R, R, IW, U}},
    [DRAIN] = {{0, 0, 2, 6}, {IR, IR, IR, IR, IR, IR, IR, IR}},
    [PILE] = {{4, 0, 4, 8}, {IR, IR, IR, IR, IR, IR, IR, IR}},
};

/* Half of the wires are closed. */
static void close_some(struct phase *phase, struct random *random) {
    for (unsigned a = 0; a < ROOMS; a++)
        phase->closed[a] = below(random, 1u << ROOMS);
}

/* The room with the token asks for R and keeps it; one or two rooms whose way to it leads over others borrow
   IR from it and hand it back, again and again, and their hand-backs stay on the wires. */
static void pile_up(struct phase *phase, const struct table *t, struct random *random) {
    unsigned far = 0;
    unsigned k = 0;
    while (k < t->n && !t->room[k].token)
        k++;
    if (k == t->n)
        return;
    for (unsigned x = 0; x < t->n; x++)
        if (t->room[x].toward != k)
            far |= 1u << x;
    if (far == 0)
        return;
    phase->askers = 1u << member(random, far) | 1u << member(random, far);
    for (unsigned x = 0; x < t->n; x++)
        if ((phase->askers >> x & 1) != 0)
            phase->closed[x] = 1u << k;
    phase->askers |= 1u << k;
    phase->keepers = 1u << k;
}

void begin_phase(struct phase *phase, const struct table *t, struct random *random) {
    unsigned temper = below(random, DRAIN + 2);
    if (temper > DRAIN)
        temper = DRAIN;
    if (phase->temper == DRAIN && !one_in(random, 4))
        temper = PILE;
    memset(phase, 0, sizeof *phase);
    phase->temper = temper;
    phase->askers = ~0u;
    memcpy(phase->weight, tempers[temper].weight, sizeof phase->weight);
    memcpy(phase->modes, tempers[temper].modes, sizeof phase->modes);
    phase->left = 50 + below(random, 400);
    if (temper == STARVED)
        close_some(phase, random);
    if (temper == DRAIN)
        phase->left = 2000;
    if (temper == PILE) {
        phase->left = 200 + below(random, 1000);
        pile_up(phase, t, random);
    }
}

/* A pile grows only while nobody else joins in. */
int disturbs(const struct phase *phase, const struct table *t, struct event e) {
    if (phase->temper != PILE)
        return 0;
    struct table next = *t;
    return step(&next, e) == DONE;
}

/* Whether the event kind makes sense for a room. */
static int makes_sense(const struct room *r, unsigned kind) {
    if (r->wanted != NONE)
        return 0;
    switch (kind) {
    case ASK:
        return r->held == NONE;
    case UPGRADE:
        return r->held == U;
    default:
        return r->held != NONE;
    }
}

static unsigned rooms_for(const struct phase *phase, const struct table *t, unsigned kind) {
    unsigned set = 0;
    for (unsigned x = 0; x < t->n; x++)
        set |= (unsigned)makes_sense(&t->room[x], kind) << x;
    if (kind == ASK)
        set &= phase->askers;
    if (kind == HANDBACK)
        set &= ~phase->keepers;
    return set;
}

/* A message chosen at random gives the wire; from there on the first one whose wire is open. */
static int choose_wire(const struct phase *phase, const struct table *t, struct random *random,
                       struct event *e) {
    if (t->messages == 0)
        return 0;
    unsigned first = below(random, t->messages);
    for (unsigned i = 0; i < t->messages; i++) {
        const struct message *m = &t->message[(first + i) % t->messages];
        if ((phase->closed[m->sender] >> m->receiver & 1) != 0)
            continue;
        /* Old loans are then still on the books when their rooms ask anew. */
        if (phase->temper == SLOW && m->kind == REDUCE && !one_in(random, 16))
            continue;
        *e = (struct event){.kind = DELIVER, .room = m->sender, .receiver = m->receiver};
        return 1;
    }
    return 0;
}

static int choose_room(const struct phase *phase, const struct table *t, struct random *random, unsigned kind,
                       struct event *e) {
    unsigned set = rooms_for(phase, t, kind);
    if (set == 0)
        return 0;
    *e = (struct event){.kind = kind, .room = member(random, set)};
    if (kind == ASK)
        e->mode = phase->modes[below(random, 8)];
    /* In a pile the room with the token is to hold R. */
    if (kind == ASK && phase->temper == PILE && t->room[e->room].token)
        e->mode = R;
    return 1;
}

static unsigned weighed_kind(const unsigned weight[4], struct random *random) {
    unsigned at = below(random, weight[0] + weight[1] + weight[2] + weight[3]);
    unsigned kind = 0;
    while (at >= weight[kind])
        at -= weight[kind++];
    return ASK + kind;
}

/* Where nothing fits the kind chosen, the others are tried in turn, those of no weight not. */
int choose_event(const struct phase *phase, const struct table *t, struct random *random, struct event *e) {
    unsigned first = weighed_kind(phase->weight, random);
    for (unsigned i = 0; i < 4; i++) {
        unsigned kind = ASK + (first - ASK + i) % 4;
        if (phase->weight[kind - ASK] == 0)
            continue;
        if (kind == DELIVER ? choose_wire(phase, t, random, e) : choose_room(phase, t, random, kind, e))
            return 1;
    }
    return 0;
}

static unsigned any_room(unsigned n, struct random *random) {
    return one_in(random, 6) ? below(random, 100) : below(random, n);
}

struct event any_event(unsigned n, struct random *random) {
    return (struct event){.kind = ASK + below(random, 4),
                          .room = any_room(n, random),
                          .receiver = any_room(n, random),
                          .mode = IR + below(random, 5)};
}
