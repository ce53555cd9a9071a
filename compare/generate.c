/* Writes a session: generate SEED LINES ROOMS [plain]. With ROOMS 0 the number of rooms varies; otherwise one
   n line stands at the start and there is no other. plain leaves out damaged lines. */
#include <stdio.h>
#include <stdlib.h>
#include <string.h>

#include "damage.h"
#include "session.h"
#include "stories.h"
#include "walk.h"

struct generator {
    struct random random;
    struct session session; /* follows what is written, damaged lines too */
    struct phase phase;
    unsigned long left; /* lines still to be written */
    unsigned rooms;     /* 0 where it varies */
    unsigned young;     /* tables still to come that live only for some lines */
    int plain;
};

/* The last line, where it is not empty, lacks its line feed now and then. */
static void write_line(struct generator *g, char *line, size_t length) {
    char bytes[ANSWER_MOST];
    struct answers out = {bytes, sizeof bytes, 0};
    g->left--;
    if (g->left > 0 || g->plain || length == 0 || !one_in(&g->random, 2))
        line[length++] = '\n';
    feed_session(&g->session, (const unsigned char *)line, length, &out);
    fwrite(line, 1, length, stdout);
}

/* A number below 10 with a zero before it, now and then. */
static size_t put_number(struct generator *g, char *to, unsigned number) {
    const char *form = !g->plain && one_in(&g->random, 12) ? "%02u" : "%u";
    return (size_t)snprintf(to, 8, form, number);
}

static size_t put_event(struct generator *g, char *line, struct event e) {
    static const char letters[] = "?auhd";
    static const char *const modes[MODES] = {"-", "IR", "R", "U", "IW", "W"};
    size_t length = 0;
    line[length++] = letters[e.kind];
    line[length++] = ' ';
    length += put_number(g, line + length, e.room);
    if (e.kind == ASK || e.kind == DELIVER)
        line[length++] = ' ';
    if (e.kind == ASK)
        length += (size_t)snprintf(line + length, 4, "%s", modes[e.mode]);
    if (e.kind == DELIVER)
        length += put_number(g, line + length, e.receiver);
    return length;
}

static void write_fresh(struct generator *g, unsigned n) {
    char line[16] = "n ";
    write_line(g, line, 2 + put_number(g, line + 2, n));
}

static void write_event(struct generator *g, struct event e) {
    char line[32];
    write_line(g, line, put_event(g, line, e));
}

/* Where the number of rooms stays, a damaged line is not to be a good n line by chance. */
static void write_damaged(struct generator *g, struct event e) {
    char line[DAMAGED_MOST + 1];
    size_t length = damage(line, put_event(g, line, e), &g->random);
    if (g->rooms != 0 && length > 0 && line[0] == 'n')
        line[0] = 'm';
    write_line(g, line, length);
}

static unsigned bad_rooms(struct random *random) {
    static const unsigned bad[] = {0, 17, 99};
    return one_in(random, 2) ? bad[below(random, 3)] : 17 + below(random, 83);
}

/* Lines before the first accepted n, some damaged. */
static void write_too_early(struct generator *g) {
    for (unsigned count = below(&g->random, 12); count > 0 && g->left > 0; count--) {
        struct event e = any_event(ROOMS, &g->random);
        if (one_in(&g->random, 3))
            write_fresh(g, bad_rooms(&g->random));
        else if (!g->plain && one_in(&g->random, 2))
            write_damaged(g, e);
        else
            write_event(g, e);
    }
}

/* A story from a fresh table, its rooms 1 to 3 under other numbers. */
static void write_story(struct generator *g) {
    unsigned n = STORY_ROOMS + below(&g->random, ROOMS - STORY_ROOMS + 1);
    unsigned turn = below(&g->random, n - 1);
    write_fresh(g, n);
    char line[32];
    size_t length = 0;
    for (const char *at = any_story(&g->random); *at != '\0' && g->left > 0; at++) {
        if (*at == ';') {
            write_line(g, line, length);
            length = 0;
        } else if (*at >= '1' && *at <= '9') {
            length += put_number(g, line + length, 1 + ((unsigned)(*at - '1') + turn) % (n - 1));
        } else {
            line[length++] = *at;
        }
    }
}

/* A fresh table. Often a series of small ones that live only for some lines: link numbers are low there, and
   meet. */
static void write_new_rooms(struct generator *g) {
    if (g->young > 0)
        g->young--;
    else if (one_in(&g->random, 2))
        g->young = below(&g->random, 60);
    if (g->young > 0)
        write_fresh(g, 3 + below(&g->random, 2));
    else
        write_fresh(g, one_in(&g->random, 2) ? 2 + below(&g->random, 5) : 1 + below(&g->random, ROOMS));
}

static void begin_next_phase(struct generator *g) {
    begin_phase(&g->phase, &g->session.table, &g->random);
    if (g->young > 0)
        g->phase.left = 15 + below(&g->random, 40);
}

/* One line of a phase: mostly an event that makes sense; at times any event, a damaged line or a bad n. A
   phase ends where nothing makes sense, and not long after the wires are busy. */
static void write_phase_line(struct generator *g) {
    const struct table *t = &g->session.table;
    struct event e = any_event(t->n, &g->random);
    int busy = t->messages >= BUSY_MESSAGES;
    g->phase.left--;
    if (busy && one_in(&g->random, 30))
        g->phase.left = 0;
    if (!g->plain && one_in(&g->random, 20)) {
        write_damaged(g, e);
    } else if (g->rooms == 0 && one_in(&g->random, 250)) {
        write_fresh(g, bad_rooms(&g->random));
    } else if (one_in(&g->random, busy ? 3 : 16) && !disturbs(&g->phase, t, e)) {
        write_event(g, e);
    } else {
        if (!choose_event(&g->phase, t, &g->random, &e))
            g->phase.left = 0;
        write_event(g, e);
    }
}

/* After a phase: another one on the same table, a story, or a fresh table. */
static void write_turn(struct generator *g) {
    if (g->rooms != 0 || !one_in(&g->random, g->young > 0 ? 2 : 6))
        begin_next_phase(g);
    else if (one_in(&g->random, 8))
        write_story(g);
    else
        write_new_rooms(g);
}

static void generate(struct generator *g) {
    if (g->rooms == 0) {
        write_too_early(g);
        while (g->left > 0 && !g->session.open)
            write_new_rooms(g);
    } else if (g->left > 0) {
        write_fresh(g, g->rooms);
    }
    while (g->left > 0)
        if (g->phase.left > 0)
            write_phase_line(g);
        else
            write_turn(g);
}

int main(int argc, char **argv) {
    struct generator g = {.plain = argc == 5 && strcmp(argv[4], "plain") == 0};
    if (argc < 4 || argc > 5 || (argc == 5 && !g.plain)) {
        fprintf(stderr, "usage: generate SEED LINES ROOMS [plain]\n");
        return 2;
    }
    g.random.state = strtoull(argv[1], NULL, 10);
    g.left = strtoul(argv[2], NULL, 10);
    unsigned long rooms = strtoul(argv[3], NULL, 10);
    if (rooms > ROOMS) {
        fprintf(stderr, "generate: at most %d rooms\n", ROOMS);
        return 2;
    }
    g.rooms = (unsigned)rooms;
    begin_session(&g.session);
    generate(&g);
    return fflush(stdout) != 0;
}
