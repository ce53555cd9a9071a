#include "session.h"

#include <string.h>

#include "rules.h"

/* What a line says: an event, or a fresh table of event.room rooms where kind is FRESH. */
enum { FRESH = DELIVER + 1 };

struct reader {
    const unsigned char *at;
    const unsigned char *end;
};

/* "One space." */
static int read_space(struct reader *line) {
    if (line->at == line->end || *line->at != ' ')
        return 0;
    line->at++;
    return 1;
}

/* "Numbers of one or two digits." */
static int read_number(struct reader *line, unsigned *number) {
    const unsigned char *first = line->at;
    *number = 0;
    while (line->at < line->end && line->at - first < 2 && *line->at >= '0' && *line->at <= '9') {
        *number = *number * 10 + (unsigned)(*line->at - '0');
        line->at++;
    }
    return line->at > first;
}

/* "A mode is one of IR, R, U, IW, W": all that is left of the line. */
static int read_mode(struct reader *line, unsigned *mode) {
    static const char names[MODES][3] = {"", "IR", "R", "U", "IW", "W"};
    size_t left = (size_t)(line->end - line->at);
    for (unsigned m = IR; m < MODES; m++) {
        size_t length = strlen(names[m]);
        if (left == length && memcmp(line->at, names[m], length) == 0) {
            *mode = m;
            line->at = line->end;
            return 1;
        }
    }
    return 0;
}

/* "`n 3`, `a 1 R`, `u 1`, `h 1`, `d 0 1` (fresh, ask, upgrade, hand back, deliver [...])": whether the line
   is of such a form. */
static int read_line(struct reader line, struct event *e) {
    static const char letters[] = "auhdn";
    if (line.at == line.end || *line.at == '\0')
        return 0;
    const char *letter = strchr(letters, *line.at);
    if (letter == NULL)
        return 0;
    line.at++;
    e->kind = ASK + (unsigned)(letter - letters);
    if (!read_space(&line) || !read_number(&line, &e->room))
        return 0;
    if (e->kind == ASK && !(read_space(&line) && read_mode(&line, &e->mode)))
        return 0;
    if (e->kind == DELIVER && !(read_space(&line) && read_number(&line, &e->receiver)))
        return 0;
    return line.at == line.end;
}

/* "A line of another form, or a longer one, answers 2. Before the first accepted `n` [...]: 3 for a bad `n`,
   otherwise 1, a line of another form included." */
static int line_number(struct session *s) {
    struct event e = {0, 0, 0, 0};
    int form = s->length <= LINE_MOST && read_line((struct reader){s->line, s->line + s->length}, &e);
    if (form && e.kind == FRESH) {
        int number = fresh(&s->table, e.room);
        s->open |= number == DONE;
        return number;
    }
    if (!s->open)
        return TABLE;
    return form ? step(&s->table, e) : EVENT;
}

static void put(struct answers *out, const char *text) {
    while (*text != '\0')
        out->bytes[out->used++] = *text++;
}

static void put_number(struct answers *out, unsigned number) {
    char digits[12];
    char *first = digits + sizeof digits - 1;
    *first = '\0';
    do {
        *--first = (char)('0' + number % 10);
        number /= 10;
    } while (number != 0);
    put(out, first);
}

/* "The token's room or `*`, messages on the wires, then each room's held mode, with single spaces." */
static void put_state(struct answers *out, const struct table *t) {
    static const char held[MODES][4] = {" -", " IR", " R", " U", " IW", " W"};
    unsigned x = 0;
    while (x < t->n && !t->room[x].token)
        x++;
    put(out, " ");
    if (x < t->n)
        put_number(out, x);
    else
        put(out, "*");
    put(out, " ");
    put_number(out, t->messages);
    for (x = 0; x < t->n; x++)
        put(out, held[t->room[x].held]);
}

static void answer(struct session *s, struct answers *out) {
    put_number(out, (unsigned)line_number(s));
    if (s->open)
        put_state(out, &s->table);
    put(out, "\n");
    s->length = 0;
}

void begin_session(struct session *s) { memset(s, 0, sizeof *s); }

size_t feed_session(struct session *s, const unsigned char *bytes, size_t count, struct answers *out) {
    size_t taken = 0;
    while (taken < count && out->size - out->used >= ANSWER_MOST) {
        unsigned char byte = bytes[taken++];
        if (byte == '\n')
            answer(s, out);
        else if (s->length <= LINE_MOST)
            s->line[s->length++] = byte;
    }
    return taken;
}

void end_session(struct session *s, struct answers *out) {
    if (s->length > 0)
        answer(s, out);
}
