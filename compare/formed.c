/* "Well formed": each clause of that paragraph, in an order in which nothing is read out of range. */
#include <stddef.h>
#include <string.h>

#include "table.h"

/* The first byte is zero and each other one is as the one before it. */
static int zero(const void *bytes, size_t size) {
    const unsigned char *first = bytes;
    return size == 0 || (first[0] == 0 && memcmp(first, first + 1, size - 1) == 0);
}

/* "Records of rooms n and above [...] are all none or zero." */
static int unused_room(const struct room *r) {
    return r->held == NONE && r->wanted == NONE && r->token == 0 && r->toward == 0 && r->lender == NOBODY &&
           r->credit == NONE && r->link == 0 && r->counter == 0 &&
           zero(r->entry_mode, sizeof r->entry_mode) && zero(r->entry_link, sizeof r->entry_link);
}

/* "[...] and so are queue places and messages past those in use." */
static int unused_formed(const struct table *t) {
    for (unsigned x = t->n; x < ROOMS; x++)
        if (!unused_room(&t->room[x]))
            return 0;
    return zero(t->queue + t->queued, sizeof t->queue[0] * (size_t)(QUEUE - t->queued)) &&
           zero(t->message + t->messages, sizeof t->message[0] * (size_t)(MESSAGES - t->messages));
}

/* "No entry for oneself"; "an entry of mode none has link number zero"; entries for rooms n and above are
   all none or zero. */
static int entries_formed(const struct room *r, unsigned x, unsigned n) {
    unsigned bad = r->entry_mode[x] != NONE;
    for (unsigned y = 0; y < n; y++) {
        bad |= r->entry_mode[y] > W;
        bad |= (r->entry_mode[y] == NONE) & (r->entry_link[y] != 0);
    }
    return !bad && zero(r->entry_mode + n, sizeof r->entry_mode[0] * (ROOMS - n)) &&
           zero(r->entry_link + n, sizeof r->entry_link[0] * (ROOMS - n));
}

/* "Toward is oneself exactly for the room with the token" (which is thus 0 or 1); "no lender is oneself";
   link number zero in "a room without a lender; lender is nobody exactly when credit is none; the room with
   the token has no lender". */
static int ways_formed(const struct room *r, unsigned x, unsigned n) {
    int nobody = r->lender == NOBODY;
    return r->toward < n && (r->toward == x) == r->token && (nobody || r->lender < n) && r->lender != x &&
           r->credit <= W && nobody == (r->credit == NONE) && (!nobody || r->link == 0) &&
           (!r->token || nobody);
}

/* "U and W are held only with the token; held and wanted together only as U and W." */
static int modes_formed(const struct room *r) {
    if (r->held > W || r->wanted > W)
        return 0;
    if ((r->held == U || r->held == W) && !r->token)
        return 0;
    return r->held == NONE || r->wanted == NONE || (r->held == U && r->wanted == W);
}

/* What the walk over queue and messages has met. */
struct met {
    unsigned named;  /* bit x: room x has been named */
    unsigned tokens; /* TOKEN messages */
};

static int waits_without_upgrade(const struct room *r) { return r->wanted != NONE && r->held == NONE; }

/* "Each waiting room without an upgrade is named, with its mode, by exactly one of [...]; none of these
   names any other room": here with its wanted mode and not twice; that those named are those that wait is
   seen when all are met. */
static int name(const struct table *t, unsigned x, uint8_t mode, struct met *met) {
    unsigned bit = 1u << x;
    if ((met->named & bit) != 0 || t->room[x].wanted != mode)
        return 0;
    met->named |= bit;
    return 1;
}

/* "A sender is never the receiver"; "the room with the token has [...] no GRANT under way to it"; "GRANT
   modes only IR, R, IW, other message modes not none except the remaining mode and REDUCE". A mode that names
   a waiting room is its wanted mode, and so in range and not none. */
static int message_formed(const struct table *t, const struct message *m, struct met *met) {
    if (m->sender >= t->n || m->receiver >= t->n || m->sender == m->receiver)
        return 0;
    if (m->kind == REQUEST)
        return m->origin < t->n && m->idle <= 1 && m->remaining == 0 && m->link == 0 &&
               name(t, m->origin, m->mode, met);
    if (m->origin != 0 || m->idle != 0 || (m->kind != TOKEN && m->remaining != 0))
        return 0;
    switch (m->kind) {
    case GRANT:
        return (m->mode == IR || m->mode == R || m->mode == IW) && !t->room[m->receiver].token &&
               name(t, m->receiver, m->mode, met);
    case TOKEN:
        met->tokens++;
        return m->remaining <= W && name(t, m->receiver, m->mode, met);
    case REDUCE:
        return m->mode <= W;
    default:
        return 0;
    }
}

static int walk(const struct table *t, struct met *met) {
    for (unsigned i = 0; i < t->queued; i++)
        if (t->queue[i].room >= t->n || !name(t, t->queue[i].room, t->queue[i].mode, met))
            return 0;
    for (unsigned i = 0; i < t->messages; i++)
        if (!message_formed(t, &t->message[i], met))
            return 0;
    return 1;
}

int well_formed(const struct table *t) {
    if (t->n == 0 || t->n > ROOMS || t->queued > QUEUE || t->messages > MESSAGES || !unused_formed(t))
        return 0;
    unsigned waiting = 0;
    unsigned tokens = 0;
    for (unsigned x = 0; x < t->n; x++) {
        const struct room *r = &t->room[x];
        if (!modes_formed(r) || !ways_formed(r, x, t->n) || !entries_formed(r, x, t->n))
            return 0;
        waiting |= (unsigned)waits_without_upgrade(r) << x;
        tokens += r->token;
    }
    struct met met = {0, 0};
    /* "Exactly one token, with a room or in a TOKEN message." */
    return walk(t, &met) && met.named == waiting && tokens + met.tokens == 1;
}
