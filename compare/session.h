/* The session program: lines in, answers out. Bytes may come in pieces of any size. */
#ifndef SESSION_H
#define SESSION_H

#include <stddef.h>

#include "table.h"

/* The longest line that may be of a form; the longest answer: "11 15 256", " IW" sixteen times, a line feed.
 */
enum { LINE_MOST = 64, ANSWER_MOST = 64 };

struct session {
    struct table table;
    int open;                          /* an n line has been accepted */
    size_t length;                     /* of the line so far, and LINE_MOST + 1 for any longer one */
    unsigned char line[LINE_MOST + 1]; /* its bytes, as many as fit */
};

/* Where answers go: a buffer of size bytes, used of them written. */
struct answers {
    char *bytes;
    size_t size;
    size_t used;
};

void begin_session(struct session *s);

/* Takes bytes while there is place for ANSWER_MOST, answers each line that ends in them, and gives how many
   it took. */
size_t feed_session(struct session *s, const unsigned char *bytes, size_t count, struct answers *out);

/* Answers the last line where it lacked its line feed. There is place for ANSWER_MOST. */
void end_session(struct session *s, struct answers *out);

#endif
