#include "stories.h"

static const char *const stories[] = {
    /* A REDUCE under an old loan arrives after a newer loan. */
    "a 1 R;a 2 U;d 2 0;d 1 0;d 0 2;d 0 2;d 2 1;h 1;a 1 R;d 1 0;d 0 2;u 2;d 1 2;d 2 1;h 1;d 1 2;",
    /* The room with the token asks for W while it owns by a loan alone. */
    "a 0 IR;a 1 IR;a 2 IR;d 1 0;h 0;a 0 W;d 2 0;d 0 1;h 1;d 1 0;",
    /* The token goes to a room that has a loan from its sender. */
    "a 0 IR;a 1 IR;a 2 R;d 1 0;h 0;d 2 0;a 0 U;d 0 1;h 1;d 0 2;h 2;d 0 2;d 2 0;u 0;d 1 0;",
    /* The link number of a TOKEN would be given out a second time by its receiver. */
    "a 0 IR;a 1 IR;a 2 U;d 2 0;d 1 0;h 0;a 0 R;d 0 2;d 0 1;h 1;d 0 2;u 2;d 1 0;d 2 0;d 0 2;",
    /* A room without the token lends less to the same room than before, and so owns less. */
    ("a 1 R;d 1 0;d 0 1;a 3 U;d 3 0;d 0 1;d 1 3;a 2 R;d 2 0;d 0 1;d 1 2;h 1;h 2;a 2 IR;d 2 0;d 0 1;d 1 3;u 3;"
     "d 1 2;d 2 1;h 2;d 2 1;d 1 3;"),
    /* Two requests wait in the queue, and the one behind would agree. */
    "a 0 R;a 1 W;a 2 R;d 1 0;d 2 0;a 3 IR;d 3 0;h 0;d 0 1;h 1;d 1 2;d 1 3;d 2 1;",
};

const char *any_story(struct random *random) {
    return stories[below(random, sizeof stories / sizeof stories[0])];
}
