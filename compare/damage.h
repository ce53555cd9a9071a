/* Damaged lines: lines of another form, and some that only look damaged. */
#ifndef DAMAGE_H
#define DAMAGE_H

#include <stddef.h>

#include "random.h"

enum { DAMAGED_MOST = 6000 };

/* Turns the good line of length bytes in a buffer of DAMAGED_MOST into a damaged one without a line feed,
   and gives its length. */
size_t damage(char *line, size_t length, struct random *random);

#endif
