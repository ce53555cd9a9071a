#include "damage.h"

#include <ctype.h>
#include <string.h>

static size_t insert(char *line, size_t length, size_t at, char byte) {
    memmove(line + at + 1, line + at, length - at);
    line[at] = byte;
    return length + 1;
}

/* Any byte but a line feed. */
static char any_byte(struct random *random) {
    static const char likely[] = " 0123456789nauhdIRUW-\r\t\0\xff";
    if (one_in(random, 2))
        return likely[below(random, sizeof likely - 1)];
    unsigned byte = below(random, 255);
    return (char)(unsigned char)(byte < '\n' ? byte : byte + 1);
}

/* One byte more, less or another one. */
static size_t change_one(char *line, size_t length, struct random *random) {
    size_t at = below(random, (unsigned)length);
    switch (below(random, 3)) {
    case 0:
        return insert(line, length, at, any_byte(random));
    case 1:
        memmove(line + at, line + at + 1, length - at - 1);
        return length - 1;
    default:
        line[at] = any_byte(random);
        return length;
    }
}

/* The line, then the same byte again and again up to the length. */
static size_t lengthen(char *line, size_t length, size_t to, char byte) {
    memset(line + length, byte, to - length);
    return to;
}

static size_t noise(char *line, struct random *random) {
    size_t length = 1 + below(random, 80);
    for (size_t i = 0; i < length; i++)
        line[i] = any_byte(random);
    return length;
}

/* A space or a digit is doubled, a letter made small or a zero put before a number. */
static size_t change_form(char *line, size_t length, struct random *random) {
    size_t at = 1 + below(random, (unsigned)length - 1);
    unsigned char byte = (unsigned char)line[at];
    if (isupper(byte)) {
        line[at] = (char)tolower(byte);
        return length;
    }
    return insert(line, length, at, isdigit(byte) && one_in(random, 2) ? '0' : (char)byte);
}

size_t damage(char *line, size_t length, struct random *random) {
    static const char fill[] = " x0R\0\xe4";
    char byte = fill[below(random, sizeof fill - 1)];
    switch (below(random, 12)) {
    case 0:
        return 0;
    case 1:
        return insert(line, length, length, ' ');
    case 2:
        return insert(line, length, length, '\r');
    case 3:
        return below(random, (unsigned)length);
    case 4:
        return lengthen(line, length, 62 + below(random, 6), byte);
    case 5:
        return lengthen(line, length, 64 + below(random, 2), byte);
    case 6:
        return one_in(random, 8) ? lengthen(line, length, 1000 + below(random, 5000), byte)
                                 : lengthen(line, length, 66 + below(random, 200), byte);
    case 7:
        return noise(line, random);
    case 8:
    case 9:
        return change_form(line, length, random);
    default:
        return change_one(line, length, random);
    }
}
