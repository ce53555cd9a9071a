/* The session program: 01's session, in pieces of each size, and the forms of lines. */
#include <string.h>

#include "session.h"
#include "unit.h"

/* Whether the input, fed in pieces, gives the output. */
static int gives(const char *input, size_t length, const char *output, size_t piece) {
    char bytes[4096];
    struct answers out = {bytes, sizeof bytes, 0};
    struct session s;
    begin_session(&s);
    for (size_t at = 0; at < length;) {
        size_t count = length - at < piece ? length - at : piece;
        at += feed_session(&s, (const unsigned char *)input + at, count, &out);
    }
    end_session(&s, &out);
    return out.used == strlen(output) && memcmp(bytes, output, out.used) == 0;
}

static void session_of_01(struct tally *tally) {
    static const char input[] =
        "n 3\na 1 R\nd 1 0\nd 0 1\na 2 IR\nd 2 0\nd 0 1\nd 1 2\na 0 W\nd 0 1\nh 1\nh 2\n"
        "d 2 1\nd 1 0\nd 1 2\n";
    static const char output[] =
        "0 0 0 - - -\n0 0 1 - - -\n0 * 1 - - -\n0 1 0 - R -\n0 1 1 - R -\n0 1 1 - R -\n"
        "0 1 1 - R -\n0 1 0 - R IR\n0 1 1 - R IR\n0 1 0 - R IR\n0 1 0 - - IR\n"
        "0 1 1 - - -\n0 * 1 - - -\n0 0 0 W - -\n8 0 0 W - -\n";
    for (size_t piece = 1; piece <= sizeof input; piece++) {
        check(tally, gives(input, sizeof input - 1, output, piece), "01's session");
        check(tally, gives(input, sizeof input - 2, output, piece),
              "01's session without its last line feed");
    }
}

/* One line after "n 2": the answer's number, with the state. */
static void line(struct tally *tally, const char *text, size_t length, const char *answer) {
    char input[300] = "n 2\n";
    char output[300] = "0 0 0 - -\n";
    memcpy(input + 4, text, length);
    strcat(output, answer);
    check(tally, gives(input, 4 + length, output, 7), text);
    input[4 + length] = '\n';
    check(tally, gives(input, 5 + length, output, 7), text);
    check(tally, gives(input + 4, 1 + length, text[0] == 'n' && answer[0] == '3' ? "3\n" : "1\n", 7), text);
}

static void forms(struct tally *tally) {
    static const char *const other[] = {
        "a",      "a 0",    "a 0 ",   "a 0 X",   "a 0 r",   "a 0 -",   "a 0 IRR", "a 0 I",
        "a  0 R", "a 0  R", "a 0 R ", " a 0 R",  "a 0 R\r", "a 000 R", "A 0 R",   "a 0\tR",
        "n",      "n ",     "n 100",  "n 1 ",    "n -1",    "u 0 0",   "h",       "h0",
        "d 0",    "d 0 ",   "d 0 1 ", "d 0 100", "d 0  1",  "d 0 1 2", "a 0 R R", "a R",
        "x 0",    "+1",     "a +0 R", " ",       "\r",      "\xff",    "a 0 \xd7"};
    for (size_t i = 0; i < sizeof other / sizeof other[0]; i++)
        line(tally, other[i], strlen(other[i]), "2 0 0 - -\n");
    line(tally, "\0", 1, "2 0 0 - -\n");
    line(tally, "h 0\0", 4, "2 0 0 - -\n");
    line(tally, "h\0 0", 4, "2 0 0 - -\n");
    line(tally, "h 00", 4, "7 0 0 - -\n");
    line(tally, "d 01 00", 7, "8 0 0 - -\n");
    line(tally, "a 00 IW", 7, "0 0 0 IW -\n");
    line(tally, "a 2 W", 5, "3 0 0 - -\n");
    line(tally, "d 0 99", 6, "3 0 0 - -\n");
    line(tally, "n 0", 3, "3 0 0 - -\n");
    line(tally, "n 17", 4, "3 0 0 - -\n");
    line(tally, "n 99", 4, "3 0 0 - -\n");
}

/* Lines of 64, 65 and more bytes are each one line; an empty line is one, and the end of the input is not. */
static void lengths(struct tally *tally) {
    char input[400];
    memset(input, ' ', sizeof input);
    memcpy(input, "n 1\n", 4);
    for (size_t length = 60; length < 70; length++)
        check(tally, gives(input, 4 + length, "0 0 0 -\n2 0 0 -\n", 5), "one line of about 64 bytes");
    memcpy(input + 4, "a 0 R", 5);
    memcpy(input + 390, "\na 0 W", 6);
    check(tally, gives(input, 396, "0 0 0 -\n2 0 0 -\n0 0 0 W\n", 64), "a long line is one line");
    check(tally, gives("", 0, "", 1), "empty input prints nothing");
    check(tally, gives("\n", 1, "1\n", 1), "an empty line is a line");
    check(tally, gives("n 1\n\n", 5, "0 0 0 -\n2 0 0 -\n", 1), "an empty line is of another form");
    check(tally,
          gives("n 16\nn 2\nn 0", 12, "0 0 0 - - - - - - - - - - - - - - - -\n0 0 0 - -\n3 0 0 - -\n", 3),
          "a good n replaces the table, a bad one does not");
}

void unit_session(struct tally *tally) {
    session_of_01(tally);
    forms(tally);
    lengths(tally);
}
