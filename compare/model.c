/* A session on standard input, its answers on standard output. --size prints the size of a table. */
#include <errno.h>
#include <signal.h>
#include <stdio.h>
#include <string.h>
#include <unistd.h>

#include "session.h"

enum { IN_SIZE = 64 * 1024, OUT_SIZE = 64 * 1024 };

struct buffers {
    unsigned char in[IN_SIZE];
    char out[OUT_SIZE];
};

/* Whether all of it went out. */
static int write_all(const char *bytes, size_t count) {
    while (count > 0) {
        ssize_t written = write(STDOUT_FILENO, bytes, count);
        if (written < 0 && errno == EINTR)
            continue;
        if (written <= 0)
            return 0;
        bytes += written;
        count -= (size_t)written;
    }
    return 1;
}

static ssize_t read_some(unsigned char *bytes, size_t size) {
    ssize_t got;
    do
        got = read(STDIN_FILENO, bytes, size);
    while (got < 0 && errno == EINTR);
    return got;
}

/* Answers all lines that end in these bytes; whether the answers went out. */
static int answer_all(struct session *s, const unsigned char *bytes, size_t count, struct answers *out) {
    while (count > 0) {
        size_t taken = feed_session(s, bytes, count, out);
        bytes += taken;
        count -= taken;
        if (!write_all(out->bytes, out->used))
            return 0;
        out->used = 0;
    }
    return 1;
}

static int run(struct session *s, struct buffers *b) {
    struct answers out = {b->out, sizeof b->out, 0};
    ssize_t got;
    begin_session(s);
    while ((got = read_some(b->in, sizeof b->in)) > 0)
        if (!answer_all(s, b->in, (size_t)got, &out))
            return 0;
    if (got < 0) {
        perror("model: standard input");
        return 1;
    }
    end_session(s, &out);
    write_all(out.bytes, out.used);
    return 0;
}

/* A reader that goes away, or a full device, ends the program and is no fault. */
int main(int argc, char **argv) {
    if (argc > 1 && strcmp(argv[1], "--size") == 0) {
        printf("%zu\n", sizeof(struct table));
        return 0;
    }
    struct session session;
    struct buffers buffers;
    signal(SIGPIPE, SIG_IGN);
    return run(&session, &buffers);
}
