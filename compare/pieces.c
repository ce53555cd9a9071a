/* Runs a program and gives it this program's standard input in small pieces, the next one only when the last
   one has been read: pieces PROGRAM [ARGS]. Ends with the program's status. */
#define _POSIX_C_SOURCE 200809L
#include <signal.h>
#include <stdio.h>
#include <stdlib.h>
#include <sys/ioctl.h>
#include <sys/wait.h>
#include <time.h>
#include <unistd.h>

/* Whether the piece went out and was read; not where the program ended before. */
static int give(int pipe_end, const char *bytes, size_t count, pid_t program, int *status) {
    const struct timespec moment = {.tv_sec = 0, .tv_nsec = 10000};
    int unread = 1;
    if (write(pipe_end, bytes, count) != (ssize_t)count)
        return 0;
    while (ioctl(pipe_end, FIONREAD, &unread) == 0 && unread > 0) {
        if (waitpid(program, status, WNOHANG) != 0)
            return 0;
        nanosleep(&moment, NULL);
    }
    return unread == 0;
}

static int give_all(int pipe_end, pid_t program, int *status) {
    static const size_t sizes[] = {7, 1, 2, 13, 3, 5, 64, 1, 1, 65, 11, 4};
    char bytes[65];
    for (unsigned i = 0;; i = (i + 1) % (unsigned)(sizeof sizes / sizeof sizes[0])) {
        size_t count = fread(bytes, 1, sizes[i], stdin);
        if (count == 0)
            return 1;
        if (!give(pipe_end, bytes, count, program, status))
            return 0;
    }
}

int main(int argc, char **argv) {
    int ends[2];
    int status = 1;
    if (argc < 2 || pipe(ends) != 0)
        return 2;
    signal(SIGPIPE, SIG_IGN);
    pid_t program = fork();
    if (program < 0)
        return 2;
    if (program == 0) {
        signal(SIGPIPE, SIG_DFL);
        dup2(ends[0], STDIN_FILENO);
        close(ends[0]);
        close(ends[1]);
        execvp(argv[1], argv + 1);
        perror(argv[1]);
        _exit(127);
    }
    close(ends[0]);
    int all = give_all(ends[1], program, &status);
    close(ends[1]);
    if (!all) {
        fprintf(stderr, "pieces: the program ended before its input\n");
        return 1;
    }
    if (waitpid(program, &status, 0) != program || !WIFEXITED(status))
        return 1;
    return WEXITSTATUS(status);
}
