/* Runs a program with this program's standard input and output and prints the seconds it took, to three
   decimals, on standard error: timer PROGRAM [ARGS]. Ends with the program's status. */
#define _POSIX_C_SOURCE 200809L
#include <stdio.h>
#include <sys/types.h>
#include <sys/wait.h>
#include <time.h>
#include <unistd.h>

static double seconds(void) {
    struct timespec now;
    clock_gettime(CLOCK_MONOTONIC, &now);
    return (double)now.tv_sec + (double)now.tv_nsec / 1e9;
}

int main(int argc, char **argv) {
    if (argc < 2) {
        fprintf(stderr, "usage: timer PROGRAM [ARGS]\n");
        return 2;
    }
    double start = seconds();
    pid_t program = fork();
    if (program == 0) {
        execvp(argv[1], argv + 1);
        perror(argv[1]);
        _exit(127);
    }
    int status;
    if (program < 0 || waitpid(program, &status, 0) != program)
        return 2;
    fprintf(stderr, "%.3f\n", seconds() - start);
    return WIFEXITED(status) ? WEXITSTATUS(status) : 1;
}
