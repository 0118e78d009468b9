/* Runs a program, and prints to standard error what it took: runner PROGRAM [WORD..]

   The last line has the seconds of CPU time (user and system), the seconds by the clock, and the peak of its memory in
   KiB. The status is the program's. A process's peak counts the memory of the one that it was forked from, so this
   program is small. */
#define _DEFAULT_SOURCE
#include <stdio.h>
#include <sys/resource.h>
#include <sys/time.h>
#include <sys/wait.h>
#include <time.h>
#include <unistd.h>

static double seconds(struct timeval time) { return time.tv_sec + time.tv_usec / 1e6; }

static double now(void) {
    struct timespec time;
    clock_gettime(CLOCK_MONOTONIC, &time);
    return time.tv_sec + time.tv_nsec / 1e9;
}

int main(int argc, char **argv) {
    if (argc < 2) return 127;
    struct rusage used;
    int status;
    double begin = now();
    pid_t child = fork();
    if (child == 0) {
        execvp(argv[1], argv + 1);
        perror(argv[1]);
        _exit(127);
    }
    if (child < 0 || wait4(child, &status, 0, &used) != child) return 127;
    double wall = now() - begin;
    fprintf(stderr, "%.6f %.6f %ld\n", seconds(used.ru_utime) + seconds(used.ru_stime), wall, used.ru_maxrss);
    return WIFEXITED(status) ? WEXITSTATUS(status) : 128;
}
