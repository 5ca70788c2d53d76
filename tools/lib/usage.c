/* Runs a program, and writes what it took to a file: usage FILE PROGRAM ARGUMENTS. The file gets one line: seconds by the clock,
   seconds of processor time, peak memory in KiB, and how many pages it touched. The peak is off by up to 128 KiB for each
   processor, the pages are exact. A small program of its own, since the peak of a program that a larger one
   starts begins with the memory of that. */
#include <stdio.h>
#include <sys/resource.h>
#include <sys/wait.h>
#include <time.h>
#include <unistd.h>

static double seconds_of(struct timeval time) { return time.tv_sec + time.tv_usec / 1e6; }

int main(int argc, char **argv) {
    struct timespec begin, end;
    struct rusage usage;
    int status;
    pid_t child;
    FILE *file;
    if (argc < 3) return 125;
    clock_gettime(CLOCK_MONOTONIC, &begin);
    child = fork();
    if (child < 0) return 125;
    if (child == 0) {
        execv(argv[2], argv + 2);
        _exit(125);
    }
    if (wait4(child, &status, 0, &usage) < 0) return 125;
    clock_gettime(CLOCK_MONOTONIC, &end);
    file = fopen(argv[1], "w");
    if (file == NULL) return 125;
    fprintf(file, "%.6f %.6f %ld %ld\n", end.tv_sec - begin.tv_sec + (end.tv_nsec - begin.tv_nsec) / 1e9,
            seconds_of(usage.ru_utime) + seconds_of(usage.ru_stime), usage.ru_maxrss, usage.ru_minflt);
    fclose(file);
    return WIFEXITED(status) ? WEXITSTATUS(status) : 126;
}
