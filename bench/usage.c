/* Runs a command, and writes to a file the seconds that it took, those of processor time, and its greatest memory in KiB.
 *
 * usage: usage FILE COMMAND [WORD]... */
#include <stdio.h>
#include <sys/resource.h>
#include <sys/wait.h>
#include <time.h>
#include <unistd.h>

static double seconds_now(void) {
    struct timespec now;
    clock_gettime(CLOCK_MONOTONIC, &now);
    return now.tv_sec + now.tv_nsec * 1e-9;
}

static double seconds_of(struct timeval time) {
    return time.tv_sec + time.tv_usec * 1e-6;
}

int main(int count, char **words) {
    if (count < 3)
        return 2;
    double start = seconds_now();
    pid_t child = fork();
    if (child == 0) {
        execvp(words[2], words + 2);
        _exit(127);
    }
    int status;
    struct rusage usage;
    if (child < 0 || wait4(child, &status, 0, &usage) != child)
        return 2;
    double taken = seconds_now() - start;
    double worked = seconds_of(usage.ru_utime) + seconds_of(usage.ru_stime);
    FILE *file = fopen(words[1], "w");
    if (file == NULL || fprintf(file, "%.3f %.3f %ld\n", taken, worked, usage.ru_maxrss) < 0 || fclose(file) != 0)
        return 2;
    return WIFEXITED(status) ? WEXITSTATUS(status) : 1;
}
