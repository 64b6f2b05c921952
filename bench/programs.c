/* Times two programs over the same script, in turns: programs PROVED PLAIN SCRIPT RUNS.
   Prints the least and the median of the processes' own time (user and system), in microseconds, of each. */
#define _DEFAULT_SOURCE
#include <fcntl.h>
#include <stdio.h>
#include <stdlib.h>
#include <sys/resource.h>
#include <sys/wait.h>
#include <unistd.h>

static double microseconds(struct timeval t) { return (double)t.tv_sec * 1e6 + (double)t.tv_usec; }

static void become(const char *program, const char *script) {
    int in = open(script, O_RDONLY), out = open("/dev/null", O_WRONLY);
    if (in < 0 || out < 0 || dup2(in, 0) < 0 || dup2(out, 1) < 0) _exit(126);
    execl(program, program, (char *)NULL);
    _exit(127);
}

static double time_once(const char *program, const char *script) {
    struct rusage used;
    int status;
    pid_t child = fork();
    if (child == 0) become(program, script);
    if (child < 0 || wait4(child, &status, 0, &used) < 0 || status != 0) {
        fprintf(stderr, "programs: %s did not run\n", program);
        exit(1);
    }
    return microseconds(used.ru_utime) + microseconds(used.ru_stime);
}

static int ascending(const void *a, const void *b) {
    double x = *(const double *)a, y = *(const double *)b;
    return (x > y) - (x < y);
}

int main(int argc, char **argv) {
    int runs = argc == 5 ? atoi(argv[4]) : 0;
    if (runs <= 0) {
        fputs("usage: programs PROVED PLAIN SCRIPT RUNS\n", stderr);
        return 2;
    }
    double *times[2] = {malloc(sizeof(double) * (size_t)runs), malloc(sizeof(double) * (size_t)runs)};
    if (times[0] == NULL || times[1] == NULL) return 1;
    for (int i = 0; i < runs; i++)
        for (int which = 0; which < 2; which++) times[which][i] = time_once(argv[1 + which], argv[3]);
    for (int which = 0; which < 2; which++) qsort(times[which], (size_t)runs, sizeof(double), ascending);
    printf("%.0f %.0f %.0f %.0f\n", times[0][0], times[0][runs / 2], times[1][0], times[1][runs / 2]);
    return 0;
}
