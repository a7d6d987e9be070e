/* pairs PAIRS FILE..: times two libraries on the workloads that the files have, in bursts of about a third of a millisecond, one library after the other. Prints a
 * line for each that both libraries can do: its name, by the step or call the time of each library that a tenth of its bursts are below, and the median of
 * the pairs' ratios. */
#define _POSIX_C_SOURCE 199309L
#include <stdio.h>
#include <stdlib.h>
#include <time.h>
#include "calls.h"

enum { MOST = 1 << 25, BURST = 300000, OUTPUT = 34308, WORK = 65536 };

typedef int caller(const struct call *);

struct workload {
    uint32_t number, output_length, fuel, steps, name_length, programs;
    const uint8_t *name, *first;
};

static uint8_t bytes[MOST], output[OUTPUT], work[WORK];

static uint32_t number_at(const uint8_t *at) { return at[0] | at[1] << 8 | at[2] << 16 | (uint32_t)at[3] << 24; }

static struct workload read_workload(const char *file) {
    FILE *f = fopen(file, "rb");
    if (!f || fread(bytes, 1, MOST, f) == MOST) { perror(file); exit(2); }
    fclose(f);
    const uint8_t *name = bytes + 20;
    uint32_t length = number_at(bytes + 16);
    return (struct workload){number_at(bytes), number_at(bytes + 4), number_at(bytes + 8), number_at(bytes + 12), length, number_at(name + length), name, name + length + 4};
}

/* Calls each program once, and tells the last number. */
static int pass(caller *library, const struct workload *w) {
    const uint8_t *at = w->first;
    int told = 0;
    for (uint32_t i = 0; i < w->programs; i++) {
        uint32_t length = number_at(at);
        struct call c = {w->number, w->fuel, at + 4, length, output, w->output_length, work, WORK};
        told = library(&c);
        at += 4 + length;
    }
    return told;
}

static double burst(caller *library, const struct workload *w, int passes) {
    struct timespec from, to;
    clock_gettime(CLOCK_MONOTONIC, &from);
    for (int i = 0; i < passes; i++)
        pass(library, w);
    clock_gettime(CLOCK_MONOTONIC, &to);
    return ((to.tv_sec - from.tv_sec) * 1e9 + (to.tv_nsec - from.tv_nsec)) / passes;
}

static int compare(const void *a, const void *b) {
    double x = *(const double *)a, y = *(const double *)b;
    return x < y ? -1 : x > y;
}

static double part(double *times, int count, int of) {
    qsort(times, count, sizeof *times, compare);
    return times[count / of];
}

static void measure(const struct workload *w, int pairs) {
    int passes = 1 + (int)(BURST / burst(before_call, w, 1));
    double *before = calloc(pairs, sizeof *before), *after = calloc(pairs, sizeof *after), *ratio = calloc(pairs, sizeof *ratio);
    if (!before || !after || !ratio) { perror("pairs"); exit(2); }
    for (int i = 0; i < pairs; i++) {
        if (i % 2) before[i] = burst(before_call, w, passes); /* each library is the first of every other pair */
        after[i] = burst(after_call, w, passes);
        if (!(i % 2)) before[i] = burst(before_call, w, passes);
        ratio[i] = after[i] / before[i];
    }
    double by = w->steps ? w->steps : w->programs;
    printf("%.*s|%.2f|%.2f|%.4f\n", (int)w->name_length, (const char *)w->name, part(before, pairs, 10) / by, part(after, pairs, 10) / by, part(ratio, pairs, 2));
    free(before);
    free(after);
    free(ratio);
}

int main(int argc, char **argv) {
    int pairs = argc > 1 ? atoi(argv[1]) : 0;
    if (pairs < 1) { fprintf(stderr, "usage: pairs PAIRS FILE..\n"); return 2; }
    for (int i = 2; i < argc; i++) {
        struct workload w = read_workload(argv[i]);
        int told = pass(before_call, &w), tells = pass(after_call, &w);
        if (told < 0 || tells < 0) continue;
        if (told != tells) { fprintf(stderr, "%.*s: refused by %d before and by %d after\n", (int)w.name_length, (const char *)w.name, told, tells); return 1; }
        measure(&w, pairs);
    }
    return 0;
}
