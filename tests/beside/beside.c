/* Measures this edition of the library beside an earlier one, in one program and on the same nights. */
#include "nights.h"
#include <stdio.h>
#include <stdlib.h>
#include <time.h>

extern calls_of_a_night *const before_calls[CALLS];

enum { NIGHTS = 128, ROUNDS = 501 };
static const size_t SIZES[] = {8, 64, 512, 4096};

static struct night nights[NIGHTS];

static double nanoseconds(void) {
    struct timespec now;
    clock_gettime(CLOCK_MONOTONIC, &now);
    return (double)now.tv_sec * 1e9 + (double)now.tv_nsec;
}

/* The time of a call for a night, on average over some turns; a refusal would be measured as speed, so it stops the run. */
static double round_of(calls_of_a_night *call, int turns) {
    size_t refused = 0;
    double began = nanoseconds();
    for (int turn = 0; turn < turns; turn++)
        for (size_t i = 0; i < NIGHTS; i++) refused += call(&nights[i]).number;
    double took = nanoseconds() - began;
    if (refused != 0) {
        fprintf(stderr, "beside: a call refused\n");
        exit(1);
    }
    return took / NIGHTS / turns;
}

static int rising(const void *a, const void *b) {
    double x = *(const double *)a, y = *(const double *)b;
    return (x > y) - (x < y);
}

/* The middle of how many times the earlier edition's time this one takes, in neighbouring rounds; each goes first in half of them. */
static void row(int call, size_t cars) {
    static double ratio[ROUNDS];
    int turns = cars < 64 ? 4 : 1;
    for (int r = 0; r < ROUNDS; r++) {
        double before = 0;
        if (r % 2) before = round_of(before_calls[call], turns);
        double now = round_of(calls[call], turns);
        if (r % 2 == 0) before = round_of(before_calls[call], turns);
        ratio[r] = now / before;
    }
    qsort(ratio, ROUNDS, sizeof *ratio, rising);
    printf("%s %zu %.3f\n", NAMES[call % KINDS], cars, ratio[ROUNDS / 2]);
}

/* The rows of nights of so many cars, where the earlier edition takes them. */
static void rows(size_t cars) {
    int first = kinds_for(cars);
    if (!before_calls[first + DERIVE]) return;
    for (size_t i = 0; i < NIGHTS; i++) planned_night(&nights[i], cars);
    for (int call = first; call < first + KINDS; call++)
        if (calls[call] && before_calls[call]) row(call, cars);
}

int main(void) {
    for (size_t s = 0; s < sizeof SIZES / sizeof *SIZES; s++) rows(SIZES[s]);
    return 0;
}
