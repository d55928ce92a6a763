/* Measures the stack that each call of an edition takes at most, on nights of all sizes: a call runs on a painted stack of its own,
   and the deepest byte that lost its paint tells how far it came. */
#include "nights.h"
#include <stdio.h>
#include <ucontext.h>

enum { STACK = 262144, PAINT = 0xa5, TURNS = 400 };

static uint8_t stack[STACK] __attribute__((aligned(64)));
static ucontext_t outside, inside;
static calls_of_a_night *running;
static struct night night;

/* What the measuring takes by itself. */
static struct told nothing(struct night *n) {
    return (struct told){0, n->cars};
}

static void run(void) {
    running(&night);
}

static size_t taken(calls_of_a_night *call) {
    memset(stack, PAINT, STACK);
    running = call;
    getcontext(&inside);
    inside.uc_stack.ss_sp = stack;
    inside.uc_stack.ss_size = STACK;
    inside.uc_link = &outside;
    makecontext(&inside, run, 0);
    swapcontext(&outside, &inside);
    size_t left = 0;
    while (left < STACK && stack[left] == PAINT) left++;
    return STACK - left;
}

/* A row for each call that takes nights of up to so many cars and more than the fewest. */
static void rows(size_t fewest, size_t cars) {
    size_t most[CALLS] = {0};
    int first = kinds_for(cars);
    if (!calls[first + DERIVE]) return;
    for (int turn = 0; turn < TURNS; turn++) {
        planned_night(&night, turn == 0 ? cars : fewest + 1 + below(cars - fewest));
        for (int call = first; call < first + KINDS; call++) {
            if (!calls[call]) continue;
            size_t bytes = taken(calls[call]) - taken(nothing);
            if (bytes > most[call]) most[call] = bytes;
        }
    }
    for (int call = first; call < first + KINDS; call++)
        if (calls[call]) printf("| %s | %zu | %zu |\n", NAMES[call % KINDS], cars, most[call]);
}

int main(void) {
    rows(0, FIRST_CARS);
    rows(FIRST_CARS, CARS);
    return 0;
}
