/* Nights with their derived plans and cards, the same in each run. */
#ifndef NIGHTS_H
#define NIGHTS_H
#include "night.h"
#include <string.h>

static const char *const NAMES[KINDS] = {"derive", "check", "replay", "read", "write", "lists",
                                         "derive-closed", "check-closed", "replay-closed", "fewest-passes"};
static uint64_t state = 88172645463325252u;

/* A number below a bound, the same in each run. */
static size_t below(size_t bound) {
    state ^= state << 13;
    state ^= state >> 7;
    state ^= state << 17;
    return (size_t)((state >> 11) % bound);
}

static void shuffle(uint16_t *list, size_t n) {
    for (size_t i = n - 1; i > 0; i--) {
        size_t j = below(i + 1);
        uint16_t item = list[i];
        list[i] = list[j];
        list[j] = item;
    }
}

/* Whether a night has more cars than every edition takes. */
static int is_bigger(size_t cars) {
    return cars > FIRST_CARS;
}

/* The calls for nights of so many cars: where they begin in the table. */
static int kinds_for(size_t cars) {
    return is_bigger(cars) ? KINDS : 0;
}

/* A night of up to eight trains on three to eight tracks, or a bigger one of up to 256 on three to sixteen; nothing says
   yet that its limit of steps will do. */
static void any_night(struct night *n, size_t cars) {
    memset(n, 0, sizeof *n);
    n->cars = cars;
    n->trains = 1 + below(is_bigger(cars) ? TRAINS : 8);
    n->tracks = 3 + below((is_bigger(cars) ? TRACKS : FIRST_TRACKS) - 2);
    n->room = is_bigger(cars) ? CARS : FIRST_CARS;
    n->limit = is_bigger(cars) ? STEPS : FIRST_STEPS;
    for (size_t i = 0; i < cars; i++) {
        n->lengths[i < n->trains ? i : below(n->trains)]++;
        n->inbound[i] = (uint16_t)(i + 1);
    }
    shuffle(n->inbound, cars);
}

/* Its derived plan and that plan's card, or 0 where a call refuses. */
static int planned(struct night *n) {
    struct told derived = calls[DERIVE](n);
    if (derived.number != 0) return 0;
    memcpy(n->codes, n->codes_out, sizeof n->codes);
    n->steps = derived.a;
    n->stage = below(n->steps + 1);
    struct told written = calls[WRITE](n);
    memcpy(n->card, n->card_out, sizeof n->card);
    n->card_len = written.a;
    return written.number == 0 && calls[CHECK](n).number == 0;
}

/* Its derived plan with the night closed, or 0 where a call refuses; an edition without closed nights has none. */
static int planned_closed(struct night *n) {
    if (!calls[DERIVE_CLOSED]) return 1;
    struct told derived = calls[DERIVE_CLOSED](n);
    if (derived.number != 0) return 0;
    memcpy(n->closed_codes, n->codes_out, sizeof n->closed_codes);
    n->closed_steps = derived.a;
    return calls[CHECK_CLOSED](n).number == 0;
}

/* A night of so many cars for which plans within its limit are found, open and closed. */
static void planned_night(struct night *n, size_t cars) {
    do any_night(n, cars);
    while (!planned(n) || !planned_closed(n));
}
#endif
