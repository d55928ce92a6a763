/* The calls of this edition, each on a night. Another edition has its own file of this name, so that both can be measured
   in one program even where the C interface changed between them. */
#include "altairpeg.h"
#include "night.h"

static struct told told(altairpeg_answer answer) {
    return (struct told){answer.number, answer.a};
}

static altairpeg_counts counts(const struct night *n, size_t steps) {
    return (altairpeg_counts){.tracks = n->tracks, .room = n->room, .steps = steps};
}

/* A night's plan with a mark. */
struct marked {
    size_t mark, steps;
    const uint16_t *codes;
};

static struct marked opened(const struct night *n) {
    return (struct marked){ALTAIRPEG_OPEN, n->steps, n->codes};
}

static struct marked closed(const struct night *n) {
    return (struct marked){ALTAIRPEG_CLOSED, n->closed_steps, n->closed_codes};
}

static struct told derive_as(struct night *n, size_t mark) {
    return told(altairpeg_derive(n->lengths, n->trains, n->inbound, n->cars, mark, counts(n, n->limit), n->codes_out,
                                 n->cars));
}

static struct told check_as(struct night *n, struct marked plan) {
    return told(altairpeg_check(n->lengths, n->trains, n->inbound, n->cars, plan.codes, n->cars, plan.mark,
                                counts(n, plan.steps)));
}

/* A closed plan has no fewer steps than the open one, so the stage is one of either. */
static struct told replay_as(struct night *n, struct marked plan) {
    return told(altairpeg_replay(n->lengths, n->trains, n->inbound, n->cars, plan.codes, n->cars, plan.mark,
                                 counts(n, plan.steps), n->stage, n->on, n->cars, n->at, n->cars));
}

static struct told derive(struct night *n) {
    return derive_as(n, ALTAIRPEG_OPEN);
}

static struct told check(struct night *n) {
    return check_as(n, opened(n));
}

static struct told replay(struct night *n) {
    return replay_as(n, opened(n));
}

static struct told derive_closed(struct night *n) {
    return derive_as(n, ALTAIRPEG_CLOSED);
}

static struct told check_closed(struct night *n) {
    return check_as(n, closed(n));
}

static struct told replay_closed(struct night *n) {
    return replay_as(n, closed(n));
}

/* With the most steps there are the most codes to choose from, and each night that it takes has codes of eight steps. */
static struct told fewest_passes(struct night *n) {
    return told(altairpeg_fewest_passes(n->lengths, n->trains, n->inbound, n->cars, ALTAIRPEG_OPEN,
                                        counts(n, ALTAIRPEG_FIRST_STEPS), n->codes_out, n->cars));
}

static struct told read(struct night *n) {
    altairpeg_card_answer answer = altairpeg_read(n->card, n->card_len, n->lengths_out, n->trains, n->inbound_out,
                                                  n->cars, n->codes_out, n->cars);
    return (struct told){answer.number, answer.a};
}

static struct told write(struct night *n) {
    return told(altairpeg_write(n->lengths, n->trains, n->inbound, n->cars, n->codes, n->cars, ALTAIRPEG_OPEN,
                                counts(n, n->steps), n->card_out, CARD));
}

/* The tests of the counts, the train lengths and the inbound list alone: no code is given, which is refused by 4 behind them. */
static struct told lists(struct night *n) {
    altairpeg_answer answer = altairpeg_check(n->lengths, n->trains, n->inbound, n->cars, n->codes, 0, ALTAIRPEG_OPEN,
                                              counts(n, n->steps));
    return (struct told){answer.number - 4, answer.a};
}

calls_of_a_night *const calls[CALLS] = {
    derive, check, replay, read, write, lists, derive_closed, check_closed, replay_closed, fewest_passes,
    derive, check, replay, read, write, lists, derive_closed, check_closed, replay_closed, NULL};
