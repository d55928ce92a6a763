/* A night with all that a call reads and writes, for two editions of the library in one program. */
#ifndef NIGHT_H
#define NIGHT_H
#include <stddef.h>
#include <stdint.h>

enum { CARS = 4096, TRAINS = 256, TRACKS = 16, STEPS = 16, CARD = 15271 };
/* The limits of nights that every edition takes. */
enum { FIRST_CARS = 512, FIRST_TRACKS = 8, FIRST_STEPS = 8 };

struct night {
    size_t cars, trains, tracks, room, limit, steps, stage, card_len;
    uint16_t lengths[TRAINS], inbound[CARS], codes[CARS];
    uint8_t card[CARD];
    /* the plan of the night closed; the codes and steps above are those of the night open, which every edition has */
    size_t closed_steps;
    uint16_t closed_codes[CARS];
    /* what the calls write */
    uint16_t lengths_out[TRAINS], inbound_out[CARS], codes_out[CARS], on[CARS], at[CARS];
    uint8_t card_out[CARD];
};

/* The number of an answer, and its detail A. */
struct told {
    size_t number, a;
};

typedef struct told calls_of_a_night(struct night *);

/* A call that an edition lacks is NULL, and is not measured. Behind the kinds they stand once more, for nights of more
   cars: an edition that takes no such night, whose table is shorter, has NULL there. */
enum { DERIVE, CHECK, REPLAY, READ, WRITE, LISTS, DERIVE_CLOSED, CHECK_CLOSED, REPLAY_CLOSED, FEWEST_PASSES, KINDS };
enum { CALLS = 2 * KINDS };
extern calls_of_a_night *const calls[CALLS];
#endif
