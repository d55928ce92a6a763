/* Altairpeg: multistage sorting plans derived, checked, replayed, priced and stored on night cards.
 *
 * Link with libaltairpeg.a, which `tools/build staticlib altairpeg` writes to target/staticlib/, or with what `make install`
 * puts in place, archive or shared object.
 *
 * A night: the lengths of the outbound trains, the inbound order of the cars, its mark, the sorting tracks and the room
 * on each. The mark says whether the destination tracks are open from the first roll-in on, or closed: then they serve
 * other work until the first pull, and no car rolls to one before it. Closed is usual, but the caller says which it is.
 * A plan: a night, its steps h, and one code for each car, in car order, a number below 2^h: bit k set means that the
 * car is pulled in step k. A car with code 0 rolls to its destination track at once, so in a closed night no car has
 * it. Cars, trains and places in a list count from 1, tracks, steps and places on a track from 0.
 *
 * Every call takes any input: nothing is asked of the caller but that each pointer, unless its length is 0, points to
 * as many items as the length behind it says, and that a buffer to be written overlaps no other list of the same call.
 * No call allocates, keeps a pointer or holds state, so calls may run at the same time. A refused call writes nothing.
 * An accepted one writes the items that its comment names, at the front of each buffer, and leaves all others as they
 * were.
 *
 * What a call answers: a number, 0 where all is done, and two details A and B, 0 where unused.
 *
 * [table, made from words/refusals.tsv by words/make.py]
 *   No.  Given when                                           A, B
 *    0   done                                                 as the call says
 *    1   a count out of its range                             A: 1 cars, 2 trains, 3 tracks, 4 room, 5 steps or limit,
 *                                                                6 stage above h, 7 passes
 *    2   a train of length 0, or lengths not adding up to n   A: first such train, or 0 for the sum
 *    3   inbound list not each car once                       A: first place with a number out of range or met before,
 *                                                                B: where one met before is first listed, or 0
 *    4   a list whose length isn't its count, or a buffer to  A: 1 lengths, 2 inbound, 3 codes, 4 tracks, 5 places,
 *        be written too short                                    6 card
 *    5   fewest steps above the limit                         A: fewest steps (may exceed 16)
 *    6   a track overfilled                                   A: first such step, B: its cars
 *    7   a code not below 2^h                                 A: first such car
 *    8   a car pulled early                                   A: lowest car of the first such step, B: that step
 *    9   trains out of order                                  A: lowest j+1 whose pair breaks the rule
 *   10   card too short                                       A: bytes needed, as far as known
 *   11   card edition not 1 or 2                              A: edition
 *   12   non-zero padding, or bytes after the end             A: the card's right length
 *   13   a timing not allowed                                 A: 1 pull, 2 push
 *   14   a zero code in a closed night                        A: first such car
 *   17   wrong edition for this plan
 * [end of table]
 *
 * Within 1, 4 and 13 the lowest A comes first; within 2 a length of 0 comes before the sum.
 */
#ifndef ALTAIRPEG_H
#define ALTAIRPEG_H

#include <stddef.h>
#include <stdint.h>

#ifdef __cplusplus
extern "C" {
#endif

/* The ranges of the counts, and the length of the longest card. Steps and step limits are 0 to ALTAIRPEG_STEPS, passes
 * to be priced 0 to ALTAIRPEG_PASSES, all others from 1 on. */
#define ALTAIRPEG_CARS 4096
#define ALTAIRPEG_TRAINS 256
#define ALTAIRPEG_TRACKS 16
#define ALTAIRPEG_ROOM 4096
#define ALTAIRPEG_STEPS 16
#define ALTAIRPEG_PASSES 69632
#define ALTAIRPEG_CARD_BYTES 15271

/* The ranges that cards of edition 1 and the call for the fewest passes keep, and the length of the longest card of
 * edition 1. */
#define ALTAIRPEG_FIRST_CARS 512
#define ALTAIRPEG_FIRST_TRAINS 64
#define ALTAIRPEG_FIRST_TRACKS 8
#define ALTAIRPEG_FIRST_ROOM 512
#define ALTAIRPEG_FIRST_STEPS 8
#define ALTAIRPEG_FIRST_CARD_BYTES 1237

/* The numbers of the table above [numbers, made from words/refusals.tsv by words/make.py]. */
enum altairpeg_number {
    ALTAIRPEG_DONE = 0,
    ALTAIRPEG_COUNT_OUT_OF_RANGE = 1,
    ALTAIRPEG_LENGTHS_WRONG = 2,
    ALTAIRPEG_INBOUND_WRONG = 3,
    ALTAIRPEG_LIST_OR_BUFFER_WRONG = 4,
    ALTAIRPEG_LIMIT_TOO_LOW = 5,
    ALTAIRPEG_TRACK_OVERFILLED = 6,
    ALTAIRPEG_CODE_TOO_LARGE = 7,
    ALTAIRPEG_CAR_PULLED_EARLY = 8,
    ALTAIRPEG_TRAINS_OUT_OF_ORDER = 9,
    ALTAIRPEG_CARD_TOO_SHORT = 10,
    ALTAIRPEG_CARD_EDITION = 11,
    ALTAIRPEG_CARD_END_WRONG = 12,
    ALTAIRPEG_TIMING_NOT_ALLOWED = 13,
    ALTAIRPEG_ZERO_CODE = 14,
    ALTAIRPEG_WRONG_EDITION = 17
};
/* [end of numbers] */

/* The mark of a night. Every number but 0 counts as closed, which is the safe side: a plan that is accepted with the
 * destination tracks closed is accepted with them open, too. */
enum altairpeg_mark {
    ALTAIRPEG_OPEN = 0,
    ALTAIRPEG_CLOSED = 1
};

/* A number and its two details. */
typedef struct altairpeg_answer {
    size_t number;
    size_t a;
    size_t b;
} altairpeg_answer;

/* What the card reader tells: a number and its details, then the card's mark, steps, tracks, room, cars and trains, all
 * 0 where it refuses. */
typedef struct altairpeg_card_answer {
    size_t number;
    size_t a;
    size_t b;
    size_t mark;
    size_t steps;
    size_t tracks;
    size_t room;
    size_t cars;
    size_t trains;
} altairpeg_card_answer;

/* Seconds for a pull-out, and seconds to push one car: each 0 to 4096 and a multiple of 1/16. */
typedef struct altairpeg_timings {
    double pull;
    double push;
} altairpeg_timings;

/* A number and its details, and the price, positive zero where it is refused. */
typedef struct altairpeg_price_answer {
    size_t number;
    size_t a;
    size_t b;
    double price;
} altairpeg_price_answer;

/* The counts of a call that no list sets, by name: the sorting tracks, the room on each, and the steps of a plan or,
 * for derive, the step limit. In C: (altairpeg_counts){.tracks = 2, .room = 4, .steps = 8}. */
typedef struct altairpeg_counts {
    size_t tracks;
    size_t room;
    size_t steps;
} altairpeg_counts;

/* Derives the plan of a night with the fewest steps, at most counts.steps; in a closed night no car gets code 0.
 * Tests: 1 (cars, trains, tracks, room, limit), 2, 3, 4 (codes), 5, 6.
 * Writes: the code of each car to the first n items of codes.
 * Answers: A the steps, in a closed night at least 1, B the passes of the whole plan.
 * 5 says that no plan that builds the trains, and in a closed night has no code 0, keeps to the limit; 6 speaks of the
 * derived plan alone. */
altairpeg_answer altairpeg_derive(
    const uint16_t *lengths, size_t lengths_len,
    const uint16_t *inbound, size_t inbound_len,
    size_t mark, altairpeg_counts counts,
    uint16_t *codes, size_t codes_len);

/* Finds, for a night and a given number of steps, counts.steps, the codes that build the trains, in a closed night
 * without code 0, with the fewest passes; of those with as few, the list that is smallest at the first differing car.
 * This call keeps the first ranges: up to ALTAIRPEG_FIRST_CARS cars, and so on.
 * Tests: 1 (cars, trains, tracks, room, steps), 2, 3, 4 (codes), 5, 6.
 * Writes: the code of each car to the first n items of codes.
 * Answers: A the steps, as given, B the passes of the whole plan.
 * 5 says that there are no such codes of these steps, and A tells the fewest steps of which there are; 6 speaks of the
 * found codes alone, and may come although derive, or fewer steps, find room. Where two such calls are accepted, the
 * one with more steps has no more passes; and where derive is accepted too, with the steps that it tells no more than
 * derive's. */
altairpeg_answer altairpeg_fewest_passes(
    const uint16_t *lengths, size_t lengths_len,
    const uint16_t *inbound, size_t inbound_len,
    size_t mark, altairpeg_counts counts,
    uint16_t *codes, size_t codes_len);

/* Checks a plan offered by anyone, by its replay.
 * Tests: 1 (cars, trains, tracks, room, steps), 2, 3, 4 (codes), 7, in a closed night 14, then 8, 6, 9.
 * Writes: nothing.
 * Answers: A the passes, B the cars of the fullest pull, 0 where the plan has no steps. */
altairpeg_answer altairpeg_check(
    const uint16_t *lengths, size_t lengths_len,
    const uint16_t *inbound, size_t inbound_len,
    const uint16_t *codes, size_t codes_len,
    size_t mark, altairpeg_counts counts);

/* Replays a plan to a stage: stage 0 is the yard after the first roll-in, stage s after s steps.
 * Tests, always of the whole plan: 1 (cars, trains, tracks, room, steps, stage), 2, 3, 4 (codes, tracks, places), 7, in
 * a closed night 14, then 8, 6.
 * Writes: each car's track to the first n items of on, tracks + train - 1 for the destination of a train; and its place
 * there, from 0, the front, to the first n items of at.
 * Answers: A the passes up to the stage, B 0. */
altairpeg_answer altairpeg_replay(
    const uint16_t *lengths, size_t lengths_len,
    const uint16_t *inbound, size_t inbound_len,
    const uint16_t *codes, size_t codes_len,
    size_t mark, altairpeg_counts counts, size_t stage,
    uint16_t *on, size_t on_len,
    uint16_t *at, size_t at_len);

/* Reads a night card of edition 1 or 2. It accepts plans that check would refuse.
 * Tests: an empty card is 10 (A 1); 11; under 5 bytes of edition 1, or 7 of edition 2, is 10 (A 5 or 7); 1 (cars,
 * trains, tracks, room, steps), by the ranges of the edition; shorter than the whole is 10; 4 (lengths, inbound, codes);
 * 2; 3; 12; 17.
 * Writes: the first m items of lengths, the first n of inbound and of codes.
 * Answers: the card's mark, steps, tracks, room, cars and trains; A and B are 0. The night of a card of edition 1 is
 * open. 17 says that the plan of a card of edition 2 belongs on a card of edition 1. */
altairpeg_card_answer altairpeg_read(
    const uint8_t *card, size_t card_len,
    uint16_t *lengths, size_t lengths_len,
    uint16_t *inbound, size_t inbound_len,
    uint16_t *codes, size_t codes_len);

/* Writes the night card of a plan: edition 1 where its night is open and all its counts lie in the first ranges, else
 * edition 2. A plan has no other card.
 * Tests: 1 (cars, trains, tracks, room, steps), 2, 3, 4 (codes), 7, 4 (card).
 * Writes: the card's bytes to the front of card.
 * Answers: A the card's length in bytes, B 0. */
altairpeg_answer altairpeg_write(
    const uint16_t *lengths, size_t lengths_len,
    const uint16_t *inbound, size_t inbound_len,
    const uint16_t *codes, size_t codes_len,
    size_t mark, altairpeg_counts counts,
    uint8_t *card, size_t card_len);

/* Prices a night: steps times pull plus passes times push, exactly.
 * Tests: 1 (steps, passes), 13 (pull, push).
 * Writes: nothing.
 * Answers: the price; A and B are 0. */
altairpeg_price_answer altairpeg_price(size_t steps, size_t passes, altairpeg_timings timings);

/* The fewest tracks, 1 to 16, on which a car with this code is never pulled early. It refuses nothing. */
size_t altairpeg_fewest_tracks(uint16_t code);

#ifdef __cplusplus
}
#endif

#endif
