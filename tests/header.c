/* Every call once, through the header: what goes over by value and by pointer arrives as the header says. */
#include "altairpeg.h"

#include <stdio.h>
#include <string.h>

/* Compiled only where it holds. */
#define HOLDS(what, name) typedef char name[(what) ? 1 : -1]

/* The limits of #108, and document 01's, are those of the papers. */
HOLDS(ALTAIRPEG_CARS == 4096 && ALTAIRPEG_FIRST_CARS == 512, cars_of_the_papers);
HOLDS(ALTAIRPEG_TRAINS == 256 && ALTAIRPEG_FIRST_TRAINS == 64, trains_of_the_papers);
HOLDS(ALTAIRPEG_TRACKS == 16 && ALTAIRPEG_FIRST_TRACKS == 8, tracks_of_the_papers);
HOLDS(ALTAIRPEG_ROOM == 4096 && ALTAIRPEG_FIRST_ROOM == 512, room_of_the_papers);
HOLDS(ALTAIRPEG_STEPS == 16 && ALTAIRPEG_FIRST_STEPS == 8, steps_of_the_papers);
HOLDS(ALTAIRPEG_PASSES == ALTAIRPEG_CARS * (ALTAIRPEG_STEPS + 1), passes_of_every_car_in_every_step);

/* A card's bytes: its head, the lengths and the inbound order, each item of so many bits, and the codes. */
#define BYTES(head, item, trains, cars, steps) (((head) + (item) * ((trains) + (cars)) + (steps) * (cars) + 7) / 8)
HOLDS(ALTAIRPEG_FIRST_CARD_BYTES == BYTES(39, 10, ALTAIRPEG_FIRST_TRAINS, ALTAIRPEG_FIRST_CARS, ALTAIRPEG_FIRST_STEPS), first_card);
HOLDS(ALTAIRPEG_CARD_BYTES == BYTES(50, 13, ALTAIRPEG_TRAINS, ALTAIRPEG_CARS, ALTAIRPEG_STEPS), longest_card);

/* Every struct has its items without gaps. */
HOLDS(sizeof(altairpeg_answer) == 3 * sizeof(size_t), three_numbers);
HOLDS(sizeof(altairpeg_counts) == 3 * sizeof(size_t), three_counts);
HOLDS(sizeof(altairpeg_timings) == 2 * sizeof(double), two_timings);
HOLDS(sizeof(altairpeg_price_answer) == 3 * sizeof(size_t) + sizeof(double), three_numbers_and_a_price);

static int faults = 0;

static void expect(int holds, const char *what) {
    if (!holds) {
        fprintf(stderr, "not as the header says: %s\n", what);
        faults = 1;
    }
}

static int same(altairpeg_answer r, size_t number, size_t a, size_t b) {
    return r.number == number && r.a == a && r.b == b;
}

/* Night N of document 01, what is derived of it open (case 1) and closed, and the cards of both, with room for 3 and for 4. */
static const uint16_t lengths[] = {6}, inbound[] = {3, 6, 1, 5, 2, 4};
static const uint16_t open_codes[] = {0, 0, 1, 1, 2, 3}, closed_codes[] = {1, 1, 2, 2, 3, 5};
static const uint8_t bytes[] = {
    0x12, 0x20, 0x0C, 0x06, 0x02, 0x03, 0x00, 0x60, 0x30, 0x02, 0x02, 0x80, 0x40, 0x20, 0x2D, 0x80};
static const uint8_t closed_bytes[] = {
    0x28, 0xC4, 0x00, 0x40, 0x03, 0x00, 0x40, 0x0C, 0x00, 0x30,
    0x03, 0x00, 0x04, 0x00, 0xA0, 0x02, 0x00, 0x21, 0x29, 0x3A};

static altairpeg_counts counts(size_t tracks, size_t room, size_t steps) {
    altairpeg_counts given;
    given.tracks = tracks;
    given.room = room;
    given.steps = steps;
    return given;
}

static altairpeg_answer check(const uint16_t *codes, size_t mark, altairpeg_counts given) {
    return altairpeg_check(lengths, 1, inbound, 6, codes, 6, mark, given);
}

/* The yard at stage 0, to be seen in on and at. */
static uint16_t on[6], at[6];

static altairpeg_answer replay(const uint16_t *codes, size_t mark, altairpeg_counts given) {
    return altairpeg_replay(lengths, 1, inbound, 6, codes, 6, mark, given, 0, on, 6, at, 6);
}

/* What is derived of the night with this mark: its codes, and nothing behind them. */
static void derived(size_t mark, size_t room, size_t steps, size_t passes, const uint16_t *wanted) {
    uint16_t codes[7] = {9, 9, 9, 9, 9, 9, 9};
    altairpeg_answer r = altairpeg_derive(lengths, 1, inbound, 6, mark, counts(2, room, ALTAIRPEG_STEPS), codes, 7);
    expect(same(r, ALTAIRPEG_DONE, steps, passes), "derive");
    expect(memcmp(codes, wanted, 6 * sizeof *codes) == 0 && codes[6] == 9, "codes, and no more");
    r = altairpeg_derive(lengths, 1, inbound, 6, mark, counts(2, room, steps - 1), codes, 7);
    expect(same(r, ALTAIRPEG_LIMIT_TOO_LOW, steps, 0), "limit");
    r = altairpeg_derive(lengths, 1, inbound, 6, mark, counts(2, room - 1, ALTAIRPEG_STEPS), codes, 7);
    expect(same(r, ALTAIRPEG_TRACK_OVERFILLED, 0, room), "room");
}

static void open_night(void) {
    derived(ALTAIRPEG_OPEN, 3, 2, 11, open_codes);
    expect(same(check(open_codes, ALTAIRPEG_OPEN, counts(2, 3, 2)), ALTAIRPEG_DONE, 11, 3), "check");
    expect(same(replay(open_codes, ALTAIRPEG_OPEN, counts(2, 3, 2)), ALTAIRPEG_DONE, 6, 0), "replay");
    expect(on[5] == 0 && at[5] == 1 && on[1] == 2 && at[1] == 1, "the yard at stage 0");
    altairpeg_answer r = altairpeg_derive(NULL, 0, NULL, 0, ALTAIRPEG_OPEN, counts(2, 3, 8), NULL, 0);
    expect(same(r, ALTAIRPEG_COUNT_OUT_OF_RANGE, 1, 0), "no lists");
}

/* At stage 0 track 0 has 6 1 5 2 and track 1 has 3 4. */
static void closed_night(size_t mark) {
    derived(mark, 4, 3, 14, closed_codes);
    expect(same(check(closed_codes, mark, counts(2, 4, 3)), ALTAIRPEG_DONE, 14, 4), "check, closed");
    expect(same(replay(closed_codes, mark, counts(2, 4, 3)), ALTAIRPEG_DONE, 6, 0), "replay, closed");
    expect(on[5] == 0 && at[5] == 0 && on[3] == 1 && at[3] == 1, "the yard at stage 0, closed");
    for (int car = 1; car <= 6; car++) expect(on[car - 1] < 2, "no car at its destination before the first pull");
}

/* The codes of the open night: refused where it is closed, and nothing is written. */
static void zero_code(size_t mark) {
    memset(on, 0xff, sizeof on);
    memset(at, 0xff, sizeof at);
    expect(same(check(open_codes, mark, counts(2, 3, 2)), ALTAIRPEG_ZERO_CODE, 1, 0), "check, a zero code");
    expect(same(replay(open_codes, mark, counts(2, 3, 2)), ALTAIRPEG_ZERO_CODE, 1, 0), "replay, a zero code");
    for (int car = 1; car <= 6; car++) expect(on[car - 1] == 0xffff && at[car - 1] == 0xffff, "nothing written");
}

/* Every mark but 0 is closed, also one of which a byte, or half of a size_t, is 0. */
static void marks(void) {
    const size_t closed[] = {ALTAIRPEG_CLOSED, 2, 256, (size_t)-1 / 2 + 1, (size_t)-1};
    for (size_t i = 0; i < sizeof closed / sizeof *closed; i++) {
        closed_night(closed[i]);
        zero_code(closed[i]);
    }
}

/* The fewest passes of one train of six cars: its codes, and nothing behind them. */
static void fewest(const uint16_t *order, size_t mark, altairpeg_counts given, size_t passes, const uint16_t *wanted) {
    uint16_t codes[7] = {9, 9, 9, 9, 9, 9, 9};
    altairpeg_answer r = altairpeg_fewest_passes(lengths, 1, order, 6, mark, given, codes, 7);
    expect(same(r, ALTAIRPEG_DONE, given.steps, passes), "fewest passes");
    expect(memcmp(codes, wanted, 6 * sizeof *codes) == 0 && codes[6] == 9, "codes of the fewest passes, and no more");
}

/* The same call, with room for so many codes, where it refuses and writes nothing. */
static void no_fewest(
    const uint16_t *order, size_t mark, altairpeg_counts given, size_t codes_len, size_t number, size_t a, size_t b) {
    uint16_t codes[6] = {9, 9, 9, 9, 9, 9};
    altairpeg_answer r = altairpeg_fewest_passes(lengths, 1, order, 6, mark, given, codes, codes_len);
    expect(same(r, number, a, b), "fewest passes, refused");
    for (int car = 1; car <= 6; car++) expect(codes[car - 1] == 9, "no code written");
}

/* Night N has four blocks without a break, 1 2 | 3 4 | 5 | 6, and each must get a larger code than the one before. On
 * two tracks only 0 has no set bit and only 1 and 2 have one (4 would wait on track 0, which step 0 pulls), so open
 * nothing beats 0 0 1 1 2 3, and closed nothing beats two cars with 1, two with 2 and two bits for 5 and 6: what derive
 * gives, and a step more changes nothing. */
static void fewest_of_n(void) {
    for (size_t steps = 2; steps <= 3; steps++) fewest(inbound, ALTAIRPEG_OPEN, counts(2, 3, steps), 11, open_codes);
    fewest(inbound, ALTAIRPEG_CLOSED, counts(2, 4, 3), 14, closed_codes);
    no_fewest(inbound, ALTAIRPEG_OPEN, counts(2, 3, 1), 6, ALTAIRPEG_LIMIT_TOO_LOW, 2, 0);
    no_fewest(inbound, ALTAIRPEG_CLOSED, counts(2, 4, 2), 6, ALTAIRPEG_LIMIT_TOO_LOW, 3, 0);
    no_fewest(inbound, ALTAIRPEG_OPEN, counts(2, 2, 2), 6, ALTAIRPEG_TRACK_OVERFILLED, 0, 3);
    no_fewest(inbound, ALTAIRPEG_OPEN, counts(2, 3, ALTAIRPEG_FIRST_STEPS + 1), 6, ALTAIRPEG_COUNT_OUT_OF_RANGE, 5, 0);
    no_fewest(inbound, ALTAIRPEG_OPEN, counts(2, 3, 1), 5, ALTAIRPEG_LIST_OR_BUFFER_WRONG, 3, 0);
}

/* Inbound 6 4 5 3 2 1 has five blocks, 1 | 2 | 3 | 4 5 | 6, of which one has two cars. On four tracks
 * - three steps have the codes 0 to 7, only 1, 2 and 4 with one set bit. Each car but 1 has a bit and some block has
 *   two, so 6 bits are the least, with that block a single car: it is 6, which gets 5, since 3 for car 3, or for 2,
 *   leaves but one code of one bit. Derive, which gives 3 to the pair and 4 to car 6, has 7.
 * - four steps have 8 as well, so each car but 1 has one bit: 5. The code 16 of five steps would wait on track 0.
 * - closed, three steps have 1, 2 and 4 for three blocks and two bits for two of one car: 8. Four steps have 8 for
 *   another block: 7, by 1 2 3 4 4 8 and by 1 2 4 8 8 9, of which the first is smaller at car 3.
 * Open, step 2 of three pulls 4, 5 and 6, and of four only 4 and 5: where there is room for 2, the first is refused. */
static void fewest_of_blocks(void) {
    const uint16_t order[] = {6, 4, 5, 3, 2, 1};
    const uint16_t three[] = {0, 1, 2, 4, 4, 5}, four[] = {0, 1, 2, 4, 4, 8};
    const uint16_t closed_three[] = {1, 2, 3, 4, 4, 5}, closed_four[] = {1, 2, 3, 4, 4, 8};
    fewest(order, ALTAIRPEG_OPEN, counts(4, 3, 3), 12, three);
    for (size_t steps = 4; steps <= ALTAIRPEG_FIRST_STEPS; steps++) fewest(order, ALTAIRPEG_OPEN, counts(4, 2, steps), 11, four);
    fewest(order, ALTAIRPEG_CLOSED, counts(4, 3, 3), 14, closed_three);
    fewest(order, (size_t)-1, counts(4, 2, 4), 13, closed_four);
    no_fewest(order, ALTAIRPEG_OPEN, counts(4, 3, 2), 6, ALTAIRPEG_LIMIT_TOO_LOW, 3, 0);
    no_fewest(order, ALTAIRPEG_OPEN, counts(4, 2, 3), 6, ALTAIRPEG_TRACK_OVERFILLED, 2, 3);
}

static uint16_t card_lengths[ALTAIRPEG_TRAINS], card_inbound[ALTAIRPEG_CARS], card_codes[ALTAIRPEG_CARS];

static altairpeg_card_answer read_card(const uint8_t *card, size_t length) {
    return altairpeg_read(
        card, length, card_lengths, ALTAIRPEG_TRAINS, card_inbound, ALTAIRPEG_CARS, card_codes, ALTAIRPEG_CARS);
}

/* A number, two details and six counts, in the order of their names, without gaps. */
static void card_answer(void) {
    const size_t places[] = {
        offsetof(altairpeg_card_answer, number), offsetof(altairpeg_card_answer, a),
        offsetof(altairpeg_card_answer, b),      offsetof(altairpeg_card_answer, mark),
        offsetof(altairpeg_card_answer, steps),  offsetof(altairpeg_card_answer, tracks),
        offsetof(altairpeg_card_answer, room),   offsetof(altairpeg_card_answer, cars),
        offsetof(altairpeg_card_answer, trains), sizeof(altairpeg_card_answer)};
    for (size_t i = 0; i < sizeof places / sizeof *places; i++)
        expect(places[i] == i * sizeof(size_t), "layout of the card's answer");
}

/* The card of night N with this mark, read, written again, and cut short. */
static void there_and_back(
    const uint8_t *given, size_t length, size_t mark, altairpeg_counts wanted, const uint16_t *codes) {
    uint8_t card[ALTAIRPEG_CARD_BYTES];
    altairpeg_card_answer r = read_card(given, length);
    expect(r.number == ALTAIRPEG_DONE && r.a == 0 && r.b == 0, "read");
    expect(r.mark == mark, "mark of the card");
    expect(r.steps == wanted.steps && r.tracks == wanted.tracks && r.room == wanted.room, "counts of the card");
    expect(r.cars == 6 && r.trains == 1, "cars and trains of the card");
    expect(card_lengths[0] == 6 && memcmp(card_inbound, inbound, sizeof inbound) == 0, "night of the card");
    expect(memcmp(card_codes, codes, 6 * sizeof *codes) == 0, "codes of the card");
    memset(card, 0xff, sizeof card);
    altairpeg_answer w = altairpeg_write(lengths, 1, inbound, 6, codes, 6, mark, wanted, card, sizeof card);
    expect(same(w, ALTAIRPEG_DONE, length, 0), "write");
    expect(memcmp(card, given, length) == 0 && card[length] == 0xff, "bytes of the card, and no more");
    w = altairpeg_write(lengths, 1, inbound, 6, codes, 6, mark, wanted, card, length - 1);
    expect(same(w, ALTAIRPEG_LIST_OR_BUFFER_WRONG, 6, 0), "too little room for the card");
    r = read_card(given, length - 1);
    expect(r.number == ALTAIRPEG_CARD_TOO_SHORT && r.a == length, "a short card");
    expect(r.mark == 0 && r.steps == 0 && r.trains == 0, "counts of a refused card");
}

/* A closed night is no plan of edition 1, and its card, marked as open, is none of edition 2. */
static void cards(void) {
    uint8_t card[sizeof closed_bytes];
    there_and_back(bytes, sizeof bytes, ALTAIRPEG_OPEN, counts(2, 3, 2), open_codes);
    there_and_back(closed_bytes, sizeof closed_bytes, ALTAIRPEG_CLOSED, counts(2, 4, 3), closed_codes);
    altairpeg_answer w = altairpeg_write(
        lengths, 1, inbound, 6, closed_codes, 6, (size_t)-1, counts(2, 4, 3), card, sizeof card);
    expect(same(w, ALTAIRPEG_DONE, sizeof card, 0) && memcmp(card, closed_bytes, sizeof card) == 0, "every other mark is closed");
    card[0] &= 0xf7;
    altairpeg_card_answer r = read_card(card, sizeof card);
    expect(r.number == ALTAIRPEG_WRONG_EDITION && r.a == 0 && r.b == 0, "a plan of edition 1 on a card of edition 2");
    expect(r.mark == 0 && r.steps == 0 && r.trains == 0, "counts of a card of the wrong edition");
    r = read_card(card, 6);
    expect(r.number == ALTAIRPEG_CARD_TOO_SHORT && r.a == 7, "a card of edition 2 without its counts");
}

/* The largest night, with codes by which each step pulls every car; one car or train more is refused. */
static uint16_t all_lengths[ALTAIRPEG_TRAINS + 1], all_cars[ALTAIRPEG_CARS + 1], all_codes[ALTAIRPEG_CARS + 1];

static altairpeg_answer check_all(size_t trains, size_t cars, altairpeg_counts given) {
    return altairpeg_check(all_lengths, trains, all_cars, cars, all_codes, cars, ALTAIRPEG_CLOSED, given);
}

static void largest_night(void) {
    static uint8_t card[ALTAIRPEG_CARD_BYTES];
    const size_t trains = ALTAIRPEG_TRAINS, cars = ALTAIRPEG_CARS;
    const altairpeg_counts most = counts(ALTAIRPEG_TRACKS, ALTAIRPEG_ROOM, ALTAIRPEG_STEPS);
    for (size_t i = 0; i <= trains; i++) all_lengths[i] = (uint16_t)(cars / trains);
    for (size_t i = 0; i <= cars; i++) all_cars[i] = (uint16_t)(i + 1), all_codes[i] = 0xffff;
    expect(same(check_all(trains, cars, most), ALTAIRPEG_DONE, ALTAIRPEG_PASSES, cars), "the largest night");
    expect(same(check_all(trains, cars + 1, most), ALTAIRPEG_COUNT_OUT_OF_RANGE, 1, 0), "a car more");
    expect(same(check_all(trains + 1, cars, most), ALTAIRPEG_COUNT_OUT_OF_RANGE, 2, 0), "a train more");
    altairpeg_answer w = altairpeg_write(
        all_lengths, trains, all_cars, cars, all_codes, cars, ALTAIRPEG_CLOSED, most, card, sizeof card);
    expect(same(w, ALTAIRPEG_DONE, sizeof card, 0), "the longest card");
    altairpeg_card_answer r = read_card(card, sizeof card);
    expect(r.number == ALTAIRPEG_DONE && r.mark == ALTAIRPEG_CLOSED && r.cars == cars && r.trains == trains, "read again");
    expect(memcmp(card_codes, all_codes, cars * sizeof *card_codes) == 0, "its codes");
}

/* One track, place of room or step more is refused. */
static void counts_out_of_range(void) {
    const size_t most[] = {ALTAIRPEG_TRACKS, ALTAIRPEG_ROOM, ALTAIRPEG_STEPS};
    for (size_t i = 0; i < 3; i++) {
        altairpeg_counts given = counts(most[0] + (i == 0), most[1] + (i == 1), most[2] + (i == 2));
        expect(same(check(open_codes, ALTAIRPEG_OPEN, given), ALTAIRPEG_COUNT_OUT_OF_RANGE, 3 + i, 0), "a count too large");
    }
}

static void prices(void) {
    altairpeg_timings timings = {600.0, 4.5};
    altairpeg_price_answer r = altairpeg_price(2, 11, timings);
    expect(r.number == ALTAIRPEG_DONE && r.price > 1249.25 && r.price < 1249.75, "price");
    timings.push = 0.01;
    r = altairpeg_price(ALTAIRPEG_STEPS, ALTAIRPEG_PASSES, timings);
    expect(r.number == ALTAIRPEG_TIMING_NOT_ALLOWED && r.a == 2, "a timing");
    r = altairpeg_price(ALTAIRPEG_STEPS + 1, ALTAIRPEG_PASSES + 1, timings);
    expect(r.number == ALTAIRPEG_COUNT_OUT_OF_RANGE && r.a == 5, "a step more to be priced");
    r = altairpeg_price(ALTAIRPEG_STEPS, ALTAIRPEG_PASSES + 1, timings);
    expect(r.number == ALTAIRPEG_COUNT_OUT_OF_RANGE && r.a == 7, "a pass more to be priced");
}

static void tracks_of_codes(void) {
    expect(altairpeg_fewest_tracks(129) == 7 && altairpeg_fewest_tracks(0) == 1, "fewest tracks");
    for (size_t bit = 0; bit < 16; bit++)
        expect(altairpeg_fewest_tracks((uint16_t)(1u << bit)) == bit + 1, "fewest tracks of a code of sixteen bits");
    expect(altairpeg_fewest_tracks(0x8101) == 8, "fewest tracks of three bits");
}

int main(void) {
    open_night();
    marks();
    fewest_of_n();
    fewest_of_blocks();
    card_answer();
    cards();
    largest_night();
    counts_out_of_range();
    prices();
    tracks_of_codes();
    return faults;
}
