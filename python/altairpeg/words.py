"""The numbers of document 01 and their words, made from words/refusals.tsv by words/make.py."""

from __future__ import annotations

UNKNOWN = "a number the paper does not have"

NAMES: dict[int, str] = {
    0: "DONE",
    1: "COUNT_OUT_OF_RANGE",
    2: "LENGTHS_WRONG",
    3: "INBOUND_WRONG",
    4: "LIST_OR_BUFFER_WRONG",
    5: "LIMIT_TOO_LOW",
    6: "TRACK_OVERFILLED",
    7: "CODE_TOO_LARGE",
    8: "CAR_PULLED_EARLY",
    9: "TRAINS_OUT_OF_ORDER",
    10: "CARD_TOO_SHORT",
    11: "CARD_EDITION",
    12: "CARD_END_WRONG",
    13: "TIMING_NOT_ALLOWED",
    14: "ZERO_CODE",
    17: "WRONG_EDITION",
}

WORDS: dict[int, str] = {
    0: "done",
    1: "a count out of its range",
    2: "a train of length 0, or lengths not adding up to n",
    3: "inbound list not each car once",
    4: "a list whose length isn't its count, or a buffer to be written too short",
    5: "fewest steps above the limit",
    6: "a track overfilled",
    7: "a code not below 2^h",
    8: "a car pulled early",
    9: "trains out of order",
    10: "card too short",
    11: "card edition not 1 or 2",
    12: "non-zero padding, or bytes after the end",
    13: "a timing not allowed",
    14: "a zero code in a closed night",
    17: "wrong edition for this plan",
}

# The words of the details by A and B, None for every other; {a} and {b} are the details themselves.
DETAILS: dict[int, list[tuple[int | None, int | None, str]]] = {
    0: [(None, None, "A {a}, B {b}")],
    1: [(1, None, "cars"), (2, None, "trains"), (3, None, "tracks"), (4, None, "room"), (5, None, "steps or limit"), (6, None, "stage above h"), (7, None, "passes"), (None, None, "A {a}, B {b}")],
    2: [(0, None, "the sum"), (None, None, "train {a}")],
    3: [(None, 0, "place {a}, out of range"), (None, None, "place {a}, met before, first listed at place {b}")],
    4: [(1, None, "lengths"), (2, None, "inbound"), (3, None, "codes"), (4, None, "tracks"), (5, None, "places"), (6, None, "card"), (None, None, "A {a}, B {b}")],
    5: [(None, None, "fewest steps {a}")],
    6: [(None, None, "step {a}, {b} cars")],
    7: [(None, None, "car {a}")],
    8: [(None, None, "car {a}, step {b}")],
    9: [(None, None, "car {a}")],
    10: [(None, None, "{a} bytes needed, as far as known")],
    11: [(None, None, "edition {a}")],
    12: [(None, None, "right length {a}")],
    13: [(1, None, "pull"), (2, None, "push"), (None, None, "A {a}, B {b}")],
    14: [(None, None, "car {a}")],
    17: [(None, None, "the plan belongs on a card of edition 1")],
}
