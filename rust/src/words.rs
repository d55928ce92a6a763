//! The numbers of document 01 and their words, made from words/refusals.tsv by words/make.py.

/// Why a call refused, by document 01's numbers.
///
/// Later papers add numbers, so a `match` needs an arm for all others.
#[non_exhaustive]
#[derive(Clone, Copy, Debug, PartialEq, Eq, Hash)]
pub enum Kind {
    /// 1: a count out of its range. A: 1 cars, 2 trains, 3 tracks, 4 room, 5 steps or limit, 6 stage above h, 7 passes.
    CountOutOfRange,
    /// 2: a train of length 0, or lengths not adding up to n. A: first such train, or 0 for the sum.
    LengthsWrong,
    /// 3: inbound list not each car once. A: first place with a number out of range or met before, B: where one met before is first listed, or 0.
    InboundWrong,
    /// 4: a list whose length isn't its count, or a buffer to be written too short. A: 1 lengths, 2 inbound, 3 codes, 4 tracks, 5 places, 6 card.
    ListOrBufferWrong,
    /// 5: fewest steps above the limit. A: fewest steps (may exceed 16).
    LimitTooLow,
    /// 6: a track overfilled. A: first such step, B: its cars.
    TrackOverfilled,
    /// 7: a code not below 2^h. A: first such car.
    CodeTooLarge,
    /// 8: a car pulled early. A: lowest car of the first such step, B: that step.
    CarPulledEarly,
    /// 9: trains out of order. A: lowest j+1 whose pair breaks the rule.
    TrainsOutOfOrder,
    /// 10: card too short. A: bytes needed, as far as known.
    CardTooShort,
    /// 11: card edition not 1 or 2. A: edition.
    CardEdition,
    /// 12: non-zero padding, or bytes after the end. A: the card's right length.
    CardEndWrong,
    /// 13: a timing not allowed. A: 1 pull, 2 push.
    TimingNotAllowed,
    /// 14: a zero code in a closed night. A: first such car.
    ZeroCode,
    /// 17: wrong edition for this plan.
    WrongEdition,
    /// Any other: a number the paper does not have.
    Unknown,
}

/// The kind of a number.
pub(crate) fn kind(number: usize) -> Kind {
    match number {
        1 => Kind::CountOutOfRange,
        2 => Kind::LengthsWrong,
        3 => Kind::InboundWrong,
        4 => Kind::ListOrBufferWrong,
        5 => Kind::LimitTooLow,
        6 => Kind::TrackOverfilled,
        7 => Kind::CodeTooLarge,
        8 => Kind::CarPulledEarly,
        9 => Kind::TrainsOutOfOrder,
        10 => Kind::CardTooShort,
        11 => Kind::CardEdition,
        12 => Kind::CardEndWrong,
        13 => Kind::TimingNotAllowed,
        14 => Kind::ZeroCode,
        17 => Kind::WrongEdition,
        _ => Kind::Unknown,
    }
}

/// The words of a number.
pub(crate) fn words(number: usize) -> &'static str {
    match number {
        0 => "done",
        1 => "a count out of its range",
        2 => "a train of length 0, or lengths not adding up to n",
        3 => "inbound list not each car once",
        4 => "a list whose length isn't its count, or a buffer to be written too short",
        5 => "fewest steps above the limit",
        6 => "a track overfilled",
        7 => "a code not below 2^h",
        8 => "a car pulled early",
        9 => "trains out of order",
        10 => "card too short",
        11 => "card edition not 1 or 2",
        12 => "non-zero padding, or bytes after the end",
        13 => "a timing not allowed",
        14 => "a zero code in a closed night",
        17 => "wrong edition for this plan",
        _ => "a number the paper does not have",
    }
}

/// The words of the details.
pub(crate) fn details(number: usize, a: usize, b: usize) -> String {
    match (number, a, b) {
        (1, 1, _) => "cars".to_string(),
        (1, 2, _) => "trains".to_string(),
        (1, 3, _) => "tracks".to_string(),
        (1, 4, _) => "room".to_string(),
        (1, 5, _) => "steps or limit".to_string(),
        (1, 6, _) => "stage above h".to_string(),
        (1, 7, _) => "passes".to_string(),
        (2, 0, _) => "the sum".to_string(),
        (2, _, _) => format!("train {a}"),
        (3, _, 0) => format!("place {a}, out of range"),
        (3, _, _) => format!("place {a}, met before, first listed at place {b}"),
        (4, 1, _) => "lengths".to_string(),
        (4, 2, _) => "inbound".to_string(),
        (4, 3, _) => "codes".to_string(),
        (4, 4, _) => "tracks".to_string(),
        (4, 5, _) => "places".to_string(),
        (4, 6, _) => "card".to_string(),
        (5, _, _) => format!("fewest steps {a}"),
        (6, _, _) => format!("step {a}, {b} cars"),
        (7, _, _) => format!("car {a}"),
        (8, _, _) => format!("car {a}, step {b}"),
        (9, _, _) => format!("car {a}"),
        (10, _, _) => format!("{a} bytes needed, as far as known"),
        (11, _, _) => format!("edition {a}"),
        (12, _, _) => format!("right length {a}"),
        (13, 1, _) => "pull".to_string(),
        (13, 2, _) => "push".to_string(),
        (14, _, _) => format!("car {a}"),
        (17, _, _) => "the plan belongs on a card of edition 1".to_string(),
        _ => format!("A {a}, B {b}"),
    }
}
