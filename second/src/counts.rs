//! The counts of a night or plan, and their ranges: those of document 01 and those of bigger nights.

/// The counts of a plan, or the most that there may be of each.
#[derive(Clone, Copy, Debug, PartialEq, Eq)]
pub struct Counts {
    pub cars: usize,
    pub trains: usize,
    pub tracks: usize,
    pub room: usize,
    pub steps: usize,
}

/// Document 01's ranges, which cards of edition 1 and the fewest passes keep.
pub const FIRST: Counts = Counts {
    cars: 512,
    trains: 64,
    tracks: 8,
    room: 512,
    steps: 8,
};

/// The ranges of bigger nights.
pub const MOST: Counts = Counts {
    cars: 4096,
    trains: 256,
    tracks: 16,
    room: 4096,
    steps: 16,
};

/// The most passes that are priced: every car once, and in every step.
pub const MOST_PASSES: usize = 69_632;

/// The bytes of the longest card.
pub const LONGEST_CARD: usize = 15_271;
