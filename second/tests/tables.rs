//! The tables of the paper, and its statements on codes, tried over all of them.

use second::counts::MOST;
use second::steps::{
    fewest_steps, is_usable, kept_codes, recursive_counts, recursive_steps, usable_tracks,
};
use second::tally::LAST_FULL_STEP;
use second::yard::is_pulled_in;
use second::Mark::{self, Closed, Open};
use second::MARKS;

/// The paper's rows: tracks, then F(0) to F(8).
const ROWS: [(usize, [usize; 9]); 4] = [
    (1, [1, 2, 3, 4, 5, 6, 7, 8, 9]),
    (2, [1, 2, 4, 7, 12, 20, 33, 54, 88]),
    (3, [1, 2, 4, 8, 15, 28, 52, 96, 177]),
    (8, [1, 2, 4, 8, 16, 32, 64, 128, 256]),
];

#[test]
fn counted_codes_give_the_table() {
    for (tracks, row) in ROWS {
        for (steps, wanted) in row.into_iter().enumerate() {
            assert_eq!(
                kept_codes(Open, tracks, steps).len(),
                wanted,
                "F({steps}) on {tracks}"
            );
        }
    }
}

#[test]
fn a_closed_night_has_the_same_codes_but_0() {
    for tracks in 1..=MOST.tracks {
        for steps in 0..=MOST.steps {
            let (open, closed) = MARKS.map(|mark| kept_codes(mark, tracks, steps)).into();
            assert_eq!(open[0], 0, "{steps} steps on {tracks}");
            assert_eq!(open[1..], *closed, "{steps} steps on {tracks}");
        }
    }
}

#[test]
fn the_recursion_gives_the_table() {
    for (tracks, row) in ROWS {
        assert_eq!(recursive_counts(tracks, row[8]), row, "on {tracks}");
    }
}

#[test]
fn counting_and_recursion_agree_up_to_sixteen_steps() {
    for tracks in 1..=MOST.tracks {
        // No row reaches this before F(16), so all seventeen are compared on every row.
        let by_recursion = recursive_counts(tracks, 65_536);
        assert_eq!(
            by_recursion[..=MOST.steps],
            counted_codes(Open, tracks),
            "on {tracks}"
        );
    }
}

#[test]
fn fewest_tracks_has_the_papers_examples() {
    let examples = [(0, 1), (4, 3), (5, 2), (9, 3), (129, 7), (128, 8)];
    for (code, tracks) in examples {
        assert_eq!(usable_tracks(code)[0], tracks, "code {code}");
    }
    // Worked out by hand: bits 15 and 0; bit 15; all bits; bits 8 and 0; bits 15, 10 and 2.
    let wider = [(32769, 15), (32768, 16), (65535, 1), (257, 8), (33796, 8)];
    for (code, tracks) in wider {
        assert_eq!(usable_tracks(code)[0], tracks, "code {code}");
    }
}

/// The paper's rule: neighbouring set bits at most W apart, the lowest below W.
fn keeps_the_gap_rule(code: u16, tracks: usize) -> bool {
    let set: Vec<usize> = (0..16).filter(|&step| is_pulled_in(code, step)).collect();
    let lowest_fits = set.first().is_none_or(|&lowest| lowest < tracks);
    lowest_fits && set.windows(2).all(|pair| pair[1] - pair[0] <= tracks)
}

#[test]
fn no_early_pull_exactly_where_the_gap_rule_holds() {
    for tracks in 1..=MOST.tracks {
        let usable = kept_codes(Open, tracks, MOST.steps);
        let keep = (0..=u16::MAX).filter(|&code| keeps_the_gap_rule(code, tracks));
        assert!(keep.eq(usable.iter().copied()), "on {tracks}");
    }
}

#[test]
fn steps_in_which_a_car_is_not_pulled_change_nothing() {
    for tracks in 1..=MOST.tracks {
        for code in 0..256 {
            let in_eight = is_usable(Open, code, tracks, 8);
            let in_sixteen = is_usable(Open, code, tracks, MOST.steps);
            assert_eq!(in_eight, in_sixteen, "{code} on {tracks}");
        }
    }
}

#[test]
fn more_tracks_never_make_a_code_unusable() {
    for code in 0..=u16::MAX {
        let usable = usable_tracks(code);
        assert!((usable[0]..=MOST.tracks).eq(usable), "code {code}");
    }
}

#[test]
fn fewest_steps_may_exceed_the_limit() {
    // On one track each step gives one code more, so 511 breaks need 511 steps.
    assert_eq!(fewest_steps(Open, 1, 511), 511);
    assert_eq!(fewest_steps(Open, 8, 255), 8);
    assert_eq!(fewest_steps(Open, 8, 256), 9);
    assert_eq!(fewest_steps(Open, 2, 87), 8);
    assert_eq!(fewest_steps(Open, 2, 88), 9);
    assert_eq!(fewest_steps(Closed, 1, 511), 512);
    assert_eq!(fewest_steps(Closed, 8, 254), 8);
    assert_eq!(fewest_steps(Closed, 8, 255), 9);
    assert_eq!(fewest_steps(Closed, 2, 86), 8);
    assert_eq!(fewest_steps(Closed, 2, 87), 9);
    assert_eq!(fewest_steps(Open, 1, 4095), 4095);
    assert_eq!(fewest_steps(Closed, 1, 4095), 4096);
    assert_eq!(fewest_steps(Closed, 2, 4095), 16);
}

/// The usable codes below 2^0, 2^1, .. 2^16, all of them tried on the yard.
fn counted_codes(mark: Mark, tracks: usize) -> Vec<usize> {
    let count = |steps| kept_codes(mark, tracks, steps).len();
    (0..=MOST.steps).map(count).collect()
}

#[test]
fn fewest_steps_are_counted_steps() {
    for mark in MARKS {
        for tracks in 1..=MOST.tracks {
            let counts = counted_codes(mark, tracks);
            for most_breaks in 0..counts[MOST.steps].min(MOST.cars) {
                let counted = counts.iter().position(|&count| count > most_breaks);
                let fewest = fewest_steps(mark, tracks, most_breaks);
                let recursive = recursive_steps(mark, tracks, most_breaks);
                let found = (Some(fewest), Some(recursive));
                assert_eq!(found, (counted, counted), "{most_breaks} on {tracks}");
            }
        }
    }
}

/// How many of these codes have each bit set.
fn set_bits(codes: &[u16]) -> Vec<usize> {
    let with_bit = |bit| {
        codes
            .iter()
            .filter(|&&code| is_pulled_in(code, bit))
            .count()
    };
    (0..MOST.steps).map(with_bit).collect()
}

/// In a train that gets each of these codes, this step pulls more cars than any before it only if the cars beyond one for
/// each code are more than this: on two tracks each of them is pulled in one of any two neighbouring steps before.
fn cars_needed(codes: &[u16], step: usize) -> usize {
    let base = set_bits(codes);
    let pairs = base[..step].windows(2);
    let needed = pairs.map(|pair| (pair[0] + pair[1]).saturating_sub(2 * base[step]));
    needed.max().unwrap_or(0)
}

#[test]
fn no_derived_plan_is_fullest_in_a_later_step() {
    for mark in MARKS {
        // On one track every code has all bits below its highest; on three or more too many codes come before; and of several
        // trains only those count that are as long as one alone must be, which leaves fewer cars beyond.
        for step in LAST_FULL_STEP + 1..MOST.steps {
            assert!(kept_codes(mark, 3, step).len() >= MOST.cars);
            let usable = kept_codes(mark, 2, MOST.steps);
            let both = |&code: &u16| is_pulled_in(code, step) && is_pulled_in(code, step - 1);
            // With fewer codes no car of this step is pulled in the step before, so all are in the one before that.
            let first = usable.iter().position(both).unwrap_or(0);
            for count in first + 1..=MOST.cars {
                let codes = &usable[..count];
                assert!(MOST.cars - count <= cars_needed(codes, step), "{count}");
            }
        }
    }
}
