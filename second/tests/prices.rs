//! Prices and the timings that are allowed.

use second::answers::{refuse, PriceAnswer, Timings};
use second::reference::{price, price_answer};

/// Timings at the edge of what is allowed, all refused.
fn bad_timings() -> Vec<f64> {
    let above = f64::from_bits(4096.0f64.to_bits() + 1);
    let below_a_sixteenth = f64::from_bits(0.0625f64.to_bits() - 1);
    let smallest = f64::from_bits(1);
    let mut timings = vec![above, 4096.0625, below_a_sixteenth, smallest, 1.0 / 32.0];
    timings.extend([f64::NAN, -f64::NAN, f64::INFINITY, f64::NEG_INFINITY]);
    timings.extend([-0.0, -1.0, -0.0625, f64::MAX, f64::MIN_POSITIVE, 4095.999]);
    timings
}

#[test]
fn bad_timings_are_refused_with_positive_zero() {
    for timing in bad_timings() {
        let pull_bad = Timings {
            pull: timing,
            push: timing,
        };
        let push_bad = Timings {
            pull: 1.0,
            push: timing,
        };
        for (timings, a) in [(pull_bad, 1), (push_bad, 2)] {
            let found = price_answer(&price(1, 1, timings));
            assert_eq!(found, PriceAnswer::from(refuse(13, a)), "{timings:?}");
        }
    }
}

#[test]
fn every_sixteenth_up_to_4096_is_allowed() {
    for sixteenths in 0..=4096 * 16 {
        let timing = f64::from(sixteenths) / 16.0;
        let pulls = Timings {
            pull: timing,
            push: 0.0,
        };
        assert_eq!(price(1, 77, pulls), Ok(timing), "{timing}");
        let odd = timing + 1.0 / 32.0;
        let pulls = Timings {
            pull: odd,
            push: 0.0,
        };
        assert_eq!(price(0, 0, pulls), Err(refuse(13, 1)), "{odd}");
    }
}

#[test]
fn the_price_is_steps_times_pull_plus_passes_times_push() {
    let timings = Timings {
        pull: 300.0,
        push: 2.0625,
    };
    assert_eq!(price(2, 11, timings), Ok(622.6875));
    let dearest = Timings {
        pull: 4096.0,
        push: 4096.0,
    };
    assert_eq!(price(8, 4608, dearest), Ok(18_907_136.0));
    // 69,648 times 4096: in sixteenths more than 32 bits hold.
    assert_eq!(price(16, 69_632, dearest), Ok(285_278_208.0));
}

#[test]
fn a_free_night_costs_positive_zero() {
    let timings = Timings {
        pull: 0.0,
        push: 0.0,
    };
    let answer = price_answer(&price(16, 69_632, timings));
    assert_eq!((answer.number, answer.price.to_bits()), (0, 0));
}
