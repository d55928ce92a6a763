//! Fails where the archive refuses to price as many steps as there are now, as those of earlier editions do.

#[path = "src/lib.rs"]
mod interface;

use interface::{price, Timings, STEPS};

/// The number for a count out of its range.
const OUT_OF_RANGE: usize = 1;

fn main() {
    let timings = Timings {
        pull: 0.0,
        push: 0.0,
    };
    let refused = price(STEPS, 0, timings).answer.number == OUT_OF_RANGE;
    std::process::exit(i32::from(refused));
}
