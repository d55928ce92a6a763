//! Compares the library with the reference, call by call, on nights made from a seed; built without the library, the
//! idiomatic calls.
//!
//! `compare --seed N --count M` runs M trials; `--first K` begins at trial K, so that the
//! trial in which a call failed can be run again alone.

use second::arguments::Arguments;
use second::big_nights::{big_nights, counts_on_cards, edition_corners};
use second::idiomatic::Idiomatic;
#[cfg(feature = "library")]
use second::library::Library;
use second::random::Random;
use second::tally::Tally;
use second::trials::{
    changed_numbers, paper_nights, small_nights, table_trial, trial, tried_nights, zero_codes,
    Bench, Nights,
};
use second::Calls;
use std::env;
use std::process::ExitCode;
use std::time::Instant;

/// What is compared in full: without the library, the idiomatic calls.
#[cfg(feature = "library")]
type Compared = Library;
#[cfg(not(feature = "library"))]
type Compared = Idiomatic;

/// Orders of up to four cars are run through in full.
const SMALL_CARS: u16 = 4;

#[derive(Clone, Copy)]
struct Run {
    seed: u64,
    /// Given only to run a trial again, and then not all answers need be reached.
    first: Option<u64>,
    count: u64,
}

fn main() -> ExitCode {
    let run = match run_asked_for(env::args().skip(1)) {
        Ok(run) => run,
        Err(fault) => {
            eprintln!("{fault}");
            return ExitCode::from(2);
        }
    };
    match compare_all(run) {
        Ok(()) => ExitCode::SUCCESS,
        Err(difference) => {
            println!("{difference}");
            ExitCode::FAILURE
        }
    }
}

fn run_asked_for(given: impl Iterator<Item = String>) -> Result<Run, String> {
    let arguments = Arguments::take(&["--seed", "--count", "--first"], given)?;
    Ok(Run {
        seed: arguments.number("--seed")?.unwrap_or(1),
        first: arguments.number("--first")?,
        count: arguments.number("--count")?.unwrap_or(250_000),
    })
}

/// The idiomatic calls in a quick pass, where the library is there, then all in full, then what was reached.
fn compare_all(run: Run) -> Result<(), String> {
    let quick = Run {
        count: run.count / 20,
        ..run
    };
    if cfg!(feature = "library") {
        compare::<Idiomatic>(quick, &mut Tally::default())?;
    }
    let mut tally = Tally::default();
    if run.first.is_none() {
        compare_tried::<Compared>(&mut tally)?;
        compare_big::<Compared>(&mut tally)?;
    }
    compare::<Compared>(run, &mut tally)?;
    print!("{}", tally.table());
    println!("{} calls, no difference (seed {})", tally.total(), run.seed);
    let missing = tally.never_reached();
    if missing.is_empty() || run.first.is_some() {
        return Ok(());
    }
    let mut report = String::from("never reached:");
    for (call, number, detail) in missing {
        report += &format!("\n{call:?} {number} A {detail}");
    }
    Err(report)
}

fn compare<C: Calls>(run: Run, tally: &mut Tally) -> Result<(), String> {
    let began = Instant::now();
    table_trial::<C>(tally)?;
    paper_nights::<C>(tally)?;
    small_nights::<C>(tally, SMALL_CARS)?;
    changed_numbers::<C>(tally)?;
    zero_codes::<C>(tally)?;
    report_progress::<C>("small nights, changed numbers and zero codes", tally, began);
    let every = (run.count / 10).max(1);
    for number in 0..run.count {
        one_trial::<C>(run.seed, run.first.unwrap_or(0) + number, tally)?;
        if (number + 1) % every == 0 {
            report_progress::<C>(&format!("{} trials", number + 1), tally, began);
        }
    }
    Ok(())
}

/// The fewest passes of up to five cars, with every list of codes tried: five are the fewest for which it matters how many
/// share a code. The idiomatic calls are left out, since this takes long and the tests do it for them.
fn compare_tried<C: Calls>(tally: &mut Tally) -> Result<(), String> {
    let began = Instant::now();
    for (cars, steps) in [(1, 4), (2, 4), (3, 4), (4, 3)] {
        tried_nights::<C>(tally, &Nights::of(cars), steps)?;
    }
    tried_nights::<C>(tally, &Nights::in_blocks(5), 3)?;
    report_progress::<C>("every list of codes for up to five cars", tally, began);
    Ok(())
}

/// Nights of up to 4,096 cars and the edges of the editions.
fn compare_big<C: Calls>(tally: &mut Tally) -> Result<(), String> {
    let began = Instant::now();
    edition_corners::<C>(tally)?;
    counts_on_cards::<C>(tally)?;
    big_nights::<C>(tally)?;
    report_progress::<C>("big nights and cards at the edges", tally, began);
    Ok(())
}

fn one_trial<C: Calls>(seed: u64, number: u64, tally: &mut Tally) -> Result<(), String> {
    let mut random = Random::new(seed, number);
    let mut bench = Bench {
        random: &mut random,
        tally,
    };
    trial::<C>(&mut bench).map_err(|found| {
        format!("seed {seed}, trial {number} (--first {number} --count 1)\n{found}")
    })
}

fn report_progress<C: Calls>(done: &str, tally: &Tally, began: Instant) {
    let (calls, seconds) = (tally.total(), began.elapsed().as_secs());
    eprintln!("{}: {done}, {calls} calls, {seconds} s", C::NAME);
}
