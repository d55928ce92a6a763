//! One night, closed as in most yards and then open: derived with the fewest steps, priced, followed
//! stage by stage, and stored on its card.

use altairpeg::{derive, price, replay, write_card, Mark, Night, Plan, Refusal, Timings, STEPS};
use std::process::ExitCode;

fn main() -> ExitCode {
    let closed = Night {
        lengths: &[6],
        inbound: &[3, 6, 1, 5, 2, 4],
        tracks: 2,
        room: 4,
        mark: Mark::Closed,
    };
    let open = Night {
        mark: Mark::Open,
        ..closed
    };
    match tell(closed).and_then(|()| tell(open)) {
        Ok(()) => ExitCode::SUCCESS,
        Err(refusal) => {
            eprintln!("{refusal}");
            ExitCode::FAILURE
        }
    }
}

/// Prints the mark, the derived plan, its price, the yard at each stage, and the card.
fn tell(night: Night) -> Result<(), Refusal> {
    let derived = derive(night, STEPS)?;
    let timings = Timings {
        pull: 600.0,
        push: 4.5,
    };
    let seconds = price(derived.steps, derived.passes, timings)?;
    println!(
        "{:?}: {} steps, {} passes, {seconds} seconds",
        night.mark, derived.steps, derived.passes
    );
    println!("codes {}", spaced(&derived.codes));
    let plan = derived.plan(night);
    for stage in 0..=plan.steps {
        println!("stage {stage}: {}", yard(plan, stage)?);
    }
    println!("card {:02x?}", write_card(plan)?);
    Ok(())
}

/// What stands where at a stage, front first: the sorting tracks, then the trains.
fn yard(plan: Plan, stage: usize) -> Result<String, Refusal> {
    let Night {
        tracks, lengths, ..
    } = plan.night;
    let standing = replay(plan, stage)?;
    let names = (0..tracks).map(|track| format!("track {track}"));
    let trains = (1..=lengths.len()).map(|train| format!("train {train}"));
    let rows = names.chain(trains).enumerate();
    let shown: Vec<String> = rows
        .map(|(track, name)| format!("{name} [{}]", spaced(&standing.cars_on(track))))
        .collect();
    Ok(shown.join(", "))
}

/// Numbers with blanks between them.
fn spaced(numbers: &[u16]) -> String {
    let numbers: Vec<String> = numbers.iter().map(u16::to_string).collect();
    numbers.join(" ")
}
