//! Compares what `nightcard` and `nightplan` put out with what the paper makes of a card.

use second::arguments::Arguments;
use second::counts::{FIRST, LONGEST_CARD, MOST};
use second::nights::{
    all_bits, any_card, any_night, any_plan, any_ranges, derived_plan, one_train,
};
use second::nights::{trial_nights, whole_card, OwnNight, OwnPlan};
use second::programs::{nightcard, nightplan};
use second::random::Random;
use second::MARKS;
use std::env;
use std::io::{self, Write};
use std::process::{Command, ExitCode, Stdio};

const NAMES: [&str; 4] = ["--nightcard", "--nightplan", "--seed", "--count"];

fn main() -> ExitCode {
    match compare(env::args().skip(1)) {
        Ok(cards) => {
            println!("{cards} cards, no difference");
            ExitCode::SUCCESS
        }
        Err(report) => {
            println!("{report}");
            ExitCode::FAILURE
        }
    }
}

fn compare(given: impl Iterator<Item = String>) -> Result<usize, String> {
    let arguments = Arguments::take(&NAMES, given)?;
    if arguments.text("--nightcard").is_none() && arguments.text("--nightplan").is_none() {
        return Err(String::from("name a program by --nightcard or --nightplan"));
    }
    let cards = cards(
        arguments.number("--seed")?.unwrap_or(1),
        arguments.number("--count")?.unwrap_or(500),
    );
    for card in &cards {
        if let Some(program) = arguments.text("--nightcard") {
            judge(program, card, nightcard(card).as_bytes())?;
        }
        if let Some(program) = arguments.text("--nightplan") {
            judge(program, card, &nightplan(card))?;
        }
    }
    Ok(cards.len())
}

/// The cards of the trial nights and the longest ones, then sound and damaged ones from the seed.
fn cards(seed: u64, count: u64) -> Vec<Vec<u8>> {
    let mut cards = Vec::new();
    for (lengths, inbound) in trial_nights() {
        for room in [2, 3, FIRST.room, MOST.room] {
            for mark in MARKS {
                let night = OwnNight {
                    lengths: lengths.clone(),
                    inbound: inbound.clone(),
                    tracks: 2,
                    room,
                    mark,
                };
                cards.push(whole_card(&derived_plan(&night)));
            }
        }
    }
    cards.extend(longest_cards());
    for trial in 0..count {
        let mut random = Random::new(seed, trial);
        let most = any_ranges(&mut random);
        let night = any_night(&mut random, most);
        let plan = any_plan(&mut random, &night);
        let card = match random.chance(50) {
            true => whole_card(&plan),
            false => any_card(&mut random, &plan),
        };
        cards.push(card);
    }
    cards
}

/// The longest card, open and closed, whole, a byte short, and with more bytes behind it than any card has.
fn longest_cards() -> Vec<Vec<u8>> {
    let mut cards = Vec::new();
    for mark in MARKS {
        let night = OwnNight {
            lengths: vec![16; MOST.trains],
            mark,
            ..one_train(&[1; MOST.cars])
        };
        let card = whole_card(&OwnPlan {
            steps: MOST.steps,
            codes: vec![all_bits(MOST.steps); MOST.cars],
            night,
        });
        for len in [-1, 0, 1, 2, 4096, 100_000] {
            let mut other = card.clone();
            other.resize(LONGEST_CARD.saturating_add_signed(len), 0);
            cards.push(other);
        }
    }
    cards
}

fn judge(program: &str, card: &[u8], wanted: &[u8]) -> Result<(), String> {
    let got = output_of(program, card).map_err(|fault| format!("{program}: {fault}"))?;
    if got == wanted {
        return Ok(());
    }
    let shown = |bytes| String::from_utf8_lossy(bytes).into_owned();
    Err(format!(
        "{program} differs on the card {card:02x?}\nwanted {wanted:02x?}\n{}\ngot {got:02x?}\n{}",
        shown(wanted),
        shown(&got)
    ))
}

/// Runs a program with the card on standard input and hands back what it writes.
fn output_of(program: &str, card: &[u8]) -> io::Result<Vec<u8>> {
    let mut child = Command::new(program)
        .stdin(Stdio::piped())
        .stdout(Stdio::piped())
        .spawn()?;
    if let Some(mut input) = child.stdin.take() {
        // A program may refuse before it has read everything; its output decides.
        match input.write_all(card) {
            Err(fault) if fault.kind() != io::ErrorKind::BrokenPipe => return Err(fault),
            _ => (),
        }
    }
    Ok(child.wait_with_output()?.stdout)
}
