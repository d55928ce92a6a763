//! What the programs `nightcard` and `nightplan` put out for a card on standard input.

use crate::answers::Refusal;
use crate::cards::{read, write, CardBuffers};
use crate::counts::{LONGEST_CARD, MOST};
use crate::reference::{check, derive};
use crate::yard::Replay;
use crate::Plan;

/// The lines of `nightcard`: the counts and the trains as built, or the refusal.
pub fn nightcard(card: &[u8]) -> String {
    card_lines(card).unwrap_or_else(refusal_line)
}

/// The new card of `nightplan`, or the refusal line.
pub fn nightplan(card: &[u8]) -> Vec<u8> {
    new_card(card).unwrap_or_else(|refusal| refusal_line(refusal).into_bytes())
}

fn card_lines(bytes: &[u8]) -> Result<String, Refusal> {
    let card = read(bytes, CardBuffers::of(MOST))?;
    let plan = card.plan();
    let checked = check(plan)?;
    let mut lines = format!(
        "steps {} tracks {} room {} cars {} trains {} passes {}\n",
        card.steps,
        card.tracks,
        card.room,
        card.inbound.len(),
        card.lengths.len(),
        checked.passes
    );
    for (train, cars) in (1..).zip(&Replay::of(plan).end().destinations) {
        lines += &train_line(train, cars);
    }
    Ok(lines)
}

fn train_line(train: usize, cars: &[u16]) -> String {
    let mut line = format!("train {train}:");
    for car in cars {
        line += &format!(" {car}");
    }
    line + "\n"
}

fn new_card(bytes: &[u8]) -> Result<Vec<u8>, Refusal> {
    let card = read(bytes, CardBuffers::of(MOST))?;
    let night = card.plan().night;
    let derived = derive(night, MOST.steps, MOST.cars)?;
    let plan = Plan {
        night,
        steps: derived.steps,
        codes: &derived.codes,
    };
    write(plan, LONGEST_CARD)
}

fn refusal_line(refusal: Refusal) -> String {
    let Refusal { number, a, b } = refusal;
    format!("refused {number} {a} {b}\n")
}
