//! Circuits that the Rust built, ticked from arbitrary states by both; `validate` on tampered tables.

use std::process::ExitCode;

use behavior_machines_circuit::InvariantError;
use compare::agree::{Difference, Pair, hex};
use reading::Rng;
use reading::generate::{any_tree, row, state};
use reading::walk::Slips;
use ticktest::storage::renumbered;
use ticktest::{Lent, Refusal, Stored, beside, linked, same};

const TREES: usize = 2_200;
const TICKS: usize = 50;

fn main() -> ExitCode {
    match run() {
        Ok((ticks, tables)) => {
            println!(
                "ticktest: {ticks} ticks of circuits that the Rust built agree, and {tables} tampered tables"
            );
            ExitCode::SUCCESS
        }
        Err(Difference(text)) => {
            println!("ticktest: {text}");
            ExitCode::FAILURE
        }
    }
}

fn run() -> Result<(usize, usize), Difference> {
    let mut rng = Rng::new(7);
    let (mut ticks, mut tables) = (0, 0);
    for number in 0..TREES {
        let few = rng.between(1, 24);
        let nodes = if number % 50 == 0 { 128 } else { few };
        let pair = Pair::new(any_tree(&mut rng, nodes), Slips::default())?;
        let stored = Stored::of(&pair.lowered);
        for _ in 0..TICKS {
            let (state, row) = (state(&mut rng, &pair.plan), row(&mut rng, &pair.plan));
            let mut lent = Lent::new(&stored.counts, state, 1);
            let (_, values) = beside::tick(linked::tick, &pair, &stored, &row, &mut lent)?;
            ticks += 1;
            tampered(&mut rng, &pair, &stored, values)?;
            tables += 1;
        }
    }
    Ok((ticks, tables))
}

/// A table with one value changed, as the Rust's `validate` has it. Tampering keeps small whole values, so that every running sum is
/// whole and below 2^24.
fn tampered(
    rng: &mut Rng,
    pair: &Pair,
    stored: &Stored,
    mut values: Vec<f32>,
) -> Result<(), Difference> {
    let at = rng.below(values.len());
    values[at] = rng.pick(&[0.0, 1.0, 2.0, -1.0, 3.0]);
    let found = linked::validate(stored, &renumbered(&pair.lowered, &values));
    let due = match pair.lowered.validate(&values) {
        Ok(()) => Refusal::NONE,
        Err(InvariantError::NotABit { node, value, .. }) => Refusal::broken(1, node, value),
        Err(InvariantError::NotOneHot { node, total }) => Refusal::broken(2, node, total),
        Err(InvariantError::BadCursor { cell, cursor }) => Refusal::broken(3, cell, cursor),
        Err(other) => return Err(Difference(other.to_string())),
    };
    let heads = |r: &Refusal| (r.number, r.broken, r.place);
    let equal = same(found.value, due.value) || found.value == due.value;
    if heads(&found) == heads(&due) && equal {
        return Ok(());
    }
    let bytes = hex(&pair.tree.to_bytes());
    Err(Difference(format!(
        "tree bytes: {bytes}\nvalue {at} of {values:?} tampered with: {found:?} where the Rust has {due:?}"
    )))
}
