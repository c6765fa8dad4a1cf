//! Compile and tick through C, beside the Rust and the reading's walk.

use behavior_machines_circuit::Lowered;
use compare::agree::{Difference, Pair, hex};
use compare::circuit;
use reading::{Answer, Tree};

use crate::storage::renumbered;
use crate::{Lent, Refusal, Stored, Work, linked};

/// A tick through C, [`linked::tick`], or what stands in for it.
pub type Tick = fn(&Stored, &[u8], &mut Lent) -> Refusal;

/// The tree compiled into the slots that it needs and so many more ops and terms: the Rust's circuit, and zeros.
pub fn compile(
    tree: &Tree,
    lowered: &Lowered,
    more: [usize; 2],
    work: &mut Work,
) -> Result<Stored, Difference> {
    let bytes = tree.to_bytes();
    let due = Stored::of(lowered);
    let mut stored = Stored::dirty(due.counts.ops + more[0], due.counts.terms + more[1]);
    let answer = linked::compile(&bytes, &mut stored, work);
    stored.counts = answer.counts;
    if answer.number != 0 || !stored.holds(&due) {
        return Err(Difference(format!("another circuit: {}", hex(&bytes))));
    }
    Ok(stored)
}

/// One tick of the pair's circuit by `tick` from the state in `lent`. Answers what it must answer, and the Rust's value table.
pub fn tick(
    tick: Tick,
    pair: &Pair,
    stored: &Stored,
    row: &[u8],
    lent: &mut Lent,
) -> Result<(Answer, Vec<f32>), Difference> {
    let state = lent.state();
    let values = circuit::values(&pair.lowered, &state, row).map_err(Difference)?;
    let outcome = pair.outcome(&state, row, &values)?;
    let due = outcome.answer(&pair.plan, &state);
    lent.unwrite();
    let answer = tick(stored, row, lent);
    let n = &stored.counts;
    let table = renumbered(&pair.lowered, &values);
    let parts = [
        ("the answer", answer == Refusal::NONE),
        ("statuses", lent.statuses[..n.nodes] == due.statuses),
        ("halts", lent.halts[..n.nodes] == due.halts),
        ("edges", lent.edges[..n.leaves] == due.edges),
        ("the state after", lent.state() == due.next),
        ("the value table", lent.values[..n.cells + n.ops] == table),
        ("what lies past the outputs", lent.is_unwritten_past(n)),
    ];
    match parts.iter().find(|(_, same)| !same) {
        None => Ok((due, values)),
        Some((what, _)) => Err(Difference(format!(
            "{}through C differs: {what}\nthrough C: {answer:?} {lent:?}\ndue: {due:?}",
            pair.question(&state, row)
        ))),
    }
}
