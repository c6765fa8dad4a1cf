//! The Rust circuit, given trees and asked for ticks in the reading's types.

use std::time::Duration;

use behavior_machines::{Limit, Node, Status as RustStatus, Threshold};
use behavior_machines_circuit::{Bit, LowerError, Lowered, StatusBits};
use reading::{Kind, Outcome, State, Status, Tree};

/// From this size on a whole number may have no `f32` of its own.
pub const EXACT_LIMIT: f32 = 16_777_216.0;

/// The Rust's definition of a tree. Where the Rust asks for more than the
/// tree has, as for the kinds that are never lowered, any filling does.
pub fn node_of(tree: &Tree) -> Node<()> {
    let children = || tree.children.iter().map(node_of);
    let child = || Box::new(children().next().unwrap_or(Node::Leaf(())));
    match tree.kind {
        Kind::Leaf => Node::Leaf(()),
        Kind::AlwaysSuccess => Node::AlwaysSuccess,
        Kind::AlwaysFailure => Node::AlwaysFailure,
        Kind::Sequence => Node::sequence(children()),
        Kind::ReactiveSequence => Node::reactive_sequence(children()),
        Kind::Fallback => Node::fallback(children()),
        Kind::ReactiveFallback => Node::reactive_fallback(children()),
        Kind::Inverter => Node::Inverter(child()),
        Kind::ForceSuccess => Node::ForceSuccess(child()),
        Kind::ForceFailure => Node::ForceFailure(child()),
        Kind::Sleep => Node::sleep(Duration::ZERO),
        Kind::Parallel => Node::parallel(children(), Threshold::All, Threshold::All),
        Kind::IfThenElse => Node::if_then(*child(), *child()),
        Kind::WhileDoElse => Node::while_do(*child(), *child()),
        Kind::Timeout => Node::Timeout(Duration::ZERO, child()),
        Kind::Repeat => Node::Repeat(Limit::Unlimited, child()),
        Kind::RetryUntilSuccessful => Node::RetryUntilSuccessful(Limit::Unlimited, child()),
        Kind::KeepRunningUntilFailure => Node::KeepRunningUntilFailure(child()),
    }
}

/// The Rust's circuit for a tree.
pub fn lower(tree: &Tree) -> Result<Lowered, LowerError> {
    Lowered::new(&node_of(tree))
}

/// The Rust's name for a status.
pub fn rust_status(status: Status) -> RustStatus {
    match status {
        Status::Success => RustStatus::Success,
        Status::Failure => RustStatus::Failure,
        Status::Running => RustStatus::Running,
    }
}

/// A row of status codes as the Rust takes it.
pub fn rust_row(row: &[u8]) -> Vec<RustStatus> {
    let statuses = row.iter().filter_map(|code| Status::from_code(*code));
    statuses.map(rust_status).collect()
}

/// The input cells of a tick, filled as tick.rs fills them. The Rust makes a
/// `State` only by ticking from the initial one, so cells are how it is asked
/// about any other.
pub fn cells(lowered: &Lowered, state: &State, row: &[u8]) -> Vec<f32> {
    let plan = lowered.plan();
    let mut cells = vec![0.0; plan.cell_count() as usize];
    for (node, flag) in state.flags.iter().enumerate() {
        cells[plan.running_cell(node) as usize] = f32::from(*flag);
    }
    for (cell, cursor) in state.cursors.iter().enumerate() {
        let cursor = u16::try_from(*cursor).unwrap_or(u16::MAX);
        cells[plan.cursor_cell(cell) as usize] = f32::from(cursor);
    }
    for (slot, status) in rust_row(row).into_iter().enumerate() {
        cells[plan.leaf_status_cell(slot, status) as usize] = 1.0;
    }
    cells
}

/// The value table of a tick from any state.
pub fn values(lowered: &Lowered, state: &State, row: &[u8]) -> Result<Vec<f32>, String> {
    lowered
        .circuit()
        .evaluate(&cells(lowered, state, row))
        .map_err(|error| error.to_string())
}

/// What the circuit's outputs say of a tick's value table.
pub fn outcome(lowered: &Lowered, values: &[f32]) -> Result<Outcome, String> {
    lowered
        .validate(values)
        .map_err(|error| format!("validate: {error}"))?;
    let whole = |value: &f32| value.fract() == 0.0 && value.abs() < EXACT_LIMIT;
    if let Some(place) = values.iter().position(|value| !whole(value)) {
        return Err(format!("value {place} is {}, not exact", values[place]));
    }
    let outputs = lowered.outputs();
    let bits = |bits: &[Bit]| -> Vec<bool> {
        let values = bits.iter().map(|bit| bit.form().value(values));
        values.map(|value| value == 1.0).collect()
    };
    let statuses = outputs.status.iter().map(|bits| status(bits, values));
    let cursors = outputs.next_cursor.iter().map(|form| form.value(values));
    Ok(Outcome {
        would_be: statuses.collect::<Result<_, _>>()?,
        ticked: bits(&outputs.reached),
        halted: bits(&outputs.halted),
        next: State {
            flags: bits(&outputs.next_running)
                .into_iter()
                .map(u8::from)
                .collect(),
            cursors: cursors.map(|cursor| cursor as u32).collect(),
        },
    })
}

/// The one status whose bit is set.
fn status(bits: &StatusBits, values: &[f32]) -> Result<Status, String> {
    let set = |status: &Status| bits.bit(rust_status(*status)).form().value(values) == 1.0;
    let mut set = Status::ALL.into_iter().filter(set);
    match (set.next(), set.next()) {
        (Some(status), None) => Ok(status),
        _ => Err("a status without exactly one bit".to_string()),
    }
}
