//! The Rust and the reading put to the same question. Every function here
//! answers with the text of a [`Difference`] where they part.

use std::fmt::{Debug, Write};

use behavior_machines::Status as RustStatus;
use behavior_machines_circuit::{LowerError, Lowered, Schedule, State as RustState, TickError};
use reading::damage::Damaged;
use reading::kind::Kind;
use reading::read::{read, read_records};
use reading::tree::Record;
use reading::vectors::hexadecimals;
use reading::walk::{Slips, walk_with};
use reading::{Outcome, Plan, Refusal, State, Tree};

use crate::circuit::{self, lower, rust_row, rust_status};

/// Where the two sides part: the question and both answers.
#[derive(Clone, Debug)]
pub struct Difference(pub String);

/// A tree on both sides.
pub struct Pair {
    /// The tree.
    pub tree: Tree,
    /// The reading's lists.
    pub plan: Plan,
    /// The Rust's circuit.
    pub lowered: Lowered,
    slips: Slips,
}

/// `Ok` if both are the same.
fn same<T: PartialEq + Debug + ?Sized>(
    question: impl Fn() -> String,
    what: &str,
    rust: &T,
    reading: &T,
) -> Result<(), Difference> {
    if rust == reading {
        return Ok(());
    }
    let mut text = question();
    let _ = write!(text, "{what}\nrust:    {rust:?}\nreading: {reading:?}");
    Err(Difference(text))
}

/// Bytes as the programs print them.
pub fn hex(bytes: &[u8]) -> String {
    hexadecimals(bytes).join(" ")
}

impl Pair {
    /// Lowers the tree, and compares the plan's lists and cell numbers.
    pub fn new(tree: Tree, slips: Slips) -> Result<Self, Difference> {
        let plan = Plan::of(&tree);
        let bytes = tree.to_bytes();
        let question = || format!("tree bytes: {}\n", hex(&bytes));
        let lowered = lower(&tree)
            .map_err(|error| Difference(format!("{}rust refuses: {error}", question())))?;
        let pair = Self {
            tree,
            plan,
            lowered,
            slips,
        };
        pair.lists(question)?;
        Ok(pair)
    }

    fn lists(&self, question: impl Fn() -> String) -> Result<(), Difference> {
        let (rust, plan) = (self.lowered.plan(), &self.plan);
        let nodes = plan.nodes().len();
        same(&question, "nodes", &rust.node_count(), &nodes)?;
        let leaves: Vec<_> = (0..rust.leaf_count())
            .map_while(|slot| rust.leaf_node(slot))
            .collect();
        same(&question, "leaf list", &leaves[..], plan.leaves())?;
        let cursors: Vec<_> = (0..rust.cursor_count())
            .map_while(|cell| rust.cursor_node(cell))
            .collect();
        same(&question, "cursor list", &cursors[..], plan.cursors())?;
        same(
            &question,
            "report order",
            rust.report_order(),
            plan.report(),
        )?;

        let mut rust_cells: Vec<u32> = (0..nodes).map(|node| rust.running_cell(node)).collect();
        rust_cells.extend((0..cursors.len()).map(|cell| rust.cursor_cell(cell)));
        rust_cells.extend((0..=leaves.len()).map(|slot| rust.leaf_cell(slot)));
        rust_cells.push(rust.cell_count());
        let mut cells: Vec<usize> = (0..nodes).map(|node| plan.flag_cell(node)).collect();
        cells.extend((0..cursors.len()).map(|cell| plan.cursor_cell(cell)));
        cells.extend((0..=leaves.len()).map(|slot| plan.leaf_cell(slot)));
        cells.push(plan.cells());
        let rust_cells: Vec<usize> = rust_cells.into_iter().map(|cell| cell as usize).collect();
        same(&question, "cells", &rust_cells, &cells)
    }

    /// A tick as the programs print it: the tree's bytes, the state and the row.
    pub fn question(&self, state: &State, row: &[u8]) -> String {
        format!(
            "tree bytes: {}\nflags: {:?}\ncursors: {:?}\nrow: {row:?}\n",
            hex(&self.tree.to_bytes()),
            state.flags,
            state.cursors
        )
    }

    fn walk(&self, state: &State, row: &[u8]) -> Result<Outcome, Difference> {
        match walk_with(self.slips, &self.plan, state, row) {
            Ok(walk) => Ok(walk.outcome),
            Err(refusal) => Err(Difference(format!(
                "{}reading: {refusal}",
                self.question(state, row)
            ))),
        }
    }

    /// One tick from any state: would-be statuses, reached, halted, next flags
    /// and next cursors; and `validate` passes. Answers what the Rust does.
    pub fn tick(&self, state: &State, row: &[u8]) -> Result<Outcome, Difference> {
        let values = circuit::values(&self.lowered, state, row)
            .map_err(|error| Difference(format!("{}rust: {error}", self.question(state, row))))?;
        self.outcome(state, row, &values)
    }

    /// [`Self::tick`], where the Rust's value table is at hand.
    pub fn outcome(
        &self,
        state: &State,
        row: &[u8],
        values: &[f32],
    ) -> Result<Outcome, Difference> {
        let question = || self.question(state, row);
        let rust = circuit::outcome(&self.lowered, values)
            .map_err(|error| Difference(format!("{}rust: {error}", question())))?;
        let reading = self.walk(state, row)?;
        same(
            question,
            "would-be statuses",
            &rust.would_be,
            &reading.would_be,
        )?;
        same(question, "ticked", &rust.ticked, &reading.ticked)?;
        same(question, "halted", &rust.halted, &reading.halted)?;
        same(
            question,
            "next flags",
            &rust.next.flags,
            &reading.next.flags,
        )?;
        same(
            question,
            "next cursors",
            &rust.next.cursors,
            &reading.next.cursors,
        )?;
        Ok(rust)
    }

    /// The Rust's own `evaluate`, row after row from the initial state: its
    /// schedule and the state it leaves, against the same tick by [`Self::tick`].
    pub fn run(&self, rows: &[Vec<u8>]) -> Result<(), Difference> {
        let mut rust_state = RustState::initial(&self.lowered);
        let mut state = State::fresh(&self.plan);
        for row in rows {
            let question = || self.question(&state, row);
            let due = self.tick(&state, row)?;
            let schedule = self
                .lowered
                .evaluate(&mut rust_state, &rust_row(row))
                .map_err(|error| Difference(format!("{}rust: {error}", question())))?;
            self.same_schedule(question, &schedule, &due)?;

            let flags = (0..).map_while(|node| rust_state.is_running(node));
            let after = State {
                flags: flags.map(u8::from).collect(),
                cursors: (0..).map_while(|cell| rust_state.cursor(cell)).collect(),
            };
            same(question, "state after", &after, &due.next)?;
            let (rust, running) = (rust_state.is_tree_running(), due.next.flags[0] == 1);
            same(question, "tree running", &rust, &running)?;
            state = due.next;
        }
        Ok(())
    }

    /// The Rust's schedule, and the order in which it reports.
    fn same_schedule(
        &self,
        question: impl Fn() -> String,
        schedule: &Schedule,
        due: &Outcome,
    ) -> Result<(), Difference> {
        let question = &question;
        let status = |node: usize| due.ticked[node].then(|| rust_status(due.would_be[node]));
        let statuses: Vec<Option<RustStatus>> = (0..due.ticked.len()).map(status).collect();
        same(question, "schedule: statuses", &schedule.status, &statuses)?;
        same(question, "schedule: root", &schedule.root(), &status(0))?;
        same(question, "schedule: halted", &schedule.halted, &due.halted)?;

        let plan = self.lowered.plan();
        let report = self.plan.report().iter().copied();
        let ticked: Vec<_> = schedule.ticked(plan).collect();
        let due_ticked: Vec<_> = report
            .clone()
            .filter_map(|node| Some((node, status(node)?)))
            .collect();
        same(question, "reports of ticks", &ticked, &due_ticked)?;
        let halts: Vec<_> = schedule.halts(plan).collect();
        let due_halts: Vec<_> = report.filter(|node| due.halted[*node]).collect();
        same(question, "reports of halts", &halts, &due_halts)
    }

    /// Refusals 11 and 12: a row one too long, and the state of another tree.
    pub fn refused_ticks(&self, other: &Self) -> Result<usize, Difference> {
        let mut row = vec![0; self.plan.leaves().len() + 1];
        let mut compared = 0;
        let mut ask = |row: &[u8], rust_state: &mut RustState, state: &State| {
            let question = || self.question(state, row);
            let rust = match self.lowered.evaluate(rust_state, &rust_row(row)) {
                Err(TickError::LeafCount { given, .. }) => Some((11, given)),
                Err(TickError::StateShape { given, .. }) => Some((12, given)),
                _ => None,
            };
            let reading = walk_with(self.slips, &self.plan, state, row).err();
            let reading = reading.map(|refusal| (refusal.number(), refusal.place()));
            compared += 1;
            same(question, "refused tick", &rust, &reading)
        };
        let fresh = State::fresh(&self.plan);
        ask(&row, &mut RustState::initial(&self.lowered), &fresh)?;
        row.pop();
        if other.plan.nodes().len() != self.plan.nodes().len() {
            let strange = State::fresh(&other.plan);
            ask(&row, &mut RustState::initial(&other.lowered), &strange)?;
        }
        Ok(compared)
    }
}

/// Damaged bytes: the planted fault is found; and where the fault is one that
/// the Rust can see too, it gives the same; and it takes what the reading takes.
/// Answers whether the two refused alike.
pub fn damaged(damaged: &Damaged) -> Result<bool, Difference> {
    let bytes = &damaged.bytes;
    let question = || format!("tree bytes: {}\n", hex(bytes));
    let answer = read(bytes);
    if let Some(planted) = damaged.refusal
        && answer != Err(planted)
    {
        let text = format!("{}planted: {planted}\nreading: {answer:?}", question());
        return Err(Difference(text));
    }
    let (records, _) = read_records(bytes);
    match answer {
        Ok(tree) => {
            same(question, "refusal", &lower(&tree).err(), &None)?;
            return Ok(false);
        }
        Err(Refusal::Unsupported { kind, .. }) => {
            let due = Some(LowerError::Unsupported(kind.row().name));
            same(question, "refusal", &refusal_with(records, kind), &due)?;
        }
        Err(Refusal::EmptyComposite { .. }) => {
            let due = Some(LowerError::EmptyComposite);
            for kind in Kind::COMPOSITES {
                let rust = refusal_with(records.clone(), kind);
                same(question, "refusal", &rust, &due)?;
            }
        }
        Err(_) => return Ok(false),
    }
    Ok(true)
}

/// What the Rust says of the tree that these nodes begin and one of this kind,
/// without children, follows. What would come after it is left out: the first
/// node in pre-order decides.
fn refusal_with(mut records: Vec<Record>, kind: Kind) -> Option<LowerError> {
    records.push(Record { kind, children: 0 });
    let tree = Tree::from_records(&records)?;
    lower(&tree).err()
}
