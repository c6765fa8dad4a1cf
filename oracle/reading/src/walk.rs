//! The direct walk: what a tick does to each node, sentence by sentence as
//! document 01 has it. No circuit in sight.

use crate::kind::{Family, Rewrite};
use crate::plan::Plan;
use crate::refusal::TickRefusal;
use crate::status::{NOT_TICKED, Status};

/// The largest cursor; one above it is read as this.
pub const CURSOR_LIMIT: u32 = 65_535;

/// What a tree carries from tick to tick.
#[derive(Clone, Debug, PartialEq, Eq)]
pub struct State {
    /// The running flag of each node, 0 or 1.
    pub flags: Vec<u8>,
    /// The cursor of each memory composite.
    pub cursors: Vec<u32>,
}

impl State {
    /// The state of a tree that was never ticked: all flags and cursors 0.
    pub fn fresh(plan: &Plan) -> Self {
        Self {
            flags: vec![0; plan.nodes().len()],
            cursors: vec![0; plan.cursors().len()],
        }
    }
}

/// What a tick decides, node by node, and the state after it. The circuit's
/// outputs say just this.
#[derive(Clone, Debug, PartialEq, Eq)]
pub struct Outcome {
    /// Each node's status, also of nodes that are not ticked.
    pub would_be: Vec<Status>,
    /// Whether each node is ticked.
    pub ticked: Vec<bool>,
    /// Whether each node is halted.
    pub halted: Vec<bool>,
    /// The state after the tick.
    pub next: State,
}

/// The outcome, and on which nodes halt is called.
#[derive(Clone, Debug, PartialEq, Eq)]
pub struct Walk {
    /// Whether halt is called on each node.
    pub called: Vec<bool>,
    /// What the tick decides.
    pub outcome: Outcome,
}

/// What a tick answers.
#[derive(Clone, Debug, PartialEq, Eq)]
pub struct Answer {
    /// One status code a node, 3 for not ticked.
    pub statuses: Vec<u8>,
    /// One number a node: 1 if it is halted.
    pub halts: Vec<u8>,
    /// One number a leaf.
    pub edges: Vec<u8>,
    /// The state after the tick.
    pub next: State,
}

impl Outcome {
    /// The answer of a tick that began in `before`.
    pub fn answer(&self, plan: &Plan, before: &State) -> Answer {
        let statuses = self.would_be.iter().zip(&self.ticked);
        Answer {
            statuses: statuses
                .map(|(status, ticked)| if *ticked { status.code() } else { NOT_TICKED })
                .collect(),
            halts: self.halted.iter().map(|halted| u8::from(*halted)).collect(),
            edges: plan
                .leaves()
                .iter()
                .map(|leaf| edge(before.flags[*leaf], self.next.flags[*leaf]))
                .collect(),
            next: self.next.clone(),
        }
    }
}

/// "Edge of a leaf: 1 when its flag goes 0 to 1, 2 when 1 to 0, else 0."
pub fn edge(before: u8, after: u8) -> u8 {
    match (before, after) {
        (0, 1) => 1,
        (1, 0) => 2,
        _ => 0,
    }
}

/// A cursor, "read as 65,535 if larger".
pub fn cursor_as_read(cursor: u32) -> u32 {
    cursor.min(CURSOR_LIMIT)
}

/// What document 01 lists as easy to get wrong. Each is false in the walk; a
/// comparison shows its worth by failing when one is true.
#[derive(Clone, Copy, Debug, Default)]
pub struct Slips {
    /// "Believing the comment, and sparing a memory composite's later
    /// children."
    pub spared: bool,
    /// "Passing a halt through a node that was not running."
    pub through: bool,
    /// "Keeping 70,000 in a cursor that the tick didn't touch."
    pub kept: bool,
}

/// One tick of the tree from a state, with a status code for each leaf.
pub fn walk(plan: &Plan, state: &State, row: &[u8]) -> Result<Walk, TickRefusal> {
    walk_with(Slips::default(), plan, state, row)
}

/// [`walk`], with the slips made.
pub fn walk_with(
    slips: Slips,
    plan: &Plan,
    state: &State,
    row: &[u8],
) -> Result<Walk, TickRefusal> {
    let nodes = plan.nodes().len();
    let given = check(plan, state, row)?;
    let mut walker = Walker {
        slips,
        plan,
        state,
        given,
        would_be: vec![Status::Success; nodes],
        stretch: vec![Stretch::default(); nodes],
        ticked: vec![false; nodes],
        called: vec![false; nodes],
        halted: vec![false; nodes],
    };
    walker.ask(0);
    // "Ticked: the root; .."
    walker.tick(0);
    let next = State {
        flags: (0..nodes).map(|node| walker.next_flag(node)).collect(),
        cursors: (0..plan.cursors().len())
            .map(|cell| walker.next_cursor(cell))
            .collect(),
    };
    Ok(Walk {
        called: walker.called,
        outcome: Outcome {
            would_be: walker.would_be,
            ticked: walker.ticked,
            halted: walker.halted,
            next,
        },
    })
}

/// Refusals 11, 12, 13, 15, 16, in this order; the leaves' given statuses.
fn check(plan: &Plan, state: &State, row: &[u8]) -> Result<Vec<Status>, TickRefusal> {
    if row.len() != plan.leaves().len() {
        return Err(TickRefusal::LeafCount { given: row.len() });
    }
    if state.flags.len() != plan.nodes().len() {
        return Err(TickRefusal::StateShape {
            given: state.flags.len(),
        });
    }
    if state.cursors.len() != plan.cursors().len() {
        return Err(TickRefusal::CursorCount {
            given: state.cursors.len(),
        });
    }
    let statuses = row.iter().enumerate();
    let given = statuses
        .map(|(slot, code)| Status::from_code(*code).ok_or(TickRefusal::BadStatus { slot }))
        .collect::<Result<_, _>>()?;
    match state.flags.iter().position(|flag| *flag > 1) {
        Some(node) => Err(TickRefusal::BadFlag { node }),
        None => Ok(given),
    }
}

/// How a composite walks its children: positions among them.
#[derive(Clone, Copy, Default)]
struct Stretch {
    start: usize,
    stop: Option<usize>,
}

struct Walker<'a> {
    slips: Slips,
    plan: &'a Plan,
    state: &'a State,
    given: Vec<Status>,
    would_be: Vec<Status>,
    stretch: Vec<Stretch>,
    ticked: Vec<bool>,
    called: Vec<bool>,
    halted: Vec<bool>,
}

impl<'a> Walker<'a> {
    fn children(&self, node: usize) -> &'a [usize] {
        &self.plan.nodes()[node].children
    }

    /// Notes the would-be status of the node and of all under it.
    fn ask(&mut self, node: usize) {
        let children = self.children(node);
        for child in children {
            self.ask(*child);
        }
        self.would_be[node] = match self.plan.nodes()[node].kind.family() {
            // "a leaf's given one"
            Family::Leaf => self.plan.nodes()[node]
                .slot
                .map_or(Status::Success, |slot| self.given[slot]),
            // "constants"
            Family::Constant(status) => status,
            Family::Decorator(rewrite) => rewritten(rewrite, self.would_be[children[0]]),
            Family::Composite { advance, .. } => {
                let start = self.start(node);
                // "The stop is the first child from there on whose would-be
                // status is not the advance one."
                let stop = (start..children.len())
                    .find(|position| self.would_be[children[*position]] != advance);
                self.stretch[node] = Stretch { start, stop };
                // "The status is the stop's, or the advance status if there
                // is none."
                stop.map_or(advance, |stop| self.would_be[children[stop]])
            }
            // No plan of a tree that was read holds such a node.
            Family::NeverLowered => Status::Success,
        };
    }

    /// "start at 0 if reactive, else at the cursor, read as 65,535 if larger".
    fn start(&self, node: usize) -> usize {
        match self.plan.nodes()[node].cell {
            None => 0,
            Some(cell) => cursor_as_read(self.state.cursors[cell]) as usize,
        }
    }

    /// Ticks the node: notes it, ticks what it ticks, and calls halt where it
    /// calls halt.
    fn tick(&mut self, node: usize) {
        self.ticked[node] = true;
        let children = self.children(node);
        match self.plan.nodes()[node].kind.family() {
            // "a decorator's child when it is ticked"
            Family::Decorator(_) => self.tick(children[0]),
            Family::Composite { memory, .. } => {
                let Stretch { start, stop } = self.stretch[node];
                // "a ticked composite's children from start through the stop,
                // or to the end"
                let end = stop.map_or(children.len(), |stop| stop + 1);
                for child in children.iter().take(end).skip(start) {
                    self.tick(*child);
                }
                // "Halt called: .. on children after the stop of a ticked
                // composite, memory composites too."
                if !(self.slips.spared && memory) {
                    for child in &children[end..] {
                        self.call_halt(*child);
                    }
                }
            }
            Family::Leaf | Family::Constant(_) | Family::NeverLowered => {}
        }
    }

    /// "Halted: called, and the flag was 1. A called node with flag 0 passes
    /// nothing down."
    fn call_halt(&mut self, node: usize) {
        self.called[node] = true;
        self.halted[node] = self.state.flags[node] == 1;
        // "Halt called: on children of a halted node"
        if self.halted[node] || self.slips.through {
            for child in self.children(node) {
                self.call_halt(*child);
            }
        }
    }

    /// "Next flag: ticked, 1 exactly if running; halted, 0; else as it was."
    fn next_flag(&self, node: usize) -> u8 {
        if self.ticked[node] {
            u8::from(self.would_be[node] == Status::Running)
        } else if self.halted[node] {
            0
        } else {
            self.state.flags[node]
        }
    }

    /// "Next cursor: ticked, the stop's position if the stop is running, else
    /// 0; halted, 0; else the cursor as read."
    fn next_cursor(&self, cell: usize) -> u32 {
        let node = self.plan.cursors()[cell];
        if self.ticked[node] {
            match self.stretch[node].stop {
                Some(stop) if self.would_be[self.children(node)[stop]] == Status::Running => {
                    u32::try_from(stop).unwrap_or(CURSOR_LIMIT)
                }
                _ => 0,
            }
        } else if self.halted[node] {
            0
        } else if self.slips.kept {
            self.state.cursors[cell]
        } else {
            cursor_as_read(self.state.cursors[cell])
        }
    }
}

/// "Inverter exchanges success and failure; Force turns both into its own;
/// running passes."
fn rewritten(rewrite: Rewrite, status: Status) -> Status {
    match (rewrite, status) {
        (_, Status::Running) => Status::Running,
        (Rewrite::Exchange, Status::Success) => Status::Failure,
        (Rewrite::Exchange, Status::Failure) => Status::Success,
        (Rewrite::Force(own), _) => own,
    }
}
