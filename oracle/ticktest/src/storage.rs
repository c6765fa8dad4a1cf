//! A circuit in the storage of docs/STORAGE.md, and the Rust's circuit turned into it.

use behavior_machines_circuit::{Affine, Lowered, Op};
use compare::circuit::rust_status;
use compare::measure::output_forms;
use reading::vectors::Counts;
use reading::{Rng, State, Status};

pub const OUTPUTS: usize = 384;
pub const OPS: usize = 2176;
pub const BIASES: usize = 896;

#[repr(C)]
#[derive(Clone, Copy, Debug)]
pub struct Refusal {
    pub number: u32,
    pub broken: u32,
    pub place: usize,
    pub value: f32,
}

impl PartialEq for Refusal {
    fn eq(&self, other: &Self) -> bool {
        let heads = |r: &Self| (r.number, r.broken, r.place);
        heads(self) == heads(other) && crate::same(self.value, other.value)
    }
}

impl Refusal {
    pub const NONE: Self = Self::plain(0, 0);

    pub const fn plain(number: u32, place: usize) -> Self {
        Self {
            number,
            broken: 0,
            place,
            value: 0.0,
        }
    }

    pub const fn broken(broken: u32, place: usize, value: f32) -> Self {
        Self {
            number: 18,
            broken,
            place,
            value,
        }
    }
}

/// What compiling answers.
#[repr(C)]
#[derive(Clone, Copy, Debug, PartialEq)]
pub struct Compilation {
    pub number: u32,
    pub kind: u32,
    pub place: usize,
    pub counts: Counts,
}

impl Compilation {
    pub const fn accepted(counts: Counts) -> Self {
        Self {
            number: 0,
            kind: 0,
            place: 0,
            counts,
        }
    }

    pub fn refused(number: u32, kind: u32, place: usize) -> Self {
        Self {
            number,
            kind,
            place,
            counts: Counts::default(),
        }
    }
}

/// The work room of compile, of the lengths in docs/STORAGE.md.
#[derive(Clone, Debug)]
pub struct Work {
    pub nums: Vec<usize>,
    pub biases: Vec<f32>,
    pub wires: Vec<u32>,
    pub coefs: Vec<f32>,
}

impl Work {
    pub fn new() -> Self {
        Self {
            nums: vec![0; 13_920],
            biases: vec![0.0; 6_960],
            wires: vec![0; 262_144],
            coefs: vec![0.0; 262_144],
        }
    }

    /// Sets some of it, the ends among it.
    pub fn soil(&mut self, rng: &mut Rng) {
        fn some<T: Copy>(rng: &mut Rng, slice: &mut [T], set: T) {
            for place in [0, rng.below(slice.len()), slice.len() - 1] {
                slice[place] = set;
            }
        }
        some(rng, &mut self.nums, 7);
        some(rng, &mut self.biases, 7.0);
        some(rng, &mut self.wires, 7);
        some(rng, &mut self.coefs, 7.0);
    }

    /// Whether all of it is zero, bit by bit.
    pub fn is_zero(&self) -> bool {
        let nums = self.nums.iter().fold(0, |bits, x| bits | x);
        nums == 0 && are_zero(&self.biases, &self.wires, &self.coefs)
    }
}

/// Whether all of these are zero, bit by bit. Folds, for speed: the work room is long.
fn are_zero(biases: &[f32], wires: &[u32], coefs: &[f32]) -> bool {
    let float = |list: &[f32]| list.iter().fold(0, |bits, x| bits | x.to_bits());
    let wires = wires.iter().fold(0, |bits, x| bits | x);
    float(biases) | wires | float(coefs) == 0
}

impl Default for Work {
    fn default() -> Self {
        Self::new()
    }
}

#[derive(Clone, Debug)]
pub struct Stored {
    pub counts: Counts,
    pub nums: Vec<u32>,
    pub biases: Vec<f32>,
    pub wires: Vec<u32>,
    pub coefs: Vec<f32>,
}

/// What a tick is lent to write.
#[derive(Clone, Debug)]
pub struct Lent {
    pub flags: Vec<u8>,
    pub cursors: Vec<u32>,
    pub values: Vec<f32>,
    pub statuses: Vec<u8>,
    pub halts: Vec<u8>,
    pub edges: Vec<u8>,
}

impl PartialEq for Lent {
    fn eq(&self, other: &Self) -> bool {
        let bytes = |l: &Self| {
            (
                l.flags.clone(),
                l.cursors.clone(),
                l.statuses.clone(),
                l.halts.clone(),
                l.edges.clone(),
            )
        };
        bytes(self) == bytes(other) && crate::all_same(&self.values, &other.values)
    }
}

impl Lent {
    // No tick writes these into an output.
    const UNWRITTEN: u8 = 9;
    const UNWRITTEN_VALUE: f32 = 9.5;

    /// A state, and outputs as long as a tick of a circuit with these counts needs and `past` longer, unwritten.
    pub fn new(n: &Counts, state: State, past: usize) -> Self {
        let unwritten = |needed: usize| vec![Self::UNWRITTEN; needed + past];
        Self {
            flags: state.flags,
            cursors: state.cursors,
            values: vec![Self::UNWRITTEN_VALUE; n.cells + n.ops + past],
            statuses: unwritten(n.nodes),
            halts: unwritten(n.nodes),
            edges: unwritten(n.leaves),
        }
    }

    /// All outputs as if unwritten; the state stays.
    pub fn unwrite(&mut self) {
        self.values.fill(Self::UNWRITTEN_VALUE);
        for output in [&mut self.statuses, &mut self.halts, &mut self.edges] {
            output.fill(Self::UNWRITTEN);
        }
    }

    /// Whether all that lies past what such a tick needs is unwritten.
    pub fn is_unwritten_past(&self, n: &Counts) -> bool {
        let past = |output: &[u8], needed: usize| {
            output[needed..].iter().all(|byte| *byte == Self::UNWRITTEN)
        };
        past(&self.statuses, n.nodes)
            && past(&self.halts, n.nodes)
            && past(&self.edges, n.leaves)
            && self.values[n.cells + n.ops..]
                .iter()
                .all(|value| *value == Self::UNWRITTEN_VALUE)
    }

    /// The state.
    pub fn state(&self) -> State {
        State {
            flags: self.flags.clone(),
            cursors: self.cursors.clone(),
        }
    }
}

/// Document 01's number of each of the Rust's input cells.
pub fn cell_numbers(lowered: &Lowered) -> Vec<u32> {
    let plan = lowered.plan();
    let (nodes, cursors) = (plan.node_count(), plan.cursor_count());
    let mut number = vec![0; plan.cell_count() as usize];
    for node in 0..nodes {
        number[plan.running_cell(node) as usize] = node as u32;
    }
    for cell in 0..cursors {
        number[plan.cursor_cell(cell) as usize] = (nodes + cell) as u32;
    }
    for slot in 0..plan.leaf_count() {
        for (code, status) in Status::ALL.into_iter().enumerate() {
            number[plan.leaf_status_cell(slot, rust_status(status)) as usize] =
                (nodes + cursors + 3 * slot + code) as u32;
        }
    }
    number
}

/// The Rust's value table, with its input cells where document 01 has them.
pub fn renumbered(lowered: &Lowered, values: &[f32]) -> Vec<f32> {
    let mut placed = values.to_vec();
    for (place, value) in cell_numbers(lowered).into_iter().zip(values) {
        placed[place as usize] = *value;
    }
    placed
}

impl Stored {
    /// Storage with so many op and term slots, all of it set.
    pub fn dirty(ops: usize, terms: usize) -> Self {
        Self {
            counts: Counts::default(),
            nums: vec![7; OPS + 5 * ops],
            biases: vec![7.0; BIASES + 2 * ops],
            wires: vec![7; terms],
            coefs: vec![7.0; terms],
        }
    }

    /// Whether all four slices are zero, bit by bit.
    pub fn is_zero(&self) -> bool {
        let nums = self.nums.iter().fold(0, |bits, x| bits | x);
        nums == 0 && are_zero(&self.biases, &self.wires, &self.coefs)
    }

    /// The same circuit in slices that may be longer, past which all is zero; zeros of either sign are equal.
    pub fn holds(&self, other: &Self) -> bool {
        fn begins<T: Copy + PartialEq>(long: &[T], short: &[T], zero: T) -> bool {
            long.len() >= short.len()
                && long[..short.len()] == *short
                && long[short.len()..].iter().all(|x| *x == zero)
        }
        self.counts == other.counts
            && begins(&self.nums, &other.nums, 0)
            && begins(&self.biases, &other.biases, 0.0)
            && begins(&self.wires, &other.wires, 0)
            && begins(&self.coefs, &other.coefs, 0.0)
    }

    pub fn empty(counts: Counts) -> Self {
        Self {
            counts,
            nums: vec![0; OPS],
            biases: vec![0.0; BIASES],
            wires: Vec::new(),
            coefs: Vec::new(),
        }
    }

    /// Appends a form's terms and gives its range.
    pub fn terms(&mut self, terms: &[(u32, f32)]) -> [u32; 2] {
        let first = self.wires.len() as u32;
        for (wire, coef) in terms {
            self.wires.push(*wire);
            self.coefs.push(*coef);
        }
        self.counts.terms = self.wires.len();
        [first, terms.len() as u32]
    }

    pub fn output(&mut self, k: usize, bias: f32, terms: &[(u32, f32)]) {
        let range = self.terms(terms);
        self.nums[OUTPUTS + 2 * k..OUTPUTS + 2 * k + 2].copy_from_slice(&range);
        self.biases[k] = bias;
    }

    pub fn op(&mut self, kind: u32, left: (f32, &[(u32, f32)]), gate: (f32, &[(u32, f32)])) {
        let (l, g) = (self.terms(left.1), self.terms(gate.1));
        self.nums.extend([kind, l[0], l[1], g[0], g[1]]);
        self.biases.extend([left.0, gate.0]);
        self.counts.ops += 1;
    }

    /// The Rust's circuit, with its input cells numbered as document 01 numbers them.
    pub fn of(lowered: &Lowered) -> Self {
        let plan = lowered.plan();
        let (nodes, cursors, leaves) = (plan.node_count(), plan.cursor_count(), plan.leaf_count());
        let mut stored = Self::empty(Counts::of_tree(nodes, cursors, leaves));
        let cells = stored.counts.cells;
        let number = cell_numbers(lowered);
        let terms = |form: &Affine| {
            let place = |wire: usize| {
                number
                    .get(wire)
                    .copied()
                    .unwrap_or((cells + wire - number.len().min(wire)) as u32)
            };
            let mut terms: Vec<(u32, f32)> = form
                .terms()
                .iter()
                .map(|(wire, coef)| (place(wire.position()), *coef))
                .collect();
            terms.sort_by_key(|(wire, _)| *wire);
            terms
        };
        for slot in 0..leaves {
            stored.nums[slot] = plan.leaf_node(slot).expect("a leaf has a node") as u32;
        }
        for cell in 0..cursors {
            stored.nums[128 + cell] = plan.cursor_node(cell).expect("a cursor has a node") as u32;
        }
        for (place, node) in plan.report_order().iter().enumerate() {
            stored.nums[256 + place] = *node as u32;
        }
        for op in lowered.circuit().ops() {
            match op {
                Op::Affine(form) => stored.op(1, (form.bias(), &terms(form)), (0.0, &[])),
                Op::Reglu { left, gate } => {
                    stored.op(2, (left.bias(), &terms(left)), (gate.bias(), &terms(gate)))
                }
            }
        }
        for (k, form) in output_forms(lowered).into_iter().enumerate() {
            stored.output(k, form.bias(), &terms(form));
        }
        stored
    }
}
