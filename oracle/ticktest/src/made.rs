//! Circuits made by hand, at random, and their damage.

use reading::Rng;

use crate::storage::{BIASES, OPS, OUTPUTS};
use crate::{Counts, Lent, Stored};

const ODD: [f32; 14] = [
    f32::NAN,
    f32::INFINITY,
    f32::NEG_INFINITY,
    -0.0,
    0.0,
    0.5,
    65_536.0,
    65_537.0,
    -65_536.0,
    -65_537.0,
    1e30,
    1e-30,
    16_777_216.0,
    2.0,
];

fn form(rng: &mut Rng, limit: usize) -> (f32, Vec<(u32, f32)>) {
    let mut wires: Vec<u32> = (0..rng.below(5)).map(|_| rng.below(limit) as u32).collect();
    wires.sort_unstable();
    wires.dedup();
    let coef = |rng: &mut Rng| rng.pick(&[1.0, 1.0, 1.0, -1.0, -1.0, 2.0, -3.0, 65_536.0]);
    let terms = wires.into_iter().map(|wire| (wire, coef(rng))).collect();
    (rng.pick(&[0.0, 0.0, 1.0, -1.0, 7.0, -0.0]), terms)
}

fn rising(rng: &mut Rng, count: usize, below: usize) -> Vec<u32> {
    let mut all: Vec<u32> = (0..below as u32).collect();
    while all.len() > count {
        all.remove(rng.below(all.len()));
    }
    all
}

/// A circuit that passes the check. Its outputs are mostly bits.
pub fn circuit(rng: &mut Rng) -> Stored {
    let nodes = if rng.one_in(50) {
        128
    } else {
        rng.between(1, 6)
    };
    let (cursors, leaves) = (rng.below(nodes + 1), rng.below(nodes + 1));
    let mut s = Stored::empty(Counts::of_tree(nodes, cursors, leaves));
    let cells = s.counts.cells;
    s.nums[..leaves].copy_from_slice(&rising(rng, leaves, nodes));
    s.nums[128..128 + cursors].copy_from_slice(&rising(rng, cursors, nodes));
    let mut report: Vec<u32> = (0..nodes as u32).collect();
    for i in (1..nodes).rev() {
        report.swap(i, rng.below(i + 1));
    }
    s.nums[256..256 + nodes].copy_from_slice(&report);
    for i in 0..rng.below(9) {
        let (left, gate) = (form(rng, cells + i), form(rng, cells + i));
        s.op(rng.pick(&[1, 2]), (left.0, &left.1), (gate.0, &gate.1));
    }
    let end = cells + s.counts.ops;
    let wild = rng.one_in(3);
    for k in 0..6 * nodes + cursors {
        let (bias, terms) = match rng.below(if wild { 4 } else { 3 }) {
            0 => (rng.pick(&[0.0, 0.0, 1.0]), Vec::new()),
            1 => (0.0, vec![(rng.below(nodes) as u32, 1.0)]),
            2 if k >= 6 * nodes => (
                0.0,
                vec![((nodes + k - 6 * nodes) as u32, rng.pick(&[1.0, 1.0, 2.0]))],
            ),
            2 => (1.0, vec![(rng.below(nodes) as u32, -1.0)]),
            _ => form(rng, end),
        };
        s.output(k, bias, &terms);
    }
    for _ in 0..rng.below(3) {
        s.wires.push(0);
        s.coefs.push(0.0);
    }
    s
}

/// How many sorts of damage there are.
pub const DAMAGES: usize = 24;

/// Damage of sort `which`; the first twenty-two are 17's items, one or two each.
pub fn damage(rng: &mut Rng, s: &mut Stored, which: usize) {
    // An earlier damage may have left any count: places are drawn from small ones.
    let few = |count: usize| count.min(128);
    let n = s.counts;
    let n = Counts {
        nodes: few(n.nodes),
        cursors: few(n.cursors),
        leaves: few(n.leaves),
        cells: n.cells.min(1_000),
        ops: few(n.ops),
        terms: n.terms.min(s.wires.len()),
    };
    let huge = [0, 1, 127, 128, 129, usize::MAX, usize::MAX / 2, 1 << 32];
    let outs = 6 * n.nodes + n.cursors;
    let term = rng.below(n.terms.max(1));
    let op = OPS + 5 * rng.below(n.ops.max(1));
    let range = if n.ops > 0 && rng.one_in(2) {
        op + 1 + 2 * rng.below(2)
    } else {
        OUTPUTS + 2 * rng.below(outs.max(1))
    };
    let (numbers, floats) = (s.nums.len().max(1), s.biases.len().max(1));
    let earlier = s.wires.get(term.wrapping_sub(1)).copied().unwrap_or(0);
    let put = |list: &mut Vec<u32>, at: usize, x: u32| {
        if let Some(slot) = list.get_mut(at) {
            *slot = x
        }
    };
    let put_float = |list: &mut Vec<f32>, at: usize, x: f32| {
        if let Some(slot) = list.get_mut(at) {
            *slot = x
        }
    };
    match which {
        0 => s.counts.nodes = 0,
        1 => s.counts.nodes = rng.pick(&huge),
        2 => s.counts.cursors = rng.pick(&huge),
        3 => s.counts.leaves = rng.pick(&huge),
        4 => s.counts.cells = s.counts.cells.wrapping_add(rng.pick(&[1, usize::MAX, 3])),
        5 => {
            s.counts.ops = rng.pick(&[n.ops + 1, usize::MAX, usize::MAX / 5, n.ops.wrapping_sub(1)])
        }
        6 => {
            s.counts.terms = rng.pick(&[
                s.wires.len() + 1,
                usize::MAX,
                n.terms.wrapping_sub(1),
                s.wires.len(),
            ])
        }
        7 => {
            s.nums
                .truncate(rng.pick(&[0, 100, 300, 2_175, 2_176, s.nums.len().saturating_sub(1)]))
        }
        8 => s
            .biases
            .truncate(rng.pick(&[0, 895, 896, s.biases.len().saturating_sub(1)])),
        9 => s
            .wires
            .truncate(s.wires.len().saturating_sub(rng.between(1, 3))),
        10 => s
            .coefs
            .truncate(s.coefs.len().saturating_sub(rng.between(1, 3))),
        11 => put(&mut s.nums, op, rng.pick(&[0, 3, u32::MAX])),
        12 => put(&mut s.nums, range, rng.pick(&[n.terms as u32, u32::MAX, 0])),
        13 => put(
            &mut s.nums,
            range + 1,
            rng.pick(&[n.terms as u32 + 1, u32::MAX, 0, 1, 2]),
        ),
        14 => put(
            &mut s.wires,
            term,
            rng.pick(&[(n.cells + n.ops) as u32, n.cells as u32, u32::MAX, 0]),
        ),
        15 if term > 0 => put(&mut s.wires, term, earlier),
        16 => put_float(&mut s.coefs, term, rng.pick(&[0.0, -0.0])),
        17 => put_float(&mut s.coefs, term, rng.pick(&ODD)),
        18 => put_float(
            &mut s.biases,
            if rng.one_in(2) {
                rng.below(outs.max(1))
            } else {
                BIASES + rng.below(2 * n.ops + 1)
            },
            rng.pick(&ODD),
        ),
        19 => put(
            &mut s.nums,
            rng.below(n.leaves.max(1)),
            rng.pick(&[n.nodes as u32, u32::MAX, 0]),
        ),
        20 => put(
            &mut s.nums,
            128 + rng.below(n.cursors.max(1)),
            rng.pick(&[n.nodes as u32, u32::MAX, 0]),
        ),
        21 => put(
            &mut s.nums,
            256 + rng.below(n.nodes.clamp(1, 128)),
            rng.pick(&[n.nodes as u32, u32::MAX, 0, 1]),
        ),
        22 => put(&mut s.nums, rng.below(numbers), rng.number() as u32),
        23 => put_float(
            &mut s.biases,
            rng.below(floats),
            f32::from_bits(rng.number() as u32),
        ),
        _ => {}
    }
}

/// What a tick of the circuit is lent, of the right lengths but now and then.
pub fn lent(rng: &mut Rng, s: &Stored) -> (Vec<u8>, Lent) {
    let n = s.counts;
    let len = |rng: &mut Rng, due: usize| {
        let due = due.min(3_000);
        if rng.one_in(40) {
            rng.pick(&[0, due + 1, due.saturating_sub(1)])
        } else {
            due
        }
    };
    let byte = |rng: &mut Rng, most: usize| {
        if rng.one_in(200) {
            rng.pick(&[2, 3, 255])
        } else {
            rng.below(most + 1) as u8
        }
    };
    let (rows, flags, cursors) = (len(rng, n.leaves), len(rng, n.nodes), len(rng, n.cursors));
    let more = rng.below(3);
    let (values, statuses, halts, edges) = (
        len(rng, n.cells.saturating_add(n.ops)) + more,
        len(rng, n.nodes) + more,
        len(rng, n.nodes) + more,
        len(rng, n.leaves) + more,
    );
    let row = (0..rows).map(|_| byte(rng, 2)).collect();
    let lent = Lent {
        flags: (0..flags).map(|_| byte(rng, 1)).collect(),
        cursors: (0..cursors)
            .map(|_| rng.pick(&[0, 1, 2, 5, 65_535, 70_000, u32::MAX]))
            .collect(),
        values: (0..values).map(|_| rng.pick(&ODD)).collect(),
        statuses: (0..statuses).map(|_| rng.number() as u8).collect(),
        halts: (0..halts).map(|_| rng.number() as u8).collect(),
        edges: (0..edges).map(|_| rng.number() as u8).collect(),
    };
    (row, lent)
}
