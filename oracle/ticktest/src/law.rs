//! Document 01 on ticking, in its words and order, on storage that may hold anything.
//! A slip, on demand, shows that a comparison with it finds one.

use crate::storage::{BIASES, OPS, OUTPUTS};
use crate::{Lent, Refusal, Stored};

/// A slip in the reading.
#[derive(Clone, Copy, Debug, PartialEq)]
pub enum Slip {
    None,
    /// 16 before 15.
    Order,
    /// An op may read its own value.
    Own,
    /// 2 passes as a bit.
    Wide,
}

struct Form<'a> {
    bias: f32,
    wires: &'a [u32],
    coefs: &'a [f32],
}

/// A form of the storage, or none where it points past the terms in use.
fn form(s: &Stored, at: usize, bias: usize) -> Option<Form<'_>> {
    let first = s.nums[at] as usize;
    let end = first + s.nums[at + 1] as usize;
    (end <= s.counts.terms).then(|| Form {
        bias: s.biases[bias],
        wires: &s.wires[first..end],
        coefs: &s.coefs[first..end],
    })
}

fn whole(x: f32) -> bool {
    x.is_finite() && x.fract() == 0.0 && x.abs() <= 65_536.0
}

fn op_forms(s: &Stored, i: usize) -> [Option<Form<'_>>; 2] {
    let (at, bias) = (OPS + 5 * i, BIASES + 2 * i);
    [form(s, at + 1, bias), form(s, at + 3, bias + 1)]
}

fn output(s: &Stored, k: usize) -> Option<Form<'_>> {
    form(s, OUTPUTS + 2 * k, k)
}

fn outputs(s: &Stored) -> usize {
    6 * s.counts.nodes + s.counts.cursors
}

/// 17's list.
pub fn is_circuit(s: &Stored, slip: Slip) -> bool {
    let n = &s.counts;
    if n.nodes == 0
        || n.nodes > 128
        || n.cursors > n.nodes
        || n.leaves > n.nodes
        || n.cells != n.nodes + n.cursors + 3 * n.leaves
    {
        return false;
    }
    let slots =
        (s.nums.len().saturating_sub(OPS) / 5).min(s.biases.len().saturating_sub(BIASES) / 2);
    if s.nums.len() < OPS
        || s.biases.len() < BIASES
        || n.ops > slots
        || n.terms > s.wires.len().min(s.coefs.len())
    {
        return false;
    }
    let good = |form: &Option<Form>, limit: usize| {
        let Some(form) = form else { return false };
        let below = form.wires.iter().all(|wire| (*wire as usize) < limit);
        below && form.wires.windows(2).all(|pair| pair[0] < pair[1]) && whole(form.bias)
    };
    let ops = (0..n.ops).all(|i| {
        matches!(s.nums[OPS + 5 * i], 1 | 2)
            && op_forms(s, i)
                .iter()
                .all(|form| good(form, n.cells + i + usize::from(slip == Slip::Own)))
    });
    let outs = (0..outputs(s)).all(|k| good(&output(s, k), n.cells + n.ops));
    let coefs = s.coefs[..n.terms]
        .iter()
        .all(|coef| *coef != 0.0 && whole(*coef));
    let list = |from: usize, len: usize| {
        let list = &s.nums[from..from + len];
        list.windows(2).all(|pair| pair[0] < pair[1])
            && list.iter().all(|node| (*node as usize) < n.nodes)
    };
    let report = &s.nums[256..256 + n.nodes];
    let once = (0..n.nodes).all(|node| {
        report
            .iter()
            .filter(|entry| **entry as usize == node)
            .count()
            == 1
    });
    ops && outs && coefs && list(0, n.leaves) && list(128, n.cursors) && once
}

fn value(form: &Form, table: &[f32]) -> f32 {
    let terms = form.wires.iter().zip(form.coefs);
    terms.fold(form.bias, |total, (wire, coef)| {
        total + coef * table[*wire as usize]
    })
}

fn output_values(s: &Stored, table: &[f32]) -> Vec<f32> {
    (0..outputs(s))
        .map(|k| value(&output(s, k).expect("checked"), table))
        .collect()
}

fn verdict(s: &Stored, outs: &[f32], slip: Slip) -> Refusal {
    let bit = |x: f32| x == 0.0 || x == 1.0 || (slip == Slip::Wide && x == 2.0);
    for node in 0..s.counts.nodes {
        let six = &outs[6 * node..6 * node + 6];
        if let Some(x) = six[..3].iter().find(|x| !bit(**x)) {
            return Refusal::broken(1, node, *x);
        }
        let sum = six[0] + six[1] + six[2];
        if sum > 1.0 {
            return Refusal::broken(2, node, sum);
        }
        if let Some(x) = six[3..].iter().find(|x| !bit(**x)) {
            return Refusal::broken(1, node, *x);
        }
    }
    for cell in 0..s.counts.cursors {
        let x = outs[6 * s.counts.nodes + cell];
        if !x.is_finite() || x < 0.0 || x.fract() != 0.0 {
            return Refusal::broken(3, cell, x);
        }
    }
    Refusal::NONE
}

/// Validation of a value table.
pub fn validate(s: &Stored, table: &[f32], slip: Slip) -> Refusal {
    if !is_circuit(s, slip) {
        return Refusal::plain(17, 0);
    }
    if table.len() < s.counts.cells + s.counts.ops {
        return Refusal::plain(14, 0);
    }
    verdict(s, &output_values(s, table), slip)
}

/// One tick.
pub fn tick(s: &Stored, row: &[u8], l: &mut Lent, slip: Slip) -> Refusal {
    if !is_circuit(s, slip) {
        return Refusal::plain(17, 0);
    }
    let n = s.counts;
    for (number, given, due) in [
        (11, row.len(), n.leaves),
        (12, l.flags.len(), n.nodes),
        (13, l.cursors.len(), n.cursors),
    ] {
        if given != due {
            return Refusal::plain(number, given);
        }
    }
    if l.values.len() < n.cells + n.ops
        || l.statuses.len() < n.nodes
        || l.halts.len() < n.nodes
        || l.edges.len() < n.leaves
    {
        return Refusal::plain(14, 0);
    }
    let slot = row
        .iter()
        .position(|status| *status > 2)
        .map(|slot| Refusal::plain(15, slot));
    let node = l
        .flags
        .iter()
        .position(|flag| *flag > 1)
        .map(|node| Refusal::plain(16, node));
    let first = if slip == Slip::Order {
        node.or(slot)
    } else {
        slot.or(node)
    };
    if let Some(refusal) = first {
        return refusal;
    }
    for (node, flag) in l.flags.iter().enumerate() {
        l.values[node] = f32::from(*flag);
    }
    for (cell, cursor) in l.cursors.iter().enumerate() {
        l.values[n.nodes + cell] = (*cursor).min(65_535) as f32;
    }
    for (slot, status) in row.iter().enumerate() {
        for code in 0..3 {
            l.values[n.nodes + n.cursors + 3 * slot + code] = if usize::from(*status) == code {
                1.0
            } else {
                0.0
            };
        }
    }
    for i in 0..n.ops {
        let [left, gate] = op_forms(s, i);
        let left = value(&left.expect("checked"), &l.values);
        l.values[n.cells + i] = if s.nums[OPS + 5 * i] == 1 {
            left
        } else {
            let gate = value(&gate.expect("checked"), &l.values);
            left * if gate > 0.0 { gate } else { 0.0 }
        };
    }
    let outs = output_values(s, &l.values);
    let verdict = verdict(s, &outs, slip);
    if verdict.number != 0 {
        return verdict;
    }
    if let Some(cell) = (0..n.cursors).find(|cell| outs[6 * n.nodes + cell] > 65_535.0) {
        return Refusal::broken(3, cell, outs[6 * n.nodes + cell]);
    }
    let set = |node: usize, k: usize| outs[6 * node + k] != 0.0;
    for slot in 0..n.leaves {
        let node = s.nums[slot] as usize;
        l.edges[slot] = match (l.flags[node] == 1, set(node, 5)) {
            (false, true) => 1,
            (true, false) => 2,
            _ => 0,
        };
    }
    for node in 0..n.nodes {
        l.statuses[node] = match (set(node, 3), set(node, 0), set(node, 1)) {
            (false, _, _) => 3,
            (_, true, _) => 0,
            (_, _, true) => 1,
            _ => 2,
        };
        l.halts[node] = u8::from(set(node, 4));
        l.flags[node] = u8::from(set(node, 5));
    }
    for cell in 0..n.cursors {
        l.cursors[cell] = outs[6 * n.nodes + cell] as u32;
    }
    Refusal::NONE
}
