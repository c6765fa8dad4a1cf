//! Sizes of the Rust's circuits, from which limits are chosen.

use behavior_machines_circuit::{Affine, Lowered, Op};
use reading::Plan;
use reading::vectors::Counts;

use crate::circuit::EXACT_LIMIT;

/// What is counted of a circuit.
#[derive(Clone, Copy, Debug)]
pub struct Sizes {
    /// Nodes, cursors, leaves, cells, ops, terms.
    pub counts: Counts,
    /// The longest form's terms.
    pub longest: usize,
    /// The largest coefficient or bias in size.
    pub coefficient: f32,
}

impl Sizes {
    /// The sizes of a circuit.
    pub fn of(plan: &Plan, lowered: &Lowered) -> Self {
        let forms = forms(lowered);
        let terms = forms.iter().map(|form| form.terms().len());
        let numbers = forms.iter().flat_map(|form| {
            let coefficients = form
                .terms()
                .iter()
                .map(|(_, coefficient)| coefficient.abs());
            coefficients.chain([form.bias().abs()])
        });
        let ops = lowered.circuit().ops().len();
        Self {
            counts: Counts::of(plan, ops, terms.clone().sum()),
            longest: terms.max().unwrap_or(0),
            coefficient: numbers.fold(0.0, f32::max),
        }
    }

    /// "15 (N - 1) + 2 C", which ops keep to.
    pub fn ops_bound(&self) -> usize {
        15 * (self.counts.nodes - 1) + 2 * self.counts.cursors
    }
}

/// The forms whose terms document 01 counts: "both forms of every op, then ..
/// the output forms (three statuses, reached, halted, next running per node;
/// next cursor per cell)". An op that is a form has no second one.
pub fn forms(lowered: &Lowered) -> Vec<Affine> {
    let mut forms = Vec::new();
    for op in lowered.circuit().ops() {
        match op {
            Op::Affine(form) => forms.push(form.clone()),
            Op::Reglu { left, gate } => forms.extend([left.clone(), gate.clone()]),
        }
    }
    forms.extend(output_forms(lowered).into_iter().cloned());
    forms
}

/// The output forms in document 01's order.
pub fn output_forms(lowered: &Lowered) -> Vec<&Affine> {
    let outputs = lowered.outputs();
    let mut forms = Vec::new();
    for node in 0..lowered.plan().node_count() {
        let status = &outputs.status[node];
        let bits = [
            &status.success,
            &status.failure,
            &status.running,
            &outputs.reached[node],
            &outputs.halted[node],
            &outputs.next_running[node],
        ];
        forms.extend(bits.map(|bit| bit.form()));
    }
    forms.extend(&outputs.next_cursor);
    forms
}

/// The largest running sum in size of these forms in wire order, against a
/// table of values. Summed in `f64`, which does not round here.
pub fn largest_sum(forms: &[Affine], values: &[f32]) -> f64 {
    let mut largest = 0.0_f64;
    for form in forms {
        let mut sum = f64::from(form.bias());
        largest = largest.max(sum.abs());
        for (wire, coefficient) in form.terms() {
            sum += f64::from(*coefficient) * f64::from(values[wire.position()]);
            largest = largest.max(sum.abs());
        }
    }
    largest
}

/// Whether a running sum of this size is exact in `f32`.
pub fn is_exact(sum: f64) -> bool {
    sum < f64::from(EXACT_LIMIT)
}
