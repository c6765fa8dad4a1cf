//! `counts`: a table of the Rust's circuits for the bench trees and for random
//! ones. Exit 1 if a circuit has more than 15 (N - 1) + 2 C ops, or a running
//! sum reaches 2^24.

use std::process::ExitCode;

use compare::agree::{Difference, Pair};
use compare::cases::bench_trees;
use compare::circuit::values;
use compare::measure::{Sizes, forms, is_exact, largest_sum};
use reading::generate::{self, FULL_SHAPES, SHAPES};
use reading::walk::{CURSOR_LIMIT, Slips};
use reading::{Kind, Rng, State, Tree};

/// A line of the table.
#[derive(Clone, Copy)]
struct Line {
    sizes: Sizes,
    bound: usize,
    spare: usize,
    sum: f64,
    terms_a_square: f64,
}

fn main() -> ExitCode {
    match table() {
        Ok(()) => ExitCode::SUCCESS,
        Err(Difference(text)) => {
            println!("counts: {text}");
            ExitCode::FAILURE
        }
    }
}

fn table() -> Result<(), Difference> {
    println!(
        "{:52}{:>4}{:>4}{:>4}{:>6}{:>6}{:>6}{:>6}{:>7}{:>8}{:>5}{:>7}{:>10}",
        "tree",
        "N",
        "C",
        "L",
        "cells",
        "ops",
        "bound",
        "spare",
        "terms",
        "longest",
        "coef",
        "sum",
        "terms/N²"
    );
    let mut rng = Rng::new(1);
    for (name, tree) in bench_trees() {
        print_line(name, &measure(tree, &mut rng)?);
    }
    let small = (1..=4).flat_map(generate::all_trees).collect();
    print_most("all trees of up to 4 nodes", small, &mut rng)?;
    print_most("leaves under chains, 128 nodes", chained(), &mut rng)?;
    for (name, shape) in SHAPES.iter().chain(&FULL_SHAPES) {
        let trees = (0..100).map(|_| shape(&mut rng)).collect();
        print_most(&format!("random: {name}"), trees, &mut rng)?;
    }
    println!(
        "bound: 15 (N - 1) + 2 C; spare: what ops leave of it. coef: largest coefficient or bias."
    );
    println!("sum: largest running sum in wire order; below 16777216 every one is exact.");
    println!("A line for several trees has the most of each column, and the least to spare.");
    Ok(())
}

/// A composite of leaves under one-child composites, 128 nodes together.
fn chained() -> Vec<Tree> {
    let mut trees = Vec::new();
    for inner in [Kind::Sequence, Kind::Fallback] {
        for outer in [Kind::Sequence, Kind::Fallback] {
            for levels in 0..15 {
                trees.push(Tree::of_leaves(inner, 127 - levels).under(outer, levels));
            }
        }
    }
    trees
}

fn measure(tree: Tree, rng: &mut Rng) -> Result<Line, Difference> {
    let pair = Pair::new(tree, Slips::default())?;
    let sizes = Sizes::of(&pair.plan, &pair.lowered);
    let bytes = || compare::agree::hex(&pair.tree.to_bytes());
    let (ops, bound) = (sizes.counts.ops, sizes.ops_bound());
    let spare = bound.checked_sub(ops).ok_or_else(|| {
        Difference(format!(
            "{ops} ops, more than {bound}\ntree bytes: {}",
            bytes()
        ))
    })?;
    let sum = sums(&pair, rng)?;
    if !is_exact(sum) {
        let text = format!("a running sum of {sum}\ntree bytes: {}", bytes());
        return Err(Difference(text));
    }
    let nodes = sizes.counts.nodes as f64;
    Ok(Line {
        sizes,
        bound,
        spare,
        sum,
        terms_a_square: sizes.counts.terms as f64 / (nodes * nodes),
    })
}

/// The largest running sum from extreme states and some random ones.
fn sums(pair: &Pair, rng: &mut Rng) -> Result<f64, Difference> {
    let plan = &pair.plan;
    let forms = forms(&pair.lowered);
    let mut questions = Vec::new();
    for flag in [0, 1] {
        for cursor in [0, CURSOR_LIMIT] {
            for status in [0, 1, 2] {
                let state = State {
                    flags: vec![flag; plan.nodes().len()],
                    cursors: vec![cursor; plan.cursors().len()],
                };
                questions.push((state, vec![status; plan.leaves().len()]));
            }
        }
    }
    for _ in 0..8 {
        questions.push((generate::state(rng, plan), generate::row(rng, plan)));
    }
    let mut largest = 0.0_f64;
    for (state, row) in questions {
        let values = values(&pair.lowered, &state, &row).map_err(Difference)?;
        largest = largest.max(largest_sum(&forms, &values));
    }
    Ok(largest)
}

fn print_most(name: &str, trees: Vec<Tree>, rng: &mut Rng) -> Result<(), Difference> {
    let name = format!("{name} ({})", trees.len());
    let mut most: Option<Line> = None;
    for tree in trees {
        let line = measure(tree, rng)?;
        most = Some(most.map_or(line, |most| most.max(&line)));
    }
    if let Some(most) = most {
        print_line(&name, &most);
    }
    Ok(())
}

impl Line {
    fn max(&self, other: &Self) -> Self {
        let (one, two) = (&self.sizes, &other.sizes);
        let mut sizes = *one;
        sizes.counts.nodes = one.counts.nodes.max(two.counts.nodes);
        sizes.counts.cursors = one.counts.cursors.max(two.counts.cursors);
        sizes.counts.leaves = one.counts.leaves.max(two.counts.leaves);
        sizes.counts.cells = one.counts.cells.max(two.counts.cells);
        sizes.counts.ops = one.counts.ops.max(two.counts.ops);
        sizes.counts.terms = one.counts.terms.max(two.counts.terms);
        sizes.longest = one.longest.max(two.longest);
        sizes.coefficient = one.coefficient.max(two.coefficient);
        Self {
            sizes,
            bound: self.bound.max(other.bound),
            spare: self.spare.min(other.spare),
            sum: self.sum.max(other.sum),
            terms_a_square: self.terms_a_square.max(other.terms_a_square),
        }
    }
}

fn print_line(name: &str, line: &Line) {
    let counts = &line.sizes.counts;
    println!(
        "{name:52}{:4}{:4}{:4}{:6}{:6}{:6}{:6}{:7}{:8}{:5}{:7}{:10.2}",
        counts.nodes,
        counts.cursors,
        counts.leaves,
        counts.cells,
        counts.ops,
        line.bound,
        line.spare,
        counts.terms,
        line.sizes.longest,
        line.sizes.coefficient,
        line.sum,
        line.terms_a_square
    );
}
