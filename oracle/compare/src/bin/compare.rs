//! `compare`: the Rust circuit against the reading of document 01.
//!
//! All trees of up to 4 nodes from all states on all rows, then the bench trees
//! and random ones of every shape from any state, runs from the initial state,
//! and damaged bytes. One line with the counts at the end; at the first difference the
//! question, both answers, and exit 1.
//!
//! - `--wrong spared|through|kept` makes one of document 01's slips in the
//!   walk: the comparison must then fail.
//! - `--seed N` and `--times N`: other random trees, and more of them.

use std::process::ExitCode;
use std::time::Instant;

use compare::agree::{Difference, Pair, damaged};
use compare::cases::bench_trees;
use reading::generate::{self, FULL_SHAPES, SHAPES};
use reading::walk::Slips;
use reading::{Rng, Tree, damage};

/// What to do, from the command line.
struct Options {
    slips: Slips,
    seed: u64,
    times: usize,
}

/// What was done.
#[derive(Default)]
struct Tally {
    trees: usize,
    ticks: usize,
    refusals: usize,
}

fn main() -> ExitCode {
    let Some(options) = options() else {
        eprintln!("usage: compare [--wrong spared|through|kept] [--seed N] [--times N]");
        return ExitCode::from(2);
    };
    let start = Instant::now();
    match compare(&options) {
        Ok(tally) => {
            println!(
                "compare: {} trees, {} ticks, {} refusals, {:.1} seconds: no difference",
                tally.trees,
                tally.ticks,
                tally.refusals,
                start.elapsed().as_secs_f32()
            );
            ExitCode::SUCCESS
        }
        Err(Difference(text)) => {
            println!("compare: the Rust and the reading differ\n{text}");
            ExitCode::FAILURE
        }
    }
}

fn options() -> Option<Options> {
    let mut options = Options {
        slips: Slips::default(),
        seed: 1,
        times: 1,
    };
    let mut arguments = std::env::args().skip(1);
    while let Some(name) = arguments.next() {
        let value = arguments.next()?;
        match (name.as_str(), value.as_str()) {
            ("--wrong", "spared") => options.slips.spared = true,
            ("--wrong", "through") => options.slips.through = true,
            ("--wrong", "kept") => options.slips.kept = true,
            ("--seed", number) => options.seed = number.parse().ok()?,
            ("--times", number) => options.times = number.parse().ok()?,
            _ => return None,
        }
    }
    Some(options)
}

fn compare(options: &Options) -> Result<Tally, Difference> {
    let mut tally = Tally::default();
    for tree in (1..=4).flat_map(generate::all_trees) {
        exhaust(tree, options.slips, &mut tally)?;
    }
    let mut rng = Rng::new(options.seed);
    for _ in 0..options.times {
        for (_, tree) in bench_trees() {
            sample(tree, 200, options.slips, &mut rng, &mut tally)?;
        }
        for shape in &SHAPES {
            for _ in 0..250 {
                sample(shape.1(&mut rng), 200, options.slips, &mut rng, &mut tally)?;
            }
        }
        for shape in &FULL_SHAPES {
            for _ in 0..50 {
                sample(shape.1(&mut rng), 100, options.slips, &mut rng, &mut tally)?;
            }
        }
        break_bytes(&mut rng, &mut tally)?;
    }
    Ok(tally)
}

/// A small tree from every state on every row.
fn exhaust(tree: Tree, slips: Slips, tally: &mut Tally) -> Result<(), Difference> {
    let pair = Pair::new(tree, slips)?;
    let rows = generate::all_rows(pair.plan.leaves().len(), 3);
    tally.trees += 1;
    for state in generate::all_states(&pair.plan) {
        for row in &rows {
            pair.tick(&state, row)?;
            tally.ticks += 1;
        }
    }
    Ok(())
}

/// A tree from random states on random rows, each followed by one more tick;
/// then one run from the initial state, as long.
fn sample(
    tree: Tree,
    ticks: usize,
    slips: Slips,
    rng: &mut Rng,
    tally: &mut Tally,
) -> Result<(), Difference> {
    let pair = Pair::new(tree, slips)?;
    tally.trees += 1;
    for _ in 0..ticks / 2 {
        let state = generate::state(rng, &pair.plan);
        let outcome = pair.tick(&state, &generate::row(rng, &pair.plan))?;
        pair.tick(&outcome.next, &generate::row(rng, &pair.plan))?;
        tally.ticks += 2;
    }
    let rows: Vec<_> = (0..ticks).map(|_| generate::row(rng, &pair.plan)).collect();
    pair.run(&rows)?;
    tally.ticks += rows.len();
    let other = Pair::new(Tree::leaf(), slips)?;
    tally.refusals += pair.refused_ticks(&other)?;
    Ok(())
}

/// Damaged bytes of every shape of tree.
fn break_bytes(rng: &mut Rng, tally: &mut Tally) -> Result<(), Difference> {
    let mut broken = Vec::new();
    for (_, shape) in SHAPES.iter().chain(&FULL_SHAPES) {
        for _ in 0..4 {
            let tree = shape(rng);
            broken.extend(damage::damaged(rng, &tree));
        }
        broken.extend(damage::past_limits(rng));
    }
    broken.extend((0..20_000).map(|_| damage::random_bytes(rng)));
    for bytes in &broken {
        tally.refusals += usize::from(damaged(bytes)?);
    }
    Ok(())
}
