//! `runs`: trees compiled through C, then ticked through C in runs from arbitrary states, each tick from the state that the last one
//! left, beside the Rust's own circuit and the reading's walk. `--wrong NAME` puts a wrong tick in the proved one's place, and then it must
//! fail.

use std::process::ExitCode;
use std::thread;

use compare::agree::{Difference, Pair};
use reading::generate::{any_tree, row, state};
use reading::walk::Slips;
use reading::{Answer, Rng, State};
use ticktest::beside::Tick;
use ticktest::{Lent, Refusal, Work, beside, linked};

/// One thread each.
const SEEDS: [u64; 2] = [21, 22];
/// Of each thread.
const TICKS: usize = 500_000;

#[derive(Default)]
struct Tally {
    trees: usize,
    ticks: usize,
    nodes: usize,
    levels: usize,
    halts: usize,
    edges: usize,
}

/// Ticks that are wrong in one way each.
const STAND_INS: [(&str, Tick); 5] = [
    // Answers and writes nothing.
    ("idle", |_, _, _| Refusal::NONE),
    // Begins from the fresh state again and again.
    ("fresh", |stored, row, lent| {
        lent.flags.fill(0);
        lent.cursors.fill(0);
        linked::tick(stored, row, lent)
    }),
    // Says 1 for every edge.
    ("edge", |stored, row, lent| {
        let answer = linked::tick(stored, row, lent);
        lent.edges[..stored.counts.leaves].fill(1);
        answer
    }),
    // Leaves one value of the table unwritten.
    ("table", |stored, row, lent| {
        let cell = lent.values[0];
        let answer = linked::tick(stored, row, lent);
        lent.values[0] = cell;
        answer
    }),
    // Writes one entry too many where there is one.
    ("past", |stored, row, lent| {
        let answer = linked::tick(stored, row, lent);
        if let Some(entry) = lent.halts.get_mut(stored.counts.nodes) {
            *entry = 0;
        }
        answer
    }),
];

fn main() -> ExitCode {
    let arguments: Vec<String> = std::env::args().skip(1).collect();
    let words: Vec<&str> = arguments.iter().map(String::as_str).collect();
    let tick = match words[..] {
        [] => Some(linked::tick as Tick),
        ["--wrong", name] => STAND_INS
            .iter()
            .find(|stand_in| stand_in.0 == name)
            .map(|stand_in| stand_in.1),
        _ => None,
    };
    let Some(tick) = tick else {
        eprintln!("usage: runs [--wrong idle|fresh|edge|table|past]");
        return ExitCode::from(2);
    };
    match all(tick) {
        Ok(tally) => {
            println!(
                "runs: {} ticks of {} trees compiled and ticked through C (to {} nodes, {} levels) as the Rust and the walk have them; {} halts, {} edges",
                tally.ticks, tally.trees, tally.nodes, tally.levels, tally.halts, tally.edges
            );
            ExitCode::SUCCESS
        }
        Err(Difference(text)) => {
            println!("runs: {text}");
            ExitCode::FAILURE
        }
    }
}

fn all(tick: Tick) -> Result<Tally, Difference> {
    let tallies: Vec<Result<Tally, Difference>> = thread::scope(|scope| {
        let threads = SEEDS.map(|seed| scope.spawn(move || runs(seed, tick)));
        let ended = threads.map(|thread| thread.join().expect("no thread panics"));
        ended.into_iter().collect()
    });
    let mut total = Tally::default();
    for tally in tallies {
        total.add(&tally?);
    }
    Ok(total)
}

fn runs(seed: u64, tick: Tick) -> Result<Tally, Difference> {
    let mut rng = Rng::new(seed);
    let mut work = Work::new();
    let mut tally = Tally::default();
    while tally.ticks < TICKS {
        run(&mut rng, tick, &mut work, &mut tally)?;
    }
    Ok(tally)
}

/// One tree, ticked again and again.
fn run(rng: &mut Rng, tick: Tick, work: &mut Work, tally: &mut Tally) -> Result<(), Difference> {
    let any = rng.between(1, 128);
    let few = rng.between(1, 24);
    let nodes = rng.weighted(&[(few, 40), (any, 4), (128, 1)]);
    let pair = Pair::new(any_tree(rng, nodes), Slips::default())?;
    let more = [rng.below(3), rng.below(3)];
    let stored = beside::compile(&pair.tree, &pair.lowered, more, work)?;
    let any = state(rng, &pair.plan);
    let start = if rng.one_in(8) {
        State::fresh(&pair.plan)
    } else {
        any
    };
    let mut lent = Lent::new(&stored.counts, start, rng.below(4));
    let kept = stored.clone();
    tally.tree(&pair);
    for _ in 0..rng.between(10, 30) {
        let (due, _) = beside::tick(tick, &pair, &stored, &row(rng, &pair.plan), &mut lent)?;
        tally.tick(&due);
    }
    if !stored.holds(&kept) {
        let text = pair.question(&lent.state(), &[]);
        return Err(Difference(format!("{text}a tick wrote into the circuit")));
    }
    Ok(())
}

impl Tally {
    fn tree(&mut self, pair: &Pair) {
        self.trees += 1;
        self.nodes = self.nodes.max(pair.tree.nodes());
        self.levels = self.levels.max(pair.tree.levels());
    }

    fn tick(&mut self, due: &Answer) {
        let set = |list: &[u8]| list.iter().filter(|entry| **entry != 0).count();
        self.ticks += 1;
        self.halts += set(&due.halts);
        self.edges += set(&due.edges);
    }

    fn add(&mut self, other: &Self) {
        self.trees += other.trees;
        self.ticks += other.ticks;
        self.nodes = self.nodes.max(other.nodes);
        self.levels = self.levels.max(other.levels);
        self.halts += other.halts;
        self.edges += other.edges;
    }
}
