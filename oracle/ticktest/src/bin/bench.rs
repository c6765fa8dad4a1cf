//! In one run, for three trees: a tick beside the Rust's `evaluate` on the same circuit, with the share of the check for 17; the bytes of a
//! circuit and of the work room; and compiling beside the Rust's `Lowered::new`. docs/TIMES.md has figures.

use std::hint::black_box;
use std::time::Instant;

use behavior_machines_circuit::{Lowered, State as RustState};
use compare::circuit::{lower, node_of, rust_row};
use reading::{Kind, Plan, Rng, State, Tree};
use ticktest::{Counts, Lent, Stored, Work, linked};

/// Nanoseconds of one call of each: the least of many short stretches, taken by turns, so that a disturbance meets both alike.
fn least_of<const N: usize>(batch: u32, mut calls: [&mut dyn FnMut(); N]) -> [f64; N] {
    let mut least = [f64::INFINITY; N];
    for _ in 0..60 {
        for (call, least) in calls.iter_mut().zip(&mut least) {
            let start = Instant::now();
            let mut done = 0u32;
            while start.elapsed().as_micros() < 3_000 {
                (0..batch).for_each(|_| call());
                done += batch;
            }
            *least = least.min(start.elapsed().as_nanos() as f64 / f64::from(done));
        }
    }
    least
}

fn bytes_of<T>(slice: &[T]) -> usize {
    size_of_val(slice)
}

/// The bytes that the four slices take, lent exactly as long as the circuit needs them.
fn exact_bytes(s: &Stored) -> usize {
    bytes_of(&s.nums) + bytes_of(&s.biases) + bytes_of(&s.wires) + bytes_of(&s.coefs)
}

/// Those of them that are in use: three lists, two numbers and a bias an output form, five numbers and two biases an op, two numbers a term.
fn bytes_in_use(n: Counts) -> usize {
    let lists = n.leaves + n.cursors + n.nodes;
    let outputs = 6 * n.nodes + n.cursors;
    4 * (lists + 3 * outputs + 7 * n.ops + 2 * n.terms)
}

fn work_bytes(w: &Work) -> usize {
    bytes_of(&w.nums) + bytes_of(&w.biases) + bytes_of(&w.wires) + bytes_of(&w.coefs)
}

fn tick_line(name: &str, tree: &Tree) {
    let lowered = lower(tree).expect("these lower");
    let stored = Stored::of(&lowered);
    let n = stored.counts;
    let mut rng = Rng::new(1);
    let row: Vec<u8> = (0..n.leaves).map(|_| rng.pick(&[0, 0, 0, 2])).collect();
    let statuses = rust_row(&row);
    let mut state = RustState::initial(&lowered);
    let mut lent = Lent::new(&n, State::fresh(&Plan::of(tree)), 0);
    let [rust, tick, check] = least_of(
        10,
        [
            &mut || {
                black_box(lowered.evaluate(&mut state, black_box(&statuses)))
                    .expect("it evaluates");
            },
            &mut || assert_eq!(linked::tick(black_box(&stored), &row, &mut lent).number, 0),
            &mut || assert_eq!(linked::check(black_box(&stored)), 0),
        ],
    );
    println!(
        "{name:14} {:4} {:6} {:10} {:7} {rust:9.0} {tick:9.0} {:10.2} {check:9.0} {:12.0}% {:19.2}",
        n.ops,
        n.terms,
        bytes_in_use(n),
        exact_bytes(&stored),
        tick / rust,
        100.0 * check / tick,
        (tick - check) / rust
    );
}

fn compile_line(name: &str, tree: &Tree, work: &mut Work) {
    let node = node_of(tree);
    let n = Stored::of(&lower(tree).expect("these lower")).counts;
    let bytes = tree.to_bytes();
    let mut stored = Stored::dirty(n.ops, n.terms);
    let [rust, compile] = least_of(
        1,
        [
            &mut || {
                black_box(Lowered::new(black_box(&node))).expect("these lower");
            },
            &mut || {
                assert_eq!(
                    linked::compile(black_box(&bytes), &mut stored, work).number,
                    0
                );
            },
        ],
    );
    println!(
        "{name:14} {rust:10.0} {compile:11.0} {:13.2}",
        compile / rust
    );
}

fn main() {
    let lane = || Tree::of_leaves(Kind::Sequence, 4);
    let trees = [
        ("two leaves", Tree::of_leaves(Kind::Sequence, 2)),
        (
            "12 lanes of 4",
            Tree::new(Kind::Fallback, (0..12).map(|_| lane()).collect()),
        ),
        ("127 leaves", Tree::of_leaves(Kind::Sequence, 127)),
    ];
    println!(
        "tree            ops  terms  bytes used   exact   Rust ns   tick ns  tick/Rust  check ns  check's share  without check/Rust"
    );
    for (name, tree) in &trees {
        tick_line(name, tree);
    }
    let mut work = Work::new();
    println!("\ntree              Rust ns  compile ns  compile/Rust");
    for (name, tree) in &trees {
        compile_line(name, tree, &mut work);
    }
    println!(
        "\nwork room of compile, for any tree: {} bytes",
        work_bytes(&work)
    );
}
