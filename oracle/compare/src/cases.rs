//! The stored cases, made from the Rust's answers: document 01's bench cards,
//! every refusal in its order, small trees, and random ones. Edges, and the
//! refusals of bytes that the Rust has no word for, are the reading's.

use behavior_machines_circuit::Lowered;
use reading::damage::Damaged;
use reading::generate::{self, FULL_SHAPES, SHAPES};
use reading::kind::TABLE;
use reading::tree::Record;
use reading::vectors::{Accepted, Case, HEAD, LINE_LIMIT, Tick, Verdict};
use reading::walk::Slips;
use reading::{Kind, Plan, Rng, State, Tree, read};

use crate::agree::{Difference, Pair, damaged};
use crate::measure::Sizes;

/// The vector file.
pub fn file() -> Result<String, Difference> {
    let mut text = format!(
        "# Stored cases, made from the Rust's answers; see README.md here for the command.\n#\n{HEAD}"
    );
    for (name, case) in all()? {
        text += &format!("#\n# {name}\n");
        for line in case.lines() {
            if line.len() >= LINE_LIMIT {
                return Err(Difference(format!("a line too long in: {name}")));
            }
            text += &line;
            text.push('\n');
        }
    }
    Ok(text)
}

/// The cases, each with a name.
pub fn all() -> Result<Vec<(String, Case)>, Difference> {
    let mut cases = refusals()?;
    cases.extend(cards()?);
    cases.extend(small()?);
    cases.extend(large()?);
    cases.extend(random()?);
    Ok(cases)
}

/// The trees whose sizes are looked at first.
pub fn bench_trees() -> [(&'static str, Tree); 7] {
    let leaves = Tree::of_leaves;
    let lane = leaves(Kind::Sequence, 4);
    [
        ("Sequence of 127 leaves", leaves(Kind::Sequence, 127)),
        (
            "ReactiveSequence of 127 leaves",
            leaves(Kind::ReactiveSequence, 127),
        ),
        (
            "Fallback of 112 leaves under 14 one-child Sequences",
            leaves(Kind::Fallback, 112).under(Kind::Sequence, 14),
        ),
        (
            "15 one-child Sequences over a leaf",
            Tree::leaf().under(Kind::Sequence, 15),
        ),
        (
            "ReactiveFallback of 12 Sequences of 4 leaves",
            Tree::new(Kind::ReactiveFallback, vec![lane; 12]),
        ),
        ("Sequence of 2 leaves", leaves(Kind::Sequence, 2)),
        (
            "ReactiveSequence of 2 leaves",
            leaves(Kind::ReactiveSequence, 2),
        ),
    ]
}

/// A case of bytes that are refused; 4 and 5 also by the Rust.
fn refused(bytes: Vec<u8>) -> Result<Case, Difference> {
    let refusal = read(&bytes).err();
    let alike = damaged(&Damaged {
        bytes: bytes.clone(),
        refusal,
    })?;
    match refusal {
        Some(refusal) if alike == matches!(refusal.number(), 4 | 5) => Ok(Case {
            bytes,
            verdict: Verdict::refused(refusal),
        }),
        _ => Err(Difference(format!("not refused as due: {bytes:02X?}"))),
    }
}

/// Makes the case of a tree, tick by tick.
struct Maker {
    pair: Pair,
    ticks: Vec<Tick>,
}

impl Maker {
    fn new(tree: Tree) -> Result<Self, Difference> {
        Ok(Self {
            pair: Pair::new(tree, Slips::default())?,
            ticks: Vec::new(),
        })
    }

    fn plan(&self) -> &Plan {
        &self.pair.plan
    }

    fn lowered(&self) -> &Lowered {
        &self.pair.lowered
    }

    /// A tick by itself.
    fn tick(mut self, before: State, row: &[u8]) -> Result<Self, Difference> {
        let outcome = self.pair.tick(&before, row)?;
        self.ticks.push(Tick {
            answer: outcome.answer(self.plan(), &before),
            before,
            row: row.to_vec(),
        });
        Ok(self)
    }

    /// A tick from this state.
    fn from(self, flags: &[u8], cursors: &[u32], row: &[u8]) -> Result<Self, Difference> {
        let (flags, cursors) = (flags.to_vec(), cursors.to_vec());
        self.tick(State { flags, cursors }, row)
    }

    /// Ticks one after the other from the fresh state.
    fn run(mut self, rows: &[Vec<u8>]) -> Result<Self, Difference> {
        let mut state = State::fresh(self.plan());
        for row in rows {
            self = self.tick(state, row)?;
            state = self.ticks[self.ticks.len() - 1].answer.next.clone();
        }
        Ok(self)
    }

    /// Ticks by themselves from random states, then a run; on random rows.
    fn random(mut self, rng: &mut Rng, single: usize, run: usize) -> Result<Self, Difference> {
        for _ in 0..single {
            let state = generate::state(rng, self.plan());
            let row = generate::row(rng, self.plan());
            self = self.tick(state, &row)?;
        }
        let rows: Vec<_> = (0..run).map(|_| generate::row(rng, self.plan())).collect();
        self.run(&rows)
    }

    fn case(self) -> Case {
        let counts = Sizes::of(self.plan(), self.lowered()).counts;
        Case {
            bytes: self.pair.tree.to_bytes(),
            verdict: Verdict::Accepted(Accepted::new(
                &self.pair.plan,
                counts.ops,
                counts.terms,
                self.ticks,
            )),
        }
    }
}

fn sequence_of_two() -> Tree {
    Tree::of_leaves(Kind::Sequence, 2)
}

/// Document 01's bench cards that are not refusals, and its other examples.
fn cards() -> Result<Vec<(String, Case)>, Difference> {
    let inner = Tree::of_leaves(Kind::Sequence, 1);
    let reactive = Tree::new(Kind::ReactiveSequence, vec![Tree::leaf(), inner]);
    let constants = [Kind::AlwaysFailure, Kind::AlwaysSuccess].map(Tree::childless);
    let cards = [
        (
            "card: one leaf, 4 cells, 0 ops",
            Maker::new(Tree::leaf())?.run(&[vec![0], vec![2], vec![2], vec![1]])?,
        ),
        (
            "card: Sequence of two leaves, 10 cells, 21 ops; cursor past the end; a later child halted",
            Maker::new(sequence_of_two())?
                .from(&[1, 0, 1], &[2], &[0, 0])?
                .from(&[1, 0, 1], &[0], &[2, 0])?,
        ),
        (
            "card: ReactiveSequence of two leaves, 9 cells, 10 ops",
            Maker::new(Tree::of_leaves(Kind::ReactiveSequence, 2))?.run(&[
                vec![0, 2],
                vec![1, 2],
                vec![0, 0],
            ])?,
        ),
        (
            "card: ReactiveSequence of a leaf and a Sequence of one leaf, cursor 70,000",
            Maker::new(reactive)?
                .from(&[0, 0, 0, 0], &[70_000], &[1, 0])?
                .from(&[0, 0, 1, 1], &[70_000], &[1, 0])?
                .from(&[0, 0, 0, 1], &[70_000], &[1, 0])?,
        ),
        (
            "card: level 16 compiles",
            Maker::new(Tree::leaf().under(Kind::Sequence, 15))?.run(&[vec![2], vec![0]])?,
        ),
        (
            "card: 128 nodes compile; the walk goes to the last child",
            Maker::new(Tree::of_leaves(Kind::Sequence, 127))?
                .run(&[[vec![0; 126], vec![2]].concat(), vec![0; 127]])?,
        ),
        (
            "card: the listing's two ticks",
            Maker::new(sequence_of_two())?.run(&[vec![0, 2], vec![1, 0]])?,
        ),
        (
            "the smallest tick that lower.rs's comment on memory composites has wrong: node 2 is halted",
            Maker::new(Tree::new(Kind::Sequence, constants.to_vec()))?.from(
                &[0, 0, 1],
                &[0],
                &[],
            )?,
        ),
    ];
    Ok(cards
        .map(|(name, maker)| (name.to_string(), maker.case()))
        .to_vec())
}

/// All trees of one and two nodes, and each composite over leaves, constants
/// and decorators.
fn small() -> Result<Vec<(String, Case)>, Difference> {
    let mut rng = Rng::new(100);
    let mut cases = Vec::new();
    for nodes in [1, 2] {
        for (place, tree) in generate::all_trees(nodes).into_iter().enumerate() {
            let maker = Maker::new(tree)?.random(&mut rng, 2, 2)?;
            cases.push((format!("all trees of {nodes} nodes: {place}"), maker.case()));
        }
    }
    for kind in Kind::COMPOSITES {
        let name = kind.row().name;
        let three = Maker::new(Tree::of_leaves(kind, 3))?.random(&mut rng, 4, 4)?;
        cases.push((format!("{name} of three leaves"), three.case()));
        let mut mixed: Vec<Tree> = Kind::CHILDLESS.map(Tree::childless).to_vec();
        mixed.extend(Kind::DECORATORS.map(|kind| Tree::leaf().under(kind, 1)));
        let mixed = Maker::new(Tree::new(kind, mixed))?.random(&mut rng, 4, 4)?;
        cases.push((format!("{name} of every other sort of node"), mixed.case()));
    }
    Ok(cases)
}

/// The bench trees, and trees at the limits.
fn large() -> Result<Vec<(String, Case)>, Difference> {
    let mut rng = Rng::new(101);
    let mut cases = Vec::new();
    for (name, tree) in bench_trees() {
        let maker = Maker::new(tree)?.random(&mut rng, 2, 0)?;
        cases.push((format!("bench tree: {name}"), maker.case()));
    }
    for (name, shape) in &FULL_SHAPES {
        let maker = Maker::new(shape(&mut rng))?.random(&mut rng, 1, 1)?;
        cases.push((format!("random: {name}"), maker.case()));
    }
    Ok(cases)
}

/// Random trees of every shape.
fn random() -> Result<Vec<(String, Case)>, Difference> {
    let mut rng = Rng::new(102);
    let mut cases = Vec::new();
    for (name, shape) in &SHAPES {
        for place in 0..13 {
            let maker = Maker::new(shape(&mut rng))?.random(&mut rng, 2, 2)?;
            cases.push((format!("random: {name} {place}"), maker.case()));
        }
    }
    Ok(cases)
}

/// Every refusal of tree bytes, and which of two faults decides.
fn refusals() -> Result<Vec<(String, Case)>, Difference> {
    let leaf = || record(2, 1);
    let composite = |count: u16| [record(4, 4), count.to_le_bytes().to_vec()].concat();
    let mut list: Vec<(String, Vec<u8>)> = Vec::new();
    let mut add = |name: &str, parts: &[Vec<u8>]| list.push((name.to_string(), parts.concat()));

    add("card: empty input", &[]);
    add("card: an unsupported kind", &[record(2, 11)]);
    add("card: an empty composite", &[composite(0)]);
    add("card: a leaf and one byte more", &[leaf(), vec![0]]);
    let tall = |levels: usize| Tree::leaf().under(Kind::Sequence, levels - 1);
    add("card: level 17", &[tall(17).to_bytes()]);
    let wide = |nodes: usize| Tree::of_leaves(Kind::Sequence, nodes - 1);
    add("card: 129 nodes", &[wide(129).to_bytes()]);

    add("half a length", &[vec![2]]);
    add("a length and nothing more", &[vec![2, 0]]);
    add("half a kind", &[vec![2, 0, 1]]);
    add("a composite without its count", &[record(4, 4)]);
    add("a composite with half its count", &[record(4, 4), vec![1]]);
    add("a composite without children", &[composite(2)]);
    add("a composite with a child too few", &[composite(2), leaf()]);
    add(
        "65,535 children announced",
        &[composite(u16::MAX), leaf(), leaf()],
    );
    add("a decorator without a child", &[record(2, 8)]);
    add("a length that runs past the end", &[record(u16::MAX, 1)]);
    add("length 0", &[record(0, 1)]);
    add("length 1", &[record(1, 1)]);
    add("length 1 and nothing more: 2, not 1", &[vec![1, 0]]);
    add("a leaf one byte too long", &[record(3, 1), vec![0]]);
    add("a leaf with a child count", &[record(4, 1), vec![1, 0]]);
    add(
        "a decorator with a child count",
        &[record(4, 9), vec![1, 0], leaf()],
    );
    add(
        "a composite one byte too short",
        &[record(3, 5), vec![1], leaf()],
    );
    add(
        "a composite one byte too long",
        &[record(5, 6), vec![1, 0, 0], leaf()],
    );
    add("a composite with no count at all", &[record(2, 7), leaf()]);
    add(
        "a too short record inside",
        &[composite(2), leaf(), record(1, 1)],
    );
    for kind in [0, 19, 255, 257, u16::MAX] {
        add(&format!("kind {kind}"), &[record(2, kind)]);
    }
    add(
        "kind 0 with a wrong length: 3, not 2",
        &[record(3, 0), vec![0]],
    );
    add("kind 19 cut short: 1, not 3", &[record(3, 19)]);
    add(
        "kind 19 inside",
        &[composite(3), leaf(), record(2, 19), leaf()],
    );
    for row in &TABLE[11..] {
        let name = format!("unsupported: {}", row.name);
        add(&name, &[composite(2), leaf(), record(2, row.kind.number())]);
    }
    add(
        "an unsupported kind with a payload: 4, not 2",
        &[record(5, 12), vec![9; 3]],
    );
    add(
        "an unsupported kind cut short: 1, not 4",
        &[record(5, 12), vec![9; 2]],
    );
    for kind in [5, 6, 7] {
        let empty = [record(4, kind), vec![0, 0]].concat();
        add(
            &format!("empty composite of kind {kind} inside"),
            &[composite(2), leaf(), empty],
        );
    }
    add(
        "the first fault decides: 4",
        &[composite(2), record(2, 18), composite(0)],
    );
    add(
        "the first fault decides: 5",
        &[composite(2), composite(0), record(2, 18)],
    );
    add(
        "a fault before what follows the tree",
        &[record(2, 19), leaf()],
    );
    add(
        "three nodes and a byte more",
        &[sequence_of_two().to_bytes(), vec![2]],
    );
    add(
        "three nodes and a leaf more",
        &[sequence_of_two().to_bytes(), leaf()],
    );
    add(
        "128 nodes and a byte more",
        &[wide(128).to_bytes(), vec![0]],
    );

    // What stands on level 17, or as node 128, may have a fault that decides.
    let to_level_17 = prefix(&tall(17), 16);
    let to_node_128 = prefix(&wide(129), 128);
    for (name, before) in [("level 17", to_level_17), ("node 128", to_node_128)] {
        let mut add =
            |what: &str, more: Vec<u8>| add(&format!("{name} {what}"), &[before.clone(), more]);
        add("missing: 1", vec![]);
        add("of kind 19: 3", record(2, 19));
        add("of kind 17: 4", record(2, 17));
        add("too long: 2", [record(3, 1), vec![0]].concat());
        add("empty: 5", composite(0));
        add("a composite: refused before its children", composite(1));
    }
    // Level 17 is node 128: 6 comes before 7.
    let filler = Tree::of_leaves(Kind::ReactiveFallback, 110);
    let both = Tree::new(Kind::Sequence, vec![filler, tall(16)]);
    add("level 17 is node 127", &[both.to_bytes()]);
    let filler = Tree::of_leaves(Kind::ReactiveFallback, 111);
    let both = Tree::new(Kind::Sequence, vec![filler, tall(16)]);
    add("level 17 is node 128: 6, not 7", &[both.to_bytes()]);

    let cases = list
        .into_iter()
        .map(|(name, bytes)| Ok((name, refused(bytes)?)));
    cases.collect()
}

/// A record's length and kind.
fn record(length: u16, kind: u16) -> Vec<u8> {
    [length.to_le_bytes(), kind.to_le_bytes()].concat()
}

/// The bytes of the tree's first nodes.
fn prefix(tree: &Tree, nodes: usize) -> Vec<u8> {
    tree.records()[..nodes]
        .iter()
        .flat_map(Record::to_bytes)
        .collect()
}
