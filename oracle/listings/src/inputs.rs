//! Inputs for the listing program: those of a fixed list, each for a sentence of document 01, and random ones by number.

use reading::damage::{damaged, past_limits, random_bytes};
use reading::generate::{FULL_SHAPES, SHAPES, any_tree, row};
use reading::listing::{ROW_KIND, TREE_KIND, input, record};
use reading::{Kind, Plan, Rng, Tree};

use crate::mutate::{mutated, random};

/// An input.
#[derive(Clone, Debug)]
pub struct Input {
    /// What it tries.
    pub name: String,
    pub bytes: Vec<u8>,
    /// Whether it is written in pieces with pauses.
    pub in_pieces: bool,
}

fn named(name: impl Into<String>, bytes: Vec<u8>) -> Input {
    Input {
        name: name.into(),
        bytes,
        in_pieces: false,
    }
}

/// The most bytes that a record's payload has: its length tells 65,535 with the kind.
const LONGEST: usize = 65_533;

/// The inputs of the fixed list.
pub fn fixed() -> Vec<Input> {
    let mut rng = Rng::new(31);
    let mut all = vec![named("nothing at all", Vec::new())];
    all.extend(worked());
    all.extend(outer_records());
    all.extend(refused_trees(&mut rng));
    all.extend(refused_rows());
    all.extend(at_the_limits(&mut rng));
    all.extend(random_trees(&mut rng));
    all.extend(cut_trees(&mut rng));
    // Every third comes in pieces, short ones alone: a pause is longer than a run.
    for (number, input) in all.iter_mut().enumerate() {
        input.in_pieces = number % 3 == 0 && input.bytes.len() < 2_000;
    }
    all
}

/// Document 01's worked example: whole, cut before every byte, and with every byte changed.
fn worked() -> Vec<Input> {
    let bytes = worked_bytes();
    let mut all = vec![named("the worked example", bytes.clone())];
    for place in 0..bytes.len() {
        let name = format!("the worked example cut at {place}");
        all.push(named(name, bytes[..place].to_vec()));
        for byte in [0, 1, 2, 3, 255] {
            let mut changed = bytes.clone();
            changed[place] = byte;
            let name = format!("the worked example with {byte} at {place}");
            all.push(named(name, changed));
        }
    }
    all
}

fn worked_bytes() -> Vec<u8> {
    let tree = Tree::of_leaves(Kind::Sequence, 2);
    input(&tree.to_bytes(), &[[0, 2], [1, 0]])
}

/// Wrong outer kinds and lengths, at the tree's place and at a row's.
fn outer_records() -> Vec<Input> {
    let tree = Tree::of_leaves(Kind::Sequence, 2).to_bytes();
    let row = record(ROW_KIND, &[0, 2]);
    let mut all = Vec::new();
    for kind in [0, 1, 4, 0x00FF, 0x0001, 0x0102, 0x0201, 0x1001, 0xFFFF] {
        let name = |place: &str| format!("outer kind {kind:#06x} {place}");
        let first = [record(kind, &tree), row.clone()].concat();
        all.push(named(name("for the tree"), first));
        for rows in 0..3 {
            let before = input(&tree, &vec![[0, 2]; rows]);
            let wrong = [before, record(kind, &[0, 2]), row.clone()].concat();
            all.push(named(name(&format!("for row {rows}")), wrong));
        }
    }
    let swapped = [row.clone(), record(TREE_KIND, &tree)].concat();
    all.push(named("a row before the tree", swapped));
    let twice = [input(&tree, &[[0, 2]]), record(TREE_KIND, &tree)].concat();
    all.push(named("a second tree", twice));
    for length in [0_u8, 1] {
        for rest in [&[][..], &[1], &[1, 1], &[1, 1, 2, 0, 1, 0]] {
            let bytes = [&[length, 0], rest].concat();
            all.push(named(format!("outer length {length} first"), bytes.clone()));
            let later = [input(&tree, &[[0, 2]]), bytes].concat();
            all.push(named(format!("outer length {length} after a row"), later));
        }
    }
    all
}

/// Trees refused for each reason, rows behind them.
fn refused_trees(rng: &mut Rng) -> Vec<Input> {
    let inner = Tree::of_leaves(Kind::Fallback, 1).under(Kind::Inverter, 1);
    let tree = Tree::new(Kind::ReactiveSequence, vec![inner, Tree::leaf()]);
    let mut bytes = damaged(rng, &tree);
    for _ in 0..5 {
        bytes.extend(past_limits(rng));
    }
    let rows = [[0, 2], [1, 0]];
    let trees = bytes.iter().map(|damaged| {
        let name = damaged
            .refusal
            .map_or("damaged".to_string(), |refusal| refusal.to_string());
        named(format!("tree {name}"), input(&damaged.bytes, &rows))
    });
    trees.collect()
}

/// Rows too long, too short and with statuses above 2, one of them after good rows.
fn refused_rows() -> Vec<Input> {
    let mut all = Vec::new();
    for leaves in [0, 1, 2, 5] {
        let tree = match leaves {
            0 => Tree::childless(Kind::AlwaysSuccess),
            _ => Tree::of_leaves(Kind::Fallback, leaves),
        };
        let good = vec![1; leaves];
        let mut wrong: Vec<Vec<u8>> = [0, 1, 2, 3, 4, 6, 255, 256, 1_000]
            .map(|length| vec![1; length])
            .to_vec();
        wrong.push(vec![3; leaves + 1]);
        for slot in 0..leaves {
            for status in [3, 4, 128, 255] {
                let mut row = good.clone();
                row[slot] = status;
                wrong.push(row.clone());
                row[leaves - 1] = 3;
                wrong.push(row);
            }
        }
        for row in wrong {
            for before in [0, 2] {
                let rows = [vec![good.clone(); before], vec![row.clone(), good.clone()]].concat();
                let name = format!("{leaves} leaves, row {before} {row:?}");
                all.push(named(name, input(&tree.to_bytes(), &rows)));
            }
        }
    }
    all
}

/// Long inputs, long records, trees at the limits.
fn at_the_limits(rng: &mut Rng) -> Vec<Input> {
    let mut all = Vec::new();
    let tree = Tree::of_leaves(Kind::Sequence, 3);
    for count in [300, 1_001, 12_000] {
        let rows = rows(rng, &tree, count);
        let bytes = input(&tree.to_bytes(), &rows);
        all.push(named(format!("{count} rows"), bytes));
    }
    let leaf = Tree::leaf().to_bytes();
    let long = |start: &[u8], byte: u8, length: usize| {
        let mut payload = vec![byte; length];
        payload[..start.len()].copy_from_slice(start);
        payload
    };
    for length in [LONGEST, LONGEST - 1] {
        let name = |what: &str| format!("{what} of {length} bytes");
        let trees = [
            ("a leaf and zeros", long(&leaf, 0, length)),
            ("ones", long(&[], 1, length)),
            (
                "leaves in all",
                leaf.iter().cycle().take(length).copied().collect(),
            ),
        ];
        for (what, payload) in trees {
            let bytes = input(&payload, &[[0]]);
            all.push(named(name(what), bytes.clone()));
            all.push(named(name(what) + ", cut", bytes[..length].to_vec()));
        }
        let row = input(&leaf, &[long(&[], 0, length)]);
        all.push(named(name("a row"), row.clone()));
        all.push(named(name("a row cut"), row[..length].to_vec()));
        let wrong = [record(0x0202, &long(&[], 0, length)), row].concat();
        all.push(named(name("another kind"), wrong));
    }
    for (name, shape) in FULL_SHAPES {
        let tree = shape(rng);
        let rows = rows(rng, &tree, 40);
        all.push(named(name, input(&tree.to_bytes(), &rows)));
    }
    let lanes = vec![Tree::of_leaves(Kind::Sequence, 1); 63];
    let most = [
        ("127 leaves", Tree::of_leaves(Kind::Sequence, 127)),
        ("64 cursors", Tree::new(Kind::Sequence, lanes)),
        ("16 levels", Tree::leaf().under(Kind::Fallback, 15)),
        ("17 levels", Tree::leaf().under(Kind::Fallback, 16)),
        ("129 nodes", Tree::of_leaves(Kind::Fallback, 128)),
    ];
    for (name, tree) in most {
        let rows = rows(rng, &tree, 20);
        all.push(named(name, input(&tree.to_bytes(), &rows)));
    }
    all
}

/// Trees of every shape with rows.
fn random_trees(rng: &mut Rng) -> Vec<Input> {
    let mut all = Vec::new();
    for (name, shape) in SHAPES.iter().cycle().take(175) {
        let tree = shape(rng);
        let rows = some_rows(rng, &tree, 30);
        all.push(named(*name, input(&tree.to_bytes(), &rows)));
    }
    all
}

/// Of trees of every shape, each with a row, one cut in each part of either record.
fn cut_trees(rng: &mut Rng) -> Vec<Input> {
    let mut all = Vec::new();
    for (name, shape) in SHAPES.iter().cycle().take(35) {
        let tree = shape(rng);
        let bytes = input(&tree.to_bytes(), &rows(rng, &tree, 1));
        for record in [0, tree.to_bytes().len() + 4] {
            // In the length, before the kind, in the kind, before the payload, in it.
            for place in [1, 2, 3, 4, 5] {
                let cut = (record + place).min(bytes.len());
                let name = format!("{name}, cut {place} into the record at {record}");
                all.push(named(name, bytes[..cut].to_vec()));
            }
        }
    }
    all
}

fn rows(rng: &mut Rng, tree: &Tree, count: usize) -> Vec<Vec<u8>> {
    let plan = Plan::of(tree);
    (0..count).map(|_| row(rng, &plan)).collect()
}

fn some_rows(rng: &mut Rng, tree: &Tree, most: usize) -> Vec<Vec<u8>> {
    let count = rng.between(0, most);
    rows(rng, tree, count)
}

/// A tree and rows, as good as they come.
fn good(rng: &mut Rng) -> (Vec<u8>, Vec<Vec<u8>>) {
    let nodes = rng.between(1, 30);
    let tree = any_tree(rng, nodes);
    let rows = some_rows(rng, &tree, 8);
    (tree.to_bytes(), rows)
}

/// The random input of this number: bytes of no record, records around random bytes, and good inputs with changes, anywhere or within the
/// tree or a row.
pub fn random_input(number: usize) -> Input {
    let mut rng = Rng::new(1_000_000 + number as u64);
    let rng = &mut rng;
    let (tree, mut rows) = good(rng);
    let (other, other_rows) = good(rng);
    let (name, bytes) = match rng.below(13) {
        0 => {
            let length = rng.pick(&[0, 3, 8, 40, 400, 5_000]);
            let length = rng.between(0, length);
            ("bytes", random(rng, length))
        }
        1 => {
            let length = rng.between(0, 60);
            ("a tree of bytes", input(&random(rng, length), &rows))
        }
        2 => ("a tree of numbers", input(&random_bytes(rng).bytes, &rows)),
        3 => {
            let count = rng.between(1, 4);
            rows.extend((0..count).map(|_| {
                let length = rng.between(0, 40);
                random(rng, length)
            }));
            ("rows of bytes", input(&tree, &rows))
        }
        4 => ("a changed tree", input(&mutated(rng, &tree, &other), &rows)),
        5 => {
            let at = rng.below(rows.len());
            if let Some(row) = rows.get_mut(at) {
                *row = mutated(rng, row, &other);
            }
            ("a changed row", input(&tree, &rows))
        }
        6..=8 => ("as it was", input(&tree, &rows)),
        9 => ("another's rows", input(&tree, &[rows, other_rows].concat())),
        _ => {
            let (one, two) = (input(&tree, &rows), input(&other, &other_rows));
            ("changed", mutated(rng, &one, &two))
        }
    };
    Input {
        name: format!("random input {number}: {name}"),
        bytes,
        in_pieces: rng.one_in(10),
    }
}
