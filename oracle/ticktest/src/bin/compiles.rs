//! `compiles`: trees compiled through C: storage equal to the Rust's circuit, slots one short, short work room, and damaged bytes.

use std::process::ExitCode;
use std::thread;

use compare::agree::{Difference, hex};
use compare::cases;
use compare::circuit::lower;
use reading::damage::{Damaged, damaged, past_limits, random_bytes};
use reading::generate::any_tree;
use reading::vectors::Verdict;
use reading::{Rng, Tree, read};
use ticktest::{Compilation, Stored, Work, beside, linked};

const TREES: usize = 20_000;
const DAMAGED_TREES: usize = 200;
// Every so many random trees the slots are also lent longer and one short, and the work room is looked at.
const CLOSELY: usize = 20;
// docs/STORAGE.md: these hold any tree.
const OP_SLOTS: usize = 2_163;
const TERM_SLOTS: usize = 507_904;

fn main() -> ExitCode {
    match run() {
        Ok(what) => {
            println!("compiles: {what}");
            ExitCode::SUCCESS
        }
        Err(Difference(text)) => {
            println!("compiles: {text}");
            ExitCode::FAILURE
        }
    }
}

/// The trees on one thread, the damaged bytes on another.
fn run() -> Result<String, Difference> {
    let (trees, damaged) = thread::scope(|scope| {
        let damaged = scope.spawn(damaged_bytes);
        (trees(), damaged.join().expect("no thread panics"))
    });
    Ok(format!("{}; {}", trees?, damaged?))
}

fn trees() -> Result<String, Difference> {
    let mut rng = Rng::new(11);
    let mut work = Work::new();
    let stored = stored_trees(&mut work)?;
    for number in 0..TREES {
        let few = rng.between(1, 20);
        let nodes = if number % 200 == 0 { 128 } else { few };
        let tree = any_tree(&mut rng, nodes);
        compiled(&tree, [0, 0], &mut work)?;
        if number % CLOSELY == 0 {
            slots(&tree, &mut work)?;
        }
    }
    let short = short_room(&work)?;
    let closely = TREES / CLOSELY;
    Ok(format!(
        "{stored} stored and {TREES} random trees as the Rust has them, op for op and form for form, with exact slots, and the stored and {closely} others with slots more and one fewer; {short} short lengths give 14"
    ))
}

/// How many trees of the stored cases were compiled.
fn stored_trees(work: &mut Work) -> Result<usize, Difference> {
    let mut count = 0;
    for (name, case) in cases::all()? {
        if let Verdict::Accepted(_) = case.verdict {
            let tree = read(&case.bytes).map_err(|r| Difference(format!("{name}: {r}")))?;
            compiled(&tree, [0, 0], work)?;
            slots(&tree, work)?;
            count += 1;
        }
    }
    Ok(count)
}

fn damaged_bytes() -> Result<String, Difference> {
    let mut rng = Rng::new(12);
    let mut work = Work::new();
    let (mut refused, mut accepted) = (0, 0);
    let mut try_all = |rng: &mut Rng, all: Vec<Damaged>, slots| -> Result<(), Difference> {
        for bytes in all {
            let was_refused = read_alike(rng, &bytes.bytes, slots, &mut work)?;
            refused += usize::from(was_refused);
            accepted += usize::from(!was_refused);
        }
        Ok(())
    };
    for _ in 0..DAMAGED_TREES {
        let nodes = rng.between(1, 16);
        let tree = any_tree(&mut rng, nodes);
        let mut all = damaged(&mut rng, &tree);
        all.extend((0..40).map(|_| random_bytes(&mut rng)));
        try_all(&mut rng, all, [300, 8_000])?;
    }
    for _ in 0..10 {
        let all = past_limits(&mut rng);
        try_all(&mut rng, all, [OP_SLOTS, TERM_SLOTS])?;
    }
    Ok(format!(
        "of damaged bytes {refused} refused and {accepted} accepted, as the reading has it"
    ))
}

/// With so many slots more than needed the Rust's circuit, and zeros.
fn compiled(tree: &Tree, more: [usize; 2], work: &mut Work) -> Result<Stored, Difference> {
    let lowered = lower(tree).map_err(|error| Difference(error.to_string()))?;
    beside::compile(tree, &lowered, more, work)
}

/// With more slots the same circuit and zeros; with one fewer 9 or 10; the work room is zero each time.
fn slots(tree: &Tree, work: &mut Work) -> Result<(), Difference> {
    let bytes = tree.to_bytes();
    let what = |why: &str| Err(Difference(format!("{why}: {}", hex(&bytes))));
    let counts = compiled(tree, [3, 5], work)?.counts;
    if !work.is_zero() {
        return what("work room left set");
    }
    for (number, slots, ops, terms) in [(9, counts.ops, 1, 0), (10, counts.terms, 0, 1)] {
        if slots == 0 {
            continue;
        }
        let mut s = Stored::dirty(counts.ops - ops, counts.terms - terms);
        let due = Compilation::refused(number, 0, 0);
        if linked::compile(&bytes, &mut s, work) != due || !s.is_zero() || !work.is_zero() {
            return what(&format!("one slot too few is not {number}"));
        }
    }
    Ok(())
}

/// The independent reading's answer on any bytes, and all that is lent as it must be: where they are refused all of it zero, where they are
/// accepted the Rust's circuit. Answers whether they were refused.
fn read_alike(
    rng: &mut Rng,
    bytes: &[u8],
    [ops, terms]: [usize; 2],
    work: &mut Work,
) -> Result<bool, Difference> {
    let mut s = Stored::dirty(ops, terms);
    work.soil(rng);
    let answer = linked::compile(bytes, &mut s, work);
    s.counts = answer.counts;
    let read = read(bytes);
    let alike = match &read {
        Ok(tree) => {
            let lowered = lower(tree).map_err(|error| Difference(error.to_string()))?;
            answer == Compilation::accepted(s.counts) && s.holds(&Stored::of(&lowered))
        }
        Err(r) => {
            let [number, kind] = [u32::from(r.number()), u32::from(r.kind())];
            answer == Compilation::refused(number, kind, r.place()) && s.is_zero()
        }
    };
    if alike && work.is_zero() {
        return Ok(read.is_err());
    }
    Err(Difference(format!(
        "{answer:?} where the reading has {read:?}, or storage differs: {}",
        hex(bytes)
    )))
}

/// Each length of docs/STORAGE.md one short gives 14, whatever the bytes, and all that is lent ends zero.
fn short_room(full: &Work) -> Result<usize, Difference> {
    let mut count = 0;
    for which in 0..6 {
        for bytes in [&[2u8, 0, 1, 0][..], &[]] {
            let mut s = Stored::dirty(0, 9);
            let mut w = full.clone();
            match which {
                0 => s.nums.truncate(2_175),
                1 => s.biases.truncate(895),
                2 => w.nums.truncate(13_919),
                3 => w.biases.truncate(6_959),
                4 => w.wires.truncate(262_143),
                _ => w.coefs.truncate(262_143),
            }
            w.nums[0] = 5;
            let answer = linked::compile(bytes, &mut s, &mut w);
            if answer != Compilation::refused(14, 0, 0) || !s.is_zero() || !w.is_zero() {
                return Err(Difference(format!("short length {which}: {answer:?}")));
            }
            count += 1;
        }
    }
    Ok(count)
}
