//! The direct walk: document 01's bench cards, refused ticks, and from where
//! the easy slips show.

use reading::generate::{self, SHAPES};
use reading::kind::Kind;
use reading::walk::{Slips, walk_with};
use reading::{Answer, Plan, Rng, State, TickRefusal, Tree, walk};

fn state(flags: &[u8], cursors: &[u32]) -> State {
    State {
        flags: flags.to_vec(),
        cursors: cursors.to_vec(),
    }
}

fn tick(tree: &Tree, before: &State, row: &[u8]) -> Answer {
    let plan = Plan::of(tree);
    let walk = walk(&plan, before, row).expect("a valid tick");
    walk.outcome.answer(&plan, before)
}

#[test]
fn sequence_of_two_leaves() {
    let tree = Tree::of_leaves(Kind::Sequence, 2);
    for row in generate::all_rows(2, 3) {
        let past_the_end = tick(&tree, &state(&[1, 0, 1], &[2]), &row);
        assert_eq!(past_the_end.statuses, [0, 3, 3]);
        assert_eq!(past_the_end.halts, [0, 0, 0]);
        assert_eq!(past_the_end.next, state(&[0, 0, 1], &[0]));
    }
    let halted = tick(&tree, &state(&[1, 0, 1], &[0]), &[2, 0]);
    assert_eq!(halted.statuses, [2, 2, 3]);
    assert_eq!(halted.halts, [0, 0, 1]);
    assert_eq!(halted.edges, [1, 2]);
    assert_eq!(halted.next, state(&[1, 1, 0], &[0]));
}

#[test]
fn reactive_sequence_of_a_leaf_and_a_sequence() {
    let inner = Tree::of_leaves(Kind::Sequence, 1);
    let tree = Tree::new(Kind::ReactiveSequence, vec![Tree::leaf(), inner]);
    let from = |flags: &[u8]| tick(&tree, &state(flags, &[70_000]), &[1, 0]);

    let untouched = from(&[0, 0, 0, 0]);
    assert_eq!(untouched.next, state(&[0, 0, 0, 0], &[65_535]));

    let halted = from(&[0, 0, 1, 1]);
    assert_eq!(halted.halts, [0, 0, 1, 1]);
    assert_eq!(halted.next, state(&[0, 0, 0, 0], &[0]));

    let stopped_above = from(&[0, 0, 0, 1]);
    assert_eq!(stopped_above.halts, [0, 0, 0, 0]);
    assert_eq!(stopped_above.next, state(&[0, 0, 0, 1], &[65_535]));
}

/// The run that document 01 prints for the listing program.
#[test]
fn the_listing() {
    let tree = Tree::of_leaves(Kind::Sequence, 2);
    let first = tick(&tree, &State::fresh(&Plan::of(&tree)), &[0, 2]);
    assert_eq!(first.statuses, [2, 0, 2]);
    assert_eq!(
        (first.edges, &first.next.cursors[..]),
        (vec![0, 1], &[1][..])
    );
    let second = tick(&tree, &first.next, &[1, 0]);
    assert_eq!(second.statuses, [0, 3, 0]);
    assert_eq!(
        (second.edges, &second.next.cursors[..]),
        (vec![0, 2], &[0][..])
    );
}

#[test]
fn refused_ticks() {
    let plan = Plan::of(&Tree::of_leaves(Kind::Sequence, 2));
    let refusal = |flags: &[u8], cursors: &[u32], row: &[u8]| {
        walk(&plan, &state(flags, cursors), row).expect_err("refused")
    };
    // The order of document 01's table: each with all later faults as well.
    let given = |given| TickRefusal::LeafCount { given };
    assert_eq!(refusal(&[2; 4], &[0; 2], &[3; 3]), given(3));
    let given = |given| TickRefusal::StateShape { given };
    assert_eq!(refusal(&[2; 4], &[0; 2], &[3; 2]), given(4));
    let given = |given| TickRefusal::CursorCount { given };
    assert_eq!(refusal(&[2; 3], &[0; 2], &[3; 2]), given(2));
    assert_eq!(
        refusal(&[2; 3], &[0], &[2, 3]),
        TickRefusal::BadStatus { slot: 1 }
    );
    assert_eq!(
        refusal(&[1, 2, 2], &[0], &[2, 2]),
        TickRefusal::BadFlag { node: 1 }
    );
}

/// From a fresh state no number of ticks shows any of the slips: a child's
/// flag is then 1 only where its parent's is, and under a memory composite
/// only at the cursor. So comparing runs is not enough.
#[test]
fn slips_do_not_show_from_a_fresh_state() {
    let slips = Slips {
        spared: true,
        through: true,
        kept: true,
    };
    let mut rng = Rng::new(20);
    for (_, shape) in &SHAPES {
        for _ in 0..50 {
            let plan = Plan::of(&shape(&mut rng));
            let mut state = State::fresh(&plan);
            for _ in 0..40 {
                let row = generate::row(&mut rng, &plan);
                let right = walk(&plan, &state, &row).expect("a valid tick");
                let wrong = walk_with(slips, &plan, &state, &row).expect("a valid tick");
                assert_eq!(right.outcome, wrong.outcome);
                state = right.outcome.next;
            }
        }
    }
}
