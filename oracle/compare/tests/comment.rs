//! The comment in lower.rs that "`after_stop` is constant zero for a memory
//! composite", which document 01 calls wrong: the smallest tick that shows it.

use compare::agree::Pair;
use reading::generate::{all_rows, all_states, all_trees};
use reading::walk::{Slips, walk_with};
use reading::{Kind, State, Tree};

const COMMENT: Slips = Slips {
    spared: true,
    through: false,
    kept: false,
};

/// Of all ticks on which the comment and the code part: the least by number of
/// nodes, of leaves, of flags set, by the cursors, and by the bytes.
#[test]
fn the_smallest_tick_the_comment_has_wrong() {
    let mut partings = Vec::new();
    for tree in (1..=3).flat_map(all_trees) {
        let pair = Pair::new(tree, Slips::default()).expect("lowered");
        for state in all_states(&pair.plan) {
            for row in all_rows(pair.plan.leaves().len(), 3) {
                let code = pair
                    .tick(&state, &row)
                    .expect("the Rust and the reading agree");
                let comment = walk_with(COMMENT, &pair.plan, &state, &row).expect("valid");
                if code == comment.outcome {
                    continue;
                }
                let ones = state.flags.iter().filter(|flag| **flag == 1).count();
                let bytes = pair.tree.to_bytes();
                let nodes = state.flags.len();
                let size = (nodes, row.len(), ones, state.cursors.clone(), bytes);
                partings.push((
                    size,
                    pair.tree.clone(),
                    state.clone(),
                    code,
                    comment.outcome,
                ));
            }
        }
    }
    let least = partings.into_iter().min_by(|one, two| one.0.cmp(&two.0));
    let (_, tree, state, code, comment) = least.expect("they part somewhere");
    let children = [Kind::AlwaysFailure, Kind::AlwaysSuccess].map(Tree::childless);
    assert_eq!(tree, Tree::new(Kind::Sequence, children.to_vec()));
    let flags = |flags: [u8; 3]| State {
        flags: flags.to_vec(),
        cursors: vec![0],
    };
    assert_eq!(state, flags([0, 0, 1]));
    assert_eq!(code.halted, [false, false, true]);
    assert_eq!(code.next, flags([0, 0, 0]));
    assert_eq!(comment.halted, [false, false, false]);
    assert_eq!(comment.next, flags([0, 0, 1]));
}
