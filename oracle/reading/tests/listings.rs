//! The listing: document 01's worked example, and what follows from its words
//! by hand.

use reading::listing::{self, ROW_KIND, SLIPS, TREE_KIND, listing, listing_with, record};
use reading::{Kind, Tree};

/// Document 01's worked example.
const WORKED: [u8; 30] = [
    0x10, 0x00, 0x01, 0x01, 0x04, 0x00, 0x04, 0x00, 0x02, 0x00, 0x02, 0x00, 0x01, 0x00, 0x02, 0x00,
    0x01, 0x00, 0x04, 0x00, 0x00, 0x01, 0x00, 0x02, 0x04, 0x00, 0x00, 0x01, 0x01, 0x00,
];

fn input(tree: &Tree, rows: &[&[u8]]) -> Vec<u8> {
    listing::input(&tree.to_bytes(), rows)
}

#[test]
fn the_worked_example() {
    assert_eq!(listing(&WORKED), "0 RSR 1 01\n1 S-S 0 02\n");
    let tree = Tree::of_leaves(Kind::Sequence, 2);
    assert_eq!(input(&tree, &[&[0, 2], &[1, 0]]), WORKED);
}

#[test]
fn halted_nodes_and_empty_fields() {
    let inner = Tree::of_leaves(Kind::Sequence, 1);
    let tree = Tree::new(Kind::ReactiveSequence, vec![Tree::leaf(), inner]);
    let halting = input(&tree, &[&[0, 2], &[1, 0], &[1, 0]]);
    assert_eq!(listing(&halting), "0 RSRR 0 01\n1 FFhh 0 02\n2 FF-- 0 00\n");
    let constant = Tree::childless(Kind::AlwaysFailure);
    assert_eq!(
        listing(&input(&constant, &[&[], &[]])),
        "0 F - -\n1 F - -\n"
    );
    assert_eq!(listing(&input(&constant, &[])), "");
    let two = Tree::new(
        Kind::Sequence,
        vec![Tree::of_leaves(Kind::Sequence, 2), Tree::leaf()],
    );
    assert_eq!(listing(&input(&two, &[&[0, 2, 0]])), "0 RRSR- 0,1 010\n");
}

#[test]
fn bad_records() {
    for place in 0..18 {
        assert_eq!(listing(&WORKED[..place]), "bad record\n", "{place}");
    }
    assert_eq!(listing(&WORKED[..18]), "");
    for place in 19..24 {
        assert_eq!(listing(&WORKED[..place]), "bad record\n", "{place}");
    }
    assert_eq!(listing(&WORKED[..24]), "0 RSR 1 01\n");
    for place in 25..30 {
        assert_eq!(
            listing(&WORKED[..place]),
            "0 RSR 1 01\nbad record\n",
            "{place}"
        );
    }
    let again = [&WORKED[..], &WORKED[..]].concat();
    assert_eq!(listing(&again), "0 RSR 1 01\n1 S-S 0 02\nbad record\n");
    for length in [0, 1] {
        assert_eq!(listing(&[length, 0, 1, 1]), "bad record\n");
        let short = [&WORKED[..24], &[length, 0, 0, 1]].concat();
        assert_eq!(listing(&short), "0 RSR 1 01\nbad record\n");
    }
    assert_eq!(listing(&record(ROW_KIND, &[])), "bad record\n");
}

#[test]
fn refusals() {
    let tree = |payload: &[u8]| listing(&record(TREE_KIND, payload));
    assert_eq!(tree(&[]), "refused 1 at 0\n");
    assert_eq!(tree(&[2, 0, 11, 0]), "refused 4 at 0\n");
    assert_eq!(tree(&[4, 0, 4, 0, 0, 0]), "refused 5 at 0\n");
    assert_eq!(tree(&[2, 0, 1, 0, 9]), "refused 8 at 1\n");
    let two = Tree::of_leaves(Kind::Fallback, 2);
    let last = |rows: &[&[u8]]| {
        let text = listing(&input(&two, rows));
        text.lines().last().map(str::to_string)
    };
    assert_eq!(last(&[&[1]]).as_deref(), Some("refused 11 at 1"));
    assert_eq!(last(&[&[1, 1], &[]]).as_deref(), Some("refused 11 at 0"));
    assert_eq!(last(&[&[3, 1, 1]]).as_deref(), Some("refused 11 at 3"));
    assert_eq!(last(&[&[0, 3], &[3]]).as_deref(), Some("refused 15 at 1"));
    assert_eq!(last(&[&[255, 3]]).as_deref(), Some("refused 15 at 0"));
}

#[test]
fn every_slip_shows_somewhere() {
    let tree = Tree::new(Kind::ReactiveSequence, vec![Tree::leaf(), Tree::leaf()]);
    let memory = Tree::of_leaves(Kind::Sequence, 2);
    let inputs = [
        WORKED.to_vec(),
        WORKED[..25].to_vec(),
        Vec::new(),
        input(&tree, &[&[0, 2], &[1, 0]]),
        input(&memory, &[&[3]]),
        record(TREE_KIND, &[2, 0, 12, 0]),
        [input(&memory, &[]), record(7, &[0, 0])].concat(),
    ];
    for (name, slip) in SLIPS {
        let shows = |input: &Vec<u8>| listing_with(slip, input) != listing(input);
        assert!(inputs.iter().any(shows), "{name}");
    }
}
