//! Reading tree bytes: document 01's bench cards, planted faults, and that
//! nothing makes the reader fall over.

use reading::damage::{damaged, past_limits, random_bytes};
use reading::generate::{FULL_SHAPES, SHAPES, all_trees};
use reading::kind::Kind;
use reading::{Refusal, Rng, Tree, read};

#[test]
fn bench_cards() {
    let leaf = Kind::Leaf;
    let sequence = Kind::Sequence;
    let refused = |bytes: &[u8]| read(bytes).expect_err("refused").to_string();

    assert_eq!(refused(&[]), "refused 1 at 0");
    assert_eq!(refused(&[0x02, 0x00, 0x0B, 0x00]), "refused 4 at 0 kind 11");
    assert_eq!(refused(&[4, 0, 4, 0, 0, 0]), "refused 5 at 0");
    assert_eq!(refused(&[2, 0, 1, 0, 0xFF]), "refused 8 at 1");

    let tall = |levels: usize| Tree::childless(leaf).under(sequence, levels - 1).to_bytes();
    assert!(read(&tall(16)).is_ok());
    assert_eq!(refused(&tall(17)), "refused 6 at 16");

    let wide = |nodes: usize| Tree::of_leaves(sequence, nodes - 1).to_bytes();
    assert!(read(&wide(128)).is_ok());
    assert_eq!(refused(&wide(129)), "refused 7 at 128");
}

#[test]
fn the_first_check_of_a_record_decides() {
    let refusal = |bytes: &[u8]| read(bytes).map_err(|refusal| (refusal.number(), refusal.place()));
    // One byte is no length; a length below 2 decides before the bytes left.
    assert_eq!(refusal(&[1]), Err((1, 0)));
    assert_eq!(refusal(&[1, 0]), Err((2, 0)));
    // Too few bytes decide before the kind, the kind before the length.
    assert_eq!(refusal(&[3, 0, 0, 0]), Err((1, 0)));
    assert_eq!(refusal(&[3, 0, 0, 0, 0]), Err((3, 0)));
    assert_eq!(refusal(&[3, 0, 11, 0, 0]), Err((4, 0)));
    assert_eq!(refusal(&[3, 0, 4, 0, 0]), Err((2, 0)));
    // The first node decides: an unsupported kind before an empty composite.
    let sequence = [4, 0, 4, 0, 2, 0];
    let sleep = [2, 0, 11, 0];
    let empty = [4, 0, 4, 0, 0, 0];
    assert_eq!(
        refusal(&[&sequence[..], &sleep, &empty].concat()),
        Err((4, 1))
    );
    assert_eq!(
        refusal(&[&sequence[..], &empty, &sleep].concat()),
        Err((5, 1))
    );
}

#[test]
fn what_is_written_is_read() {
    let mut rng = Rng::new(10);
    let random = SHAPES.iter().chain(&FULL_SHAPES);
    let random =
        random.flat_map(|(_, shape)| (0..100).map(|_| shape(&mut rng)).collect::<Vec<_>>());
    for tree in (1..=4).flat_map(all_trees).chain(random) {
        assert_eq!(read(&tree.to_bytes()), Ok(tree));
    }
}

#[test]
fn planted_faults_are_found() {
    let mut rng = Rng::new(11);
    let mut seen = [0; 9];
    let mut all: Vec<_> = (0..50).flat_map(|_| past_limits(&mut rng)).collect();
    for (_, shape) in SHAPES.iter().chain(&FULL_SHAPES) {
        for _ in 0..10 {
            let tree = shape(&mut rng);
            all.extend(damaged(&mut rng, &tree));
        }
    }
    for case in all {
        let answer = read(&case.bytes);
        if let Some(refusal) = case.refusal {
            assert_eq!(answer, Err(refusal), "{:02X?}", case.bytes);
            seen[usize::from(refusal.number())] += 1;
        } else if let Ok(tree) = answer {
            // Bytes are one tree's only.
            assert_eq!(tree.to_bytes(), case.bytes);
        }
    }
    assert!(seen[1..].iter().all(|count| *count >= 50), "{seen:?}");
}

#[test]
fn any_bytes_are_answered() {
    let mut rng = Rng::new(12);
    let mut accepted = 0;
    for _ in 0..200_000 {
        let bytes = random_bytes(&mut rng).bytes;
        match read(&bytes) {
            Ok(tree) => {
                accepted += 1;
                assert_eq!(tree.to_bytes(), bytes);
            }
            Err(Refusal::Trailing { nodes }) => assert!(4 * nodes < bytes.len()),
            Err(refusal) => assert!(refusal.place() <= bytes.len() / 4),
        }
    }
    assert!(accepted > 0);
}
