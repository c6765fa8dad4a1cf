//! The stand-in for `thiserror` writes what the published macro writes.

use std::error::Error;

use behavior_machines_circuit::{EvalError, InvariantError, LowerError, TickError};

#[test]
fn messages_and_conversion() {
    assert_eq!(
        LowerError::Unsupported("Sleep").to_string(),
        "Sleep is not lowered yet"
    );
    assert_eq!(
        LowerError::EmptyComposite.to_string(),
        "a composite needs at least one child"
    );
    let (node, value) = (3, 0.5);
    let what = "reached";
    assert_eq!(
        InvariantError::NotABit { what, node, value }.to_string(),
        "node 3: reached is 0.5, not a bit"
    );
    let (expected, given) = (4, 5);
    let inner = EvalError::InputCount { expected, given };
    let outer: Box<dyn Error> = Box::new(TickError::from(inner));
    assert_eq!(
        outer.to_string(),
        "circuit rejected its own input vector: circuit takes 4 input cells, got 5"
    );
}
