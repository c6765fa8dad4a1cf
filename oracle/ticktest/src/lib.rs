//! The proved compile and tick as they are linked, circuits in their storage,
//! the Rust and the reading beside them, and document 01's words on ticking in
//! plain Rust.

pub mod beside;
pub mod law;
pub mod linked;
pub mod made;
pub mod storage;

pub use archive::same;
pub use reading::vectors::Counts;
pub use storage::{Compilation, Lent, Refusal, Stored, Work};

/// `same`, entry by entry.
pub fn all_same(a: &[f32], b: &[f32]) -> bool {
    a.len() == b.len() && a.iter().zip(b).all(|(a, b)| same(*a, *b))
}
