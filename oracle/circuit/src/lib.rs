//! The Rust circuit module: its six files unchanged, which lie in `shared`
//! beside this repository. This root is ours; the files ask of it `alloc`,
//! the module names and `Builder`.

#![no_std]

extern crate alloc;

#[path = "../../../../shared/docs/src/circuit/src/builder.rs"]
pub mod builder;
#[path = "../../../../shared/docs/src/circuit/src/lower.rs"]
pub mod lower;
#[path = "../../../../shared/docs/src/circuit/src/plan.rs"]
pub mod plan;
#[path = "../../../../shared/docs/src/circuit/src/status.rs"]
pub mod status;
#[path = "../../../../shared/docs/src/circuit/src/tick.rs"]
pub mod tick;
#[path = "../../../../shared/docs/src/circuit/src/wire.rs"]
pub mod wire;

pub use builder::{Bit, Builder, Count};
pub use lower::{InvariantError, LowerError, Lowered, Outputs};
pub use plan::Plan;
pub use status::StatusBits;
pub use tick::{Schedule, State, TickError};
pub use wire::{Affine, Circuit, EvalError, Op, Wire};
