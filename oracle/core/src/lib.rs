//! A stand-in for the root of the Rust core crate `behavior_machines`: its
//! `Status`, and node.rs unchanged, which lies in `shared` beside this
//! repository. The engine itself is not taken (document 01).

#![no_std]

extern crate alloc;

#[path = "../../../../shared/docs/src/core/src/node.rs"]
mod node;

pub use node::{Composite, Limit, Node, Threshold};

/// What a tick of a node answers.
#[derive(Clone, Copy, Debug, PartialEq, Eq)]
pub enum Status {
    /// The node is done, well.
    Success,
    /// The node is done, badly.
    Failure,
    /// The node is not done.
    Running,
}
