//! The Rust circuit module beside the reading of document 01.
//!
//! - [`circuit`]: trees lowered and ticked by the Rust, in the reading's types;
//! - [`agree`]: the two sides put to the same question;
//! - [`measure`]: sizes of circuits;
//! - [`cases`]: the list of stored cases, from the Rust's answers.

pub mod agree;
pub mod cases;
pub mod circuit;
pub mod measure;
