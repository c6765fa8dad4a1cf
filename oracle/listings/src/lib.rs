//! Inputs for the listing program, and running it on them.

pub mod inputs;
pub mod mutate;
pub mod run;
