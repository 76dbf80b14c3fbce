//! The proved calls on plan files and rows, each wrapped in one safe function.

mod calls;
mod refusal;

pub use calls::{judge, look, shared};
pub use refusal::{Layer, Refusal};
