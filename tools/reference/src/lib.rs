//! The reference: an engine written apart from the program, from documents 01
//! and 02 and the text of the Rust source. It is plain and slow.
//!
//! `play` plays one run with the requests up to a level switched on. The walk
//! recurses deeply: call it inside `on_large_stack`.
pub mod batch;
mod cells;
mod contexts;
mod equality;
mod heads;
mod intervals;
mod json;
mod level;
mod limits;
pub mod listing;
mod numbers;
mod pairs;
mod quote;
mod reader;
mod rules;
mod run;
mod state;
mod syntax;
mod transforms;
mod typing;
pub mod vectors;

pub use level::Level;
pub use run::{on_large_stack, play, Ran, Slices};
