//! The oracle: the Rust source itself, made to play runs.
//!
//! `play` plays one run and gives back all that docs/FORMAT.md fixes of it. The
//! walk recurses deeply: call it inside `on_large_stack`.
pub mod batch;
mod cells;
pub mod cover;
mod cubical;
pub mod language;
pub mod listing;
mod reader;
mod refusal;
mod run;
pub mod sexp;
mod watch;

pub use cells::Node;
pub use refusal::Refusal;
pub use run::{on_large_stack, play, Answer, Options, Ran, Row, Slices, Value};
