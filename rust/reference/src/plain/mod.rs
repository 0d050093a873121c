//! The rules in plain loops. Nothing here allocates, and nothing panics, whatever the bytes, the lengths and the state.

mod call;
mod check;
mod command;
mod header;
mod open;
mod patch;
mod sparse;
mod stashes;
mod text;

pub use call::{call, call_on, run, Called};
pub use header::{header, Header};
pub use open::{open, open_with};
pub use sparse::load_sparse;
