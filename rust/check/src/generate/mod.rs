//! Seeded cases: good lists and sparse files with everything that the rules allow, and the ways to spoil lists, states, lengths and files.

mod blocks;
mod command;
mod damage;
mod finished;
mod good;
mod ill;
mod lines;
pub mod patch;
mod pieces;
mod rng;
mod sets;
pub mod sparse;
mod spoil;
mod states;
mod world;

pub use blocks::Blocks;
pub use damage::{damage, other_header, other_line};
pub use ill::ill_list;
pub use lines::line_starts;
pub use pieces::Pieces;
pub use rng::Rng;
pub use states::{disturb, mark_line, same_at_the_ends};
pub use world::{Sizes, World};
