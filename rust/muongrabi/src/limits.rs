//! The limits of the rules.

/// Bytes of a block.
pub const BLOCK: usize = 4_096;

/// Blocks of the largest image.
pub const MOST_IMAGE: usize = 1_048_576;

/// Blocks of the largest stash area, and of the largest work area.
pub const MOST_AREA: usize = 32_768;

/// Blocks of the largest result area.
pub const MOST_RESULT: usize = 4_096;

/// Bytes of the longest list.
pub const MOST_LIST: usize = 4_194_304;

/// Stashes held at once.
pub const MOST_STASHES: usize = 256;

/// Bytes of a saved form of a state.
pub const SAVED: usize = 7_306;
