//! What a call comes to.

use crate::{exports, Refusal};
use core::fmt;

/// How a call ended.
#[must_use = "whether the run is finished, wants more, stops or is refused is said here"]
#[derive(Clone, Copy, PartialEq, Eq, Hash, Debug)]
pub enum Outcome {
    /// The list is finished.
    Done,
    /// Every byte of the piece is taken, and the next byte of new data is needed.
    More,
    /// Stopped for saving: call on with the bytes of the piece that were not taken, and with more behind them if there are.
    Stop,
    /// A line was refused, or the call itself.
    Refused(Refusal),
}

impl fmt::Display for Outcome {
    fn fmt(&self, to: &mut fmt::Formatter<'_>) -> fmt::Result {
        match self {
            Outcome::Done => write!(to, "done"),
            Outcome::More => write!(to, "more new data is needed"),
            Outcome::Stop => write!(to, "stopped for saving"),
            Outcome::Refused(refusal) => write!(to, "refused: {refusal}"),
        }
    }
}

/// What a call gives back beside the state.
#[must_use = "whether the run is finished, wants more, stops or is refused is said here"]
#[derive(Clone, Copy, PartialEq, Eq, Hash, Debug)]
pub struct Called {
    /// How it ended.
    pub outcome: Outcome,
    /// Bytes of the piece that were taken.
    pub taken: usize,
}

impl Called {
    /// From the numbers in which a call answers.
    pub(crate) fn of([outcome, number, line, byte, taken]: [u64; 5]) -> Called {
        let outcome = match outcome {
            exports::DONE => Outcome::Done,
            exports::MORE => Outcome::More,
            exports::STOP => Outcome::Stop,
            _ => Outcome::Refused(Refusal::new(number as usize, line as usize, byte as usize)),
        };
        Called { outcome, taken: taken as usize }
    }
}
