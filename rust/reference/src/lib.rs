//! The rules of document 01, with of document 02, written twice, apart from the proved code: [`plain`] in plain loops,
//! [`model`] slowly and by other means. The limits, the types, SHA-1 and the saved form are all that the two share.

#![forbid(unsafe_code)]

pub mod model;
pub mod plain;
pub mod saved;
mod sha1;

pub use sha1::digest;

/// Bytes of a block.
pub const BLOCK: usize = 4_096;
/// Blocks of the largest image.
pub const MOST_IMAGE: usize = 1_048_576;
/// Blocks of the largest stash area, and of the largest work area.
pub const MOST_AREA: usize = 32_768;
/// Blocks of the largest result area.
pub const MOST_RESULT: usize = 4_096;
/// Bytes of the longest list.
pub const MOST_LIST: usize = 4_194_304;
/// Stashes held at once.
pub const MOST_STASHES: usize = 256;

/// A SHA-1 digest.
pub type Hash = [u8; 20];

/// A refusal's number and line, and for 3 and 6 the byte of the text at which no good line could go on, else 0. In a state, number 0 is none.
#[derive(Clone, Copy, PartialEq, Eq, Debug)]
pub struct Refusal {
    pub number: usize,
    pub line: usize,
    pub byte: usize,
}

/// The lengths of what is lent beside the list, in bytes.
#[derive(Clone, Copy, PartialEq, Eq, Debug, Default)]
pub struct Rooms {
    pub image: usize,
    pub stash: usize,
    pub work: usize,
    pub result: usize,
    pub patch: usize,
}

/// The lengths at opening, in bytes.
#[derive(Clone, Copy, PartialEq, Eq, Debug)]
pub struct Lengths {
    pub list: usize,
    pub image: usize,
    pub stash: usize,
    pub work: usize,
    pub result: usize,
    pub patch: usize,
}

impl Lengths {
    pub fn of(list: &[u8], rooms: Rooms) -> Lengths {
        let Rooms { image, stash, work, result, patch } = rooms;
        Lengths { list: list.len(), image, stash, work, result, patch }
    }
}

/// What is lent beside the list: the areas that a run writes, and the patch data, which it reads.
#[derive(Debug)]
pub struct Areas<'a> {
    pub image: &'a mut [u8],
    pub stash: &'a mut [u8],
    pub work: &'a mut [u8],
    pub result: &'a mut [u8],
    pub patch: &'a [u8],
}

impl Areas<'_> {
    pub fn rooms(&self) -> Rooms {
        let Areas { image, stash, work, result, patch } = self;
        Rooms { image: image.len(), stash: stash.len(), work: work.len(), result: result.len(), patch: patch.len() }
    }

    /// The same areas, lent on for one call.
    pub fn reborrow(&mut self) -> Areas<'_> {
        Areas { image: self.image, stash: self.stash, work: self.work, result: self.result, patch: self.patch }
    }
}

/// What a run carries from call to call. Stash k of `count`, oldest first: its hash at `hashes[20 * k..]`, its blocks in `sizes[k]`.
/// `total` is what all calls took, modulo 2^64; `ready` says, by any number but 0, that the work area, for a `bsdiff` the result area, is filled and
/// only to be written from; `stretches` are those that the line's `free` has done.
#[derive(Clone, Copy, PartialEq, Eq, Debug)]
pub struct State {
    pub hashes: [u8; 20 * MOST_STASHES],
    pub sizes: [usize; MOST_STASHES],
    pub count: usize,
    pub line: usize,
    pub at: usize,
    pub into: usize,
    pub refusal: Refusal,
    pub lengths: Lengths,
    pub total: u64,
    pub ready: usize,
    pub stretches: usize,
}

impl State {
    /// What a refused opening leaves, save its refusal.
    pub const ZERO: State = State {
        hashes: [0; 20 * MOST_STASHES],
        sizes: [0; MOST_STASHES],
        count: 0,
        line: 0,
        at: 0,
        into: 0,
        refusal: Refusal { number: 0, line: 0, byte: 0 },
        lengths: Lengths { list: 0, image: 0, stash: 0, work: 0, result: 0, patch: 0 },
        total: 0,
        ready: 0,
        stretches: 0,
    };
}

/// How a call ended. At a stop the state may be saved; the next call goes on with the bytes that were not taken.
#[derive(Clone, Copy, PartialEq, Eq, Debug)]
pub enum Outcome {
    Done,
    More,
    Stop,
    Refused(Refusal),
}

impl Outcome {
    /// The number it is refused with; 0 where it is not.
    pub fn number(&self) -> usize {
        match self {
            Outcome::Done | Outcome::More | Outcome::Stop => 0,
            Outcome::Refused(refusal) => refusal.number,
        }
    }
}

/// How a call ended, and the state after it.
#[derive(Clone, Copy, PartialEq, Eq, Debug)]
pub struct Answer {
    pub state: State,
    pub outcome: Outcome,
    pub taken: usize,
}
