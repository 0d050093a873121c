//! Where a run stands.

use crate::{exports, Lengths, Refusal, MOST_STASHES, SAVED};
use core::fmt;

/// Where a run stands between two calls: the current line, how far it is done, the stashes held, the bytes taken so far.
///
/// [`open`](crate::open) gives the first one, and each [`call`](crate::call) leaves the next one in its place. Every state is safe to call
/// with: one that is impossible with the list, the areas and the patch data is refused (17). It holds its saved form, 7 KB that a call reads and
/// changes where they lie, and always is one: no call with it gives [`NO_SAVED_FORM`](Refusal::NO_SAVED_FORM).
///
/// To finish after a power cut, keep image and areas in storage, and beside them what [`save`](State::save) gives: after opening and at every
/// [`Stop`](crate::Outcome::Stop). Storage must have image and areas before the saved form that speaks of them, and the saved form, whole, before
/// the next call writes. Then [`restore`](State::restore), and the new data from byte [`total`](State::total) on, end as a run that was not cut.
#[derive(Clone, PartialEq, Eq)]
pub struct State {
    pub(crate) form: [u8; SAVED],
}

/// A stash that is held.
#[derive(Clone, Copy, PartialEq, Eq, Hash, Debug)]
pub struct Stash {
    /// Its SHA-1, which is its name.
    pub hash: [u8; 20],
    /// Its blocks.
    pub blocks: usize,
}

/// Everything that a state holds, in the open: to look at it, to keep it, or to make a state of what was kept.
///
/// Any values may be put together: a call answers whatever they are, and refuses an impossible state (17).
#[derive(Clone, PartialEq, Eq, Debug)]
pub struct Fields {
    /// The stashes, oldest first; they lie back to back from the front of the stash area. Past `count` the values mean nothing.
    pub stashes: [Stash; MOST_STASHES],
    /// How many stashes are held.
    pub count: usize,
    /// The current line's number.
    pub line: usize,
    /// Where it starts in the list, in bytes from 0.
    pub at: usize,
    /// Bytes written so far of a `new`.
    pub into: usize,
    /// Bytes taken since the opening, modulo 2^64.
    pub total: usize,
    /// Not 0: the work area, for a `bsdiff` the result area, is filled and is written by the next call.
    pub ready: usize,
    /// Stretches of the younger stashes that a `free` has moved down.
    pub stretches: usize,
    /// What every later call repeats as it is, if its number is not 0.
    pub refusal: Refusal,
    /// The list's length at opening, in bytes.
    pub list: usize,
    /// The lengths of the areas and of the patch data at opening.
    pub lengths: Lengths,
}

impl State {
    /// The current line's number, counted from 1.
    pub fn line(&self) -> usize {
        self.fields().line
    }

    /// Where the current line starts in the list, in bytes from 0: how far the run has come.
    pub fn at(&self) -> usize {
        self.fields().at
    }

    /// Bytes of new data taken by all calls since the opening, modulo 2^64: where the new data goes on.
    pub fn total(&self) -> u64 {
        self.fields().total as u64
    }

    /// Its saved form: bytes that every state has, the same on every machine. `docs/SAVED-FORM.md` has their layout.
    ///
    /// ```
    /// use muongrabi::{open, Lengths, Refusal, State};
    ///
    /// let state = open(b"3\n1\n0\n0\nnew 2,0,1\n", Lengths { image: 4_096, stash: 0, work: 0, result: 0, patch: 0 })?;
    /// let bytes = state.save();
    /// assert_eq!(State::restore(&bytes), Ok(state));
    /// // Bytes that are no state's saved form.
    /// assert_eq!(State::restore(&bytes[1..]), Err(Refusal::new(Refusal::NO_SAVED_FORM, 0, 0)));
    /// # Ok::<(), Refusal>(())
    /// ```
    pub fn save(&self) -> [u8; SAVED] {
        self.form
    }

    /// Its saved form, lent: what [`save`](State::save) copies.
    pub const fn as_bytes(&self) -> &[u8; SAVED] {
        &self.form
    }

    /// The state whose saved form the bytes are; [`NO_SAVED_FORM`](Refusal::NO_SAVED_FORM), of no line, exactly when they are no state's. It is not
    /// asked whether the state fits a list and areas: a call does (17).
    pub fn restore(bytes: &[u8]) -> Result<State, Refusal> {
        let (number, _) = exports::restore(bytes);
        match bytes.try_into() {
            Ok(form) if number == 0 => Ok(State { form }),
            _ => Err(Refusal::new(number, 0, 0)),
        }
    }

    /// The refusal that every later call repeats, if there is one.
    pub fn refusal(&self) -> Option<Refusal> {
        held(self.fields().refusal)
    }

    /// All that it holds.
    pub fn fields(&self) -> Fields {
        // Number 0, since it is a saved form.
        exports::restore(&self.form).1
    }
}

/// Number 0 is none.
fn held(refusal: Refusal) -> Option<Refusal> {
    (refusal.number() != 0).then_some(refusal)
}

impl From<&Fields> for State {
    fn from(fields: &Fields) -> State {
        State { form: exports::save(fields) }
    }
}

impl fmt::Debug for State {
    fn fmt(&self, to: &mut fmt::Formatter<'_>) -> fmt::Result {
        let fields = self.fields();
        to.debug_struct("State")
            .field("stashes", &&fields.stashes[..fields.count.min(MOST_STASHES)])
            .field("count", &fields.count)
            .field("line", &fields.line)
            .field("at", &fields.at)
            .field("into", &fields.into)
            .field("total", &fields.total)
            .field("ready", &fields.ready)
            .field("stretches", &fields.stretches)
            .field("refusal", &held(fields.refusal))
            .field("list", &fields.list)
            .field("lengths", &fields.lengths)
            .finish()
    }
}
