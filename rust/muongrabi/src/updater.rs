//! A run with all that belongs to it.

use crate::{call, open, Areas, Called, Outcome, Refusal, State};
use core::fmt;

/// A run of one list: list, areas and state together, so that none is taken for another's.
///
/// New data goes in by [`write`](Updater::write), a piece of any length at a time; or by [`call`](Updater::call), for those who save the state at
/// every stop.
pub struct Updater<'a> {
    list: &'a [u8],
    areas: Areas<'a>,
    state: State,
    taken: u64,
}

impl<'a> Updater<'a> {
    /// Opens the list over these areas. Where it is refused nothing is changed.
    pub fn open(list: &'a [u8], areas: Areas<'a>) -> Result<Updater<'a>, Refusal> {
        let state = open(list, areas.lengths())?;
        Ok(Updater::resume(list, areas, state))
    }

    /// Goes on where an earlier run stood: with its list, its areas as it left them, and its state; after a power cut with the state that was saved
    /// at the last stop, and the new data from its [`total`](State::total) on. A state that is impossible with this list, or other lengths, are
    /// refused by the first write (17). That the bytes are those of the earlier run nobody checks: keep them together. To open the list anew
    /// instead is not safe in general, though [finished lines](crate::call#finished-lines) are passed over.
    pub fn resume(list: &'a [u8], areas: Areas<'a>, state: State) -> Updater<'a> {
        Updater { list, areas, state, taken: 0 }
    }

    /// Runs the list with the next piece of new data, past every stop: the outcome is never [`Outcome::Stop`]. An empty piece runs what needs no data,
    /// and says how the run stands.
    ///
    /// Bytes past the last `new` are not taken. A refusal other than 17 stays: every later write repeats it.
    ///
    /// ```
    /// use muongrabi::{digest, Areas, Outcome, Refusal, Updater, BLOCK};
    ///
    /// // Moves block 0 to block 1, if its hash is the one of a block of `a`.
    /// let hash: String = digest(&[b'a'; BLOCK]).iter().map(|byte| format!("{byte:02x}")).collect();
    /// let list = format!("3\n1\n0\n0\nmove {hash} 2,1,2 1 2,0,1\n");
    /// for (block, expected) in [(b'a', Outcome::Done), (b'b', Outcome::Refused(Refusal::new(Refusal::HASH_DIFFERS, 5, 0)))] {
    ///     let mut image = vec![0; 2 * BLOCK];
    ///     image[..BLOCK].fill(block);
    ///     let areas = Areas { image: &mut image, stash: &mut [], work: &mut [0; BLOCK], result: &mut [], patch: &[] };
    ///     assert_eq!(Updater::open(list.as_bytes(), areas)?.write(&[]), expected);
    ///     assert_eq!(image[BLOCK], if expected == Outcome::Done { b'a' } else { 0 });
    /// }
    /// # Ok::<(), muongrabi::Refusal>(())
    /// ```
    pub fn write(&mut self, piece: &[u8]) -> Outcome {
        self.call_on(piece).outcome
    }

    /// Calls until the run is done, wants more or is refused; the bytes that all these calls took.
    fn call_on(&mut self, piece: &[u8]) -> Called {
        let mut taken = 0;
        loop {
            let called = self.call(piece.get(taken..).unwrap_or_default());
            taken += called.taken;
            if called.outcome != Outcome::Stop {
                return Called { outcome: called.outcome, taken };
            }
        }
    }

    /// One call with a piece of new data, to the next stop or to where the run ends. After [`Outcome::Stop`] the next piece begins with the bytes that
    /// were not taken; it may be empty.
    ///
    /// ```
    /// use muongrabi::{digest, Areas, Called, Outcome, State, Updater, BLOCK};
    ///
    /// // Moves blocks 0 and 1 one on, over a part of themselves.
    /// let hash: String = digest(&[[b'a'; BLOCK], [b'b'; BLOCK]].concat()).iter().map(|byte| format!("{byte:02x}")).collect();
    /// let list = format!("3\n2\n0\n0\nmove {hash} 2,1,3 2 2,0,2\n");
    /// let mut image = [[b'a'; BLOCK], [b'b'; BLOCK], [b'c'; BLOCK]].concat();
    /// let mut work = [0; 2 * BLOCK];
    /// let stop = Called { outcome: Outcome::Stop, taken: 0 };
    ///
    /// let areas = Areas { image: &mut image, stash: &mut [], work: &mut work, result: &mut [], patch: &[] };
    /// let mut updater = Updater::open(list.as_bytes(), areas)?;
    /// // The work area has the source: the first stop.
    /// assert_eq!(updater.call(&[]), stop);
    /// let saved = updater.state().save();
    ///
    /// // The power goes while the target is written.
    /// image[BLOCK..3 * BLOCK - 100].fill(b'?');
    ///
    /// let areas = Areas { image: &mut image, stash: &mut [], work: &mut work, result: &mut [], patch: &[] };
    /// let mut updater = Updater::resume(list.as_bytes(), areas, State::restore(&saved)?);
    /// assert_eq!(updater.call(&[]), stop);
    /// assert_eq!(updater.call(&[]), Called { outcome: Outcome::Done, taken: 0 });
    /// assert_eq!(image, [[b'a'; BLOCK], [b'a'; BLOCK], [b'b'; BLOCK]].concat());
    /// # Ok::<(), muongrabi::Refusal>(())
    /// ```
    pub fn call(&mut self, piece: &[u8]) -> Called {
        let called = call(self.list, self.areas.reborrow(), piece, &mut self.state);
        self.taken += called.taken as u64;
        called
    }

    /// Bytes of new data taken by all writes and calls of this updater. [`State::total`] counts those of earlier ones too.
    pub fn taken(&self) -> u64 {
        self.taken
    }

    /// The image as it stands.
    pub fn image(&self) -> &[u8] {
        self.areas.image
    }

    /// The stash area as it stands.
    pub fn stash(&self) -> &[u8] {
        self.areas.stash
    }

    /// The work area as it stands.
    pub fn work(&self) -> &[u8] {
        self.areas.work
    }

    /// The result area as it stands.
    pub fn result(&self) -> &[u8] {
        self.areas.result
    }

    /// Where the run stands.
    pub fn state(&self) -> &State {
        &self.state
    }

    /// The state alone, to go on from later by [`resume`](Updater::resume).
    pub fn into_state(self) -> State {
        self.state
    }
}

impl fmt::Debug for Updater<'_> {
    fn fmt(&self, to: &mut fmt::Formatter<'_>) -> fmt::Result {
        to.debug_struct("Updater").field("areas", &self.areas).field("state", &self.state).field("taken", &self.taken).finish_non_exhaustive()
    }
}

/// New data by `std::io`, so that a file or a connection can be copied in, past every stop.
///
/// **Data that ends too soon is no error here.** `io::copy` and `flush` are content where the list wants more: only
/// [`Updater::write`] of an empty piece says whether the run is [`Outcome::Done`].
///
/// Once the list is finished it takes no byte: `write` gives 0, and `write_all` and `io::copy` fail with `WriteZero` if there is data left.
/// `flush`, like a write of no bytes, runs what needs no data: without it a list that takes none is never run. A refusal is an error of kind
/// `InvalidData`, whose inner error is the [`Refusal`]; where a write took bytes before its line was refused, it gives their number, and the
/// next write or flush is the error.
///
/// ```
/// use muongrabi::{Areas, Outcome, Updater};
/// use std::io::Write;
///
/// let mut image = [0; 4_096];
/// let areas = Areas { image: &mut image, stash: &mut [], work: &mut [], result: &mut [], patch: &[] };
/// let mut updater = Updater::open(b"3\n1\n0\n0\nnew 2,0,1\n", areas).unwrap();
/// std::io::copy(&mut &[9; 4_096][..], &mut updater)?;
/// updater.flush()?;
/// assert_eq!(updater.write(&[]), Outcome::Done);
/// # Ok::<(), std::io::Error>(())
/// ```
#[cfg(feature = "std")]
impl std::io::Write for Updater<'_> {
    fn write(&mut self, piece: &[u8]) -> std::io::Result<usize> {
        match self.call_on(piece) {
            Called { outcome: Outcome::Refused(refusal), taken: 0 } => Err(error(refusal)),
            Called { taken, .. } => Ok(taken),
        }
    }

    fn flush(&mut self) -> std::io::Result<()> {
        match Updater::write(self, &[]) {
            Outcome::Refused(refusal) => Err(error(refusal)),
            Outcome::Done | Outcome::More | Outcome::Stop => Ok(()),
        }
    }
}

#[cfg(feature = "std")]
fn error(refusal: Refusal) -> std::io::Error {
    std::io::Error::new(std::io::ErrorKind::InvalidData, refusal)
}
