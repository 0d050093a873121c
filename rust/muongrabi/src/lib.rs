//! A block updater: it opens an Android transfer list of version 3 and runs it over a lent image while the new data arrives in pieces of
//! any size. After a dropped connection it goes on from the state it left, and after a power cut from the one that was saved. A `move` or
//! `bsdiff` whose target already has the result is passed over; of any other line, a source that does not have its hash, or a patch whose result
//! does not have its own, ends the run before a byte of the target is written.
//!
//! This crate is the safe face of a library that is proved: any bytes as list, data, patch, state or sparse file get an answer; a list opens
//! exactly when it meets the rules, and then does what they say, in order; and however the new data is cut into pieces, what stands after the
//! last call is what the rules give for the pieces joined; and a run that was cut at any byte, and goes on from the state saved at its last
//! stop, ends as one that was not. Nothing is allocated, no file is opened and nothing is kept inside: all that is worked on is lent, and what
//! must be remembered between calls is the [`State`]. The library wants 52 KiB of stack at most, a [`call`] 20; a state that is handed over is
//! another 7.
//!
//! ```
//! use muongrabi::{Areas, Outcome, Updater, BLOCK};
//!
//! // Two blocks of new data, then a block of zeros.
//! let list = b"3\n3\n0\n0\nnew 4,0,1,3,4\nzero 2,1,2\n";
//! let mut image = vec![b'-'; 4 * BLOCK];
//!
//! let areas = Areas { image: &mut image, stash: &mut [], work: &mut [], result: &mut [], patch: &[] };
//! let mut updater = Updater::open(list, areas)?;
//! assert_eq!(updater.write(&[b'n'; 5_000]), Outcome::More);
//! // However long the signal is gone, the updater waits where it stood.
//! assert_eq!(updater.write(&[b'n'; 3_192]), Outcome::Done);
//! assert_eq!(updater.taken(), 8_192);
//!
//! let firsts: Vec<u8> = image.chunks(BLOCK).map(|block| block[0]).collect();
//! assert_eq!(firsts, [b'n', 0, b'-', b'n']);
//! # Ok::<(), muongrabi::Refusal>(())
//! ```
//!
//! A refusal says what is wrong, and where:
//!
//! ```
//! use muongrabi::{open, Lengths, Refusal, BLOCK};
//!
//! let lengths = Lengths { image: 8 * BLOCK, stash: 0, work: 0, result: 0, patch: 0 };
//! let refusal = open(b"3\n2\n0\n0\nzero 2,7,9\n", lengths).unwrap_err();
//! assert_eq!(refusal.number(), Refusal::PAST_IMAGE);
//! assert_eq!(refusal.to_string(), "line 5: a range of the target or source ends past the image (refusal 8)");
//!
//! // Where a line is ill formed it names the byte too, counted from the list's start: here the second comma, for want of a number before it.
//! let refusal = open(b"3\n2\n0\n0\nzero 2,,9\n", lengths).unwrap_err();
//! assert_eq!((refusal.number(), refusal.byte()), (Refusal::LINE_FORM, Some(15)));
//! assert!(refusal.to_string().starts_with("line 5, byte 15 of the list: the line is not a command"));
//! ```
//!
//! The run stops for saving ([`Outcome::Stop`]) wherever it must, so that it can be finished after a power cut: [`Updater::write`] goes past these
//! stops, and [`Updater::call`] is for those who save. [`State`] says what to keep, and when.
//!
//! A first image that comes as an Android sparse file is put into its place by [`load_sparse`].
//!
//! It runs on x86-64 and AArch64 Linux, Android among them, for which `libmuongrabi.a` is built (in the repository by `./build library`, for
//! AArch64 by `./build aarch64`); the build script finds the archive, or says what to do. With the feature `std`, [`Updater`] is a `std::io::Write`.

#![no_std]
#![warn(missing_docs)]
#![deny(unsafe_code)]

#[cfg(feature = "std")]
extern crate std;

mod areas;
#[allow(unsafe_code)]
mod exports;
mod limits;
mod outcome;
mod refusal;
mod sparse;
mod state;
mod updater;

pub use areas::{Areas, Lengths};
pub use limits::{BLOCK, MOST_AREA, MOST_IMAGE, MOST_LIST, MOST_RESULT, MOST_STASHES, SAVED};
pub use outcome::{Called, Outcome};
pub use refusal::Refusal;
pub use sparse::load_sparse;
pub use state::{Fields, Stash, State};
pub use updater::Updater;

/// The SHA-1 digest of the bytes, as lists name sources.
///
/// ```
/// let digest = muongrabi::digest(b"abc");
/// assert_eq!(digest[..4], [0xa9, 0x99, 0x3e, 0x36]);
/// ```
pub fn digest(bytes: &[u8]) -> [u8; 20] {
    exports::digest(bytes)
}

/// Checks the whole list for areas and patch data of these lengths, and gives the state of its first command line. No block is looked at, and
/// no patch.
///
/// ```
/// use muongrabi::{open, Lengths};
///
/// let lengths = Lengths { image: 4_096, stash: 0, work: 0, result: 0, patch: 0 };
/// assert_eq!(open(b"3\n1\n0\n0\nnew 2,0,1\n", lengths)?.line(), 5);
/// assert_eq!(open(b"2\n1\n0\n0\nnew 2,0,1\n", lengths).unwrap_err().line(), 1);
/// # Ok::<(), muongrabi::Refusal>(())
/// ```
pub fn open(list: &[u8], lengths: Lengths) -> Result<State, Refusal> {
    let mut form = [0; SAVED];
    let refusal = exports::open(list, lengths, &mut form);
    match refusal.number() {
        0 => Ok(State { form }),
        _ => Err(refusal),
    }
}

/// Runs the list from where the state stands until it needs a byte that the piece does not have, the list is finished, a line is refused, or
/// the run stops for saving. The state is then that of the next call.
///
/// A refusal other than 17 is held in the state, and every later call repeats it. With 17 (the state does not fit the list, the areas and the
/// patch data) the state stays as it was, and nothing is taken or changed; 20 is never given, since a [`State`] always is a saved form. A refused
/// line changes nothing itself, with two exceptions: where a hash differs (16) or a patch is malformed (19) the work area has the source, and where
/// it is the hash of a patch's result, the result area has the result. Nothing rests on what the opening found: state and lengths are looked at
/// (17), and each line is read and checked again (6 to 14, 18) before it runs, so that a line altered since then is refused where it stands. Line 2
/// is the opening's alone (15).
///
/// [`Updater`] keeps list, areas and state together; this is for callers who keep them themselves.
///
/// ```
/// use muongrabi::{call, open, Areas, Called, Outcome};
///
/// let list = b"3\n1\n0\n0\nnew 2,0,1\n";
/// let mut image = [0; 4_096];
/// let mut areas = Areas { image: &mut image, stash: &mut [], work: &mut [], result: &mut [], patch: &[] };
/// let mut state = open(list, areas.lengths())?;
/// let first = call(list, areas.reborrow(), &[7; 4_000], &mut state);
/// assert_eq!(first, Called { outcome: Outcome::More, taken: 4_000 });
/// let second = call(list, areas.reborrow(), &[7; 4_000], &mut state);
/// assert_eq!(second, Called { outcome: Outcome::Done, taken: 96 });
/// # Ok::<(), muongrabi::Refusal>(())
/// ```
///
/// # Stops
///
/// A run stops between filling the work area (of a `bsdiff` the result area) and writing from it, and after every `move`, `stash` and `bsdiff`,
/// passed over or not. A `free` moves the younger stashes down in stretches as long as the stash that goes, the last perhaps shorter, and stops
/// after each; where no stash is younger it does not stop. A stop may come with bytes of the piece not taken: the next piece begins with them. An
/// empty piece is enough to go on. What is ready is written as it is, whatever the target holds: neither target nor source is read again.
///
/// # Finished lines
///
/// Of a `move` or `bsdiff` the target's blocks are hashed first, as they stand in the image and in the order in which the line names them. Where
/// that is the move's hash, or the hash of the bsdiff's result, the line is finished: no source and no patch is read, image, stash, work and result
/// area stay as they are, and the state goes to the next line. The line is checked before that as any other. All other commands run whenever they
/// are met.
///
/// So a list that is run again from its top over an image that it has updated passes over the lines that are finished. In general that is still
/// not safe: a later line may have changed a block that an earlier one needs, and what a `stash` names may be gone. After a dropped
/// connection go on from the state of the last call, and after a power cut from the state that was saved at the last stop.
///
/// ```
/// use muongrabi::{digest, run, Areas, Outcome, BLOCK};
///
/// // Moves blocks 0 and 1 one on. The second run finds them there; their source is no longer what it was.
/// let hash: String = digest(&[[b'a'; BLOCK], [b'b'; BLOCK]].concat()).iter().map(|byte| format!("{byte:02x}")).collect();
/// let list = format!("3\n2\n0\n0\nmove {hash} 2,1,3 2 2,0,2\n");
/// let mut image = [[b'a'; BLOCK], [b'b'; BLOCK], [b'c'; BLOCK]].concat();
/// for _ in 0..2 {
///     let areas = Areas { image: &mut image, stash: &mut [], work: &mut [0; 2 * BLOCK], result: &mut [], patch: &[] };
///     assert_eq!(run(list.as_bytes(), areas, &[], &[]).0.outcome, Outcome::Done);
///     assert_eq!(image, [[b'a'; BLOCK], [b'a'; BLOCK], [b'b'; BLOCK]].concat());
/// }
/// ```
pub fn call(list: &[u8], areas: Areas<'_>, piece: &[u8], state: &mut State) -> Called {
    Called::of(exports::call(list, areas, piece, &mut state.form))
}

/// Opens the list, then calls with pieces of the data, whose lengths are `cuts`, cut short where the data ends, and once more with all
/// that is left; after a stop it calls on, so that it never gives [`Outcome::Stop`]. What is called is the last call's outcome and the sum of
/// bytes taken, with the state after it. A refused opening is `Refused`, takes nothing and changes nothing; its state holds the refusal and
/// nothing else.
///
/// ```
/// use muongrabi::{run, Areas, Outcome};
///
/// let mut image = [0; 8_192];
/// let areas = Areas { image: &mut image, stash: &mut [], work: &mut [], result: &mut [], patch: &[] };
/// let (called, _) = run(b"3\n2\n0\n0\nnew 2,0,2\n", areas, &[1; 8_192], &[10, 0, 5_000]);
/// assert_eq!((called.outcome, called.taken), (Outcome::Done, 8_192));
/// ```
pub fn run(list: &[u8], areas: Areas<'_>, data: &[u8], cuts: &[usize]) -> (Called, State) {
    let mut form = [0; SAVED];
    let answer = exports::run(list, areas, data, cuts, &mut form);
    (Called::of(answer), State { form })
}
