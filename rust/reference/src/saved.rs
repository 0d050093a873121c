//! The saved form of a state, as docs/SAVED-FORM.md lays it out: by places, where the proved code goes record by record.

use crate::{Lengths, Refusal, State};

/// Bytes of a saved form.
pub const SAVED: usize = 7_306;

/// The marks of its five records: hashes, sizes, progress, refusal, lengths.
pub const MARKS: [(usize, &[u8; 2]); 5] = [(0, b"SH"), (5_122, b"SB"), (7_172, b"SP"), (7_230, b"SR"), (7_256, b"SL")];

const HASHES: usize = 2;
const SIZES: usize = 5_124;

/// Where the numbers behind the sizes stand, in the order of [`numbers`].
const PLACES: [usize; 16] = [7_174, 7_182, 7_190, 7_198, 7_206, 7_214, 7_222, 7_232, 7_240, 7_248, 7_258, 7_266, 7_274, 7_282, 7_290, 7_298];

fn numbers(state: &State) -> [u64; 16] {
    let State { count, line, at, into, total, ready, stretches, refusal, lengths, .. } = *state;
    let Lengths { list, image, stash, work, result, patch } = lengths;
    let [count, line, at, into, ready, stretches] = [count, line, at, into, ready, stretches].map(|number| number as u64);
    let [number, in_line, byte] = [refusal.number, refusal.line, refusal.byte].map(|number| number as u64);
    let [list, image, stash, work, result, patch] = [list, image, stash, work, result, patch].map(|number| number as u64);
    [count, line, at, into, total, ready, stretches, number, in_line, byte, list, image, stash, work, result, patch]
}

/// Every state has one.
pub fn save(state: &State) -> Vec<u8> {
    let mut bytes = vec![0; SAVED];
    let mut put = |at: usize, part: &[u8]| bytes[at..at + part.len()].copy_from_slice(part);
    MARKS.iter().for_each(|(at, mark)| put(*at, *mark));
    put(HASHES, &state.hashes);
    state.sizes.iter().enumerate().for_each(|(k, size)| put(SIZES + 8 * k, &(*size as u64).to_le_bytes()));
    PLACES.iter().zip(numbers(state)).for_each(|(at, number)| put(*at, &number.to_le_bytes()));
    bytes
}

/// The state whose saved form the bytes are; none, which is 20, where they are no state's.
pub fn restore(bytes: &[u8]) -> Option<State> {
    if bytes.len() != SAVED || MARKS.iter().any(|(at, mark)| bytes[*at..at + 2] != **mark) {
        return None;
    }
    let number = |at: usize| (0..8).rev().fold(0, |sum, k| sum * 256 + bytes[at + k] as u64);
    let [count, line, at, into, _, ready, stretches, refused, in_line, byte, list, image, stash, work, result, patch] =
        PLACES.map(|at| number(at) as usize);
    Some(State {
        hashes: std::array::from_fn(|k| bytes[HASHES + k]),
        sizes: std::array::from_fn(|k| number(SIZES + 8 * k) as usize),
        count,
        line,
        at,
        into,
        refusal: Refusal { number: refused, line: in_line, byte },
        lengths: Lengths { list, image, stash, work, result, patch },
        total: number(PLACES[4]),
        ready,
        stretches,
    })
}
