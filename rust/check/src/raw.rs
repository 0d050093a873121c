//! The exports as a caller in C has them, where the safe crate has no way to them: calls over bytes that are no saved form, arrays that hold
//! something before, and all that is answered.

use reference::saved::SAVED;
use reference::{Areas, Rooms, MOST_STASHES};

pub const TABLE_BYTES: usize = 20 * MOST_STASHES;
pub const NUMBERS: usize = 16;

#[rustfmt::skip]
extern "C" {
    fn muongrabi_open(
        list: *const u8, list_length: usize,
        image_length: usize, stash_length: usize, work_length: usize, result_length: usize, patch_length: usize,
        state: *mut [u8; SAVED], answer: *mut [u64; 3],
    );
    fn muongrabi_call(
        list: *const u8, list_length: usize,
        image: *mut u8, image_length: usize,
        stash: *mut u8, stash_length: usize,
        work: *mut u8, work_length: usize,
        result: *mut u8, result_length: usize,
        patch: *const u8, patch_length: usize,
        piece: *const u8, piece_length: usize,
        state: *mut [u8; SAVED], answer: *mut [u64; 5],
    );
    fn muongrabi_run(
        list: *const u8, list_length: usize,
        image: *mut u8, image_length: usize,
        stash: *mut u8, stash_length: usize,
        work: *mut u8, work_length: usize,
        result: *mut u8, result_length: usize,
        patch: *const u8, patch_length: usize,
        data: *const u8, data_length: usize,
        cuts: *const usize, cuts_length: usize,
        state: *mut [u8; SAVED], answer: *mut [u64; 5],
    );
    fn muongrabi_save(
        hashes: *const [u8; TABLE_BYTES], sizes: *const [usize; MOST_STASHES], numbers: *const [usize; NUMBERS],
        out: *mut [u8; SAVED],
    );
    fn muongrabi_restore(
        bytes: *const u8, bytes_length: usize,
        hashes: *mut [u8; TABLE_BYTES], sizes: *mut [usize; MOST_STASHES], numbers: *mut [usize; NUMBERS],
    ) -> usize;
}

/// What an answer holds at first, so that a number which is not written shows.
const UNWRITTEN: u64 = u64::MAX - 1;

/// Number, line and byte.
pub fn open(list: &[u8], rooms: Rooms, state: &mut [u8; SAVED]) -> [u64; 3] {
    let Rooms { image, stash, work, result, patch } = rooms;
    let mut answer = [UNWRITTEN; 3];
    // SAFETY: the list is lent to be read, and two whole arrays to be written.
    unsafe { muongrabi_open(list.as_ptr(), list.len(), image, stash, work, result, patch, state, &mut answer) };
    answer
}

/// Outcome, number, line, byte and what was taken.
#[rustfmt::skip]
pub fn call(list: &[u8], areas: Areas, piece: &[u8], state: &mut [u8; SAVED]) -> [u64; 5] {
    let Areas { image, stash, work, result, patch } = areas;
    let mut answer = [UNWRITTEN; 5];
    // SAFETY: seven slices, each with its own length, and two whole arrays; what is written is borrowed for writing.
    unsafe {
        muongrabi_call(
            list.as_ptr(), list.len(),
            image.as_mut_ptr(), image.len(),
            stash.as_mut_ptr(), stash.len(),
            work.as_mut_ptr(), work.len(),
            result.as_mut_ptr(), result.len(),
            patch.as_ptr(), patch.len(),
            piece.as_ptr(), piece.len(),
            state, &mut answer,
        )
    };
    answer
}

/// The same of the last call, with all that was taken.
#[rustfmt::skip]
pub fn run(list: &[u8], areas: Areas, data: &[u8], cuts: &[usize], state: &mut [u8; SAVED]) -> [u64; 5] {
    let Areas { image, stash, work, result, patch } = areas;
    let mut answer = [UNWRITTEN; 5];
    // SAFETY: as in `call`; the cuts are lent to be read.
    unsafe {
        muongrabi_run(
            list.as_ptr(), list.len(),
            image.as_mut_ptr(), image.len(),
            stash.as_mut_ptr(), stash.len(),
            work.as_mut_ptr(), work.len(),
            result.as_mut_ptr(), result.len(),
            patch.as_ptr(), patch.len(),
            data.as_ptr(), data.len(),
            cuts.as_ptr(), cuts.len(),
            state, &mut answer,
        )
    };
    answer
}

/// A state's tables and numbers, and its saved form over what is lent for it.
pub fn save(hashes: &[u8; TABLE_BYTES], sizes: &[usize; MOST_STASHES], numbers: &[usize; NUMBERS], out: &mut [u8; SAVED]) {
    // SAFETY: three whole arrays are lent to be read, and one to be written.
    unsafe { muongrabi_save(hashes, sizes, numbers, out) }
}

/// 0, or 20, which leaves the arrays as they are.
pub fn restore(bytes: &[u8], hashes: &mut [u8; TABLE_BYTES], sizes: &mut [usize; MOST_STASHES], numbers: &mut [usize; NUMBERS]) -> usize {
    // SAFETY: the bytes are lent to be read, and three whole arrays to be written.
    unsafe { muongrabi_restore(bytes.as_ptr(), bytes.len(), hashes, sizes, numbers) }
}
