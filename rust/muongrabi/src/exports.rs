//! What crosses to the proved library, as `include/muongrabi.h` declares it: numbers, and bytes and numbers that are lent. No struct crosses, so that
//! the same declarations serve every processor that the library is built for. All `unsafe` is here: the functions below are safe, and the public
//! types hide what crosses, so that they can stay when something else does.

use crate::{Areas, Fields, Lengths, Refusal, Stash, MOST_STASHES, SAVED};
use core::mem::size_of;

pub const DONE: u64 = 0;
pub const MORE: u64 = 1;
pub const STOP: u64 = 3;

/// The table of the stashes' hashes.
pub const TABLE_BYTES: usize = 20 * MOST_STASHES;

/// The numbers of a state beside its tables.
pub const NUMBERS: usize = 16;

/// Lengths and numbers cross as 64 bits, in the order of bytes that the library was compiled for.
const _: () = assert!(size_of::<usize>() == 8 && cfg!(target_endian = "little"));

#[rustfmt::skip]
extern "C" {
    fn muongrabi_abi_6() -> usize;
    fn muongrabi_digest(bytes: *const u8, bytes_length: usize, out: *mut [u8; 20]);
    fn muongrabi_open(
        list: *const u8, list_length: usize,
        image_length: usize, stash_length: usize, work_length: usize, result_length: usize, patch_length: usize,
        state: *mut [u8; SAVED], answer: *mut [u64; 3],
    );
    fn muongrabi_call(
        list: *const u8, list_length: usize,
        image: *mut u8, image_length: usize,
        stash: *mut u8, stash_length: usize,
        work: *mut u8, work_length: usize,
        result: *mut u8, result_length: usize,
        patch: *const u8, patch_length: usize,
        piece: *const u8, piece_length: usize,
        state: *mut [u8; SAVED], answer: *mut [u64; 5],
    );
    fn muongrabi_run(
        list: *const u8, list_length: usize,
        image: *mut u8, image_length: usize,
        stash: *mut u8, stash_length: usize,
        work: *mut u8, work_length: usize,
        result: *mut u8, result_length: usize,
        patch: *const u8, patch_length: usize,
        data: *const u8, data_length: usize,
        cuts: *const usize, cuts_length: usize,
        state: *mut [u8; SAVED], answer: *mut [u64; 5],
    );
    fn muongrabi_save(
        hashes: *const [u8; TABLE_BYTES], sizes: *const [usize; MOST_STASHES], numbers: *const [usize; NUMBERS],
        out: *mut [u8; SAVED],
    );
    fn muongrabi_restore(
        bytes: *const u8, bytes_length: usize,
        hashes: *mut [u8; TABLE_BYTES], sizes: *mut [usize; MOST_STASHES], numbers: *mut [usize; NUMBERS],
    ) -> usize;
    fn muongrabi_sparse_load(file: *const u8, file_length: usize, image: *mut u8, image_length: usize) -> u32;
}

/// Only an archive of these declarations has a function of that name, so that no other one links, wherever the linker found it.
fn ask_abi() {
    // SAFETY: it takes nothing and gives a number.
    unsafe { muongrabi_abi_6() };
}

pub fn digest(bytes: &[u8]) -> [u8; 20] {
    let mut out = [0; 20];
    // SAFETY: the bytes are lent to be read, and 20 bytes to be written.
    unsafe { muongrabi_digest(bytes.as_ptr(), bytes.len(), &mut out) };
    out
}

/// The refusal, of number 0 where the list is accepted. The state is then that of the opening, whatever it held.
pub fn open(list: &[u8], lengths: Lengths, state: &mut [u8; SAVED]) -> Refusal {
    let Lengths { image, stash, work, result, patch } = lengths;
    let mut answer = [0; 3];
    ask_abi();
    // SAFETY: the list is lent to be read, and two whole arrays to be written.
    unsafe { muongrabi_open(list.as_ptr(), list.len(), image, stash, work, result, patch, state, &mut answer) };
    let [number, line, byte] = answer.map(|number| number as usize);
    Refusal::new(number, line, byte)
}

/// What a call answers: outcome, the refusal's number, line and byte, and the bytes taken. The state is changed where it lies.
#[rustfmt::skip]
pub fn call(list: &[u8], areas: Areas<'_>, piece: &[u8], state: &mut [u8; SAVED]) -> [u64; 5] {
    let Areas { image, stash, work, result, patch } = areas;
    let mut answer = [0; 5];
    ask_abi();
    // SAFETY: seven slices, each with its own length, and two whole arrays. The four slices that are written and the arrays are borrowed for
    // writing, so none overlaps another.
    unsafe {
        muongrabi_call(
            list.as_ptr(), list.len(),
            image.as_mut_ptr(), image.len(),
            stash.as_mut_ptr(), stash.len(),
            work.as_mut_ptr(), work.len(),
            result.as_mut_ptr(), result.len(),
            patch.as_ptr(), patch.len(),
            piece.as_ptr(), piece.len(),
            state, &mut answer,
        )
    };
    answer
}

/// The last call's answer, with all bytes taken. The state is then that after it, whatever it held.
#[rustfmt::skip]
pub fn run(list: &[u8], areas: Areas<'_>, data: &[u8], cuts: &[usize], state: &mut [u8; SAVED]) -> [u64; 5] {
    let Areas { image, stash, work, result, patch } = areas;
    let mut answer = [0; 5];
    ask_abi();
    // SAFETY: as in `call`; the cuts are lent to be read.
    unsafe {
        muongrabi_run(
            list.as_ptr(), list.len(),
            image.as_mut_ptr(), image.len(),
            stash.as_mut_ptr(), stash.len(),
            work.as_mut_ptr(), work.len(),
            result.as_mut_ptr(), result.len(),
            patch.as_ptr(), patch.len(),
            data.as_ptr(), data.len(),
            cuts.as_ptr(), cuts.len(),
            state, &mut answer,
        )
    };
    answer
}

/// The saved form of the state with these fields.
#[rustfmt::skip]
pub fn save(fields: &Fields) -> [u8; SAVED] {
    let Fields { stashes, count, line, at, into, total, ready, stretches, refusal, list, lengths } = fields;
    let Lengths { image, stash, work, result, patch } = *lengths;
    let mut hashes = [0; TABLE_BYTES];
    let mut sizes = [0; MOST_STASHES];
    for ((stash, hash), size) in stashes.iter().zip(hashes.chunks_exact_mut(20)).zip(&mut sizes) {
        hash.copy_from_slice(&stash.hash);
        *size = stash.blocks;
    }
    let numbers = [
        *count, *line, *at, *into, *total, *ready, *stretches,
        refusal.number(), refusal.line(), refusal.raw_byte(),
        *list, image, stash, work, result, patch,
    ];
    let mut out = [0; SAVED];
    ask_abi();
    // SAFETY: three whole arrays are lent to be read, and as many bytes as a saved form has to be written.
    unsafe { muongrabi_save(&hashes, &sizes, &numbers, &mut out) };
    out
}

/// 0 and the fields of the state whose saved form the bytes are; or the number of a refusal, and fields that are all 0.
#[rustfmt::skip]
pub fn restore(bytes: &[u8]) -> (usize, Fields) {
    let mut hashes = [0; TABLE_BYTES];
    let mut sizes = [0; MOST_STASHES];
    let mut numbers = [0; NUMBERS];
    ask_abi();
    // SAFETY: the bytes are lent to be read, and three whole arrays to be written.
    let answer = unsafe { muongrabi_restore(bytes.as_ptr(), bytes.len(), &mut hashes, &mut sizes, &mut numbers) };
    let mut stashes = [Stash { hash: [0; 20], blocks: 0 }; MOST_STASHES];
    for ((stash, hash), size) in stashes.iter_mut().zip(hashes.chunks_exact(20)).zip(sizes) {
        stash.hash.copy_from_slice(hash);
        stash.blocks = size;
    }
    let [
        count, line, at, into, total, ready, stretches,
        refused, refused_line, refused_byte,
        list, image, stash, work, result, patch,
    ] = numbers;
    let refusal = Refusal::new(refused, refused_line, refused_byte);
    let lengths = Lengths { image, stash, work, result, patch };
    (answer, Fields { stashes, count, line, at, into, total, ready, stretches, refusal, list, lengths })
}

/// 0, or the number of a refusal.
pub fn load_sparse(file: &[u8], image: &mut [u8]) -> u32 {
    ask_abi();
    // SAFETY: two slices, each with its own length. The image is borrowed for writing, so they do not overlap.
    unsafe { muongrabi_sparse_load(file.as_ptr(), file.len(), image.as_mut_ptr(), image.len()) }
}
