//! Stashes of no blocks: no list makes one, and a state that holds one is impossible, wherever it stands.

use super::hash_of;
use reference::{Answer, State};

/// Where a call came with one; all but the last are 17.
pub const NO_BLOCKS: [&str; 9] = [
    "at the text's end",
    "at a zero, an erase or a new",
    "at its own free",
    "at another free",
    "in the source of a move or a bsdiff",
    "at a move or a bsdiff that does not name it",
    "at a stash",
    "as the last of several",
    "past those that are held, and the call ran",
];

/// Of a call whose state has nothing wrong before this.
pub(super) fn impossible(list: &[u8], before: &State) -> [bool; NO_BLOCKS.len()] {
    let empty: Vec<usize> = (0..before.count).filter(|k| before.sizes[*k] == 0).collect();
    let names: Vec<Vec<u8>> = empty.iter().map(|k| hash_of(before, *k)).collect();
    let line = list[before.at..].split(|c| *c == b'\n').next().unwrap_or(b"");
    let fields: Vec<&[u8]> = line.split(|c| *c == b' ').collect();
    let is_named = |field: &[u8]| names.iter().any(|name| field.starts_with(name));
    let sourced = fields.iter().any(|field| field.get(40) == Some(&b':') && is_named(field));
    let starts = |words: &[&[u8]]| words.contains(&fields[0]);
    let freed = starts(&[b"free"]) && fields.get(1).is_some_and(|name| is_named(name));
    let moved = starts(&[b"move", b"bsdiff"]);
    [
        line.is_empty(),
        starts(&[b"zero", b"erase", b"new"]),
        freed,
        starts(&[b"free"]) && !freed,
        moved && sourced,
        moved && !sourced,
        starts(&[b"stash"]),
        before.count > 1 && empty == [before.count - 1],
        false,
    ]
}

/// Of a call from a possible state: entries that are not held are not looked at.
pub(super) fn called(before: &State, answer: &Answer) -> [bool; NO_BLOCKS.len()] {
    let mut has = [false; NO_BLOCKS.len()];
    let left = before.sizes[before.count..].iter().zip(before.hashes[20 * before.count..].chunks(20));
    has[8] = answer.outcome.number() == 0 && left.into_iter().any(|(size, hash)| *size == 0 && hash.iter().any(|byte| *byte != 0));
    has
}
