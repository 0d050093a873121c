//! States disturbed.

use super::lines::line_starts;
use super::Rng;
use crate::coverage::ranges;
use reference::{Hash, Refusal, State, BLOCK, MOST_AREA, MOST_STASHES};

/// Changes one thing in a state: at a border, at random, or so that it is another possible state.
pub fn disturb(rng: &mut Rng, state: &mut State, list: &[u8]) {
    let starts = line_starts(list);
    match rng.below(44) {
        0 => {
            let near = rng.pick(&[state.count, 64, MOST_STASHES, MOST_STASHES]);
            state.count = rng.pick(&[0, 1, 2, usize::MAX, near, near.wrapping_add(1), near.wrapping_add(1), near.wrapping_sub(1)]);
        }
        1 => {
            let near = rng.pick(&[state.at, list.len(), starts.get(4).copied().unwrap_or(0)]);
            state.at = border(rng, near);
        }
        2 => {
            state.at = rng.below(list.len() + 2);
            if rng.percent(50) {
                state.line = 1 + list[..state.at.min(list.len())].iter().filter(|c| **c == b'\n').count();
            }
        }
        3 => state.line = border(rng, state.line),
        4..=6 => {
            // To another line, mostly with its number.
            let k = rng.below(starts.len());
            state.at = starts[k];
            state.line = if rng.percent(85) { k + 1 } else { k };
            if rng.percent(80) {
                state.into = 0;
            }
        }
        7 => state.into = border(rng, state.into),
        8 | 9 => {
            // Into some `new`.
            let news: Vec<usize> = (0..starts.len()).filter(|k| list[starts[*k]..].starts_with(b"new ")).collect();
            if !news.is_empty() {
                let k = rng.pick(&news);
                state.at = starts[k];
                state.line = k + 1;
            }
            state.into = rng.pick(&[1, BLOCK - 1, BLOCK, BLOCK + 1, 2 * BLOCK - 1, 2 * BLOCK, 3 * BLOCK - 1, 3 * BLOCK, usize::MAX]);
        }
        10 => {
            let k = rng.below(MOST_STASHES.min(state.count.max(1)));
            state.sizes[k] = rng.pick(&[0, 1, 2, 6, 4_097, MOST_AREA, MOST_AREA + 1, 1 << 52, 1 << 63, usize::MAX]);
        }
        11 => {
            // Sizes whose sum passes 64 bits.
            state.count = state.count.clamp(2, MOST_STASHES);
            set_hash(state, 0, &[1; 20]);
            state.sizes[0] = usize::MAX;
            state.sizes[1] = rng.pick(&[1, 2, usize::MAX, 3]);
        }
        12 => {
            let k = rng.below(20 * MOST_STASHES);
            state.hashes[k] ^= 1 << rng.below(8);
        }
        13 => {
            // One hash twice.
            let (from, to) = (rng.below(3), rng.below(4));
            let hash: Hash = std::array::from_fn(|k| state.hashes[20 * from + k]);
            set_hash(state, to, &hash);
            if rng.percent(70) {
                state.count = state.count.clamp(from.max(to) + 1, MOST_STASHES);
            }
        }
        14..=16 => {
            // One stash more, often one that the text names.
            if state.count < MOST_STASHES {
                let hash = named_hash(rng, list).unwrap_or([7; 20]);
                let k = state.count;
                set_hash(state, k, &hash);
                state.sizes[k] = rng.below(3);
                state.count += 1;
            }
        }
        17 => {
            let lengths = &mut state.lengths;
            let near = rng.pick(&[0, BLOCK, lengths.image, lengths.patch]);
            let value = border(rng, near);
            let length = match rng.below(6) {
                0 => &mut lengths.list,
                1 => &mut lengths.image,
                2 => &mut lengths.stash,
                3 => &mut lengths.work,
                4 => &mut lengths.result,
                _ => &mut lengths.patch,
            };
            *length = value;
        }
        18 => {
            // Any number with any byte: what is held is repeated as it is.
            let number = rng.pick(&[0, 1, 3, 6, 6, 15, 16, 17, 18, 19, 20, 99, usize::MAX]);
            let byte = border(rng, list.len());
            state.refusal = Refusal { number, line: rng.pick(&[0, 1, 5, 77, usize::MAX]), byte: rng.pick(&[0, 1, 8, byte]) };
        }
        19 | 23 => {
            // As many stashes as may be, of no blocks, which no list makes.
            let count = rng.pick(&[MOST_STASHES, MOST_STASHES, MOST_STASHES - 1, MOST_STASHES + 1, MOST_STASHES + 1, 65, 3]);
            let last = count.min(MOST_STASHES) - 1;
            for k in 0..=last {
                let mut hash = [0xe0; 20];
                hash[19] = k as u8;
                set_hash(state, k, &hash);
                state.sizes[k] = 0;
            }
            state.count = count;
            if rng.percent(50) {
                same_at_the_ends(rng, state);
            }
        }
        20 => {
            // A size less or more, with its total still small.
            let k = rng.below(state.count.clamp(1, MOST_STASHES));
            state.sizes[k] = rng.below(4);
        }
        21 => everything(rng, state),
        24..=29 => without_blocks(rng, state, list, &starts),
        30 | 31 => state.total = rng.next_u64(),
        32..=43 => {
            let line = 5 + rng.below(starts.len().saturating_sub(4));
            mark_line(rng, state, list, line);
        }
        // With a number or with none.
        _ if rng.percent(50) => state.refusal.byte = rng.pick(&[1, 8, list.len(), usize::MAX]),
        _ => state.refusal.line = rng.pick(&[1, 5, usize::MAX]),
    }
}

/// At a line that names stashes: they are held, the first of them without blocks.
fn without_blocks(rng: &mut Rng, state: &mut State, list: &[u8], starts: &[usize]) {
    let of = |word: &[u8]| -> Vec<usize> {
        (0..starts.len()).filter(|k| list[starts[*k]..].starts_with(word) && !stashes_named(&list[starts[*k]..]).is_empty()).collect()
    };
    let mut kinds = [&b"free "[..], b"move ", b"bsdiff ", b"stash "].map(of);
    // Nearly every list that has the others has the last, and few have the first.
    if rng.percent(80) {
        rng.shuffle(&mut kinds[..3]);
    }
    let Some(lines) = kinds.iter().find(|lines| !lines.is_empty()) else { return };
    let k = rng.pick(lines);
    (state.at, state.line, state.into, state.count) = (starts[k], k + 1, 0, 0);
    for hash in stashes_named(&list[starts[k]..]) {
        let j = state.count;
        if j < MOST_STASHES && !state.hashes[..20 * j].chunks(20).any(|other| other == hash) {
            set_hash(state, j, &hash);
            state.sizes[j] = if j == 0 { 0 } else { rng.below(2) };
            state.count += 1;
        }
    }
}

/// At this line, or at another, with the stashes that the lines before it leave: a ready mark, stretches, a stash of no blocks, or two marks at once.
/// Often it is a state that can be, else one that just cannot.
pub fn mark_line(rng: &mut Rng, state: &mut State, list: &[u8], line: usize) {
    let starts = line_starts(list);
    let of = |words: &[&[u8]]| -> Vec<usize> {
        (4..starts.len()).filter(|k| words.iter().any(|word| list[starts[*k]..].starts_with(word))).map(|k| k + 1).collect()
    };
    let kind = rng.below(10);
    let wanted = match kind {
        0..=3 => of(&[b"move ", b"stash ", b"bsdiff "]),
        4..=6 => of(&[b"free "]),
        _ => Vec::new(),
    };
    let line = if wanted.is_empty() || rng.percent(60) { line } else { rng.pick(&wanted) };
    let Some(at) = starts.get(line - 1).copied() else { return };
    (state.at, state.line, state.into, state.ready, state.stretches) = (at, line, 0, 0, 0);
    state.count = state.count.min(MOST_STASHES);
    if rng.percent(85) {
        hold_before(state, list, line);
    }
    match kind {
        0..=3 => {
            state.ready = any_mark(rng);
            other_stashes(rng, state, &list[at..]);
        }
        4..=6 => stretched(rng, state, &list[at..]),
        7 | 8 => {
            // Anywhere among those held.
            if state.count == 0 {
                set_hash(state, 0, &[5; 20]);
                state.count = 1;
            }
            let last = state.count.clamp(1, MOST_STASHES) - 1;
            let k = rng.pick(&[0, last, last / 2]);
            state.sizes[k] = 0;
        }
        _ => {
            let (bytes, stretches) = (rng.pick(&[1, BLOCK - 1]), rng.pick(&[1, 2]));
            (state.into, state.ready, state.stretches) = rng.pick(&[(bytes, 1, 0), (bytes, 0, stretches), (0, 1, stretches), (bytes, 1, stretches)]);
        }
    }
}

/// Every number but 0 is a ready mark.
fn any_mark(rng: &mut Rng) -> usize {
    rng.pick(&[1, 1, 1, 1, 2, 256, 1 << 32, 1 << 63, usize::MAX])
}

/// The stashes that the lines before this one leave.
fn hold_before(state: &mut State, list: &[u8], line: usize) {
    let mut held: Vec<(Hash, usize)> = Vec::new();
    for text in list.split(|c| *c == b'\n').take(line - 1) {
        let mut fields = text.split(|c| *c == b' ');
        match (fields.next(), fields.next().and_then(hash_at), fields.next().and_then(ranges)) {
            (Some(b"stash"), Some(hash), Some(set)) => held.push((hash, blocks_in(&set))),
            (Some(b"free"), Some(hash), None) => held.retain(|stash| stash.0 != hash),
            _ => {}
        }
    }
    held.truncate(MOST_STASHES);
    state.count = held.len();
    for (k, (hash, blocks)) in held.iter().enumerate() {
        set_hash(state, k, hash);
        state.sizes[k] = *blocks;
    }
}

fn blocks_in(set: &[(u64, u64)]) -> usize {
    set.iter().map(|(start, end)| end.saturating_sub(*start) as usize).sum()
}

/// Now and then another stash or another size than the line at the text's start wants: 10, 11, 13, 14.
fn other_stashes(rng: &mut Rng, state: &mut State, text: &[u8]) {
    match rng.below(12) {
        0 => state.count = state.count.saturating_sub(1),
        1 | 2 if state.count > 0 => {
            let k = rng.below(state.count);
            state.sizes[k] = rng.pick(&[state.sizes[k].wrapping_add(1), state.sizes[k].wrapping_sub(1)]);
        }
        3 | 4 => {
            // The stash that it makes is held already, or one more than there is room for.
            let hash = stashes_named(text).first().copied().filter(|_| rng.percent(60)).unwrap_or([6; 20]);
            if state.count < MOST_STASHES {
                let k = state.count;
                set_hash(state, k, &hash);
                state.sizes[k] = 1;
                state.count += 1;
            }
        }
        _ => {}
    }
}

/// At a `free`: stretches about as many as there are, of younger stashes that may be made for it.
fn stretched(rng: &mut Rng, state: &mut State, text: &[u8]) {
    state.stretches = rng.pick(&[1, 1, 2, usize::MAX, 1 << 63]);
    let Some(hash) = text.strip_prefix(b"free ").and_then(hash_at) else { return };
    let find = |state: &State| (0..state.count).find(|k| state.hashes[20 * k..20 * k + 20] == hash);
    if find(state).is_none() && state.count < MOST_STASHES && rng.percent(80) {
        let k = state.count;
        set_hash(state, k, &hash);
        state.sizes[k] = rng.between(1, 2);
        state.count += 1;
    }
    for id in 0..rng.pick(&[0, 0, 1, 1, 2]) {
        if state.count < MOST_STASHES {
            let k = state.count;
            set_hash(state, k, &[0xd0 + id; 20]);
            state.sizes[k] = rng.between(1, 3);
            state.count += 1;
        }
    }
    let Some(j) = find(state) else { return };
    if state.sizes[j] == 0 {
        return;
    }
    let younger = state.sizes[j + 1..state.count].iter().fold(0usize, |sum, size| sum.saturating_add(*size));
    let all = younger.div_ceil(state.sizes[j]);
    let fewer = rng.below(all.max(1));
    state.stretches = rng.pick(&[all.saturating_sub(1), all.saturating_sub(1), fewer, all, all, all.saturating_add(1), usize::MAX]);
    if rng.one_in(8) {
        // Not held any more: another hash in its place.
        set_hash(state, j, &[0xc0; 20]);
    }
}

/// One hash twice: at both ends of what is held, or in its last two places.
pub fn same_at_the_ends(rng: &mut Rng, state: &mut State) {
    let last = state.count.clamp(2, MOST_STASHES) - 1;
    let from = rng.pick(&[0, 0, 1, last - 1]);
    let hash: Hash = std::array::from_fn(|k| state.hashes[20 * from + k]);
    set_hash(state, last, &hash);
}

fn everything(rng: &mut Rng, state: &mut State) {
    for byte in state.hashes.iter_mut() {
        *byte = rng.next_u64() as u8;
    }
    for size in state.sizes.iter_mut() {
        *size = rng.next_u64() as usize >> rng.below(64);
    }
    state.count = border(rng, MOST_STASHES);
    state.line = border(rng, state.line);
    state.at = border(rng, state.at);
    state.into = border(rng, state.into);
    state.total = border(rng, usize::MAX) as u64;
    (state.ready, state.stretches) = (border(rng, 1), border(rng, 1));
    if rng.percent(20) {
        let [number, line, byte] = std::array::from_fn(|_| rng.next_u64() as usize);
        state.refusal = Refusal { number, line, byte };
    }
}

/// A number at a border of its type, or beside this one, or any.
fn border(rng: &mut Rng, near: usize) -> usize {
    match rng.below(12) {
        0 => 0,
        1 => 1,
        2 => usize::MAX,
        3 => usize::MAX - rng.below(5_000),
        4 => 1 << 63,
        5 => 1 << rng.below(64),
        6 => near.wrapping_sub(1),
        7 => near.wrapping_add(1),
        8 => near.wrapping_add(BLOCK),
        9 => near,
        10 => rng.next_u64() as usize,
        _ => rng.below(10_000),
    }
}

fn set_hash(state: &mut State, k: usize, hash: &Hash) {
    state.hashes[20 * k..20 * k + 20].copy_from_slice(hash);
}

/// A hash that the text names, if it names any.
fn named_hash(rng: &mut Rng, list: &[u8]) -> Option<Hash> {
    let is_digit = |c: u8| hex_value(c).is_some();
    let starts: Vec<usize> = (0..list.len()).filter(|k| (*k == 0 || !is_digit(list[*k - 1])) && hash_at(&list[*k..]).is_some()).collect();
    (!starts.is_empty()).then(|| hash_at(&list[rng.pick(&starts)..]))?
}

/// The stashes that the line at the text's start makes, frees or takes a source from.
fn stashes_named(text: &[u8]) -> Vec<Hash> {
    let line = text.split(|c| *c == b'\n').next().unwrap_or(b"");
    let one = line.starts_with(b"free ") || line.starts_with(b"stash ");
    line.split(|c| *c == b' ').filter(|field| one || field.get(40) == Some(&b':')).filter_map(hash_at).collect()
}

/// The hash that these bytes begin with.
fn hash_at(text: &[u8]) -> Option<Hash> {
    let digits = text.first_chunk::<40>()?;
    let mut hash = [0u8; 20];
    for (byte, two) in hash.iter_mut().zip(digits.chunks(2)) {
        *byte = 16 * hex_value(two[0])? + hex_value(two[1])?;
    }
    Some(hash)
}

fn hex_value(c: u8) -> Option<u8> {
    match c {
        b'0'..=b'9' => Some(c - b'0'),
        b'a'..=b'f' => Some(c - b'a' + 10),
        _ => None,
    }
}
