//! Patches: good ones by a small differ, and the ways to spoil them.

use super::Rng;

/// How far a position may go, either way.
pub const FARTHEST: i64 = 2_147_483_647;

/// Bytes of a record's mark and numbers.
pub const HEAD: usize = 26;

/// A number as a patch has it: magnitude, and the sign in the topmost bit.
pub fn bits(number: i64) -> u64 {
    number.unsigned_abs() | if number < 0 { 1 << 63 } else { 0 }
}

/// The number of such bits.
fn number(bits: u64) -> i64 {
    let magnitude = (bits & (u64::MAX >> 1)) as i64;
    if bits >> 63 == 0 {
        magnitude
    } else {
        -magnitude
    }
}

/// A record of a patch.
#[derive(Clone)]
pub struct Record {
    pub add: Vec<u8>,
    pub extra: Vec<u8>,
    pub seek: i64,
}

impl Record {
    pub fn write(&self, out: &mut Vec<u8>) {
        out.extend_from_slice(b"CP");
        for number in [self.add.len() as i64, self.extra.len() as i64, self.seek] {
            out.extend_from_slice(&bits(number).to_le_bytes());
        }
        out.extend_from_slice(&self.add);
        out.extend_from_slice(&self.extra);
    }
}

/// The records' bytes.
pub fn patch_of(records: &[Record]) -> Vec<u8> {
    let mut out = Vec::new();
    records.iter().for_each(|record| record.write(&mut out));
    out
}

/// What is to be added at a position, so that this byte comes out.
fn difference(source: &[u8], position: i64, byte: u8) -> u8 {
    let old = usize::try_from(position).ok().and_then(|k| source.get(k)).unwrap_or(&0);
    byte.wrapping_sub(*old)
}

/// Some patch that makes the target of the source: stretches of any lengths, from positions within the source and outside it.
pub fn differ(rng: &mut Rng, source: &[u8], target: &[u8]) -> Vec<Record> {
    let count = rng.pick(&[1, 1, 2, 2, 3, 5, 12]);
    let mut cuts: Vec<usize> = (1..count).map(|_| any_cut(rng, target.len())).collect();
    cuts.push(target.len());
    cuts.sort();
    let mut records: Vec<Record> = Vec::new();
    let (mut start, mut position) = (0, 0);
    for end in cuts {
        let some = rng.below(end - start + 1);
        let add = rng.pick(&[0, end - start, end - start, some]);
        if let Some(last) = records.last_mut() {
            let to = any_position(rng, source.len(), start, add);
            last.seek = to - position;
            position = to;
        }
        let stretch = &target[start..start + add];
        let add = stretch.iter().enumerate().map(|(k, byte)| difference(source, position + k as i64, *byte)).collect();
        position += stretch.len() as i64;
        records.push(Record { add, extra: target[start + stretch.len()..end].to_vec(), seek: 0 });
        start = end;
    }
    if let Some(last) = records.last_mut() {
        last.seek = any_position(rng, source.len(), 0, 0) - position;
    }
    records
}

/// Anywhere, at a block's border, or at the start, so that a record has nothing.
fn any_cut(rng: &mut Rng, length: usize) -> usize {
    match rng.below(4) {
        0 => (rng.below(length / 4_096 + 1) * 4_096).min(length),
        1 => rng.pick(&[0, length, 1.min(length), length / 2, length / 2]),
        _ => rng.below(length + 1),
    }
}

/// Where a stretch of so many bytes, which is to come at `here`, may start.
fn any_position(rng: &mut Rng, source: usize, here: usize, length: usize) -> i64 {
    let (source, length) = (source as i64, length as i64);
    let some = |rng: &mut Rng, most: i64| rng.below(most as usize + 1) as i64;
    match rng.below(12) {
        0..=3 => here as i64,
        4 | 5 => some(rng, source),
        6 => -some(rng, length + 3),
        7 => source - some(rng, length.min(source)),
        8 => source + some(rng, 5_000),
        9 => -FARTHEST + some(rng, 1),
        10 => FARTHEST - length - some(rng, 1),
        _ => source - length,
    }
}

/// A record of a good patch: where it starts, its lengths, and the position before it.
struct Place {
    start: usize,
    add: usize,
    extra: usize,
    position: i64,
}

/// The records of a patch, as far as they can be told.
fn places(patch: &[u8]) -> Vec<Place> {
    let mut found = Vec::new();
    let (mut start, mut position) = (0usize, 0i64);
    while let Some(head) = patch.get(start..start + HEAD) {
        let [add, extra, seek] = [2, 10, 18].map(|at| number(u64::from_le_bytes(std::array::from_fn(|k| head[at + k]))));
        let (Ok(add), Ok(extra)) = (usize::try_from(add), usize::try_from(extra)) else { break };
        if add.max(extra) > patch.len() || position.abs() > FARTHEST {
            break;
        }
        found.push(Place { start, add, extra, position });
        start += HEAD + add + extra;
        position = position.saturating_add(add as i64).saturating_add(seek);
    }
    found
}

/// Puts other bits in a number of a record: 0 its add length, 1 its extra length, 2 its seek.
fn put(patch: &mut [u8], start: usize, which: usize, bits: u64) {
    patch[start + 2 + 8 * which..][..8].copy_from_slice(&bits.to_le_bytes());
}

/// Spoils the bytes of a patch, mostly so that it is malformed in a certain way; its length stays.
pub fn spoil(rng: &mut Rng, patch: &mut [u8]) {
    let all = places(patch);
    if all.is_empty() {
        if !patch.is_empty() {
            patch[rng.below(patch.len())] ^= 1 << rng.below(8);
        }
        return;
    }
    let Place { start, add, extra, position } = all[rng.below(all.len())];
    let (add, extra) = (add as i64, extra as i64);
    let after = position + add;
    match rng.below(21) {
        0 => patch[start + rng.below(2)] ^= rng.pick(&[1, 0x80, 0x13, 0xff]),
        // Minus zero.
        1..=3 => put(patch, start, rng.below(3), 1 << 63),
        // Negative lengths.
        4..=6 => match rng.below(2) {
            0 => put(patch, start, 0, bits(-add.max(1))),
            _ => put(patch, start, 1, bits(-extra.max(1))),
        },
        // Lengths that are longer or shorter, or that wrap.
        7 | 8 => {
            let left = (patch.len() - start - HEAD) as i64;
            let other = rng.pick(&[add + 1, add - 1, left, left + 1, i64::MAX, i64::MAX - add, 1 << 32, 1 << 62, 0]).max(0);
            put(patch, start, 0, other as u64);
        }
        9 | 10 => {
            let left = (patch.len() - start - HEAD) as i64 - add;
            let other = rng.pick(&[extra + 1, extra - 1, left, left + 1, i64::MAX, i64::MAX - add, 1 << 32, 1 << 62, 0]).max(0);
            put(patch, start, 1, other as u64);
        }
        // A position at its border, one past it, or far past it: by the seek,
        11 | 12 => put(patch, start, 2, bits(rng.pick(&[FARTHEST - after, FARTHEST + 1 - after, FARTHEST + 1 - after, 1 << 32, i64::MAX]))),
        13 | 14 => put(patch, start, 2, bits(rng.pick(&[-FARTHEST - after, -FARTHEST - 1 - after, -FARTHEST - 1 - after, -1 << 32, -i64::MAX]))),
        // or by what the next record adds.
        15..=18 => {
            let adding: Vec<usize> = (1..all.len()).filter(|k| all[*k].add > 0).collect();
            if !adding.is_empty() {
                let k = rng.pick(&adding);
                let (before, next) = (&all[k - 1], &all[k]);
                let far = FARTHEST - next.add as i64 + rng.pick(&[0, 1, 1, 1, 2]);
                put(patch, before.start, 2, bits(far - before.position - before.add as i64));
            }
        }
        _ => {
            let k = start + rng.below(patch.len() - start);
            patch[k] ^= 1 << rng.below(8);
        }
    }
}

/// Another length of a patch: cut within each part of a record, at its start, or longer.
pub fn other_length(rng: &mut Rng, patch: &[u8]) -> usize {
    let all = places(patch);
    if all.is_empty() {
        return rng.pick(&[0, 1, HEAD, HEAD + 1]);
    }
    let Place { start, add, extra, .. } = all[rng.below(all.len())];
    let (body, within) = (start + HEAD, start + rng.below(HEAD));
    rng.pick(&[
        patch.len() + 1,
        patch.len().saturating_sub(1),
        0,
        start,
        start + 1,
        start + 2,
        body - 1,
        within,
        body,
        body + add.saturating_sub(1),
        body + add,
        body + add + extra.saturating_sub(1),
        patch.len() + HEAD,
    ])
}
