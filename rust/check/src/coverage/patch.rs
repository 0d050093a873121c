//! What a patch has, and what is malformed in it: read once more, for counting alone.

use super::{blocks, ranges};
use reference::BLOCK;

/// What is malformed first.
pub const FAULTS: [&str; 14] = [
    "a mark",
    "one byte left over",
    "a head cut short",
    "minus zero",
    "a negative add length",
    "a negative extra length",
    "add bytes past the end",
    "extra bytes past the end",
    "a position too high after adding",
    "a position too high after the seek",
    "a position too low",
    "a result that is too short",
    "a result that is too long",
    "no record",
];

/// What a patch that ran has.
pub const PATCHES: [&str; 13] = [
    "several records",
    "a record of nothing",
    "add bytes",
    "extra bytes",
    "both in one record",
    "a stretch from before the source",
    "a stretch over the source's start",
    "a stretch over the source's end",
    "a stretch past the source",
    "the highest position",
    "the lowest position",
    "a target that is not N",
    "its end at the patch data's",
];

const FARTHEST: i128 = 2_147_483_647;

/// A `bsdiff` line, by its fields.
pub(super) struct Line<'a> {
    from: usize,
    bytes: usize,
    pub(super) hash: &'a [u8],
    target: usize,
    pub(super) n: usize,
}

/// A record's lengths and seek, and the position before it.
struct Record {
    add: i128,
    extra: i128,
    seek: i128,
    position: i128,
}

impl Line<'_> {
    /// The line, if it is a `bsdiff`; it was read before.
    pub(super) fn of(line: &[u8]) -> Option<Line<'_>> {
        let fields: Vec<&[u8]> = line.split(|c| matches!(c, b' ' | b'\n')).collect();
        let [b"bsdiff", from, bytes, hash, _, target, n, ..] = fields[..] else { return None };
        let number = |digits: &[u8]| std::str::from_utf8(digits).ok()?.parse().ok();
        Some(Line { from: number(from)?, bytes: number(bytes)?, hash, target: blocks(&ranges(target)?) as usize * BLOCK, n: number(n)? })
    }

    fn patch<'p>(&self, data: &'p [u8]) -> &'p [u8] {
        &data[self.from..][..self.bytes]
    }

    /// What is malformed first, as an index of FAULTS.
    pub(super) fn fault(&self, data: &[u8]) -> Option<usize> {
        records(self.patch(data), self.target).err()
    }

    /// What it makes of the source, if it is good.
    pub(super) fn makes(&self, data: &[u8], source: &[u8]) -> Option<Vec<u8>> {
        let patch = self.patch(data);
        let mut made = Vec::new();
        let mut at = 0;
        for Record { add, extra, position, .. } in records(patch, self.target).ok()? {
            let (added, copied) = patch[at + 26..][..(add + extra) as usize].split_at(add as usize);
            let old = |k: usize| usize::try_from(position + k as i128).ok().and_then(|k| source.get(k)).unwrap_or(&0);
            made.extend(added.iter().enumerate().map(|(k, byte)| byte.wrapping_add(*old(k))));
            made.extend_from_slice(copied);
            at += 26 + (add + extra) as usize;
        }
        Some(made)
    }

    /// Which of PATCHES it has, if it is good.
    pub(super) fn has(&self, data: &[u8]) -> [bool; PATCHES.len()] {
        let Ok(all) = records(self.patch(data), self.target) else { return [false; PATCHES.len()] };
        let any = |is: &dyn Fn(&Record) -> bool| all.iter().any(is);
        let source = (self.n * BLOCK) as i128;
        let over = |record: &Record, border: i128| record.position < border && record.position + record.add > border;
        // The position after it counts too.
        let at = |position: i128| any(&|r| r.position + r.add == position || r.position + r.add + r.seek == position);
        [
            all.len() > 1,
            any(&|r| r.add + r.extra == 0),
            any(&|r| r.add > 0),
            any(&|r| r.extra > 0),
            any(&|r| r.add > 0 && r.extra > 0),
            any(&|r| r.add > 0 && r.position + r.add <= 0),
            any(&|r| over(r, 0)),
            any(&|r| over(r, source)),
            any(&|r| r.add > 0 && r.position >= source),
            at(FARTHEST),
            at(-FARTHEST),
            self.target != self.n * BLOCK,
            self.from + self.bytes == data.len(),
        ]
    }
}

fn records(mut rest: &[u8], target: usize) -> Result<Vec<Record>, usize> {
    let mut all = Vec::new();
    let (mut position, mut made) = (0i128, 0i128);
    while let [first, ..] = *rest {
        if rest.len() == 1 {
            return Err(1);
        }
        if [first, rest[1]] != *b"CP" {
            return Err(0);
        }
        if rest.len() < 26 {
            return Err(2);
        }
        let number = |at: usize| -> Result<i128, usize> {
            let bits = u64::from_le_bytes(std::array::from_fn(|k| rest[at + k]));
            match (bits >> 63, (bits << 1 >> 1) as i128) {
                (1, 0) => Err(3),
                (1, magnitude) => Ok(-magnitude),
                (_, magnitude) => Ok(magnitude),
            }
        };
        let (add, extra, seek) = (number(2)?, number(10)?, number(18)?);
        let left = rest.len() as i128 - 26;
        match () {
            _ if add < 0 => return Err(4),
            _ if extra < 0 => return Err(5),
            _ if add > left => return Err(6),
            _ if add + extra > left => return Err(7),
            _ if position + add > FARTHEST => return Err(8),
            _ if position + add + seek > FARTHEST => return Err(9),
            _ if position + add + seek < -FARTHEST => return Err(10),
            _ => {}
        }
        all.push(Record { add, extra, seek, position });
        position += add + seek;
        made += add + extra;
        rest = &rest[26 + (add + extra) as usize..];
    }
    match made.cmp(&(target as i128)) {
        // A target has blocks.
        _ if all.is_empty() => Err(13),
        std::cmp::Ordering::Less => Err(11),
        std::cmp::Ordering::Equal => Ok(all),
        std::cmp::Ordering::Greater => Err(12),
    }
}
