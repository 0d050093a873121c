//! Patches: document 02, R-4.

/// How far the position may go, either way.
const FARTHEST: i64 = 2_147_483_647;

const MARK: [u8; 2] = [0x43, 0x50];

/// Bytes of a record's mark and its three numbers.
const HEAD: usize = 26;

/// A record of a patch.
struct Record<'a> {
    add: &'a [u8],
    extra: &'a [u8],
    seek: i64,
}

/// Whether these are records, to their end, that make a result of so many bytes.
pub(super) fn fits(mut patch: &[u8], length: usize) -> bool {
    let mut position = 0i64;
    let mut made = 0;
    while !patch.is_empty() {
        let Some(record) = next(&mut patch) else { return false };
        made += record.add.len() + record.extra.len();
        let Some(after) = step(position, record.add.len() as i64).and_then(|added| step(added, record.seek)) else { return false };
        position = after;
    }
    made == length
}

/// The position moved on, where it may be there.
fn step(position: i64, by: i64) -> Option<i64> {
    let to = position.checked_add(by)?;
    if (-FARTHEST..=FARTHEST).contains(&to) {
        Some(to)
    } else {
        None
    }
}

/// Makes the result of a patch that fits it.
pub(super) fn apply(mut patch: &[u8], source: &[u8], mut result: &mut [u8]) {
    let mut position = 0i64;
    while let Some(Record { add, extra, seek }) = next(&mut patch) {
        let (added, rest) = result.split_at_mut(add.len());
        let (copied, rest) = rest.split_at_mut(extra.len());
        result = rest;
        added.copy_from_slice(add);
        add_over(source, position, added);
        copied.copy_from_slice(extra);
        position += add.len() as i64 + seek;
    }
}

/// Adds the source's bytes from the position on; outside the source there is nothing to add.
fn add_over(source: &[u8], position: i64, bytes: &mut [u8]) {
    let (skipped, start) = if position < 0 { (-position as usize, 0) } else { (0, position as usize) };
    let Some(bytes) = bytes.get_mut(skipped..) else { return };
    let Some(source) = source.get(start..) else { return };
    for (byte, more) in bytes.iter_mut().zip(source) {
        *byte = byte.wrapping_add(*more);
    }
}

/// The next record, if there is one and it is well formed.
#[inline]
fn next<'a>(patch: &mut &'a [u8]) -> Option<Record<'a>> {
    let (head, rest) = patch.split_first_chunk::<HEAD>()?;
    if head[..2] != MARK {
        return None;
    }
    let (add, rest) = rest.split_at_checked(length(number(&head[2..10])?)?)?;
    let (extra, rest) = rest.split_at_checked(length(number(&head[10..18])?)?)?;
    let seek = number(&head[18..26])?;
    *patch = rest;
    Some(Record { add, extra, seek })
}

/// Eight bytes, the lowest first: magnitude, and the sign in the topmost bit. There is no minus zero.
#[inline]
fn number(bytes: &[u8]) -> Option<i64> {
    let bits = u64::from_le_bytes(*bytes.first_chunk()?);
    let magnitude = (bits & (u64::MAX >> 1)) as i64;
    match (bits >> 63, magnitude) {
        (0, _) => Some(magnitude),
        (_, 0) => None,
        _ => Some(-magnitude),
    }
}

/// A length, if it is none below 0.
#[inline]
fn length(number: i64) -> Option<usize> {
    if number < 0 {
        None
    } else {
        Some(number as usize)
    }
}
