//! Patches a second time: the bytes are eaten from the front, numbers are sums, and each byte of the result is worked out by itself.

use std::collections::VecDeque;

/// So many bytes from the front, if there are so many.
fn eat(bytes: &mut VecDeque<u8>, count: i128) -> Option<Vec<u8>> {
    (0 <= count && count <= bytes.len() as i128).then(|| bytes.drain(..count as usize).collect())
}

/// A number of eight bytes: below 2^63 it is itself, from there on it is negative.
fn eat_number(bytes: &mut VecDeque<u8>) -> Option<i128> {
    let value = eat(bytes, 8)?.iter().rev().fold(0, |value, byte| 256 * value + *byte as i128);
    let half = 1i128 << 63;
    // Half itself would be minus zero.
    (value != half).then(|| if value < half { value } else { half - value })
}

fn within(position: i128) -> Option<i128> {
    (position.abs() < 1 << 31).then_some(position)
}

/// What the patch makes of the source, if it is well formed and makes so many bytes.
pub(super) fn result(mut patch: VecDeque<u8>, source: &[u8], length: usize) -> Option<Vec<u8>> {
    let mut made = Vec::new();
    let mut position = 0i128;
    while !patch.is_empty() {
        if eat(&mut patch, 2)? != b"CP" {
            return None;
        }
        let (add, extra, seek) = (eat_number(&mut patch)?, eat_number(&mut patch)?, eat_number(&mut patch)?);
        for (k, byte) in eat(&mut patch, add)?.into_iter().enumerate() {
            let place = usize::try_from(position + k as i128).ok();
            let old = place.and_then(|place| source.get(place)).map_or(0, |old| *old as u16);
            made.push(((old + byte as u16) % 256) as u8);
        }
        made.extend(eat(&mut patch, extra)?);
        position = within(within(position + add)? + seek)?;
    }
    (made.len() == length).then_some(made)
}
