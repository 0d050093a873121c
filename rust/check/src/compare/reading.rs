//! The same list read as before R-7, when a range might have no blocks.

use crate::coverage::ranges;
use reference::{plain, Refusal, Rooms, State};

/// The number that an opening gave before, if an empty range made it 6. But for that, and for the byte of 6, it is what it was.
pub(super) fn turned(list: &[u8], rooms: Rooms, ours: &State) -> Result<Option<usize>, String> {
    let before = plain::open_with(list, rooms, 0);
    let Refusal { number, line, byte } = before.refusal;
    // A line that had no good form has no ranges; 15 comes after all lines.
    let read = |k: usize| matches!(number, 0 | 15) || line > k || line == k && !matches!(number, 6 | 7);
    let empty = list.split(|c| *c == b'\n').enumerate().skip(4).find(|(_, text)| has_empty_range(text)).map(|(k, _)| k + 1);
    let with = |number: usize, line: usize| State { refusal: Refusal { number, line, byte: ours.refusal.byte }, ..State::ZERO };
    let (expected, turned) = match empty {
        Some(first) if read(first) => (with(6, first), Some(number)),
        // What was no beginning of a good line is none now.
        _ if number == 6 && ours.refusal.byte <= byte => (with(6, line), None),
        _ => (before, None),
    };
    if *ours != expected {
        return Err(format!("before R-7 {:?}, now {:?}, with the first empty range in line {empty:?}", before.refusal, ours.refusal));
    }
    Ok(turned)
}

fn has_empty_range(line: &[u8]) -> bool {
    line.split(|c| *c == b' ').filter_map(ranges).flatten().any(|(start, end)| start == end)
}
