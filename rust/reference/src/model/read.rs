//! Lines and the header split into their fields.

use super::fault;
use crate::{Lengths, Refusal, BLOCK, MOST_AREA, MOST_IMAGE, MOST_LIST, MOST_RESULT, MOST_STASHES};

pub(super) type Ranges = Vec<(u64, u64)>;

pub(super) enum Source {
    Image(Ranges),
    Stashes(Vec<(Vec<u8>, Ranges)>),
    Both(Ranges, Ranges, Vec<(Vec<u8>, Ranges)>),
}

pub(super) enum Command {
    Zero(Ranges),
    Erase(Ranges),
    New(Ranges),
    Move { hash: Vec<u8>, target: Ranges, n: u64, source: Source },
    Bsdiff { patch: (u64, u64), hash: Vec<u8>, result: Vec<u8>, target: Ranges, n: u64, source: Source },
    Stash { hash: Vec<u8>, source: Ranges },
    Free { hash: Vec<u8> },
}

pub(super) fn number(field: &[u8]) -> Option<u64> {
    let text = std::str::from_utf8(field).ok()?;
    let value: u32 = text.parse().ok()?;
    (value.to_string() == text).then_some(value as u64)
}

fn hash(field: &[u8]) -> Option<Vec<u8>> {
    let digits: Vec<u8> = field.iter().map(|c| b"0123456789abcdef".iter().position(|d| d == c).map(|v| v as u8)).collect::<Option<_>>()?;
    (digits.len() == 40).then(|| digits.chunks(2).map(|two| two[0] << 4 | two[1]).collect())
}

fn ranges(field: &[u8]) -> Option<Ranges> {
    let numbers: Vec<u64> = field.split(|c| *c == b',').map(number).collect::<Option<_>>()?;
    let (count, ends) = numbers.split_first()?;
    if *count != ends.len() as u64 || *count == 0 || count % 2 == 1 {
        return None;
    }
    let pairs: Ranges = ends.chunks(2).map(|two| (two[0], two[1])).collect();
    pairs.iter().all(|(start, end)| start < end).then_some(pairs)
}

fn parts(fields: &[&[u8]]) -> Option<Vec<(Vec<u8>, Ranges)>> {
    if fields.is_empty() {
        return None;
    }
    fields
        .iter()
        .map(|field| {
            let colon = field.iter().position(|c| *c == b':')?;
            Some((hash(&field[..colon])?, ranges(&field[colon + 1..])?))
        })
        .collect()
}

/// A line with its LF, if it has one: the command, or 6 or 7.
pub(super) fn decode(line: &[u8]) -> Result<Command, usize> {
    let word = line.split(|c| *c == b' ' || *c == b'\n').next().unwrap_or(b"");
    if word == b"imgdiff" {
        return Err(7);
    }
    let body = line.strip_suffix(b"\n").ok_or(6usize)?;
    let fields: Vec<&[u8]> = body.split(|c| *c == b' ').collect();
    fields_of(&fields).ok_or(6)
}

fn fields_of(fields: &[&[u8]]) -> Option<Command> {
    match fields {
        [b"zero", set] => Some(Command::Zero(ranges(set)?)),
        [b"erase", set] => Some(Command::Erase(ranges(set)?)),
        [b"new", set] => Some(Command::New(ranges(set)?)),
        [b"free", name] => Some(Command::Free { hash: hash(name)? }),
        [b"stash", name, set] => Some(Command::Stash { hash: hash(name)?, source: ranges(set)? }),
        [b"move", name, set, n, rest @ ..] => Some(Command::Move { hash: hash(name)?, target: ranges(set)?, n: number(n)?, source: source(rest)? }),
        [b"bsdiff", from, bytes, name, after, set, n, rest @ ..] => Some(Command::Bsdiff {
            patch: (number(from)?, number(bytes)?),
            hash: hash(name)?,
            result: hash(after)?,
            target: ranges(set)?,
            n: number(n)?,
            source: source(rest)?,
        }),
        _ => None,
    }
}

fn source(fields: &[&[u8]]) -> Option<Source> {
    match fields {
        [set] => Some(Source::Image(ranges(set)?)),
        [b"-", after @ ..] => Some(Source::Stashes(parts(after)?)),
        [set, places, after @ ..] => Some(Source::Both(ranges(set)?, ranges(places)?, parts(after)?)),
        [] => None,
    }
}

pub(super) fn size(set: &Ranges) -> u64 {
    set.iter().map(|(start, end)| end - start).sum()
}

pub(super) fn past(set: &Ranges, end: u64) -> bool {
    set.iter().any(|pair| pair.1 > end)
}

pub(super) fn blocks(set: &Ranges) -> Vec<usize> {
    set.iter().flat_map(|(start, end)| *start as usize..*end as usize).collect()
}

/// Header numbers, or the refusal 3; and the bytes the header has.
fn header(list: &[u8]) -> Result<(Vec<u64>, usize), Refusal> {
    let mut numbers = Vec::new();
    let mut length = 0;
    let mut lines = list.split_inclusive(|c| *c == b'\n');
    for line in 1..=4 {
        let text = lines.next().unwrap_or(b"");
        let value = text.strip_suffix(b"\n").and_then(number);
        numbers.push(value.ok_or_else(|| Refusal { number: 3, line, byte: length + fault::of_header(text) })?);
        length += text.len();
    }
    Ok((numbers, length))
}

pub(super) struct Rules {
    pub(super) total: u64,
    pub(super) stashes: u64,
    pub(super) held: u64,
    pub(super) image: u64,
    pub(super) work: u64,
    pub(super) result: u64,
    pub(super) patch: u64,
    pub(super) after: usize,
}

/// 1 to 5.
pub(super) fn rules(list: &[u8], lengths: &Lengths) -> Result<Rules, Refusal> {
    let block = BLOCK as u64;
    for (bytes, most) in [(lengths.image, MOST_IMAGE), (lengths.stash, MOST_AREA), (lengths.work, MOST_AREA), (lengths.result, MOST_RESULT)] {
        if bytes as u64 % block != 0 || bytes as u64 > most as u64 * block {
            return Err(Refusal { number: 1, line: 0, byte: 0 });
        }
    }
    if list.len() > MOST_LIST {
        return Err(Refusal { number: 2, line: 0, byte: 0 });
    }
    let (numbers, after) = header(list)?;
    if numbers[0] != 3 {
        return Err(Refusal { number: 4, line: 1, byte: 0 });
    }
    if numbers[2] > MOST_STASHES as u64 {
        return Err(Refusal { number: 5, line: 3, byte: 0 });
    }
    if numbers[3] * block > lengths.stash as u64 {
        return Err(Refusal { number: 5, line: 4, byte: 0 });
    }
    let [image, work, result] = [lengths.image, lengths.work, lengths.result].map(|bytes| bytes as u64 / block);
    Ok(Rules { total: numbers[1], stashes: numbers[2], held: numbers[3], image, work, result, patch: lengths.patch as u64, after })
}
