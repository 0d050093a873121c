//! The areas, the list's length and the header.

use super::text::Reader;
use crate::{Lengths, Refusal, BLOCK, MOST_AREA, MOST_IMAGE, MOST_LIST, MOST_RESULT, MOST_STASHES};

/// Lines 2 to 4, and where the first command line starts.
pub struct Header {
    pub total: u64,
    pub stashes: u64,
    pub blocks: u64,
    pub after: usize,
}

/// The header of a list for areas of these lengths; or 1 to 5.
pub fn header(list: &[u8], lengths: &Lengths) -> Result<Header, Refusal> {
    let areas = [(lengths.image, MOST_IMAGE), (lengths.stash, MOST_AREA), (lengths.work, MOST_AREA), (lengths.result, MOST_RESULT)];
    for (bytes, most) in areas {
        if bytes % BLOCK != 0 || bytes / BLOCK > most {
            return Err(Refusal { number: 1, line: 0, byte: 0 });
        }
    }
    if lengths.list > MOST_LIST {
        return Err(Refusal { number: 2, line: 0, byte: 0 });
    }
    let (version, header) = read(list)?;
    if version != 3 {
        return Err(Refusal { number: 4, line: 1, byte: 0 });
    }
    if header.stashes > MOST_STASHES as u64 {
        return Err(Refusal { number: 5, line: 3, byte: 0 });
    }
    if header.blocks > (lengths.stash / BLOCK) as u64 {
        return Err(Refusal { number: 5, line: 4, byte: 0 });
    }
    Ok(header)
}

/// The version and the other lines; or 3.
fn read(list: &[u8]) -> Result<(u64, Header), Refusal> {
    let mut reader = Reader { text: list, at: 0, least: 0 };
    let mut numbers = [0u64; 4];
    for (k, number) in numbers.iter_mut().enumerate() {
        match line(&mut reader) {
            Some(value) => *number = value,
            None => return Err(Refusal { number: 3, line: k + 1, byte: reader.at }),
        }
    }
    let [version, total, stashes, blocks] = numbers;
    Ok((version, Header { total, stashes, blocks, after: reader.at }))
}

fn line(reader: &mut Reader) -> Option<u64> {
    let value = reader.number()?;
    reader.byte(b'\n')?;
    Some(value)
}
