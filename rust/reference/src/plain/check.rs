//! What refuses a line.

use super::command::{Bsdiff, Command, Move};
use super::text::Set;
use super::Header;
use crate::{Lengths, State, BLOCK, MOST_AREA};

/// Which places of a source are taken. The first line that needs them makes them; each later one clears as many as it needs.
pub(super) struct Marks(Option<[bool; MOST_AREA]>);

impl Marks {
    pub(super) fn new() -> Marks {
        Marks(None)
    }

    /// So many, none taken.
    fn clear(&mut self, n: usize) -> &mut [bool] {
        let marks = match &mut self.0 {
            Some(marks) => marks,
            none => none.insert([false; MOST_AREA]),
        };
        marks[..n].fill(false);
        &mut marks[..n]
    }
}

/// 8 to 14 and 18 for one command against what is held: the lowest that applies.
pub(super) fn check(list: &[u8], header: &Header, lengths: &Lengths, held: &State, marks: &mut Marks, command: &Command) -> Result<(), usize> {
    let image = (lengths.image / BLOCK) as u64;
    let work = (lengths.work / BLOCK) as u64;
    match command {
        Command::Zero(target) | Command::Erase(target) | Command::New(target) => {
            if target.end > image {
                return Err(8);
            }
        }
        Command::Free(hash) => {
            if held.find(hash).is_none() {
                return Err(10);
            }
        }
        Command::Stash(hash, source) => {
            if source.end > image {
                return Err(8);
            }
            if source.blocks > work {
                return Err(9);
            }
            if held.find(hash).is_some() {
                return Err(13);
            }
            if held.count as u64 + 1 > header.stashes || held.blocks(held.count) + source.blocks > header.blocks {
                return Err(14);
            }
        }
        Command::Move(line) => check_source(list, (image, work, u64::MAX), held, marks, line, true)?,
        Command::Bsdiff(Bsdiff { from, bytes, line, .. }) => {
            check_source(list, (image, work, (lengths.result / BLOCK) as u64), held, marks, line, false)?;
            if from + bytes > lengths.patch as u64 {
                return Err(18);
            }
        }
    }
    Ok(())
}

/// 8 to 12 for blocks of image, work area and room for the target; whether that must have N blocks is the command's.
fn check_source(list: &[u8], rooms: (u64, u64, u64), held: &State, marks: &mut Marks, line: &Move, target_is_n: bool) -> Result<(), usize> {
    let (image, work, room) = rooms;
    let source_blocks = line.source.map_or(0, |s| s.blocks);
    if line.target.end > image || line.source.map_or(0, |s| s.end) > image {
        return Err(8);
    }
    if line.n > work || source_blocks > work || line.target.blocks > room {
        return Err(9);
    }
    let mut differ = false;
    let mut places = 0u64;
    for (hash, set) in line.parts(list) {
        let k = held.find(&hash).ok_or(10usize)?;
        differ |= held.sizes[k] as u64 != set.blocks;
        places += set.blocks;
    }
    match line.places {
        Some(set) => {
            differ |= set.blocks != source_blocks;
            places += set.blocks;
        }
        None => places += source_blocks,
    }
    if differ || (target_is_n && line.target.blocks != line.n) || places != line.n {
        return Err(11);
    }
    if line.parts == 0 {
        return Ok(());
    }
    // The places are N by now, and N is within the work area.
    let marks = marks.clear(line.n as usize);
    if let Some(set) = line.places {
        mark(list, &set, marks)?;
    }
    for (_, set) in line.parts(list) {
        mark(list, &set, marks)?;
    }
    Ok(())
}

fn mark(list: &[u8], set: &Set, marks: &mut [bool]) -> Result<(), usize> {
    for (start, end) in set.pairs(list) {
        for place in start..end {
            if place >= marks.len() || marks[place] {
                return Err(12);
            }
            marks[place] = true;
        }
    }
    Ok(())
}
