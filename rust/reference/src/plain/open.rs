//! Opening.

use super::check::{check, Marks};
use super::command::{decode, Bsdiff, Command, Move};
use super::header;
use super::text::LEAST;
use crate::{Lengths, Refusal, Rooms, State};

/// Opens a list for areas and patch data of these lengths.
pub fn open(list: &[u8], rooms: Rooms) -> State {
    open_with(list, rooms, LEAST)
}

/// The same where a range must have so many blocks at least: 1, or 0 as before R-7.
pub fn open_with(list: &[u8], rooms: Rooms, least: u64) -> State {
    let lengths = Lengths::of(list, rooms);
    match opening(list, &lengths, least) {
        Ok(at) => State { line: 5, at, lengths, ..State::ZERO },
        Err(refusal) => State { refusal, ..State::ZERO },
    }
}

fn opening(list: &[u8], lengths: &Lengths, least: u64) -> Result<usize, Refusal> {
    let header = header(list, lengths)?;
    let mut held = State::ZERO;
    let mut marks = Marks::new();
    // 64 bits: of a list of 4 MiB the sets have fewer than 2^20 ranges of fewer than 2^32 blocks.
    let mut total = 0u64;
    let mut at = header.after;
    let mut line = 5;
    while at < list.len() {
        let (command, next) = decode(list, at, least).map_err(|(number, byte)| Refusal { number, line, byte })?;
        check(list, &header, lengths, &held, &mut marks, &command).map_err(|number| Refusal { number, line, byte: 0 })?;
        match command {
            Command::New(target) | Command::Zero(target) => total += target.blocks,
            Command::Move(Move { target, .. }) | Command::Bsdiff(Bsdiff { line: Move { target, .. }, .. }) => total += target.blocks,
            Command::Stash(hash, source) => held.hold(&hash, source.blocks as usize),
            Command::Free(hash) => {
                if let Some(j) = held.find(&hash) {
                    held.drop_stash(j);
                }
            }
            Command::Erase(_) => {}
        }
        at = next;
        line += 1;
    }
    if total != header.total {
        return Err(Refusal { number: 15, line: 2, byte: 0 });
    }
    Ok(header.after)
}
