//! Calls.

use super::check::{check, Marks};
use super::command::{decode, Bsdiff, Command, Move};
use super::text::{Set, LEAST};
use super::{header, open, patch, Header};
use crate::sha1::Sha1;
use crate::{digest, Answer, Areas, Hash, Lengths, Outcome, Refusal, State, BLOCK, MOST_STASHES};

/// How a call ended, and the bytes of the piece that it took.
#[derive(Clone, Copy, PartialEq, Eq, Debug)]
pub struct Called {
    pub outcome: Outcome,
    pub taken: usize,
}

/// One call with one piece of new data; the state is changed where it lies.
pub fn call(list: &[u8], mut areas: Areas, piece: &[u8], state: &mut State) -> Called {
    if state.refusal.number != 0 {
        return refused(state.refusal, 0);
    }
    let mut marks = Marks::new();
    let Some(header) = possible(list, &Lengths::of(list, areas.rooms()), state, &mut marks) else {
        return refused(Refusal { number: 17, line: 0, byte: 0 }, 0);
    };
    let called = run_lines(list, &header, &mut areas, piece, state, &mut marks);
    state.total = state.total.wrapping_add(called.taken as u64);
    called
}

/// Calls until the run is done, needs more or is refused: after a stop the next piece is what was not taken. All bytes taken count.
pub fn call_on(list: &[u8], mut areas: Areas, piece: &[u8], state: &mut State) -> Called {
    let mut taken = 0;
    loop {
        let called = call(list, areas.reborrow(), &piece[taken..], state);
        taken += called.taken;
        if called.outcome != Outcome::Stop {
            return Called { outcome: called.outcome, taken };
        }
    }
}

fn refused(refusal: Refusal, taken: usize) -> Called {
    Called { outcome: Outcome::Refused(refusal), taken }
}

/// The header where 17 does not apply.
fn possible(list: &[u8], lengths: &Lengths, state: &State, marks: &mut Marks) -> Option<Header> {
    if *lengths != state.lengths {
        return None;
    }
    let header = header(list, lengths).ok()?;
    if state.at > list.len() || state.at < header.after || list[state.at - 1] != b'\n' {
        return None;
    }
    let mut line = 1usize;
    for byte in &list[..state.at] {
        line += (*byte == b'\n') as usize;
    }
    if state.line != line || state.count > MOST_STASHES {
        return None;
    }
    for k in 0..state.count {
        if state.sizes[k] == 0 {
            return None;
        }
        for j in 0..k {
            if state.hash(j) == state.hash(k) {
                return None;
            }
        }
    }
    if state.blocks(state.count) > header.blocks {
        return None;
    }
    if state.into == 0 && state.ready == 0 && state.stretches == 0 {
        return Some(header);
    }
    // The run is within a line, which must be one that can be left there.
    let command = decode(list, state.at, LEAST).ok()?.0;
    check(list, &header, lengths, state, marks, &command).ok()?;
    let within = match command {
        Command::New(target) => state.ready == 0 && state.stretches == 0 && target.blocks * BLOCK as u64 > state.into as u64,
        Command::Move(_) | Command::Bsdiff(_) | Command::Stash(..) => state.into == 0 && state.stretches == 0,
        Command::Free(hash) => state.into == 0 && state.ready == 0 && state.stretches < state.stretches_of(state.find(&hash)?),
        Command::Zero(_) | Command::Erase(_) => false,
    };
    within.then_some(header)
}

/// How far a line came.
enum Ran {
    /// To its end; the run goes on.
    On,
    /// To its end, and the run stops there.
    Stop,
    /// To a stop within it.
    Pause,
    /// To a byte of new data that is not there.
    Wait,
}

fn run_lines(list: &[u8], header: &Header, areas: &mut Areas, piece: &[u8], state: &mut State, marks: &mut Marks) -> Called {
    let lengths = state.lengths;
    let mut taken = 0;
    while state.at < list.len() {
        let outcome = match decode(list, state.at, LEAST) {
            Ok((command, next)) => match check(list, header, &lengths, state, marks, &command) {
                Ok(()) => run_command(list, areas, piece, state, &mut taken, &command).map(|ran| (ran, next)).map_err(|number| (number, 0)),
                Err(number) => Err((number, 0)),
            },
            Err(fault) => Err(fault),
        };
        let (ran, next) = match outcome {
            Ok(ran) => ran,
            Err((number, byte)) => {
                state.refusal = Refusal { number, line: state.line, byte };
                return refused(state.refusal, taken);
            }
        };
        if let Ran::On | Ran::Stop = ran {
            state.at = next;
            state.line += 1;
        }
        match ran {
            Ran::On => {}
            Ran::Stop | Ran::Pause => return Called { outcome: Outcome::Stop, taken },
            Ran::Wait => return Called { outcome: Outcome::More, taken },
        }
    }
    Called { outcome: Outcome::Done, taken }
}

/// Runs a checked command, from where the state stands in it to its end or to where the call ends.
fn run_command(list: &[u8], areas: &mut Areas, piece: &[u8], state: &mut State, taken: &mut usize, command: &Command) -> Result<Ran, usize> {
    match command {
        Command::Zero(target) | Command::Erase(target) => {
            for (start, end) in target.pairs(list) {
                areas.image[start * BLOCK..end * BLOCK].fill(0);
            }
            return Ok(Ran::On);
        }
        Command::New(target) => return Ok(if run_new(list, areas.image, piece, state, taken, target) { Ran::On } else { Ran::Wait }),
        Command::Free(hash) => return run_free(areas.stash, state, hash),
        Command::Move(line) => {
            if state.ready != 0 {
                spread(list, areas.image, areas.work, &line.target);
            } else if !holds(list, areas.image, &line.target, &line.hash) {
                gather(list, areas, state, line)?;
                return Ok(filled(state));
            }
        }
        Command::Bsdiff(Bsdiff { from, bytes, result, line }) => {
            if state.ready != 0 {
                spread(list, areas.image, areas.result, &line.target);
            } else if !holds(list, areas.image, &line.target, result) {
                gather(list, areas, state, line)?;
                let records = &areas.patch[*from as usize..][..*bytes as usize];
                let target = &mut areas.result[..line.target.blocks as usize * BLOCK];
                if !patch::fits(records, target.len()) {
                    return Err(19);
                }
                patch::apply(records, &areas.work[..line.n as usize * BLOCK], target);
                if digest(target) != *result {
                    return Err(16);
                }
                return Ok(filled(state));
            }
        }
        Command::Stash(hash, source) => {
            let n = source.blocks as usize;
            if state.ready == 0 {
                for (k, block) in source.each(list).enumerate() {
                    areas.work[k * BLOCK..][..BLOCK].copy_from_slice(&areas.image[block * BLOCK..][..BLOCK]);
                }
                if digest(&areas.work[..n * BLOCK]) != *hash {
                    return Err(16);
                }
                return Ok(filled(state));
            }
            let after = state.blocks(state.count) as usize;
            areas.stash[after * BLOCK..][..n * BLOCK].copy_from_slice(&areas.work[..n * BLOCK]);
            state.hold(hash, n);
        }
    }
    // It is written, or it was finished before.
    state.ready = 0;
    Ok(Ran::Stop)
}

/// The stop between filling an area and writing from it.
fn filled(state: &mut State) -> Ran {
    state.ready = 1;
    Ran::Pause
}

/// One stretch of the younger stashes, no longer than the gap, goes down by the gap; with the last one, or where there is none, the stash is
/// dropped.
fn run_free(stash: &mut [u8], state: &mut State, hash: &Hash) -> Result<Ran, usize> {
    let j = state.find(hash).ok_or(10usize)?;
    let gap = state.sizes[j];
    let end = state.blocks(state.count) as usize;
    let to = state.blocks(j) as usize + state.stretches * gap;
    let from = to + gap;
    if from == end {
        state.drop_stash(j);
        return Ok(Ran::On);
    }
    let n = gap.min(end - from);
    stash.copy_within(from * BLOCK..(from + n) * BLOCK, to * BLOCK);
    if from + n < end {
        state.stretches += 1;
        return Ok(Ran::Pause);
    }
    state.stretches = 0;
    state.drop_stash(j);
    Ok(Ran::Stop)
}

fn run_new(list: &[u8], image: &mut [u8], piece: &[u8], state: &mut State, taken: &mut usize, target: &Set) -> bool {
    let mut skip = state.into;
    for (start, end) in target.pairs(list) {
        let length = (end - start) * BLOCK;
        if skip >= length {
            skip -= length;
            continue;
        }
        let room = length - skip;
        let n = room.min(piece.len() - *taken);
        image[start * BLOCK + skip..][..n].copy_from_slice(&piece[*taken..*taken + n]);
        *taken += n;
        state.into += n;
        if n < room {
            return false;
        }
        skip = 0;
    }
    state.into = 0;
    true
}

/// Whether the target has this hash already, so that its line has nothing left to do. It is hashed where it lies, range by range in the written
/// order.
fn holds(list: &[u8], image: &[u8], target: &Set, hash: &Hash) -> bool {
    let mut sha1 = Sha1::new();
    for (start, end) in target.pairs(list) {
        sha1.add(&image[start * BLOCK..end * BLOCK]);
    }
    sha1.end(&[]) == *hash
}

/// The area's first blocks go over the target, in the written order.
fn spread(list: &[u8], image: &mut [u8], area: &[u8], target: &Set) {
    for (k, block) in target.each(list).enumerate() {
        image[block * BLOCK..][..BLOCK].copy_from_slice(&area[k * BLOCK..][..BLOCK]);
    }
}

/// Puts a source together in the work area; 16 where it does not have its hash.
fn gather(list: &[u8], areas: &mut Areas, state: &State, line: &Move) -> Result<(), usize> {
    if let Some(source) = line.source {
        match line.places {
            Some(places) => {
                for (place, block) in places.each(list).zip(source.each(list)) {
                    areas.work[place * BLOCK..][..BLOCK].copy_from_slice(&areas.image[block * BLOCK..][..BLOCK]);
                }
            }
            None => {
                for (place, block) in source.each(list).enumerate() {
                    areas.work[place * BLOCK..][..BLOCK].copy_from_slice(&areas.image[block * BLOCK..][..BLOCK]);
                }
            }
        }
    }
    for (hash, places) in line.parts(list) {
        if let Some(k) = state.find(&hash) {
            let from = state.blocks(k) as usize;
            for (j, place) in places.each(list).enumerate() {
                areas.work[place * BLOCK..][..BLOCK].copy_from_slice(&areas.stash[(from + j) * BLOCK..][..BLOCK]);
            }
        }
    }
    if digest(&areas.work[..line.n as usize * BLOCK]) != line.hash {
        return Err(16);
    }
    Ok(())
}

/// Opens, then calls with pieces of data of the given lengths, cut short where data ends, and a last piece with the rest; past every stop.
pub fn run(list: &[u8], mut areas: Areas, data: &[u8], cuts: &[usize]) -> Answer {
    let mut state = open(list, areas.rooms());
    if state.refusal.number != 0 {
        return Answer { state, outcome: Outcome::Refused(state.refusal), taken: 0 };
    }
    let mut outcome = Outcome::More;
    let mut taken = 0;
    let mut rest = data;
    for cut in cuts.iter().copied().chain([usize::MAX]) {
        let (piece, after) = rest.split_at(cut.min(rest.len()));
        let called = call_on(list, areas.reborrow(), piece, &mut state);
        outcome = called.outcome;
        taken += called.taken;
        rest = after;
    }
    Answer { state, outcome, taken }
}
