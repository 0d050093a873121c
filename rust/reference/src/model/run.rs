//! What the parts of a line do.

use super::read::{blocks, size, Command, Ranges, Source};
use super::{patch, Held};
use crate::{digest, Answer, Outcome, Refusal, State, BLOCK};

/// The stashes before the k-th have so many blocks.
pub(super) fn start_of(held: &Held, k: usize) -> usize {
    held[..k].iter().map(|stash| stash.1 as usize).sum()
}

/// Which of the stashes has this name; a line that passed its checks names held ones alone.
pub(super) fn index_of(held: &Held, name: &[u8]) -> usize {
    held.iter().position(|stash| stash.0 == name).expect("held")
}

/// The blocks of the younger stashes, by stretches of as many as the stash has that goes.
pub(super) fn stretches(held: &Held, name: &[u8]) -> Vec<Vec<usize>> {
    let j = index_of(held, name);
    let younger: Vec<usize> = (start_of(held, j + 1)..start_of(held, held.len())).collect();
    younger.chunks(held[j].1 as usize).map(<[usize]>::to_vec).collect()
}

/// Copies blocks: those of `from` in one area to those of `to` in another.
fn put(into: &mut [u8], area: &[u8], from: &[usize], to: &[usize]) {
    for (block, place) in from.iter().zip(to) {
        into[place * BLOCK..(place + 1) * BLOCK].copy_from_slice(&area[block * BLOCK..(block + 1) * BLOCK]);
    }
}

fn first(n: usize) -> Vec<usize> {
    (0..n).collect()
}

/// A part of a line. Where a line has several, there is a stop behind each.
pub(super) enum Part {
    Zeros,
    New,
    /// The target has its hash already.
    Skip,
    /// The source goes into the work area, and for a `bsdiff` its result into the result area.
    Fill,
    /// What the area holds goes to its place.
    Write,
    /// So many blocks down go these of the stash area.
    Stretch(usize, Vec<usize>),
    /// No stash is younger than the one that goes.
    Drop,
    /// All younger stashes go down, as they do where there are no stops.
    Free,
}

impl Part {
    pub(super) fn stops(&self) -> bool {
        match self {
            Part::Zeros | Part::New | Part::Drop | Part::Free => false,
            Part::Skip | Part::Fill | Part::Write | Part::Stretch(..) => true,
        }
    }
}

/// How a call ends; a refusal with its number and byte.
pub(super) enum End {
    Done,
    More,
    Stop,
    Refused(usize, usize),
}

/// A call while it runs: what it is lent, where it stands, and what it has taken.
pub(super) struct Run<'a> {
    pub(super) image: &'a mut [u8],
    pub(super) stash: &'a mut [u8],
    pub(super) work: &'a mut [u8],
    pub(super) result: &'a mut [u8],
    pub(super) patch: &'a [u8],
    pub(super) piece: &'a [u8],
    pub(super) state: State,
    pub(super) taken: usize,
}

impl Run<'_> {
    /// A refusal is held; the bytes taken are added to those of before.
    pub(super) fn answers(mut self, end: End) -> Answer {
        self.state.total = ((self.state.total as u128 + self.taken as u128) % (1 << 64)) as u64;
        let outcome = match end {
            End::Done => Outcome::Done,
            End::More => Outcome::More,
            End::Stop => Outcome::Stop,
            End::Refused(number, byte) => {
                self.state.refusal = Refusal { number, line: self.state.line, byte };
                Outcome::Refused(self.state.refusal)
            }
        };
        Answer { state: self.state, outcome, taken: self.taken }
    }

    /// The parts of a line that are still to be done, at least one.
    pub(super) fn left(&self, command: &Command, held: &Held) -> Vec<Part> {
        match command {
            Command::Zero(_) | Command::Erase(_) => vec![Part::Zeros],
            Command::New(_) => vec![Part::New],
            Command::Free { hash } => {
                let gap = held[index_of(held, hash)].1 as usize;
                let all: Vec<Part> = stretches(held, hash).into_iter().map(|blocks| Part::Stretch(gap, blocks)).collect();
                match all.is_empty() {
                    true => vec![Part::Drop],
                    false => all.into_iter().skip(self.state.stretches).collect(),
                }
            }
            _ if self.state.ready != 0 => vec![Part::Write],
            Command::Move { hash, target, .. } if self.finished(target, hash) => vec![Part::Skip],
            Command::Bsdiff { result, target, .. } if self.finished(target, result) => vec![Part::Skip],
            Command::Move { .. } | Command::Bsdiff { .. } | Command::Stash { .. } => vec![Part::Fill, Part::Write],
        }
    }

    /// Does one part, or as much of it as can be done.
    pub(super) fn does(&mut self, part: &Part, command: &Command, held: &Held) -> Result<(), End> {
        match (part, command) {
            (Part::Zeros, Command::Zero(target) | Command::Erase(target)) => self.zeros(target),
            (Part::New, Command::New(target)) => return self.new_data(target),
            (Part::Fill, _) => {
                self.fill(command, held).map_err(|number| End::Refused(number, 0))?;
                self.state.ready = 1;
            }
            (Part::Write, Command::Move { target, n, .. }) => put(self.image, self.work, &first(*n as usize), &blocks(target)),
            (Part::Write, Command::Bsdiff { target, .. }) => put(self.image, self.result, &first(size(target) as usize), &blocks(target)),
            (Part::Write, Command::Stash { source, .. }) => {
                let after = start_of(held, held.len());
                let places: Vec<usize> = (after..).take(size(source) as usize).collect();
                put(self.stash, self.work, &first(places.len()), &places);
            }
            (Part::Stretch(gap, from), _) => {
                let (first, last) = (from[0], from[from.len() - 1]);
                let moved = self.stash[first * BLOCK..(last + 1) * BLOCK].to_vec();
                self.stash[(first - gap) * BLOCK..][..moved.len()].copy_from_slice(&moved);
                self.state.stretches += 1;
            }
            (Part::Free, Command::Free { hash }) => {
                let j = index_of(held, hash);
                let kept = self.stash[start_of(held, j + 1) * BLOCK..start_of(held, held.len()) * BLOCK].to_vec();
                self.stash[start_of(held, j) * BLOCK..][..kept.len()].copy_from_slice(&kept);
            }
            (Part::Skip | Part::Drop, _) => {}
            _ => unreachable!("a part of another line"),
        }
        Ok(())
    }

    /// The line is over: the next one is the current one, with the stashes that are then held.
    pub(super) fn passes(&mut self, command: &Command, held: &Held, length: usize) {
        let mut now = held.to_vec();
        match command {
            Command::Stash { hash, source } => now.push((hash.clone(), size(source))),
            Command::Free { hash } => now.retain(|stash| stash.0 != *hash),
            _ => {}
        }
        for (k, (hash, size)) in now.iter().enumerate() {
            self.state.hashes[20 * k..][..20].copy_from_slice(hash);
            self.state.sizes[k] = *size as usize;
        }
        self.state.count = now.len();
        (self.state.ready, self.state.stretches) = (0, 0);
        self.state.at += length;
        self.state.line += 1;
    }

    /// The target's blocks, joined in the written order, have this hash already.
    fn finished(&self, target: &Ranges, hash: &[u8]) -> bool {
        let joined: Vec<u8> = blocks(target).into_iter().flat_map(|block| &self.image[block * BLOCK..(block + 1) * BLOCK]).copied().collect();
        digest(&joined)[..] == *hash
    }

    fn zeros(&mut self, target: &Ranges) {
        for block in blocks(target) {
            self.image[block * BLOCK..(block + 1) * BLOCK].fill(0);
        }
    }

    /// Byte by byte.
    fn new_data(&mut self, target: &Ranges) -> Result<(), End> {
        let order = blocks(target);
        while self.state.into < order.len() * BLOCK {
            if self.taken == self.piece.len() {
                return Err(End::More);
            }
            self.image[order[self.state.into / BLOCK] * BLOCK + self.state.into % BLOCK] = self.piece[self.taken];
            self.taken += 1;
            self.state.into += 1;
        }
        self.state.into = 0;
        Ok(())
    }

    /// Fills the area that the line will be written from; or 16, or 19.
    fn fill(&mut self, command: &Command, held: &Held) -> Result<(), usize> {
        match command {
            Command::Move { hash, n, source, .. } => self.gather(held, hash, *n as usize, source),
            Command::Stash { hash, source } => {
                put(self.work, self.image, &blocks(source), &first(size(source) as usize));
                self.gathered(size(source) as usize, hash)
            }
            Command::Bsdiff { patch, hash, result, target, n, source } => {
                self.gather(held, hash, *n as usize, source)?;
                let records = self.patch.iter().skip(patch.0 as usize).take(patch.1 as usize).copied().collect();
                let made = patch::result(records, &self.work[..*n as usize * BLOCK], size(target) as usize * BLOCK).ok_or(19usize)?;
                self.result[..made.len()].copy_from_slice(&made);
                if digest(&made)[..] == **result {
                    Ok(())
                } else {
                    Err(16)
                }
            }
            _ => unreachable!("a line without an area to fill"),
        }
    }

    /// Puts a source together.
    fn gather(&mut self, held: &Held, hash: &[u8], n: usize, source: &Source) -> Result<(), usize> {
        let nothing = Vec::new();
        let parts = match source {
            Source::Image(from) => {
                put(self.work, self.image, &blocks(from), &first(n));
                &nothing
            }
            Source::Both(from, places, parts) => {
                put(self.work, self.image, &blocks(from), &blocks(places));
                parts
            }
            Source::Stashes(parts) => parts,
        };
        for (name, places) in parts {
            let k = index_of(held, name);
            let from: Vec<usize> = (start_of(held, k)..start_of(held, k + 1)).collect();
            put(self.work, self.stash, &from, &blocks(places));
        }
        self.gathered(n, hash)
    }

    /// Whether the first n blocks of the work area have this hash.
    pub(super) fn gathered(&self, n: usize, hash: &[u8]) -> Result<(), usize> {
        if digest(&self.work[..n * BLOCK])[..] == *hash {
            Ok(())
        } else {
            Err(16)
        }
    }
}
