//! Which bytes a run writes up to its next stop: document 02, R-9.

use super::read::{blocks, size, Command};
use super::run::{start_of, Part, Run};
use super::{begin, to_stop, Did};
use crate::{Areas, State, BLOCK};
use std::ops::Range;

/// Bytes of each area, as ranges in rising order that neither overlap nor touch.
#[derive(Clone, PartialEq, Eq, Debug, Default)]
pub struct Writes {
    pub image: Vec<Range<usize>>,
    pub stash: Vec<Range<usize>>,
    pub work: Vec<Range<usize>>,
    pub result: Vec<Range<usize>>,
}

impl Writes {
    /// Gives each of the bytes another value: what `value` makes of the old one.
    pub fn scramble(&self, areas: &mut Areas, mut value: impl FnMut(u8) -> u8) {
        let Areas { image, stash, work, result, .. } = areas;
        for (area, ranges) in [(image, &self.image), (stash, &self.stash), (work, &self.work), (result, &self.result)] {
            ranges.iter().cloned().for_each(|range| area[range].iter_mut().for_each(|byte| *byte = value(*byte)));
        }
    }

    /// How many bytes they are.
    pub fn count(&self) -> usize {
        [&self.image, &self.stash, &self.work, &self.result].into_iter().flatten().map(Range::len).sum()
    }

    /// What a part of a line writes, whatever the bytes were before and are then.
    fn add(&mut self, run: &Run, did: Did) {
        let Did { part, command, held, into, bytes } = did;
        match (part, command) {
            (Part::Zeros, Command::Zero(target) | Command::Erase(target)) => self.image.extend(each(blocks(target))),
            (Part::New, Command::New(target)) => {
                // From the bytes into it on, as many as there were: of each block the part that lies between.
                self.image.extend(each(blocks(target)).enumerate().map(|(k, block)| {
                    let [from, to] = [into, into + bytes].map(|place| place.clamp(k * BLOCK, (k + 1) * BLOCK) - k * BLOCK);
                    block.start + from..block.start + to
                }));
            }
            (Part::Fill, Command::Move { n, .. }) => self.work.extend(each(0..*n as usize)),
            (Part::Fill, Command::Stash { source, .. }) => self.work.extend(each(0..size(source) as usize)),
            (Part::Fill, Command::Bsdiff { patch: (from, bytes), hash, target, n, .. }) => {
                self.work.extend(each(0..*n as usize));
                // Not where H differs or the patch is malformed.
                let (length, records) = (size(target) as usize * BLOCK, run.patch.iter().skip(*from as usize).take(*bytes as usize).copied());
                if run.gathered(*n as usize, hash).is_ok() && super::patch::result(records.collect(), &[], length).is_some() {
                    self.result.extend(each(0..size(target) as usize));
                }
            }
            (Part::Write, Command::Move { target, .. } | Command::Bsdiff { target, .. }) => self.image.extend(each(blocks(target))),
            (Part::Write, Command::Stash { source, .. }) => {
                let after = start_of(held, held.len());
                self.stash.extend(each(after..after + size(source) as usize));
            }
            (Part::Stretch(gap, from), _) => self.stash.extend(each(from.iter().map(|block| block - gap))),
            (Part::Skip | Part::Drop, _) => {}
            _ => unreachable!("a part of another line"),
        }
    }
}

/// The bytes of each block.
fn each(blocks: impl IntoIterator<Item = usize>) -> impl Iterator<Item = Range<usize>> {
    blocks.into_iter().map(|block| block * BLOCK..(block + 1) * BLOCK)
}

fn joined(mut ranges: Vec<Range<usize>>) -> Vec<Range<usize>> {
    ranges.retain(|range| !range.is_empty());
    ranges.sort_by_key(|range| range.start);
    let mut apart: Vec<Range<usize>> = Vec::new();
    for range in ranges {
        match apart.last_mut() {
            Some(last) if range.start <= last.end => last.end = last.end.max(range.end),
            _ => apart.push(range),
        }
    }
    apart
}

/// The bytes that the rules have the run write from this state to its next stop, or to its end where none comes: with all the new data that is
/// left, from the state's total on. A cut may leave anything in them. The areas stay as they are.
pub fn writes(list: &[u8], areas: &Areas, data: &[u8], state: &State) -> Writes {
    let (mut image, mut stash, mut work, mut result) = (areas.image.to_vec(), areas.stash.to_vec(), areas.work.to_vec(), areas.result.to_vec());
    let copies = Areas { image: &mut image, stash: &mut stash, work: &mut work, result: &mut result, patch: areas.patch };
    let mut written = Writes::default();
    if let Ok((mut run, rules)) = begin(list, copies, data, *state) {
        to_stop(list, &rules, &mut run, |run, did| written.add(run, did));
    }
    let Writes { image, stash, work, result } = written;
    Writes { image: joined(image), stash: joined(stash), work: joined(work), result: joined(result) }
}
