//! Lines whose target holds already what they would write, and lines that are near to that: document 02, R-8.

use super::command::{Command, Source};
use super::good::Follow;
use super::patch;
use super::sets::{any_set, blocks_of, place_set, size, Set};
use super::{Blocks, Rng, World};

/// Blocks of a target that may each be a range of its own: more would fill the list.
const FEW: usize = 64;

/// A line that ran: the source that it had, and what it put over its target.
#[derive(Clone)]
pub(super) struct Ran {
    command: Command,
    target: Set,
    whole: Vec<u8>,
    made: Vec<u8>,
}

impl Follow {
    /// A `move` of this source, which runs.
    pub(super) fn move_of(&mut self, blocks: &mut Blocks, (whole, source): (&[u8], Source), target: Set) -> Command {
        let hash = blocks.digest(whole);
        self.runs(Command::Move { hash, target, n: whole.len() as u32, source }, whole, whole)
    }

    /// Follows a `move` or a `bsdiff` that runs.
    pub(super) fn runs(&mut self, mut command: Command, whole: &[u8], made: &[u8]) -> Command {
        if let Some((target, _)) = command.made() {
            let target = target.clone();
            self.write(&target, made);
            self.ran.push(Ran { command: command.clone(), target, whole: whole.to_vec(), made: made.to_vec() });
        }
        command
    }

    /// A source put together, where the stashes that it names are held.
    fn gather(&self, command: &Command) -> Option<Vec<u8>> {
        let (source, n) = command.source()?;
        let mut whole = vec![0; n as usize];
        let mut fill = |places: &Set, ids: &[u8]| blocks_of(places).zip(ids).for_each(|(place, id)| whole[place] = *id);
        let parts = match source {
            Source::Image(set) => return Some(self.read(set)),
            Source::Stashes(parts) => parts,
            Source::Both(set, places, parts) => {
                fill(places, &self.read(set));
                parts
            }
        };
        for (hash, places) in parts {
            fill(places, &self.held.iter().find(|stash| stash.0 == *hash)?.1);
        }
        Some(whole)
    }

    /// Some line that ran, with its target as it left it.
    fn some_ran(&self, rng: &mut Rng, is: impl Fn(&Command) -> bool) -> Option<&Ran> {
        let count = self.ran.len();
        let from = rng.below(count);
        let mut some = (0..count.min(20)).map(|k| &self.ran[(from + k) % count]);
        some.find(|ran| is(&ran.command) && self.read(&ran.target) == ran.made)
    }

    /// The line once more, where its source is still what it was.
    fn once_more(&mut self, Ran { command, whole, made, .. }: Ran) -> Option<Command> {
        (self.gather(&command)? == whole).then(|| self.runs(command, &whole, &made))
    }
}

impl World {
    /// A line that has nothing left to do: its target has its hash, whatever its source and its patch are.
    pub(super) fn good_finished(&mut self, rng: &mut Rng, blocks: &mut Blocks, follow: &Follow) -> Option<Command> {
        match rng.below(9) {
            0..=2 => {
                let again = follow.some_ran(rng, |command| follow.gather(command).is_some())?;
                Some(again.command.clone())
            }
            // Onto its own place.
            3 => {
                let n = follow.some(rng, self.work)?;
                let target = any_target(rng, n, follow.image.len());
                let hash = blocks.digest(&follow.read(&target));
                Some(Command::Move { hash, target: target.clone(), n: n as u32, source: Source::Image(target) })
            }
            4 | 5 => self.finished_move(rng, blocks, follow),
            _ => self.finished_bsdiff(rng, blocks, follow),
        }
    }

    /// Any source; its hash would mostly differ.
    fn finished_move(&self, rng: &mut Rng, blocks: &mut Blocks, follow: &Follow) -> Option<Command> {
        let (whole, source) = self.good_source(rng, follow)?;
        let target = any_target(rng, whole.len(), follow.image.len());
        Some(Command::Move { hash: blocks.digest(&follow.read(&target)), target, n: whole.len() as u32, source })
    }

    /// Any source, mostly with its hash, and any patch: one that makes the target, one that makes something else, or none that is good. A move where
    /// there is patch data enough.
    fn finished_bsdiff(&mut self, rng: &mut Rng, blocks: &mut Blocks, follow: &Follow) -> Option<Command> {
        if follow.is_enough(&self.patch) {
            return self.finished_move(rng, blocks, follow);
        }
        let (whole, source) = self.good_source(rng, follow)?;
        let k = follow.some(rng, self.result)?;
        let target = any_target(rng, k, follow.image.len());
        let there = follow.read(&target);
        let mut makes = there.clone();
        let kind = rng.below(6);
        if kind < 2 {
            makes[rng.below(k)] ^= 1;
        }
        let (from, mut bytes) = self.put_patch(rng, blocks, &whole, &makes);
        match kind {
            2 | 3 => patch::spoil(rng, &mut self.patch[from as usize..]),
            4 => bytes = bytes.saturating_sub(rng.pick(&[1, bytes])),
            _ => {}
        }
        let mut hash = blocks.digest(&whole);
        if rng.one_in(4) {
            hash[rng.below(20)] ^= 1 << rng.below(8);
        }
        Some(Command::Bsdiff { from, bytes, hash, result: blocks.digest(&there), target, n: whole.len() as u32, source })
    }

    /// A line that runs, though its target is near to what it writes. What brings it near stands before it.
    pub(super) fn good_near(&mut self, rng: &mut Rng, blocks: &mut Blocks, follow: &mut Follow) -> Option<Command> {
        match rng.below(7) {
            0..=2 => self.one_block_lost(rng, follow),
            3 | 4 => self.in_rising_order(rng, blocks, follow),
            5 if !follow.is_enough(&self.patch) => self.over_its_source(rng, blocks, follow),
            _ => self.over_a_result(rng, blocks, follow),
        }
    }

    /// A line once more, after a block of what it left has got other bytes.
    fn one_block_lost(&mut self, rng: &mut Rng, follow: &mut Follow) -> Option<Command> {
        let ran = follow.some_ran(rng, |_| true)?.clone();
        let all: Vec<usize> = blocks_of(&ran.target).collect();
        let block = rng.pick(&[all[0], all[all.len() - 1], all[all.len() / 2]]);
        self.other_block(block, follow);
        follow.once_more(ran)
    }

    /// A line whose blocks are there already, but in rising order, where its target has another.
    fn in_rising_order(&mut self, rng: &mut Rng, blocks: &mut Blocks, follow: &mut Follow) -> Option<Command> {
        let (whole, source) = self.good_source(rng, follow)?;
        let moved = follow.is_enough(&self.patch) || rng.percent(50);
        let k = if moved { whole.len() } else { follow.some(rng, self.result)? };
        if k > FEW {
            return None;
        }
        let mut places = shuffled(rng, follow.image.len()).get(..k)?.to_vec();
        let written = place_set(rng, &places);
        places.sort();
        let rising = place_set(rng, &places);
        let command = if moved {
            follow.move_of(blocks, (&whole, source), rising)
        } else {
            let made: Vec<u8> = (0..k).map(|_| rng.below(12) as u8).collect();
            self.bsdiff_of(rng, blocks, (&whole, source), (&made, rising), follow)
        };
        self.commands.push(command);
        let mut ran = follow.ran.last()?.clone();
        *ran.command.made()?.0 = written.clone();
        ran.target = written;
        follow.once_more(ran)
    }

    /// A patch over its own source: its target has H, and is to have T.
    fn over_its_source(&mut self, rng: &mut Rng, blocks: &mut Blocks, follow: &mut Follow) -> Option<Command> {
        let n = follow.some(rng, self.work.min(self.result))?;
        let set = any_set(rng, n, follow.image.len());
        let whole = follow.read(&set);
        let mut made = whole.clone();
        made[rng.below(n)] ^= 1;
        Some(self.bsdiff_of(rng, blocks, (&whole, Source::Image(set.clone())), (&made, set), follow))
    }

    /// A move over what a patch made.
    fn over_a_result(&self, rng: &mut Rng, blocks: &mut Blocks, follow: &mut Follow) -> Option<Command> {
        let target = follow.some_ran(rng, |command| matches!(command, Command::Bsdiff { .. }))?.target.clone();
        let n = size(&target) as usize;
        if n > self.work {
            return None;
        }
        let source = any_set(rng, n, follow.image.len());
        let whole = follow.read(&source);
        Some(follow.move_of(blocks, (&whole, Source::Image(source)), target))
    }

    /// A block gets other bytes.
    fn other_block(&mut self, block: usize, follow: &mut Follow) {
        let set = vec![(block as u32, block as u32 + 1)];
        let zeros = follow.image[block] == 0;
        follow.write(&set, &[zeros as u8]);
        if zeros {
            self.data.push(1);
        }
        self.commands.push(if zeros { Command::New(set) } else { Command::Zero(set) });
    }

    /// A line that might stand here and is refused here: with 16, since it is near to being finished and no more, or with another number although it
    /// is finished.
    pub(super) fn note_refused(&mut self, rng: &mut Rng, blocks: &mut Blocks, follow: &Follow) {
        let finished = if rng.percent(50) { self.finished_move(rng, blocks, follow) } else { self.finished_bsdiff(rng, blocks, follow) };
        let refused = finished.and_then(|command| match rng.percent(60) {
            true => nearly(rng, blocks, follow, command),
            false => self.unfit(rng, blocks, follow, command),
        });
        self.refused.extend(refused.map(|command| (self.commands.len(), command)));
    }

    /// 8 to 12 or 18 for a line whose target has its hash.
    fn unfit(&self, rng: &mut Rng, blocks: &mut Blocks, follow: &Follow, mut command: Command) -> Option<Command> {
        let bound = self.image.len();
        if let Command::Bsdiff { from, bytes, result, target, .. } = &mut command {
            match rng.below(8) {
                0..=2 => {
                    *from = (self.patch.len() as u32 + 1).saturating_sub(*bytes);
                    return Some(command);
                }
                3 if self.result < FEW => {
                    *target = any_set(rng, self.result + 1, bound);
                    *result = blocks.digest(&follow.read(target));
                    return Some(command);
                }
                _ => {}
            }
        }
        let (_, n, source) = command.moved()?;
        let (work, bound) = (self.work as u32, bound as u32);
        let (from, parts) = match source {
            Source::Image(set) => (Some(set), None),
            Source::Stashes(parts) => (None, Some(parts)),
            Source::Both(set, _, parts) => (Some(set), Some(parts)),
        };
        let some = parts.map(|parts| {
            let k = rng.below(parts.len());
            &mut parts[k]
        });
        let kind = if some.is_some() { rng.pick(&[0, 1, 3, 3, 3, 4, 4, 5, 5, 6]) } else { rng.pick(&[0, 1, 2, 6]) };
        match (kind, from, some) {
            (0, Some(set), _) => set.push((bound, bound + 1)),
            (1, _, _) => *n = work + 1,
            (2, Some(set), _) => set.extend((0..=work).map(|_| (0, 1))),
            (3, _, Some((hash, _))) => hash[19] ^= 0x55,
            (4, _, Some((_, places))) => *places = vec![(*n, *n + size(places) as u32)],
            (5, _, Some((_, places))) if *n as u64 > size(places) => {
                // Mostly over places that are another's.
                let first = if places[0].0 == 0 { 1 } else { 0 };
                *places = vec![(first, first + size(places) as u32)];
            }
            _ => *n = n.saturating_sub(1),
        }
        Some(command)
    }

    /// Puts one of the lines that are refused where it may stand. Line 2 counts it.
    pub fn put_refused(&mut self, rng: &mut Rng) {
        let (at, command) = self.refused[rng.below(self.refused.len())].clone();
        self.commands.insert(at, command);
        self.header[1] = self.total();
    }
}

/// The hash is not that of the target, but of a part of it, of its blocks in another order, of each of them once, or is a bit away.
fn nearly(rng: &mut Rng, blocks: &mut Blocks, follow: &Follow, mut command: Command) -> Option<Command> {
    let n = command.source()?.1 as usize;
    let (target, hash) = command.made()?;
    let (k, bound) = (size(target) as usize, follow.image.len());
    let kind = if k > 1 { rng.below(9) } else { 8 };
    if kind == 8 && rng.percent(80) {
        return None;
    }
    match kind {
        2 | 3 if k <= bound => *target = apart(rng, k, bound),
        4 | 5 => *target = with_twice(rng, k, bound),
        _ => {}
    }
    let order: Vec<usize> = blocks_of(target).collect();
    let mut other = order.clone();
    match kind {
        0 => other.truncate(1),
        1 => drop(other.drain(..k - 1)),
        2 | 3 => other.sort(),
        4 | 5 => other = (0..k).filter(|j| !order[..*j].contains(&order[*j])).map(|j| order[j]).collect(),
        6 | 7 if n < k => other.truncate(n),
        _ => {}
    }
    let ids = |order: &[usize]| -> Vec<u8> { order.iter().map(|block| follow.image[*block]).collect() };
    *hash = blocks.digest(&ids(&other));
    if other == order {
        hash[rng.below(20)] ^= 1 << rng.below(8);
    }
    (other == order || ids(&other) != ids(&order)).then_some(command)
}

/// A target of k blocks, often with one that comes twice, or with each by itself in any order.
fn any_target(rng: &mut Rng, k: usize, bound: usize) -> Set {
    match rng.below(4) {
        0 if k > 1 => with_twice(rng, k, bound),
        1 if k <= bound && k <= FEW => apart(rng, k, bound),
        _ => any_set(rng, k, bound),
    }
}

/// k blocks, two at least, of which some comes twice.
fn with_twice(rng: &mut Rng, k: usize, bound: usize) -> Set {
    let mut set = any_set(rng, k - 1, bound);
    let (start, _) = set[rng.below(set.len())];
    set.insert(rng.below(set.len() + 1), (start, start + 1));
    set
}

/// k blocks, none of them twice, in any order.
fn apart(rng: &mut Rng, k: usize, bound: usize) -> Set {
    let places = shuffled(rng, bound);
    place_set(rng, &places[..k])
}

fn shuffled(rng: &mut Rng, bound: usize) -> Vec<usize> {
    let mut places: Vec<usize> = (0..bound).collect();
    rng.shuffle(&mut places);
    places
}
