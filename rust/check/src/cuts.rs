//! Power cuts: lists run stop by stop, and taken up again from every saved form over areas as a cut may leave them (document 02, R-9).
//!
//! A segment goes from the opening or a stop to the next stop, or to where the run ends. What the rules have the run write in it, its W, is the
//! model's (`reference::model::writes`). At a cut W holds anything, of which these are tried: the first bytes of it new and the rest random, or as it
//! was; all of it random, or each bit turned. The run then goes on from the saved form and with the new data from its total, cut anew.

use crate::generate::{Blocks, Rng, Sizes, World};
use crate::Implementation;
use reference::model::{writes, Writes};
use reference::{Answer, Areas, Outcome, Rooms, State, BLOCK};
use std::ops::Range;

/// What a segment is, by how it ends; then what else it has.
const SEGMENTS: [&str; 18] = [
    "a move filled",
    "a stash filled",
    "a bsdiff filled",
    "a move written",
    "a stash held",
    "a bsdiff written",
    "a line passed over",
    "a stretch with others behind it",
    "a last stretch",
    "the end, done",
    "the end, more",
    "the end, refused",
    "a source of the image",
    "a source of stashes",
    "a source of both",
    "zeros on the way",
    "new data on the way",
    "a stash freed on the way",
];

/// The areas, as they are in storage.
#[derive(Clone, PartialEq)]
struct Stored {
    image: Vec<u8>,
    stash: Vec<u8>,
    work: Vec<u8>,
    result: Vec<u8>,
}

impl Stored {
    fn areas<'a>(&'a mut self, patch: &'a [u8]) -> Areas<'a> {
        let Stored { image, stash, work, result } = self;
        Areas { image, stash, work, result, patch }
    }

    fn each(&mut self) -> [&mut Vec<u8>; 4] {
        [&mut self.image, &mut self.stash, &mut self.work, &mut self.result]
    }

    /// Which area is another.
    fn difference(&self, other: &Stored) -> Option<&'static str> {
        match () {
            _ if self.image != other.image => Some("the image"),
            _ if self.stash != other.stash => Some("the stash area"),
            _ if self.work != other.work => Some("the work area"),
            _ if self.result != other.result => Some("the result area"),
            _ => None,
        }
    }
}

/// Where a run can be taken up: what storage has at the opening or at a stop.
#[derive(Clone)]
struct Stand {
    stored: Stored,
    form: Vec<u8>,
    state: State,
}

/// A list with all that it needs, and the implementation that runs it.
struct Run<'a> {
    on: &'a dyn Implementation,
    list: Vec<u8>,
    patch: Vec<u8>,
    data: Vec<u8>,
}

/// How a run ended.
struct End {
    answer: Answer,
    stored: Stored,
}

impl Run<'_> {
    /// Goes on from a state over these areas, with the new data from its total on in pieces of any lengths, to where the run ends. At each stop the
    /// state is saved, and goes on as it is read back.
    fn finish(&self, rng: &mut Rng, mut stored: Stored, mut state: State, mut stop: impl FnMut(Stand)) -> Result<End, String> {
        let mut from = self.from(&state)?;
        let mut end = from;
        loop {
            if from == end || rng.percent(70) {
                let left = self.data.len() - end;
                let some = rng.below(left + 1);
                end += rng.pick(&[0, 1, BLOCK - 1, BLOCK, some, left, left]).min(left);
            }
            let answer = self.on.call(&self.list, stored.areas(&self.patch), &self.data[from..end], state);
            from += answer.taken;
            state = answer.state;
            match answer.outcome {
                Outcome::Stop => {
                    let form = self.on.save(&state);
                    state = self.restored(&form)?;
                    stop(Stand { stored: stored.clone(), form, state });
                }
                Outcome::More if end < self.data.len() => {}
                _ => return Ok(End { answer, stored }),
            }
        }
    }

    /// One segment again, with all the data that is left.
    fn segment(&self, mut stored: Stored, state: State) -> Result<End, String> {
        let rest = &self.data[self.from(&state)?..];
        let answer = self.on.call(&self.list, stored.areas(&self.patch), rest, state);
        Ok(End { answer, stored })
    }

    fn from(&self, state: &State) -> Result<usize, String> {
        usize::try_from(state.total).ok().filter(|total| *total <= self.data.len()).ok_or("a total past the new data".into())
    }

    fn restored(&self, form: &[u8]) -> Result<State, String> {
        self.on.restore(form).map_err(|number| format!("its own saved form is refused with {number}"))
    }
}

/// Some ranges of an area.
type Ranges = Vec<Range<usize>>;

/// W, area by area.
fn ranges(w: &Writes) -> [&Ranges; 4] {
    [&w.image, &w.stash, &w.work, &w.result]
}

/// What W holds at a cut behind its first bytes, which are new.
#[derive(Clone, Copy)]
enum Rest {
    Old,
    Random,
    Turned,
}

/// Storage after a cut: the first `new` bytes of W as they are at the segment's end, the rest as said.
fn cut(rng: &mut Rng, before: &Stored, after: &Stored, w: &Writes, new: usize, rest: Rest) -> Stored {
    let (mut now, mut after, mut left) = (before.clone(), after.clone(), new);
    for ((area, done), ranges) in now.each().into_iter().zip(after.each()).zip(ranges(w)) {
        for range in ranges {
            let (first, others) = (range.start..range.start + left.min(range.len()), range.start + left.min(range.len())..range.end);
            left -= first.len();
            area[first.clone()].copy_from_slice(&done[first]);
            match rest {
                Rest::Old => {}
                Rest::Random => area[others].chunks_mut(8).for_each(|part| part.copy_from_slice(&rng.next_u64().to_le_bytes()[..part.len()])),
                Rest::Turned => area[others].iter_mut().for_each(|byte| *byte = !*byte),
            }
        }
    }
    now
}

/// The same outside W.
fn stays(before: &Stored, after: &Stored, w: &Writes) -> Result<(), String> {
    let (mut before, mut after) = (before.clone(), after.clone());
    for stored in [&mut before, &mut after] {
        for (area, ranges) in stored.each().into_iter().zip(ranges(w)) {
            ranges.iter().for_each(|range| area[range.clone()].fill(0));
        }
    }
    before.difference(&after).map_or(Ok(()), |area| Err(format!("{area} is written where the rules write nothing")))
}

fn same(got: &End, uncut: &End) -> Result<(), String> {
    // What a last call took depends on how the data is cut; the total is the state's.
    if got.answer.outcome != uncut.answer.outcome {
        return Err(format!("it ends with {:?}, uncut with {:?}", got.answer.outcome, uncut.answer.outcome));
    }
    if got.answer.state != uncut.answer.state {
        return Err("it ends in another state".into());
    }
    got.stored.difference(&uncut.stored).map_or(Ok(()), |area| Err(format!("{area} is another at the end")))
}

/// How many cuts a list gets.
#[derive(Clone, Copy)]
pub struct Effort {
    /// Cuts of each segment, to the run's end.
    pub cuts: usize,
    /// One segment in so many is cut behind every byte, where it has no more than this: to its end, which is then that of the uncut segment, so
    /// that all behind it is.
    pub every: (usize, usize),
}

/// Seeded lists and their cuts.
pub struct Cuts<'a> {
    on: &'a dyn Implementation,
    blocks: Blocks,
    effort: Effort,
    pub lists: u64,
    pub cuts: u64,
    pub second: u64,
    segments: [u64; SEGMENTS.len()],
}

impl<'a> Cuts<'a> {
    pub fn new(on: &'a dyn Implementation, effort: Effort) -> Cuts<'a> {
        Cuts { on, blocks: Blocks::new(), effort, lists: 0, cuts: 0, second: 0, segments: [0; SEGMENTS.len()] }
    }

    /// One list, cut in all its segments; the difference, if there is one.
    pub fn case(&mut self, seed: u64, index: u64) -> Result<(), String> {
        let mut rng = Rng::of_case(seed, index);
        let frees = rng.pick(&[0, 0, 6]);
        let sizes = Sizes { frees, ..Sizes::small(rng.between(2, 9), rng.between(1, 7) + frees / 3, rng.between(1, 12) + frees) };
        let mut world = World::good(&mut rng, &mut self.blocks, &sizes);
        match rng.below(8) {
            0 => world.wrong_hash(&mut rng),
            1 if world.has_patch() => world.spoil_patch(&mut rng),
            _ => {}
        }
        let mut data = self.blocks.lay(&world.data);
        if rng.one_in(4) {
            data.truncate(rng.below(data.len() + 1));
        }
        let area = |blocks: &Blocks, count: usize, id: usize| blocks.lay(&(0..count).map(|k| (id + k % 20) as u8).collect::<Vec<_>>());
        let stored = Stored {
            image: self.blocks.lay(&world.image),
            stash: area(&self.blocks, world.stash, 230),
            work: area(&self.blocks, world.work, 210),
            result: area(&self.blocks, world.result, 190),
        };
        let run = Run { on: self.on, list: world.list(), patch: world.patch, data };
        let Stored { image, stash, work, result } = &stored;
        let rooms = Rooms { image: image.len(), stash: stash.len(), work: work.len(), result: result.len(), patch: run.patch.len() };
        let state = run.on.open(&run.list, rooms);
        if state.refusal.number != 0 {
            // Spoiled, some do not open.
            return Ok(());
        }
        self.lists += 1;
        self.list(&mut rng, &run, Stand { stored, form: run.on.save(&state), state })
    }

    fn list(&mut self, rng: &mut Rng, run: &Run, opened: Stand) -> Result<(), String> {
        let mut stands = vec![opened.clone()];
        let uncut = run.finish(rng, opened.stored, opened.state, |stand| stands.push(stand))?;
        for (k, stand) in stands.iter().enumerate() {
            let next = stands.get(k + 1);
            let in_segment = |difference: String| format!("segment {k} of {}: {difference}", stands.len());
            self.segment(rng, run, stand, next, &uncut).map_err(in_segment)?;
        }
        Ok(())
    }

    fn segment(&mut self, rng: &mut Rng, run: &Run, stand: &Stand, next: Option<&Stand>, uncut: &End) -> Result<(), String> {
        let after = next.map_or(&uncut.stored, |next| &next.stored);
        let w = written(run, stand)?;
        stays(&stand.stored, after, &w)?;
        self.count(&run.list, &stand.state, next.map(|next| &next.state), &uncut.answer);
        let count = w.count();
        for number in 0..self.effort.cuts {
            // Behind the first byte and the last one, at block borders, and anywhere.
            let anywhere = rng.below(count + 1);
            let new = match number {
                0 => anywhere,
                1 => 0,
                _ => rng.pick(&[anywhere, anywhere, anywhere / BLOCK * BLOCK, 1, count, count.saturating_sub(1)]).min(count),
            };
            let rest = if number == 1 { rng.pick(&[Rest::Random, Rest::Turned]) } else { rng.pick(&[Rest::Old, Rest::Random, Rest::Random]) };
            let mut stored = cut(rng, &stand.stored, after, &w, new, rest);
            self.cuts += 1;
            if rng.one_in(3) {
                // Cut again before the next stop: what the first restart wrote is new, and what it did not is anything again.
                let again = rng.below(count + 1);
                let rest = any_rest(rng);
                stored = cut(rng, &stored, after, &w, again, rest);
                self.second += 1;
            }
            let mut later = Vec::new();
            let end = run.finish(rng, stored, run.restored(&stand.form)?, |stand| later.push(stand))?;
            same(&end, uncut).map_err(|difference| format!("cut behind {new} of {count} bytes: {difference}"))?;
            if !later.is_empty() && rng.one_in(3) {
                self.later(rng, run, &later, uncut)?;
            }
        }
        let (often, most) = self.effort.every;
        if count > 0 && count <= most && rng.one_in(often) {
            self.every(rng, run, stand, next, uncut, &w)?;
        }
        Ok(())
    }

    /// A second cut at a stop of the restart, from the form that it saved there.
    fn later(&mut self, rng: &mut Rng, run: &Run, stands: &[Stand], uncut: &End) -> Result<(), String> {
        let k = rng.below(stands.len());
        let after = stands.get(k + 1).map_or(&uncut.stored, |next| &next.stored);
        let w = written(run, &stands[k])?;
        let new = rng.below(w.count() + 1);
        let rest = any_rest(rng);
        let stored = cut(rng, &stands[k].stored, after, &w, new, rest);
        self.second += 1;
        let end = run.finish(rng, stored, run.restored(&stands[k].form)?, |_| ())?;
        same(&end, uncut).map_err(|difference| format!("cut again at a later stop, behind {new} bytes: {difference}"))
    }

    /// A cut behind every byte.
    fn every(&mut self, rng: &mut Rng, run: &Run, stand: &Stand, next: Option<&Stand>, uncut: &End, w: &Writes) -> Result<(), String> {
        let (after, expected) = match next {
            Some(next) => (&next.stored, (Outcome::Stop, &next.state)),
            None => (&uncut.stored, (uncut.answer.outcome, &uncut.answer.state)),
        };
        let state = run.restored(&stand.form)?;
        for new in 0..=w.count() {
            let rest = any_rest(rng);
            let stored = cut(rng, &stand.stored, after, w, new, rest);
            self.cuts += 1;
            let End { answer, stored } = run.segment(stored, state)?;
            let difference = stored.difference(after);
            if (answer.outcome, &answer.state) != expected || difference.is_some() {
                return Err(format!(
                    "cut behind {new} bytes, the segment ends otherwise: {:?}, {}",
                    answer.outcome,
                    difference.unwrap_or("its state")
                ));
            }
        }
        Ok(())
    }

    fn count(&mut self, list: &[u8], state: &State, next: Option<&State>, end: &Answer) {
        let kind = kind(list, state, next, end);
        self.segments[kind] += 1;
        let to = next.unwrap_or(&end.state).at;
        if let 0 | 2 = kind {
            let fields: Vec<&[u8]> = list[to..].split(|c| *c == b'\n').next().unwrap_or(b"").split(|c| *c == b' ').collect();
            let source = &fields[if kind == 0 { 4 } else { 7 }..];
            self.segments[if source.len() == 1 { 12 } else { 14 - (source[0] == b"-") as usize }] += 1;
        }
        // Lines that were passed, and a `new` that waits for more.
        let waits = if end.state.into != 0 && next.is_none() { b"new ".len() } else { 0 };
        let passed = to + waits;
        for (k, words) in [&[&b"zero "[..], b"erase "][..], &[b"new "], &[b"free "]].iter().enumerate() {
            let has = |line: &[u8]| words.iter().any(|word| line.starts_with(word));
            let youngest = k < 2 || !matches!(kind, 7 | 8);
            self.segments[15 + k] += (youngest && list[state.at..passed].split(|c| *c == b'\n').any(has)) as u64;
        }
    }

    /// How often each kind of segment was cut.
    pub fn report(&self) -> String {
        let each: Vec<String> = SEGMENTS.iter().zip(self.segments).map(|(name, n)| format!("{name} {n}")).collect();
        format!("segments: {}", each.join("; "))
    }

    /// Kinds of segments that never occurred.
    pub fn missing(&self) -> Vec<&'static str> {
        SEGMENTS.iter().zip(self.segments).filter(|(_, n)| *n == 0).map(|(name, _)| *name).collect()
    }
}

/// What the rules have the run write from here to the next stop, or to its end.
fn written(run: &Run, stand: &Stand) -> Result<Writes, String> {
    let mut stored = stand.stored.clone();
    Ok(writes(&run.list, &stored.areas(&run.patch), &run.data[run.from(&stand.state)?..], &stand.state))
}

/// Which of SEGMENTS goes from this state to the next stop's, or to the run's end.
fn kind(list: &[u8], state: &State, next: Option<&State>, end: &Answer) -> usize {
    let word = |at: usize| list[at..].split(|c| matches!(c, b' ' | b'\n')).next().unwrap_or(b"");
    let of_word = |at: usize| match word(at) {
        b"move" => 0,
        b"stash" => 1,
        _ => 2,
    };
    let Some(next) = next else {
        return match end.outcome {
            Outcome::Done => 9,
            Outcome::More | Outcome::Stop => 10,
            Outcome::Refused(_) => 11,
        };
    };
    let passed = || list[..next.at - 1].iter().rposition(|c| *c == b'\n').map_or(0, |k| k + 1);
    match () {
        _ if state.ready != 0 => 3 + of_word(state.at),
        _ if next.ready != 0 => of_word(next.at),
        _ if next.stretches != 0 => 7,
        _ if word(passed()) == b"free" => 8,
        _ => 6,
    }
}

fn any_rest(rng: &mut Rng) -> Rest {
    rng.pick(&[Rest::Old, Rest::Random, Rest::Random, Rest::Turned])
}
