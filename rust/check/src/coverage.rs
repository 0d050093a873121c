//! How often each thing occurred in a series of cases.

mod finished;
mod form;
mod limits;
mod lines;
mod no_blocks;
mod patch;
mod sparse;
mod stops;

use crate::generate::line_starts;
use crate::hex;
use finished::Finished;
pub use finished::{is_finished, Kept};
use form::{Forms, BYTES};
use limits::LIMITS;
pub use lines::LineCoverage;
use no_blocks::NO_BLOCKS;
use patch::{Line, FAULTS, PATCHES};
use reference::{digest, plain, Answer, Areas, Lengths, Outcome, Rooms, State, BLOCK, MOST_STASHES};
pub use sparse::SparseCoverage;
use std::fmt::Write;
use stops::{mark, Mark, Stops};

/// Lines that ran, by what they are.
pub const LINES: [&str; 11] =
    ["zero", "erase", "new", "stash", "free", "move one", "move two", "move three", "bsdiff one", "bsdiff two", "bsdiff three"];

/// Kinds of lines that ran, each easy to miss.
pub const KINDS: [&str; 8] = [
    "a source of two stashes or more",
    "one stash twice in a source",
    "a stash not at the area's front",
    "a stash over parted places",
    "a target over its own source",
    "a target that names a block twice",
    "a hash stashed again",
    "younger stashes moved down",
];

/// What 9 is given for; the first that applies is counted.
pub const NINES: [&str; 3] = ["N over the work area", "S over the work area", "a target over the result area"];

/// What is called over memory that is closed where it has no business.
pub const CLOSED: [&str; 5] = ["finished lines", "ready moves", "ready bsdiffs", "ready stashes", "stretches"];

/// What is done as it crosses too: a state as its saved form, an answer as numbers.
pub const CROSSINGS: [&str; 3] = ["openings", "calls", "runs"];

/// Whose hash differs.
pub const SIXTEENS: [&str; 3] = ["a move or a stash", "a patch's source", "a patch's result"];

/// What makes a state impossible, in document 01's order; the first that applies is counted. The third to the seventh: what the areas
/// and the header would now give.
pub const CAUSES: [&str; 18] = [
    "the length of list or area",
    "the length of the result area alone",
    "the length of the patch data alone",
    "areas, 1",
    "list length, 2",
    "header, 3",
    "version, 4",
    "header limits, 5",
    "position",
    "line number",
    "over 256 stashes",
    "one hash twice",
    "a stash of no blocks",
    "blocks held",
    "bytes into a new",
    "bytes into a new with an empty range",
    "a ready mark",
    "stretches",
];

/// One hash twice, a stash of no blocks, and the first cause that looks at the line.
const TWICE: usize = 11;
const EMPTY: usize = 12;
const INTO: usize = 14;

/// The cause that takes a list of over 4 MiB: too slow for every run, and tried by a test of its own.
const LONG_LIST: usize = 4;

#[derive(Default, Clone)]
pub struct Coverage {
    /// Openings by refusal number, 0 for accepted.
    pub opened: [u64; 20],
    /// Calls by outcome.
    pub done: u64,
    pub more: u64,
    pub stopped: u64,
    pub refused: u64,
    /// Refused calls by number where the state held none before; the last for any other number.
    pub numbers: [u64; 21],
    /// 9 by what it is given for, of openings and of calls.
    pub nines: [u64; NINES.len()],
    /// Calls refused with 16, by whose hash.
    pub sixteens: [u64; SIXTEENS.len()],
    /// Calls refused with 19, by what is malformed first.
    pub faults: [u64; FAULTS.len()],
    /// Patches that ran, by what they have.
    pub patches: [u64; PATCHES.len()],
    /// Calls refused with 17, by cause.
    pub causes: [u64; CAUSES.len()],
    /// Calls that repeated a refusal.
    pub repeated: u64,
    /// Calls after a call that said done.
    pub after_done: u64,
    /// Empty pieces.
    pub empty: u64,
    /// Calls that stopped within a block.
    pub within: u64,
    /// Whole sequences held to the model over the joined pieces, and runs over cuts.
    pub sequences: u64,
    pub runs: u64,
    pub digests: u64,
    /// Calls that were made by the slow model too.
    pub thrice: u64,
    /// Calls over closed memory.
    pub closed: [u64; CLOSED.len()],
    /// What was done as it crosses too.
    pub crossings: [u64; CROSSINGS.len()],
    /// Calls over a state with a byte of a mark changed.
    pub unmarked: u64,
    pub lines: [u64; LINES.len()],
    pub kinds: [u64; KINDS.len()],
    /// Openings and calls with many stashes and long sources.
    pub limits: [u64; LIMITS.len()],
    /// Calls with stashes of no blocks.
    pub no_blocks: [u64; NO_BLOCKS.len()],
    /// Openings with 3 or 6, by what stands at the first fault.
    pub forms: Forms,
    /// The same of calls with 6.
    pub called_forms: Forms,
    /// Openings that an empty range alone gives 6, by what they gave before R-7: 0 where they were accepted.
    pub given_before: [u64; 20],
    /// Calls by what they did with the byte of a refusal.
    pub bytes: [u64; BYTES.len()],
    /// Lines that find their work done, or nearly.
    pub finished: Finished,
    /// Stops, and what only they bring.
    pub stops: Stops,
}

impl Coverage {
    pub fn report(&self) -> String {
        let mut out = String::new();
        let _ = writeln!(out, "number     opening        call");
        for number in 1..=19 {
            let _ = writeln!(out, "{number:>6} {:>11} {:>11}", self.opened[number], self.numbers[number]);
        }
        let _ = writeln!(out, "accepted openings {}, refused {}", self.opened[0], self.opened[1..].iter().sum::<u64>());
        let _ = writeln!(out, "calls: done {}, more {}, stop {}, refused {}", self.done, self.more, self.stopped, self.refused);
        let _ = writeln!(
            out,
            "of these: refusals repeated {}, other numbers {}, after done {}, empty pieces {}, stopped within a block {}",
            self.repeated, self.numbers[20], self.after_done, self.empty, self.within
        );
        let _ = writeln!(out, "9 for: {}", counted(&NINES, &self.nines));
        let _ = writeln!(out, "16 of: {}", counted(&SIXTEENS, &self.sixteens));
        let _ = writeln!(out, "17 by cause: {}", counted(&CAUSES, &self.causes));
        let _ = writeln!(out, "first faults of openings: {}", self.forms.report());
        let (names, counts): (Vec<_>, Vec<_>) = self.called_forms.empty_ranges().unzip();
        let _ = writeln!(out, "of calls: {}", counted(&names, &counts));
        let before: Vec<String> = (0..20).filter(|k| self.given_before[*k] > 0).map(|k| format!("{k} {}", self.given_before[k])).collect();
        let _ = writeln!(out, "6 for an empty range, by what was given before: {}", before.join("; "));
        let _ = writeln!(out, "bytes of calls: {}", counted(&BYTES, &self.bytes));
        let _ = writeln!(out, "19 for: {}", counted(&FAULTS, &self.faults));
        let _ = writeln!(out, "lines that ran: {}", counted(&LINES, &self.lines));
        let _ = writeln!(out, "of these: {}", counted(&KINDS, &self.kinds));
        for (name, kinds, counts) in self.finished.groups().into_iter().chain(self.stops.groups()) {
            let _ = writeln!(out, "{name}: {}", counted(kinds, counts));
        }
        let _ = writeln!(out, "many and long: {}", counted(&LIMITS, &self.limits));
        let _ = writeln!(out, "stashes of no blocks: {}", counted(&NO_BLOCKS, &self.no_blocks));
        let _ = writeln!(out, "patches that ran: {}", counted(&PATCHES, &self.patches));
        let _ = writeln!(out, "over closed memory: {}", counted(&CLOSED, &self.closed));
        let _ = writeln!(out, "as they cross: {}; over a damaged mark {}", counted(&CROSSINGS, &self.crossings), self.unmarked);
        let Coverage { sequences, runs, digests, thrice, .. } = self;
        let _ = writeln!(out, "calls by the model too {thrice}, sequences held to it {sequences}, runs over cuts {runs}, digests {digests}");
        out
    }

    /// What never occurred, of all that a default run must have.
    pub fn missing(&self) -> Vec<String> {
        let mut names = Vec::new();
        let mut note = |name: String, n: u64| {
            if n == 0 {
                names.push(name)
            }
        };
        (0..=15).chain([18]).for_each(|k| note(format!("an opening with {k}"), self.opened[k]));
        (6..=14).chain(16..=19).for_each(|k| note(format!("a call with {k}"), self.numbers[k]));
        NINES.iter().zip(self.nines).for_each(|(name, n)| note(format!("9 for {name}"), n));
        SIXTEENS.iter().zip(self.sixteens).for_each(|(name, n)| note(format!("16 of {name}"), n));
        FAULTS.iter().zip(self.faults).for_each(|(name, n)| note(format!("19 for {name}"), n));
        PATCHES.iter().zip(self.patches).for_each(|(name, n)| note(format!("a patch with {name}"), n));
        CAUSES.iter().zip(self.causes).enumerate().filter(|(k, _)| *k != LONG_LIST).for_each(|(_, (name, n))| note(format!("17 by {name}"), n));
        LINES.iter().zip(self.lines).for_each(|(name, n)| note(name.to_string(), n));
        KINDS.iter().zip(self.kinds).for_each(|(name, n)| note(name.to_string(), n));
        LIMITS.iter().zip(self.limits).for_each(|(name, n)| note(name.to_string(), n));
        NO_BLOCKS.iter().zip(self.no_blocks).for_each(|(name, n)| note(format!("a stash of no blocks {name}"), n));
        self.forms.each().for_each(|(name, n)| note(name.to_string(), n));
        self.called_forms.empty_ranges().for_each(|(name, n)| note(format!("in a call, {name}"), n));
        [0, 8, 11, 15].into_iter().for_each(|k| note(format!("an empty range in a list that gave {k}"), self.given_before[k]));
        BYTES.iter().zip(self.bytes).for_each(|(name, n)| note(name.to_string(), n));
        for (name, kinds, counts) in self.finished.groups().into_iter().chain(self.stops.groups()) {
            kinds.iter().zip(counts).for_each(|(kind, n)| note(format!("{name}: {kind}"), *n));
        }
        CLOSED.iter().zip(self.closed).for_each(|(name, n)| note(format!("over closed memory: {name}"), n));
        CROSSINGS.iter().zip(self.crossings).for_each(|(name, n)| note(format!("as they cross: {name}"), n));
        for (name, n) in [
            ("done", self.done),
            ("more", self.more),
            ("a stop", self.stopped),
            ("a refusal repeated", self.repeated),
            ("a call after done", self.after_done),
            ("an empty piece", self.empty),
            ("a stop within a block", self.within),
            ("a sequence held to the model", self.sequences),
            ("a run over cuts", self.runs),
            ("a digest", self.digests),
            ("a call by the model too", self.thrice),
            ("a call over a damaged mark", self.unmarked),
        ] {
            note(name.to_string(), n);
        }
        names
    }

    pub fn open(&mut self, list: &[u8], rooms: Rooms, state: &State) {
        self.opened[state.refusal.number.min(19)] += 1;
        add(&mut self.limits, &limits::opened(list, &Lengths::of(list, rooms), state));
        self.forms.refused(list, &state.refusal);
        if state.refusal.number == 9 {
            let line = list.split_inclusive(|c| *c == b'\n').nth(state.refusal.line - 1).unwrap_or(b"");
            self.nines[nine(line, &Lengths::of(list, rooms))] += 1;
        }
    }

    /// What a call gave, with all that it was lent as it left it, and the areas as it found them where that matters.
    pub fn call(&mut self, list: &[u8], areas: &Areas, piece: &[u8], kept: Option<Kept>, before: &State, answer: &Answer) {
        match answer.outcome {
            Outcome::Done => self.done += 1,
            Outcome::More => self.more += 1,
            Outcome::Stop => self.stopped += 1,
            Outcome::Refused(_) => self.refused += 1,
        }
        self.empty += piece.is_empty() as u64;
        add(&mut self.bytes, &form::called(before, answer));
        if before.refusal.number != 0 {
            self.repeated += 1;
            self.stops.repeated(before);
            return;
        }
        if let Outcome::Refused(refusal) = answer.outcome {
            self.numbers[refusal.number.min(20)] += 1;
            self.called_forms.refused(list, &refusal);
        }
        let lengths = Lengths::of(list, areas.rooms());
        let impossible = (answer.outcome.number() == 17).then(|| cause(list, &lengths, before));
        add(&mut self.limits, &limits::called(list, before, answer, impossible == Some(TWICE)));
        if let Some(cause) = impossible {
            self.causes[cause] += 1;
            if cause == EMPTY {
                add(&mut self.no_blocks, &no_blocks::impossible(list, before));
            }
            self.stops.impossible(list, &lengths, before, (cause >= INTO).then(|| mark(list, &lengths, before)));
            return;
        }
        let line = list[answer.state.at..].split_inclusive(|c| *c == b'\n').next().unwrap_or(b"");
        match answer.outcome.number() {
            9 => self.nines[nine(line, &lengths)] += 1,
            16 => {
                let whose = match Line::of(line) {
                    None => 0,
                    Some(of) if hex(&digest(&areas.work[..of.n * BLOCK])).as_bytes() != of.hash => 1,
                    Some(_) => 2,
                };
                self.sixteens[whose] += 1;
            }
            19 => {
                if let Some(fault) = Line::of(line).and_then(|of| of.fault(areas.patch)) {
                    self.faults[fault] += 1;
                }
            }
            _ => {}
        }
        self.within += (answer.outcome == Outcome::More && answer.state.into % BLOCK != 0) as u64;
        add(&mut self.no_blocks, &no_blocks::called(before, answer));
        self.stops.called(list, piece, before, answer);
        let skipped = self.finished.called(list, areas, piece, kept, before, answer);
        self.ran(list, answer.state.at, &skipped, before, areas.patch);
    }

    /// The lines that a call finished, from a possible state on to this place, but for those that it skipped.
    fn ran(&mut self, list: &[u8], end: usize, skipped: &[usize], from: &State, patch: &[u8]) {
        let mut held: Vec<(Vec<u8>, u64)> = (0..from.count).map(|k| (hash_of(from, k), from.sizes[k] as u64)).collect();
        let mut next = from.at;
        for line in list[from.at..end].split(|c| *c == b'\n') {
            let at = next;
            next += line.len() + 1;
            if skipped.contains(&at) {
                continue;
            }
            let fields: Vec<&[u8]> = line.split(|c| *c == b' ').collect();
            let sets: Vec<Vec<(u64, u64)>> = fields.iter().filter_map(|field| ranges(field)).collect();
            let mut kinds = [false; KINDS.len()];
            let which = match fields[..] {
                [b"zero", _] => 0,
                [b"erase", _] => 1,
                [b"new", _] => 2,
                [b"stash", name, _] => {
                    kinds[6] = list[..at].split(|c| *c == b'\n').any(|line| line.strip_prefix(b"free ") == Some(name));
                    held.push((name.to_vec(), blocks(&sets[0])));
                    3
                }
                [b"free", name] => {
                    let j = held.iter().position(|stash| stash.0 == name).unwrap_or(0);
                    let gone = held.remove(j);
                    kinds[7] = gone.1 > 0 && held[j..].iter().any(|younger| younger.1 > 0);
                    4
                }
                [b"move", _, _, _, ref source @ ..] | [b"bsdiff", _, _, _, _, _, _, ref source @ ..] => {
                    let parts: Vec<&[u8]> = source.iter().copied().filter(|field| field.contains(&b':')).map(|field| &field[..40]).collect();
                    kinds[0] = parts.len() > 1;
                    kinds[1] = (1..parts.len()).any(|k| parts[..k].contains(&parts[k]));
                    kinds[2] = parts.iter().any(|name| behind(&held, name));
                    kinds[3] = sets.iter().rev().take(parts.len()).any(|set| parted(set));
                    kinds[4] = source[0] != b"-" && meet(&sets[0], &sets[1]);
                    let patched = Line::of(line);
                    if let Some(of) = &patched {
                        add(&mut self.patches, &of.has(patch));
                    }
                    let form = match (source[0], source.len()) {
                        (_, 1) => 5,
                        (b"-", _) => 6,
                        _ => 7,
                    };
                    form + if patched.is_some() { 3 } else { 0 }
                }
                _ => continue,
            };
            kinds[5] = which != 3 && which != 4 && (1..sets[0].len()).any(|k| meet(&sets[0][..k], &sets[0][k..k + 1]));
            self.lines[which] += 1;
            add(&mut self.kinds, &kinds);
        }
    }
}

fn add(counts: &mut [u64], has: &[bool]) {
    counts.iter_mut().zip(has).for_each(|(n, has)| *n += *has as u64);
}

fn counted(names: &[&str], counts: &[u64]) -> String {
    let each: Vec<String> = names.iter().zip(counts).map(|(name, n)| format!("{name} {n}")).collect();
    each.join("; ")
}

fn hash_of(state: &State, k: usize) -> Vec<u8> {
    hex(&state.hashes[20 * k..20 * k + 20]).into_bytes()
}

/// The ranges of a set, after the hash where one stands before it.
pub(crate) fn ranges(field: &[u8]) -> Option<Vec<(u64, u64)>> {
    let text = field.splitn(2, |c| *c == b':').last()?;
    let numbers: Vec<u64> = text.split(|c| *c == b',').map(|n| std::str::from_utf8(n).ok()?.parse().ok()).collect::<Option<_>>()?;
    (numbers.len() > 2).then(|| numbers[1..].chunks_exact(2).map(|two| (two[0], two[1])).collect())
}

fn blocks(set: &[(u64, u64)]) -> u64 {
    set.iter().map(|(start, end)| end - start).sum()
}

/// Some block is in both.
fn meet(a: &[(u64, u64)], b: &[(u64, u64)]) -> bool {
    a.iter().any(|x| b.iter().any(|y| x.0.max(y.0) < x.1.min(y.1)))
}

/// Its blocks do not stand in one row.
fn parted(set: &[(u64, u64)]) -> bool {
    set.windows(2).any(|two| two[0].1 != two[1].0)
}

/// An older stash has blocks.
fn behind(held: &[(Vec<u8>, u64)], name: &[u8]) -> bool {
    held.iter().take_while(|stash| stash.0 != name).any(|older| older.1 > 0)
}

/// What a line is refused with 9 for, as an index of NINES.
fn nine(line: &[u8], lengths: &Lengths) -> usize {
    let fields: Vec<&[u8]> = line.split(|c| matches!(c, b' ' | b'\n')).collect();
    let work = (lengths.work / BLOCK) as u64;
    let (n, source) = match fields[..] {
        [b"stash", _, source, ..] => (b"0" as &[u8], source),
        [b"move", _, _, n, source, ..] | [b"bsdiff", _, _, _, _, _, n, source, ..] => (n, source),
        _ => (b"0" as &[u8], b"" as &[u8]),
    };
    let n: u64 = std::str::from_utf8(n).ok().and_then(|digits| digits.parse().ok()).unwrap_or(0);
    if n > work {
        return 0;
    }
    match ranges(source) {
        Some(set) if blocks(&set) > work => 1,
        _ => 2,
    }
}

/// Why the state is impossible, as an index of CAUSES.
fn cause(list: &[u8], lengths: &Lengths, state: &State) -> usize {
    if *lengths != state.lengths {
        return match state.lengths {
            other if (Lengths { result: other.result, ..*lengths }) == other => 1,
            other if (Lengths { patch: other.patch, ..*lengths }) == other => 2,
            _ => 0,
        };
    }
    let header = match plain::header(list, lengths) {
        Ok(header) => header,
        Err(refusal) => return refusal.number + 2,
    };
    let starts = line_starts(list);
    let Ok(before) = starts.binary_search(&state.at) else { return 8 };
    if state.at < header.after {
        return 8;
    }
    if state.line != before + 1 {
        return 9;
    }
    if state.count > MOST_STASHES {
        return 10;
    }
    let mut names: Vec<Vec<u8>> = (0..state.count).map(|k| hash_of(state, k)).collect();
    names.sort();
    names.dedup();
    if names.len() < state.count {
        return TWICE;
    }
    if state.sizes[..state.count].contains(&0) {
        return EMPTY;
    }
    let total: u128 = state.sizes[..state.count].iter().map(|size| *size as u128).sum();
    if total > header.blocks as u128 {
        return 13;
    }
    match mark(list, lengths, state) {
        Mark::Bytes => {}
        Mark::Ready => return 16,
        Mark::Stretches => return 17,
    }
    let line = list[state.at..].split(|c| *c == b'\n').next().unwrap_or(b"");
    let image = (lengths.image / BLOCK) as u64;
    match line.strip_prefix(b"new ").and_then(ranges) {
        Some(set) if set.iter().any(|(start, end)| start > end || *end > image) => INTO,
        Some(set) if set.iter().any(|(start, end)| start == end) && ((state.into / BLOCK) as u64) < blocks(&set) => 15,
        _ => INTO,
    }
}
