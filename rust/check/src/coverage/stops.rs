//! Stops, and the states that only they bring: document 02, R-9. What saved forms had, too.

use super::{add, hash_of};
use reference::{plain, saved, Answer, Areas, Lengths, Outcome, State};

/// What a call had that ended with a stop.
const STOPS: [&str; 17] = [
    "a move filled",
    "a stash filled",
    "a bsdiff filled",
    "a move written",
    "a stash held",
    "a bsdiff written",
    "a move passed over",
    "a bsdiff passed over",
    "a stretch with others behind it",
    "a last stretch as long as the gap",
    "a last stretch that is shorter",
    "the only stretch",
    "lines before it",
    "bytes taken before it",
    "bytes left of its piece",
    "an empty piece",
    "the last line of the list",
];

/// Where a ready mark was refused with 17; the last eight are what the line itself would be refused with.
const NOT_READY: [&str; 15] =
    ["the text's end", "a zero", "an erase", "a new", "a free", "an ill-formed line", "an imgdiff", "8", "9", "10", "11", "12", "13", "14", "18"];

/// Numbers of stretches that a state came with: the first five are refused with 17.
const STRETCHES: [&str; 7] = [
    "at no free",
    "at a free of what is not held",
    "at a free of the youngest",
    "as many as there are",
    "more than there are",
    "one fewer than there are",
    "some fewer than there are",
];

/// What is refused with 17 as two marks at once: bytes into a line, ready, stretches.
const TWO: [&str; 3] = ["bytes and ready", "bytes and stretches", "ready and stretches"];

/// Ready marks by their number, where they were good.
const MARKS: [&str; 2] = ["1", "another number"];

const TOTALS: [&str; 5] = ["past 2^64", "with a refusal", "at a stop", "other than 0 with 17", "other than 0 with a refusal repeated"];

/// What became of a saved form.
const SAVED: [&str; 11] = [
    "read back",
    "a byte changed, another state's",
    "20, too short",
    "20, too long",
    "20, of no bytes",
    "20, the first mark",
    "20, the second mark",
    "20, the third mark",
    "20, the fourth mark",
    "20, the fifth mark",
    "read back, and the run went on from it",
];

#[derive(Default, Clone)]
pub struct Stops {
    stops: [u64; STOPS.len()],
    not_ready: [u64; NOT_READY.len()],
    stretches: [u64; STRETCHES.len()],
    two: [u64; TWO.len()],
    marks: [u64; MARKS.len()],
    totals: [u64; TOTALS.len()],
    saved: [u64; SAVED.len()],
}

/// What makes a state impossible that has nothing else wrong: its bytes into a line, its ready mark or its stretches.
pub(super) enum Mark {
    Bytes,
    Ready,
    Stretches,
}

/// The first of the three that by itself gives 17.
pub(super) fn mark(list: &[u8], lengths: &Lengths, state: &State) -> Mark {
    let clean = State { into: 0, ready: 0, stretches: 0, ..*state };
    if state.into != 0 && number(list, lengths, State { into: state.into, ..clean }) == 17 {
        return Mark::Bytes;
    }
    if state.ready != 0 && number(list, lengths, State { ready: state.ready, ..clean }) == 17 {
        return Mark::Ready;
    }
    Mark::Stretches
}

/// What a call from this state is refused with, over areas that are made for it: no mark rests on what they hold.
fn number(list: &[u8], lengths: &Lengths, mut state: State) -> usize {
    let area = |bytes: usize| vec![0; bytes];
    let Lengths { image, stash, work, result, patch, .. } = *lengths;
    let (mut image, mut stash, mut work, mut result, patch) = (area(image), area(stash), area(work), area(result), area(patch));
    let areas = Areas { image: &mut image, stash: &mut stash, work: &mut work, result: &mut result, patch: &patch };
    plain::call(list, areas, b"", &mut state).outcome.number()
}

fn line_at(list: &[u8], at: usize) -> &[u8] {
    list[at..].split(|c| *c == b'\n').next().unwrap_or(b"")
}

fn word(line: &[u8]) -> &[u8] {
    line.split(|c| *c == b' ').next().unwrap_or(b"")
}

/// Gap and younger blocks of the stash that a `free` names, if the state holds it.
fn gap(line: &[u8], state: &State) -> Option<(usize, usize)> {
    let name = line.strip_prefix(b"free ")?;
    let j = (0..state.count).find(|k| hash_of(state, *k) == name)?;
    Some((state.sizes[j], state.sizes[j + 1..state.count].iter().sum()))
}

impl Stops {
    /// A call from a possible state.
    pub(super) fn called(&mut self, list: &[u8], piece: &[u8], before: &State, answer: &Answer) {
        let stop = answer.outcome == Outcome::Stop;
        let refused = matches!(answer.outcome, Outcome::Refused(_));
        let wraps = before.total.checked_add(answer.taken as u64).is_none();
        add(&mut self.totals, &[wraps, refused && answer.taken > 0, stop && answer.taken > 0]);
        if before.ready != 0 {
            add(&mut self.marks, &[before.ready == 1, before.ready != 1]);
        }
        if before.stretches != 0 {
            let left = gap(line_at(list, before.at), before).map_or(0, |(gap, younger)| younger.div_ceil(gap) - before.stretches);
            self.stretches[if left == 1 { 5 } else { 6 }] += 1;
        }
        if stop {
            add(&mut self.stops, &stopped(list, piece, before, answer));
        }
    }

    /// A call that repeated a refusal.
    pub(super) fn repeated(&mut self, before: &State) {
        self.totals[4] += (before.total != 0) as u64;
    }

    /// A call that was refused with 17, and whether one of the three marks alone was the cause.
    pub(super) fn impossible(&mut self, list: &[u8], lengths: &Lengths, before: &State, mark: Option<Mark>) {
        self.totals[3] += (before.total != 0) as u64;
        let Some(mark) = mark else { return };
        let [bytes, ready, stretches] = [before.into, before.ready, before.stretches].map(|mark| mark != 0);
        add(&mut self.two, &[bytes && ready, bytes && stretches, ready && stretches]);
        let line = line_at(list, before.at);
        let clean = || number(list, lengths, State { into: 0, ready: 0, stretches: 0, ..*before });
        match mark {
            Mark::Bytes => {}
            Mark::Ready => {
                let at = match word(line) {
                    _ if before.at == list.len() => 0,
                    b"imgdiff" => 6,
                    _ if clean() == 6 => 5,
                    b"zero" => 1,
                    b"erase" => 2,
                    b"new" => 3,
                    b"free" => 4,
                    _ => match clean() {
                        18 => 14,
                        number => number - 1,
                    },
                };
                self.not_ready[at] += 1;
            }
            Mark::Stretches => {
                let at = match gap(line, before) {
                    _ if !line.starts_with(b"free ") || clean() == 6 => 0,
                    None => 1,
                    Some((_, 0)) => 2,
                    Some((gap, younger)) if younger.div_ceil(gap) == before.stretches => 3,
                    Some(_) => 4,
                };
                self.stretches[at] += 1;
            }
        }
    }

    /// These bytes were read in the place of a saved form.
    pub fn restored(&mut self, bytes: &[u8], form: &[u8]) {
        let kind = match saved::MARKS.iter().position(|(at, mark)| bytes.get(*at..at + 2) != Some(&mark[..])) {
            _ if bytes == form => 0,
            _ if bytes.is_empty() => 4,
            _ if bytes.len() < form.len() => 2,
            _ if bytes.len() > form.len() => 3,
            Some(k) => 5 + k,
            None => 1,
        };
        self.saved[kind] += 1;
    }

    /// The run goes on from a state that was saved and read back.
    pub fn went_on(&mut self) {
        self.saved[10] += 1;
    }

    /// The kinds by groups, each with its name, and how often they occurred.
    pub(super) fn groups(&self) -> [(&str, &[&str], &[u64]); 7] {
        [
            ("stops", &STOPS, &self.stops),
            ("17 for a ready mark at", &NOT_READY, &self.not_ready),
            ("stretches that a state came with", &STRETCHES, &self.stretches),
            ("17 for two marks", &TWO, &self.two),
            ("good ready marks", &MARKS, &self.marks),
            ("totals", &TOTALS, &self.totals),
            ("saved forms", &SAVED, &self.saved),
        ]
    }
}

/// Which of STOPS a call has that ended with one.
fn stopped(list: &[u8], piece: &[u8], before: &State, answer: &Answer) -> [bool; STOPS.len()] {
    let State { at, ready, stretches, .. } = answer.state;
    let mut kinds = [false; STOPS.len()];
    // The line that it stopped in, or behind which.
    let within = ready != 0 || stretches != 0;
    let start = if within { at } else { list[..at - 1].iter().rposition(|c| *c == b'\n').map_or(0, |k| k + 1) };
    let line = line_at(list, start);
    match (word(line), within) {
        (b"move", true) => kinds[0] = true,
        (b"stash", true) => kinds[1] = true,
        (b"bsdiff", true) => kinds[2] = true,
        (b"move", false) => kinds[if before.ready != 0 { 3 } else { 6 }] = true,
        (b"stash", false) => kinds[4] = true,
        (b"bsdiff", false) => kinds[if before.ready != 0 { 5 } else { 7 }] = true,
        (_, true) => kinds[8] = true,
        // Where lines before it freed others, what was held then is not known here.
        (_, false) if start == before.at => {
            if let Some((gap, younger)) = gap(line, before) {
                kinds[9] = younger % gap == 0;
                kinds[10] = younger % gap != 0;
                kinds[11] = younger <= gap;
            }
        }
        _ => {}
    }
    kinds[12] = start > before.at;
    kinds[13] = answer.taken > 0;
    kinds[14] = answer.taken < piece.len();
    kinds[15] = piece.is_empty();
    kinds[16] = !within && at == list.len();
    kinds
}
