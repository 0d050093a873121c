//! Lines that find their work done, lines that are near to it, and what comes behind them: document 02, R-8. A call is gone through once more, line
//! by line, for counting alone. Calls with stops between them count as one way.

use super::{add, blocks, hash_of, meet, patch, ranges};
use crate::hex;
use reference::{digest, plain, Answer, Areas, Outcome, State, BLOCK};

/// What a line that was skipped is or has.
const SKIPPED: [&str; 23] = [
    "a move of form one",
    "a move of form two",
    "a move of form three",
    "a bsdiff of form one",
    "a bsdiff of form two",
    "a bsdiff of form three",
    "a move whose source would be 16",
    "a bsdiff whose source would be 16",
    "a patch that would be 19",
    "a result that would be 16",
    "a target of several ranges",
    "a target whose rising order has another hash",
    "a target that names a block twice",
    "a target of more than N blocks",
    "a target of fewer than N blocks",
    "a target over the work area's size",
    "a target over a part of its source",
    "a move onto its own place",
    "a line that stood before",
    "a line that ran on the way to it",
    "bytes taken before it and behind it",
    "the first line of a call",
    "the last line of the list",
];

/// How the way goes on behind a skipped line, past every stop.
const BEHIND: [&str; 8] = [
    "a stash",
    "a move or a bsdiff that ran",
    "16",
    "19",
    "another number, the work area filled by an earlier line",
    "another number, the work area as it was lent",
    "more",
    "done",
];

/// Numbers that a line is refused with in a call although its target has its hash.
const CHECKED: [&str; 6] = ["8", "9", "10", "11", "12", "18"];

/// How near the target of a line that ran was.
const NEAR: [&str; 12] = [
    "all but the last block there",
    "all but the first block there",
    "all but one between there",
    "the first block there, of several others none",
    "a move's blocks there in rising order",
    "a bsdiff's blocks there in rising order",
    "H in the source's place alone",
    "H, not T, in the target of a bsdiff",
    "in the target of a move what a bsdiff before it made",
    "in the work area the source",
    "in the result area the result",
    "a line that stood before",
];

/// What has the hash of a line that was not skipped and then refused, with 16 or 19: for a `move`, then for a `bsdiff`.
const CLOSE: [&str; 11] = [
    "a move's first block",
    "a move's last block",
    "a move's blocks in rising order",
    "a move's blocks, each once",
    "a move's target but for a bit",
    "a bsdiff's first block",
    "a bsdiff's last block",
    "a bsdiff's blocks in rising order",
    "a bsdiff's blocks, each once",
    "a bsdiff's target but for a bit",
    "a bsdiff's first N blocks",
];

/// What a list that was run once more from its top had.
const AGAIN: [&str; 4] = ["lines skipped and none that ran", "lines skipped and lines that ran", "16 behind lines skipped", "16 and none skipped"];

#[derive(Default, Clone)]
pub struct Finished {
    skipped: [u64; SKIPPED.len()],
    behind: [u64; BEHIND.len()],
    checked: [u64; CHECKED.len()],
    near: [u64; NEAR.len()],
    close: [u64; CLOSE.len()],
    again: [u64; AGAIN.len()],
    /// Lines skipped, and those of the same words that ran, since a list was last run once more.
    since: (u64, u64),
    way: Option<Way>,
}

/// Calls with stops between them: the state before the first and after the last, and what they took.
#[derive(Clone)]
struct Way {
    from: State,
    after: State,
    taken: usize,
    /// Where the lines start that were skipped, which of SKIPPED each has, and the bytes taken before it.
    skipped: Vec<(usize, [bool; SKIPPED.len()], usize)>,
    ran: Vec<Vec<u8>>,
}

/// The areas as a call finds them.
pub struct Kept {
    image: Vec<u8>,
    stash: Vec<u8>,
    work: Vec<u8>,
    result: Vec<u8>,
}

impl Kept {
    /// Nothing where the call comes to no line that could be skipped: a stop comes before it.
    pub fn of(list: &[u8], areas: &Areas, state: &State) -> Option<Kept> {
        let is_word = |line: &[u8], words: &[&[u8]]| words.iter().any(|word| line.starts_with(word));
        let mut lines = list.get(state.at..)?.split(|c| *c == b'\n');
        let stops = lines.find(|line| !is_word(line, &[b"zero ", b"erase ", b"new ", b"free "]))?;
        let some = state.refusal.number == 0 && state.ready == 0 && state.stretches == 0 && is_word(stops, &[b"move ", b"bsdiff "]);
        let [image, stash, work, result] = [&areas.image, &areas.stash, &areas.work, &areas.result];
        some.then(|| Kept { image: image.to_vec(), stash: stash.to_vec(), work: work.to_vec(), result: result.to_vec() })
    }
}

/// A `move` or a `bsdiff`, by its fields; it was read before.
struct Line<'a> {
    text: &'a [u8],
    patched: Option<patch::Line<'a>>,
    hash: &'a [u8],
    made: &'a [u8],
    target: Vec<(u64, u64)>,
    order: Vec<usize>,
    n: usize,
    source: Vec<&'a [u8]>,
}

impl Line<'_> {
    fn of(text: &[u8]) -> Option<Line<'_>> {
        let mut fields = text.split(|c| matches!(c, b' ' | b'\n'));
        let patched = match fields.next()? {
            b"move" => None,
            b"bsdiff" => {
                // O and B are the patch's.
                fields.nth(1);
                Some(patch::Line::of(text)?)
            }
            _ => return None,
        };
        let hash = fields.next()?;
        let made = if patched.is_some() { fields.next()? } else { hash };
        let target = ranges(fields.next()?)?;
        let n = std::str::from_utf8(fields.next()?).ok()?.parse().ok()?;
        // Few enough to be laid out: a good line has no more than a work or a result area.
        let order = (blocks(&target) <= 1 << 16).then(|| blocks_of(&target))?;
        Some(Line { text, patched, hash, made, target, order, n, source: fields.filter(|field| !field.is_empty()).collect() })
    }

    fn form(&self) -> usize {
        match self.source[..] {
            [_] => 0,
            [b"-", ..] => 1,
            _ => 2,
        }
    }

    /// Its target, within the image, has its hash.
    fn is_finished(&self, image: &[u8]) -> bool {
        self.order.iter().all(|block| (block + 1) * BLOCK <= image.len()) && has(image, &self.order, self.made)
    }

    /// S, where it has one.
    fn set(&self) -> Option<Vec<(u64, u64)>> {
        ranges(self.source[0])
    }
}

/// A line of a list that opened, over this image, is one with nothing left to do.
pub fn is_finished(line: &[u8], image: &[u8]) -> bool {
    Line::of(line).is_some_and(|line| line.is_finished(image))
}

fn blocks_of(set: &[(u64, u64)]) -> Vec<usize> {
    set.iter().flat_map(|(start, end)| *start as usize..*end as usize).collect()
}

/// These blocks of an area, joined, have this hash.
fn has(area: &[u8], order: &[usize], hash: &[u8]) -> bool {
    hash_in(area, order).as_bytes() == hash
}

fn hash_in(area: &[u8], order: &[usize]) -> String {
    let joined: Vec<&[u8]> = order.iter().map(|block| &area[block * BLOCK..(block + 1) * BLOCK]).collect();
    hex(&digest(&joined.concat()))
}

fn rising(order: &[usize]) -> Vec<usize> {
    let mut order = order.to_vec();
    order.sort();
    order
}

/// Each block where it comes first.
fn once(order: &[usize]) -> Vec<usize> {
    (0..order.len()).filter(|k| !order[..*k].contains(&order[*k])).map(|k| order[k]).collect()
}

/// A call while it is gone through.
struct Walk<'a> {
    list: &'a [u8],
    patch: &'a [u8],
    piece: &'a [u8],
    kept: Kept,
    state: State,
    taken: usize,
}

impl Walk<'_> {
    /// Runs the lines up to this place; whether they all ran.
    fn run_to(&mut self, place: usize) -> bool {
        if self.state.at == place {
            return true;
        }
        let (list, piece) = (&self.list[..place], &self.piece[self.taken..]);
        let Kept { image, stash, work, result } = &mut self.kept;
        self.state.lengths.list = place;
        let called = plain::call_on(list, Areas { image, stash, work, result, patch: self.patch }, piece, &mut self.state);
        self.state.lengths.list = self.list.len();
        self.taken += called.taken;
        called.outcome == Outcome::Done
    }

    /// The line stands before this place too.
    fn stood_before(&self, line: &Line) -> bool {
        self.list[..self.state.at].split_inclusive(|c| *c == b'\n').any(|other| other == line.text)
    }

    /// The source of a line that passed its checks, put together.
    fn source(&self, line: &Line) -> Vec<u8> {
        let mut whole = vec![0; line.n * BLOCK];
        let mut fill = |places: &[usize], bytes: &[u8]| {
            for (place, block) in places.iter().zip(bytes.chunks(BLOCK)) {
                whole[place * BLOCK..][..BLOCK].copy_from_slice(block);
            }
        };
        if let Some(set) = line.set() {
            let first = if line.form() == 0 { (0..line.n).collect() } else { blocks_of(&ranges(line.source[1]).unwrap_or_default()) };
            for (place, block) in first.iter().zip(blocks_of(&set)) {
                fill(&[*place], &self.kept.image[block * BLOCK..(block + 1) * BLOCK]);
            }
        }
        for part in line.source.iter().filter(|field| field.contains(&b':')) {
            let k = (0..self.state.count).find(|k| part.starts_with(&hash_of(&self.state, *k))).unwrap_or(0);
            let start: usize = self.state.sizes[..k].iter().sum();
            fill(&blocks_of(&ranges(part).unwrap_or_default()), &self.kept.stash[start * BLOCK..]);
        }
        whole
    }

    /// Which of SKIPPED a line has whose target has its hash.
    fn skipped(&self, line: &Line, ran: &[Vec<u8>], first: bool) -> [bool; SKIPPED.len()] {
        let mut kinds = [false; SKIPPED.len()];
        let Line { patched, target, order, n, .. } = line;
        kinds[line.form() + if patched.is_some() { 3 } else { 0 }] = true;
        let source = self.source(line);
        let wrong = hex(&digest(&source)).as_bytes() != line.hash;
        match patched {
            None => kinds[6] = wrong,
            Some(_) if wrong => kinds[7] = true,
            Some(patched) => match patched.makes(self.patch, &source) {
                None => kinds[8] = true,
                Some(made) => kinds[9] = hex(&digest(&made)).as_bytes() != line.made,
            },
        }
        let sorted = rising(order);
        kinds[10] = target.len() > 1;
        kinds[11] = sorted != *order && !has(&self.kept.image, &sorted, line.made);
        kinds[12] = sorted.windows(2).any(|two| two[0] == two[1]);
        kinds[13] = order.len() > *n;
        kinds[14] = order.len() < *n;
        kinds[15] = order.len() * BLOCK > self.kept.work.len();
        let set = line.set().unwrap_or_default();
        let own = line.form() == 0 && blocks_of(&set) == *order;
        kinds[16] = meet(target, &set) && !own;
        kinds[17] = patched.is_none() && own;
        kinds[18] = self.stood_before(line);
        kinds[19] = ran.iter().any(|other| other == line.text);
        kinds[21] = first;
        kinds[22] = self.state.at + line.text.len() == self.list.len();
        kinds
    }

    /// Which of NEAR a line has that is about to run, and then ran.
    fn near(&mut self, line: &Line) -> Option<[bool; NEAR.len()]> {
        let mut kinds = [false; NEAR.len()];
        let Line { patched, order, n, .. } = line;
        let moved = patched.is_none();
        let sorted = rising(order);
        let Kept { image, work, result, .. } = &self.kept;
        let in_order = sorted != *order && has(image, &sorted, line.made);
        kinds[4] = moved && in_order;
        kinds[5] = !moved && in_order;
        kinds[6] = moved && line.form() == 0;
        let there = hash_in(image, order);
        kinds[7] = there.as_bytes() == line.hash;
        let earlier = self.list[..self.state.at].split(|c| *c == b'\n').filter(|other| other.starts_with(b"bsdiff "));
        kinds[8] = moved && earlier.filter_map(|other| other.split(|c| *c == b' ').nth(4)).any(|made| made == there.as_bytes());
        kinds[9] = has(work, &(0..*n).collect::<Vec<_>>(), line.hash);
        kinds[10] = !moved && has(result, &(0..order.len()).collect::<Vec<_>>(), line.made);
        kinds[11] = self.stood_before(line);
        let before: Vec<u8> = image.clone();
        if !self.run_to(self.state.at + line.text.len()) {
            return None;
        }
        if sorted.windows(2).all(|two| two[0] < two[1]) {
            let place = |block: usize| block * BLOCK..(block + 1) * BLOCK;
            let other: Vec<usize> = (0..order.len()).filter(|k| before[place(order[*k])] != self.kept.image[place(order[*k])]).collect();
            let last = order.len() - 1;
            kinds[0] = last > 0 && other == [last];
            kinds[1] = last > 0 && other == [0];
            kinds[2] = other.len() == 1 && (1..last).contains(&other[0]);
            kinds[3] = last > 1 && other.len() == last && other[0] == 1;
        }
        Some(kinds)
    }

    /// Which of CLOSE a line has that was refused with 16 or 19.
    fn close(&self, line: &Line) -> [bool; CLOSE.len()] {
        let (image, order, last) = (&self.kept.image, &line.order, line.order.len() - 1);
        let is = |other: &[usize]| other != &order[..] && has(image, other, line.made);
        let bits: u32 = hash_in(image, order).bytes().zip(line.made).map(|(a, b)| (digit(a) ^ digit(*b)).count_ones()).sum();
        let each = [is(&order[..1]), is(&order[last..]), is(&rising(order)), is(&once(order)), bits == 1];
        let mut kinds = [false; CLOSE.len()];
        let from = if line.patched.is_some() { 5 } else { 0 };
        kinds[from..from + 5].copy_from_slice(&each);
        kinds[10] = line.patched.is_some() && line.n < order.len() && is(&order[..line.n]);
        kinds
    }
}

fn digit(c: u8) -> u32 {
    (c as char).to_digit(16).unwrap_or(0)
}

impl Finished {
    /// Goes through a call from a possible state; where the line starts that it skipped, if it did.
    pub(super) fn called(&mut self, list: &[u8], areas: &Areas, piece: &[u8], kept: Option<Kept>, before: &State, answer: &Answer) -> Vec<usize> {
        // A state that no stop left begins anew.
        let begun = self.way.take();
        let mut way = match begun {
            Some(way) if way.after == *before => way,
            other => {
                self.ended(other);
                Way { from: *before, after: *before, taken: 0, skipped: Vec::new(), ran: Vec::new() }
            }
        };
        let known = way.skipped.len();
        if let Some(kept) = kept {
            self.line(&mut way, Walk { list, patch: areas.patch, piece, kept, state: *before, taken: 0 }, answer);
        }
        let skipped: Vec<usize> = way.skipped[known..].iter().map(|(at, ..)| *at).collect();
        self.since.0 += skipped.len() as u64;
        way.taken += answer.taken;
        way.after = answer.state;
        if answer.outcome == Outcome::Stop {
            self.way = Some(way);
            return skipped;
        }
        let all: Vec<usize> = way.skipped.iter().map(|(at, ..)| *at).collect();
        add(&mut self.behind, &behind(list, &all, &way.from, answer));
        self.ended(Some(way));
        skipped
    }

    /// The `move` or `bsdiff` that a call came to, where it did: there it stopped, or was refused.
    fn line(&mut self, way: &mut Way, mut walk: Walk, answer: &Answer) {
        let (first, end, number) = (walk.state.at, answer.state.at, answer.outcome.number());
        let filled = answer.state.ready != 0;
        let mut at = first;
        let found = walk.list[first..].split_inclusive(|c| *c == b'\n').find(|text| {
            at += text.len();
            text.starts_with(b"move ") || text.starts_with(b"bsdiff ")
        });
        let Some(text) = found else { return };
        at -= text.len();
        // A line that the call did not read need not be a good one.
        if at > end || at == end && matches!(number, 6 | 7) {
            return;
        }
        let Some(line) = Line::of(text) else { return };
        if !walk.run_to(at) {
            return;
        }
        let done = line.is_finished(&walk.kept.image);
        match number {
            16 | 19 if at == end => add(&mut self.close, &walk.close(&line)),
            0 if at == end && filled => {
                if let Some(kinds) = walk.near(&line) {
                    add(&mut self.near, &kinds);
                    way.ran.push(text.to_vec());
                    self.since.1 += 1;
                }
            }
            _ if at == end => add(&mut self.checked, &CHECKED.map(|checked| done && checked == number.to_string())),
            _ => way.skipped.push((at, walk.skipped(&line, &way.ran, at == first), way.taken + walk.taken)),
        }
    }

    /// Counts the lines skipped on a way that is over.
    fn ended(&mut self, way: Option<Way>) {
        let Some(way) = way else { return };
        for (_, mut kinds, taken) in way.skipped {
            kinds[20] = taken > 0 && way.taken > taken;
            add(&mut self.skipped, &kinds);
        }
    }

    /// A list that was run is about to be run once more.
    pub fn again_begins(&mut self) {
        self.since = (0, 0);
    }

    /// It was, and ended with this number, or with none.
    pub fn again_ended(&mut self, number: usize) {
        let (skipped, ran) = (self.since.0 > 0, self.since.1 > 0);
        add(&mut self.again, &[skipped && !ran, skipped && ran, skipped && number == 16, !skipped && number == 16]);
    }

    /// The kinds by groups, each with its name, and how often they occurred.
    pub(super) fn groups(&self) -> [(&str, &[&str], &[u64]); 6] {
        [
            ("skipped lines", &SKIPPED, &self.skipped),
            ("behind a skipped line", &BEHIND, &self.behind),
            ("refused, the target having its hash, with", &CHECKED, &self.checked),
            ("not skipped, and ran", &NEAR, &self.near),
            ("not skipped, and refused, the hash being of", &CLOSE, &self.close),
            ("lists run again", &AGAIN, &self.again),
        ]
    }
}

/// Which of BEHIND a way has on which these lines were skipped.
fn behind(list: &[u8], skipped: &[usize], before: &State, answer: &Answer) -> [bool; BEHIND.len()] {
    let (Some(first), Some(last)) = (skipped.first(), skipped.last()) else { return [false; BEHIND.len()] };
    let mut at = before.at;
    let lines = list[before.at..answer.state.at].split_inclusive(|c| *c == b'\n').map(|line| {
        at += line.len();
        (at - line.len(), line)
    });
    let ran: Vec<(usize, &[u8])> = lines.filter(|(at, _)| !skipped.contains(at)).collect();
    let starts = |line: &[u8], words: &[&[u8]]| words.iter().any(|word| line.starts_with(word));
    let later = |words: &[&[u8]]| ran.iter().any(|(at, line)| at > first && starts(line, words));
    let number = answer.outcome.number();
    let other = !matches!(number, 0 | 16 | 19);
    // Each of these fills the work area.
    let filled: Vec<usize> = ran.iter().filter(|(_, line)| starts(line, &[b"stash ", b"move ", b"bsdiff "])).map(|(at, _)| *at).collect();
    [
        later(&[b"stash "]),
        later(&[b"move ", b"bsdiff "]),
        number == 16,
        number == 19,
        other && filled.last().is_some_and(|at| at < last),
        other && filled.is_empty(),
        answer.outcome == Outcome::More,
        answer.outcome == Outcome::Done,
    ]
}
