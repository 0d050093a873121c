//! Runs one seeded case on the plain implementation and on another, and compares everything after every call.

mod case;
mod closed;
mod form;
mod lines;
mod odd;
mod reading;
mod saved;
mod sparse;

use crate::coverage::{Coverage, Kept};
use crate::generate::{Blocks, Pieces};
use crate::guard::Guarded;
use crate::{hex, Implementation, Model, Plain};
pub use lines::LineChecker;
use reference::saved::SAVED;
use reference::{Answer, Areas, Outcome, Rooms, State, BLOCK};
pub use sparse::SparseChecker;
use std::fmt::Write;

/// Implementations by name.
type Named<'a> = (&'a str, &'a dyn Implementation);

/// Seeded cases, each by its number, and what occurred in them.
pub trait Series {
    /// One case; the difference, if there is one.
    fn case(&mut self, seed: u64, index: u64) -> Result<(), String>;
    /// The case again, written out whole.
    fn written(&mut self, seed: u64, index: u64) -> String;
    fn report(&self) -> String;
    /// What never occurred, of all that a default run must have.
    fn missing(&self) -> Vec<String>;
}

/// What is lent to the plain implementation.
#[derive(Clone, PartialEq)]
struct Lent {
    list: Vec<u8>,
    image: Vec<u8>,
    stash: Vec<u8>,
    work: Vec<u8>,
    result: Vec<u8>,
    patch: Vec<u8>,
}

impl Lent {
    /// The list, and what is lent beside it.
    fn areas(&mut self) -> (&[u8], Areas<'_>) {
        let Lent { list, image, stash, work, result, patch } = self;
        (list, Areas { image, stash, work, result, patch })
    }

    fn rooms(&self) -> Rooms {
        let Lent { image, stash, work, result, patch, .. } = self;
        Rooms { image: image.len(), stash: stash.len(), work: work.len(), result: result.len(), patch: patch.len() }
    }

    fn text(&self) -> String {
        let named = [("list", &self.list), ("image", &self.image), ("stash", &self.stash), ("work", &self.work), ("result", &self.result)];
        let each: Vec<String> = named.into_iter().chain([("patch", &self.patch)]).map(|(name, bytes)| format!("{name} {}", hex(bytes))).collect();
        each.join("\n  ")
    }
}

/// The other implementation, with its own copy of everything lent, between guards.
pub struct Checker<'a> {
    other: &'a dyn Implementation,
    list: Guarded,
    image: Guarded,
    stash: Guarded,
    work: Guarded,
    result: Guarded,
    patch: Guarded,
    piece: Guarded,
    /// A state's saved form, where calls are made as they cross.
    form: Guarded,
    behind: bool,
    /// Each call is made by the slow model too.
    thrice: bool,
    /// Each opening, call and run is made as it crosses too.
    crossing: bool,
    blocks: Blocks,
    made_up: Blocks,
    log: Option<String>,
    coverage: Coverage,
}

fn state_text(state: &State) -> String {
    format!(
        "count {} line {} at {} into {} total {} ready {} stretches {} refusal {:?} {:?}\n    sizes {:?}\n    hashes {}",
        state.count,
        state.line,
        state.at,
        state.into,
        state.total,
        state.ready,
        state.stretches,
        (state.refusal.number, state.refusal.line, state.refusal.byte),
        state.lengths,
        state.sizes,
        hex(&state.hashes)
    )
}

fn answer_text(answer: &Answer) -> String {
    format!("{:?} taken {}\n    {}", answer.outcome, answer.taken, state_text(&answer.state))
}

fn first_difference(a: &[u8], b: &[u8]) -> usize {
    a.iter().zip(b).position(|(x, y)| x != y).unwrap_or(a.len().min(b.len()))
}

impl Series for Checker<'_> {
    fn case(&mut self, seed: u64, index: u64) -> Result<(), String> {
        self.list_case(seed, index)
    }

    fn written(&mut self, seed: u64, index: u64) -> String {
        self.log = Some(format!("seed {seed} case {index}\n"));
        let kept = self.coverage.clone();
        let end = self.case(seed, index);
        self.coverage = kept;
        let mut text = self.log.take().unwrap_or_default();
        let _ = writeln!(text, "{}", end.err().unwrap_or("no difference this time".into()));
        text
    }

    fn report(&self) -> String {
        self.coverage.report()
    }

    fn missing(&self) -> Vec<String> {
        self.coverage.missing()
    }
}

impl<'a> Checker<'a> {
    pub fn new(other: &'a dyn Implementation) -> Checker<'a> {
        let room = || Guarded::new(64 * BLOCK);
        Checker {
            other,
            list: room(),
            image: room(),
            stash: room(),
            work: room(),
            result: room(),
            patch: room(),
            piece: room(),
            form: Guarded::new(SAVED),
            behind: true,
            thrice: false,
            crossing: false,
            blocks: Blocks::new(),
            made_up: Blocks::made_up(),
            log: None,
            coverage: Coverage::default(),
        }
    }

    fn note(&mut self, text: impl FnOnce() -> String) {
        if let Some(log) = &mut self.log {
            log.push_str(&text());
            log.push('\n');
        }
    }

    fn open(&mut self, list: &[u8], rooms: Rooms) -> Result<State, String> {
        self.list.set(list, self.behind);
        let ours = Plain.open(list, rooms);
        let theirs = self.other.open(self.list.bytes(), rooms);
        self.coverage.open(list, rooms, &ours);
        self.note(|| {
            let text = String::from_utf8_lossy(list).to_string();
            format!(
                "open: {rooms:?}\n  list, {} bytes, {}\n{text}\n  plain: {}\n  other: {}",
                list.len(),
                hex(list),
                state_text(&ours),
                state_text(&theirs)
            )
        });
        if ours != theirs {
            return Err(format!("open differs: plain {:?}, other {:?}", ours.refusal, theirs.refusal));
        }
        if self.crossing {
            self.open_crossing(rooms, &ours)?;
        }
        if let Some(number) = reading::turned(list, rooms, &ours)? {
            self.coverage.given_before[number] += 1;
        }
        Ok(ours)
    }

    /// Gives the other implementation what the plain one has.
    fn lend(&mut self, lent: &Lent) {
        self.image.set(&lent.image, self.behind);
        self.stash.set(&lent.stash, self.behind);
        self.work.set(&lent.work, self.behind);
        self.result.set(&lent.result, self.behind);
        self.patch.set(&lent.patch, self.behind);
    }

    /// What the other implementation is lent: list, areas and piece.
    fn others(&mut self) -> (&dyn Implementation, &[u8], Areas<'_>, &[u8]) {
        let Checker { other, list, image, stash, work, result, patch, piece, .. } = self;
        let areas =
            Areas { image: image.bytes_mut(), stash: stash.bytes_mut(), work: work.bytes_mut(), result: result.bytes_mut(), patch: patch.bytes() };
        (*other, list.bytes(), areas, piece.bytes())
    }

    /// Calls until the run is done, needs more or is refused, each call compared. After a stop the next piece is what was not taken.
    fn call_on(&mut self, lent: &mut Lent, piece: &[u8], mut state: State) -> Result<Answer, String> {
        let mut taken = 0;
        loop {
            let answer = self.call(lent, &piece[taken..], state)?;
            taken += answer.taken;
            state = answer.state;
            if answer.outcome != Outcome::Stop {
                return Ok(Answer { taken, ..answer });
            }
        }
    }

    /// One call, which may end with a stop.
    fn call(&mut self, lent: &mut Lent, piece: &[u8], state: State) -> Result<Answer, String> {
        if lent.rooms() != self.others().2.rooms() {
            self.lend(lent);
        }
        self.list.set(&lent.list, self.behind);
        self.patch.set(&lent.patch, self.behind);
        self.piece.set(piece, self.behind);
        self.note(|| {
            let text = String::from_utf8_lossy(&lent.list).to_string();
            format!("call: {}\n  piece {}\n{text}\n  state {}", lent.text(), hex(piece), state_text(&state))
        });
        let mut third = self.thrice.then(|| lent.clone());
        let before = self.crossing.then(|| lent.clone());
        let (list, areas) = lent.areas();
        let kept = Kept::of(list, &areas, &state);
        let ours = Plain.call(list, areas, piece, state);
        if let Some(third) = &mut third {
            let (list, areas) = third.areas();
            let slow = Model.call(list, areas, piece, state);
            self.coverage.thrice += 1;
            if slow != ours || third != lent {
                return Err(format!("plain and model differ: {} and {}", answer_text(&ours), answer_text(&slow)));
            }
        }
        let (other, list, areas, others_piece) = self.others();
        let theirs = other.call(list, areas, others_piece, state);
        self.note(|| format!("  plain: {}\n  other: {}", answer_text(&ours), answer_text(&theirs)));
        self.same(lent, piece, &ours, &theirs, "call")?;
        if let Some(before) = before {
            self.call_crossing(&before, lent, piece, &state, &ours)?;
        }
        let (list, areas) = lent.areas();
        self.coverage.call(list, &areas, piece, kept, &state, &ours);
        Ok(ours)
    }

    fn same(&mut self, lent: &Lent, piece: &[u8], ours: &Answer, theirs: &Answer, what: &str) -> Result<(), String> {
        let mut wrong = Vec::new();
        if ours.outcome != theirs.outcome {
            wrong.push(format!("outcome {:?} and {:?}", ours.outcome, theirs.outcome));
        }
        if ours.taken != theirs.taken {
            wrong.push(format!("taken {} and {}", ours.taken, theirs.taken));
        }
        if ours.state != theirs.state {
            wrong.push("the state".into());
        }
        self.same_lent(lent, piece, wrong, what)
    }

    /// Nothing is wrong, and the other has in all that it was lent what the plain one has.
    fn same_lent(&mut self, lent: &Lent, piece: &[u8], mut wrong: Vec<String>, what: &str) -> Result<(), String> {
        let areas = [
            ("image", &lent.image[..], self.image.bytes()),
            ("stash", &lent.stash, self.stash.bytes()),
            ("work", &lent.work, self.work.bytes()),
            ("result", &lent.result, self.result.bytes()),
            // What is only read stays.
            ("patch", &lent.patch, self.patch.bytes()),
            ("list", &lent.list, self.list.bytes()),
            ("piece", piece, self.piece.bytes()),
        ];
        for (name, a, b) in areas {
            if a != b {
                wrong.push(format!("{name} at byte {}", first_difference(a, b)));
            }
        }
        if wrong.is_empty() {
            return Ok(());
        }
        if let Some(log) = &mut self.log {
            for (name, _, theirs) in areas {
                let _ = writeln!(log, "  other's {name} {}", hex(theirs));
            }
        }
        Err(format!("{what} differs: {}", wrong.join(", ")))
    }

    fn run(&mut self, lent: &Lent, pieces: &Pieces) -> Result<(), String> {
        let Pieces { data, cuts } = pieces;
        let mut fresh = lent.clone();
        self.lend(lent);
        self.list.set(&lent.list, self.behind);
        self.piece.set(data, self.behind);
        let (list, areas) = fresh.areas();
        let ours = Plain.run(list, areas, data, cuts);
        let (other, list, areas, others_data) = self.others();
        let theirs = other.run(list, areas, others_data, cuts);
        self.coverage.runs += 1;
        self.note(|| {
            let (ours, theirs) = (answer_text(&ours), answer_text(&theirs));
            format!("run: {}\n  data {}\n  cuts {cuts:?}\n  plain: {ours}\n  other: {theirs}", lent.text(), hex(data))
        });
        self.same(&fresh, data, &ours, &theirs, "run")?;
        if self.crossing {
            self.run_crossing(lent, &fresh, pieces, &ours)?;
        }
        Ok(())
    }
}
