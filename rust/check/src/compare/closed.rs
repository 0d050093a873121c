//! Calls over memory that is closed where they have no business: neither that bytes are written as they were would show otherwise, nor that they are
//! read for nothing. A line that has nothing left to do may read the image, and what is ready is written from one area to one other; a stretch of a
//! `free` has the stash area alone.

use super::{answer_text, state_text, Checker, Lent};
use crate::coverage::is_finished;
use crate::generate::line_starts;
use crate::{Implementation, Plain};
use reference::{Answer, Outcome, State};

/// What a call may do with an area.
enum Use {
    Nothing,
    Read,
    Write,
}

/// Image, stash, work and result area and patch data.
type Open = [Use; 5];

const FINISHED: Open = [Use::Read, Use::Nothing, Use::Nothing, Use::Nothing, Use::Nothing];
const MOVE: Open = [Use::Write, Use::Nothing, Use::Read, Use::Nothing, Use::Nothing];
const BSDIFF: Open = [Use::Write, Use::Nothing, Use::Nothing, Use::Read, Use::Nothing];
const STASH: Open = [Use::Nothing, Use::Write, Use::Read, Use::Nothing, Use::Nothing];
const FREE: Open = [Use::Nothing, Use::Write, Use::Nothing, Use::Nothing, Use::Nothing];
const NOTHING: Open = [Use::Nothing, Use::Nothing, Use::Nothing, Use::Nothing, Use::Nothing];

impl Checker<'_> {
    /// Runs a list line by line and stop by stop: lines that are finished, those that are ready and stretches over closed memory.
    pub(super) fn closed(&mut self, lent: &Lent, mut data: &[u8], mut state: State) -> Result<(), String> {
        let mut lent = lent.clone();
        let list = std::mem::take(&mut lent.list);
        let first = state.at;
        for next in line_starts(&list).into_iter().filter(|next| *next > first) {
            state.lengths.list = next;
            lent.list = list[..next].to_vec();
            let line = &list[state.at..next];
            if is_finished(line, &lent.image) {
                let passed = State { at: next, line: state.line + 1, ..state };
                let expected = Answer { state: passed, outcome: Outcome::Stop, taken: 0 };
                self.call_closed(&mut lent, state, &FINISHED, &expected)?;
                self.coverage.closed[0] += 1;
                state = passed;
                continue;
            }
            loop {
                let mut after = lent.clone();
                let (text, areas) = after.areas();
                let answer = Plain.call(text, areas, data, state);
                let business = match line.split(|c| *c == b' ').next() {
                    Some(b"move") if state.ready != 0 => Some((MOVE, 1)),
                    Some(b"bsdiff") if state.ready != 0 => Some((BSDIFF, 2)),
                    Some(b"stash") if state.ready != 0 => Some((STASH, 3)),
                    Some(b"free") if answer.outcome == Outcome::Stop => Some((FREE, 4)),
                    _ => None,
                };
                if let Some((open, kind)) = business {
                    self.call_closed(&mut lent, state, &open, &answer)?;
                    self.coverage.closed[kind] += 1;
                }
                lent = after;
                data = &data[answer.taken..];
                state = answer.state;
                match answer.outcome {
                    Outcome::Stop if state.at < next => {}
                    Outcome::Stop | Outcome::Done => break,
                    Outcome::More | Outcome::Refused(_) => return Ok(()),
                }
            }
        }
        Ok(())
    }

    /// The call over memory of which only this is open. Plain's answer and what it wrote are known by then.
    fn call_closed(&mut self, lent: &mut Lent, state: State, open: &Open, expected: &Answer) -> Result<(), String> {
        self.lend(lent);
        self.list.set(&lent.list, self.behind);
        self.piece.set(b"", self.behind);
        self.close(open);
        let (other, list, areas, piece) = self.others();
        let theirs = other.call(list, areas, piece, state);
        self.open_again();
        self.note(|| format!("over closed memory: {}\n  state {}", lent.text(), state_text(&state)));
        let (list, areas) = lent.areas();
        let ours = Plain.call(list, areas, b"", state);
        self.same(lent, b"", &ours, &theirs, "a call over closed memory")?;
        match ours == *expected {
            true => Ok(()),
            false => Err(format!("a call with nothing ends otherwise: {}", answer_text(&ours))),
        }
    }

    fn close(&mut self, open: &Open) {
        let areas = [&mut self.image, &mut self.stash, &mut self.work, &mut self.result, &mut self.patch];
        for (area, open) in areas.into_iter().zip(open) {
            match open {
                Use::Nothing => area.close(false),
                Use::Read => area.close(true),
                Use::Write => {}
            }
        }
    }

    /// Areas, patch data, list and piece are closed.
    pub(super) fn close_all(&mut self) {
        self.close(&NOTHING);
        self.list.close(false);
        self.piece.close(false);
    }

    pub(super) fn open_again(&mut self) {
        let Checker { image, stash, work, result, patch, list, piece, form, .. } = self;
        for area in [image, stash, work, result, patch, list, piece, form] {
            area.open();
        }
    }
}
