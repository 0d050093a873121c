//! Openings, calls and runs as they cross: a state as its saved form, written and changed where it lies, and answers as numbers. Calls over bytes that
//! are no saved form, with all other memory closed.

use super::{first_difference, state_text, Checker, Lent};
use crate::generate::{Pieces, Rng};
use crate::{answer_numbers, opening_numbers, Form, Implementation, NO_SAVED_FORM};
use reference::saved::{self, MARKS, SAVED};
use reference::{Answer, Areas, Rooms, State};

/// What the bytes of a state hold before an opening or a run writes them.
const ANYTHING: [u8; SAVED] = [0xa5; SAVED];

/// What is never read.
const PIECE: &[u8] = b"a piece";

impl Checker<'_> {
    /// The opening of the list that is lent, once more.
    pub(super) fn open_crossing(&mut self, rooms: Rooms, ours: &State) -> Result<(), String> {
        self.form.set(&ANYTHING, self.behind);
        let (answer, form) = (opening_numbers(ours), saved::save(ours));
        let theirs = self.other.open_form(self.list.bytes(), rooms, whole(self.form.bytes_mut()));
        self.coverage.crossings[0] += 1;
        let wrong = self.crossed(answer, theirs, &form);
        match wrong.is_empty() {
            true => Ok(()),
            false => Err(format!("an opening as it crosses differs: {}", wrong.join(", "))),
        }
    }

    /// A call once more, over what was lent before it.
    pub(super) fn call_crossing(&mut self, before: &Lent, after: &Lent, piece: &[u8], state: &State, ours: &Answer) -> Result<(), String> {
        self.lend(before);
        self.form.set(&saved::save(state), self.behind);
        let (other, list, areas, others_piece, form) = self.crossing();
        let theirs = other.call_form(list, areas, others_piece, form);
        self.coverage.crossings[1] += 1;
        let wrong = self.crossed(answer_numbers(ours), theirs, &saved::save(&ours.state));
        self.same_lent(after, piece, wrong, "a call as it crosses")
    }

    /// A run once more.
    pub(super) fn run_crossing(&mut self, before: &Lent, after: &Lent, pieces: &Pieces, ours: &Answer) -> Result<(), String> {
        let Pieces { data, cuts } = pieces;
        self.lend(before);
        self.form.set(&ANYTHING, self.behind);
        let (other, list, areas, others_data, form) = self.crossing();
        let theirs = other.run_form(list, areas, others_data, cuts, form);
        self.coverage.crossings[2] += 1;
        let wrong = self.crossed(answer_numbers(ours), theirs, &saved::save(&ours.state));
        self.same_lent(after, data, wrong, "a run as it crosses")
    }

    /// A call over this state's saved form with each byte of its marks another: 20. Nothing may be touched then but the bytes themselves, and these may
    /// be read alone.
    pub(super) fn unmarked(&mut self, rng: &mut Rng, lent: &Lent, state: &State) -> Result<(), String> {
        let form = saved::save(state);
        let mut wrong = Vec::new();
        self.piece.set(PIECE, self.behind);
        self.close_all();
        for at in MARKS.iter().flat_map(|(at, _)| [*at, at + 1]) {
            let mut damaged = form.clone();
            damaged[at] ^= 1 << rng.below(8);
            self.form.open();
            self.form.set(&damaged, self.behind);
            self.form.close(true);
            let (other, list, areas, piece, bytes) = self.crossing();
            let theirs = other.call_form(list, areas, piece, bytes);
            wrong.extend(self.crossed(NO_SAVED_FORM, theirs, &damaged).into_iter().map(|difference| format!("byte {at} changed: {difference}")));
            self.coverage.unmarked += 1;
        }
        self.open_again();
        self.note(|| format!("over damaged marks, state {}", state_text(state)));
        self.same_lent(lent, PIECE, wrong, "a call over no saved form")
    }

    /// What the other implementation is lent: list, areas, piece and the state's saved form.
    fn crossing(&mut self) -> (&dyn Implementation, &[u8], Areas<'_>, &[u8], &mut Form) {
        let Checker { other, list, image, stash, work, result, patch, piece, form, .. } = self;
        let areas =
            Areas { image: image.bytes_mut(), stash: stash.bytes_mut(), work: work.bytes_mut(), result: result.bytes_mut(), patch: patch.bytes() };
        (*other, list.bytes(), areas, piece.bytes(), whole(form.bytes_mut()))
    }

    /// How what was answered and the state's bytes differ from what they must be.
    fn crossed<const N: usize>(&self, answer: [u64; N], theirs: [u64; N], form: &[u8]) -> Vec<String> {
        let mut wrong = Vec::new();
        if answer != theirs {
            wrong.push(format!("answer {answer:?} and {theirs:?}"));
        }
        if form != self.form.bytes() {
            wrong.push(format!("the state's bytes at {}", first_difference(form, self.form.bytes())));
        }
        wrong
    }
}

/// As many bytes as a saved form has.
fn whole(bytes: &mut [u8]) -> &mut Form {
    bytes.try_into().expect("as many bytes as a saved form has")
}
