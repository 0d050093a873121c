//! The proved library as an implementation: through the safe crate, where each call converts its state to the library's form and back, so that nothing
//! is timed here; and as it crosses, through the exports themselves.

use crate::guard::Guarded;
use crate::{raw, Form, Implementation};
use muongrabi::{Called, Fields, Stash};
use reference::{Answer, Areas, Hash, Lengths, Outcome, Refusal, Rooms, State, MOST_STASHES};
use std::array::from_fn;
use std::cell::RefCell;
use std::mem::size_of;

/// The proved library.
pub struct Library;

thread_local! {
    /// Where a call's state lies, which is changed in its place: against a page that may not be touched, behind it and before it by turns.
    static ROOM: RefCell<(Guarded, bool)> = RefCell::new((Guarded::new(size_of::<muongrabi::State>()), false));
}

impl Implementation for Library {
    fn digest(&self, bytes: &[u8]) -> Hash {
        muongrabi::digest(bytes)
    }

    /// Of a refused opening the crate hands out the refusal alone; that its state is zero otherwise is seen through `open_form`.
    fn open(&self, list: &[u8], rooms: Rooms) -> State {
        match muongrabi::open(list, lengths_of(rooms)) {
            Ok(state) => state_of(&state),
            Err(refused) => State { refusal: refusal_of(refused), ..State::ZERO },
        }
    }

    fn call(&self, list: &[u8], areas: Areas, piece: &[u8], state: State) -> Answer {
        ROOM.with_borrow_mut(|(room, behind)| {
            *behind = !*behind;
            let state = room.value(library_state(&state), *behind);
            let called = muongrabi::call(list, areas_of(areas), piece, state);
            answer_of(called, state)
        })
    }

    fn run(&self, list: &[u8], areas: Areas, data: &[u8], cuts: &[usize]) -> Answer {
        let (called, state) = muongrabi::run(list, areas_of(areas), data, cuts);
        answer_of(called, &state)
    }

    fn save(&self, state: &State) -> Vec<u8> {
        library_state(state).save().to_vec()
    }

    fn restore(&self, bytes: &[u8]) -> Result<State, usize> {
        muongrabi::State::restore(bytes).map(|state| state_of(&state)).map_err(|refusal| refusal.number())
    }

    fn open_form(&self, list: &[u8], rooms: Rooms, form: &mut Form) -> [u64; 3] {
        raw::open(list, rooms, form)
    }

    fn call_form(&self, list: &[u8], areas: Areas, piece: &[u8], form: &mut Form) -> [u64; 5] {
        raw::call(list, areas, piece, form)
    }

    fn run_form(&self, list: &[u8], areas: Areas, data: &[u8], cuts: &[usize], form: &mut Form) -> [u64; 5] {
        raw::run(list, areas, data, cuts, form)
    }

    fn load_sparse(&self, file: &[u8], image: &mut [u8]) -> Result<(), usize> {
        muongrabi::load_sparse(file, image).map_err(|refusal| refusal.number())
    }
}

/// Lengths as the library's crate has them.
fn lengths_of(rooms: Rooms) -> muongrabi::Lengths {
    let Rooms { image, stash, work, result, patch } = rooms;
    muongrabi::Lengths { image, stash, work, result, patch }
}

fn areas_of(areas: Areas) -> muongrabi::Areas {
    let Areas { image, stash, work, result, patch } = areas;
    muongrabi::Areas { image, stash, work, result, patch }
}

/// Every field, those past the count too, since whole states are compared.
pub fn library_state(state: &State) -> muongrabi::State {
    let State { hashes, sizes, count, line, at, into, refusal, lengths, total, ready, stretches } = *state;
    let Lengths { list, image, stash, work, result, patch } = lengths;
    muongrabi::State::from(&Fields {
        stashes: from_fn(|k| Stash { hash: from_fn(|j| hashes[20 * k + j]), blocks: sizes[k] }),
        count,
        line,
        at,
        into,
        total: total as usize,
        ready,
        stretches,
        refusal: muongrabi::Refusal::new(refusal.number, refusal.line, refusal.byte),
        list,
        lengths: muongrabi::Lengths { image, stash, work, result, patch },
    })
}

/// The other way.
fn state_of(state: &muongrabi::State) -> State {
    let Fields { stashes, count, line, at, into, total, ready, stretches, refusal, list, lengths } = state.fields();
    let mut hashes = [0; 20 * MOST_STASHES];
    for (hash, stash) in hashes.chunks_exact_mut(20).zip(&stashes) {
        hash.copy_from_slice(&stash.hash);
    }
    let muongrabi::Lengths { image, stash, work, result, patch } = lengths;
    let lengths = Lengths { list, image, stash, work, result, patch };
    let sizes = stashes.map(|stash| stash.blocks);
    State { hashes, sizes, count, line, at, into, refusal: refusal_of(refusal), lengths, total: total as u64, ready, stretches }
}

fn refusal_of(refusal: muongrabi::Refusal) -> Refusal {
    Refusal { number: refusal.number(), line: refusal.line(), byte: refusal.raw_byte() }
}

/// The library's outcome in the reference's type.
pub fn outcome_of(outcome: muongrabi::Outcome) -> Outcome {
    match outcome {
        muongrabi::Outcome::Done => Outcome::Done,
        muongrabi::Outcome::More => Outcome::More,
        muongrabi::Outcome::Stop => Outcome::Stop,
        muongrabi::Outcome::Refused(refusal) => Outcome::Refused(refusal_of(refusal)),
    }
}

fn answer_of(called: Called, state: &muongrabi::State) -> Answer {
    Answer { state: state_of(state), outcome: outcome_of(called.outcome), taken: called.taken }
}
