//! The outside check: the rules as three implementations, and cases to compare them on.

pub mod compare;
pub mod coverage;
pub mod cuts;
pub mod generate;
pub mod guard;
mod hex;
pub mod library;
mod numbers;
pub mod raw;
pub mod record;

pub use hex::hex;
pub use library::Library;
pub use numbers::{answer_numbers, opening_numbers, NO_SAVED_FORM};
use reference::{model, plain, saved, Answer, Areas, Hash, Outcome, Rooms, State};

/// A state as it crosses: its saved form.
pub type Form = [u8; saved::SAVED];

/// One implementation of the rules, on the reference's types.
pub trait Implementation {
    fn digest(&self, bytes: &[u8]) -> Hash;
    fn open(&self, list: &[u8], rooms: Rooms) -> State;
    fn call(&self, list: &[u8], areas: Areas, piece: &[u8], state: State) -> Answer;
    /// Calls until the run is done, needs more or is refused: after a stop the next piece is what was not taken. All bytes taken count.
    fn call_on(&self, list: &[u8], mut areas: Areas, piece: &[u8], state: State) -> Answer {
        let (mut state, mut taken) = (state, 0);
        loop {
            let answer = self.call(list, areas.reborrow(), &piece[taken..], state);
            (state, taken) = (answer.state, taken + answer.taken);
            if answer.outcome != Outcome::Stop {
                return Answer { taken, ..answer };
            }
        }
    }
    fn run(&self, list: &[u8], areas: Areas, data: &[u8], cuts: &[usize]) -> Answer;
    /// The saved form of a state. The reference has one for both its ways.
    fn save(&self, state: &State) -> Vec<u8> {
        saved::save(state)
    }
    /// The state whose saved form the bytes are, or the number that they are refused with.
    fn restore(&self, bytes: &[u8]) -> Result<State, usize> {
        saved::restore(bytes).ok_or(20)
    }
    /// An opening as it crosses: number, line and byte, and the state's saved form over bytes that may hold anything.
    fn open_form(&self, list: &[u8], rooms: Rooms, form: &mut Form) -> [u64; 3] {
        let state = self.open(list, rooms);
        form.copy_from_slice(&saved::save(&state));
        opening_numbers(&state)
    }
    /// A call as it crosses: outcome, number, line, byte and what was taken. The state's saved form is changed where it lies. Over bytes that are none
    /// it is 20, and changes nothing.
    fn call_form(&self, list: &[u8], areas: Areas, piece: &[u8], form: &mut Form) -> [u64; 5] {
        let Some(state) = saved::restore(form) else { return NO_SAVED_FORM };
        let answer = self.call(list, areas, piece, state);
        form.copy_from_slice(&saved::save(&answer.state));
        answer_numbers(&answer)
    }
    /// A run as it crosses, over bytes that may hold anything.
    fn run_form(&self, list: &[u8], areas: Areas, data: &[u8], cuts: &[usize], form: &mut Form) -> [u64; 5] {
        let answer = self.run(list, areas, data, cuts);
        form.copy_from_slice(&saved::save(&answer.state));
        answer_numbers(&answer)
    }
    /// Nothing, or the number that the file is refused with.
    fn load_sparse(&self, file: &[u8], image: &mut [u8]) -> Result<(), usize>;
}

/// The rules in plain loops.
pub struct Plain;

impl Implementation for Plain {
    fn digest(&self, bytes: &[u8]) -> Hash {
        reference::digest(bytes)
    }
    fn open(&self, list: &[u8], rooms: Rooms) -> State {
        plain::open(list, rooms)
    }
    fn call(&self, list: &[u8], areas: Areas, piece: &[u8], mut state: State) -> Answer {
        let called = plain::call(list, areas, piece, &mut state);
        Answer { state, outcome: called.outcome, taken: called.taken }
    }
    fn call_on(&self, list: &[u8], areas: Areas, piece: &[u8], mut state: State) -> Answer {
        let called = plain::call_on(list, areas, piece, &mut state);
        Answer { state, outcome: called.outcome, taken: called.taken }
    }
    fn run(&self, list: &[u8], areas: Areas, data: &[u8], cuts: &[usize]) -> Answer {
        plain::run(list, areas, data, cuts)
    }
    fn load_sparse(&self, file: &[u8], image: &mut [u8]) -> Result<(), usize> {
        plain::load_sparse(file, image)
    }
}

/// The rules by splitting and collecting; its run is the model, which has no stops, over all the data.
pub struct Model;

impl Implementation for Model {
    fn digest(&self, bytes: &[u8]) -> Hash {
        reference::digest(bytes)
    }
    fn open(&self, list: &[u8], rooms: Rooms) -> State {
        model::open(list, rooms)
    }
    fn call(&self, list: &[u8], areas: Areas, piece: &[u8], state: State) -> Answer {
        model::call(list, areas, piece, state)
    }
    fn call_on(&self, list: &[u8], areas: Areas, piece: &[u8], state: State) -> Answer {
        model::through(list, areas, piece, state)
    }
    fn run(&self, list: &[u8], areas: Areas, data: &[u8], _cuts: &[usize]) -> Answer {
        let opened = model::open(list, areas.rooms());
        model::through(list, areas, data, opened)
    }
    fn load_sparse(&self, file: &[u8], image: &mut [u8]) -> Result<(), usize> {
        model::load_sparse(file, image)
    }
}
