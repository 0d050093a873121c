//! Answers in the numbers in which they cross.

use reference::{Answer, Outcome, State};

/// What a call answers over bytes that are no state's saved form.
pub const NO_SAVED_FORM: [u64; 5] = [2, 20, 0, 0, 0];

/// Number, line and byte of an opening's refusal; zeros where the list is accepted.
pub fn opening_numbers(state: &State) -> [u64; 3] {
    let refusal = state.refusal;
    [refusal.number, refusal.line, refusal.byte].map(|number| number as u64)
}

/// Outcome, number, line, byte and what was taken; the three in the middle are 0 where nothing is refused.
pub fn answer_numbers(answer: &Answer) -> [u64; 5] {
    let taken = answer.taken as u64;
    match answer.outcome {
        Outcome::Done => [0, 0, 0, 0, taken],
        Outcome::More => [1, 0, 0, 0, taken],
        Outcome::Refused(refusal) => [2, refusal.number as u64, refusal.line as u64, refusal.byte as u64, taken],
        Outcome::Stop => [3, 0, 0, 0, taken],
    }
}
