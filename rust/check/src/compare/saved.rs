//! Saved forms: a state saved and read back, and bytes that are another state's or none's.

use super::Checker;
use crate::generate::Rng;
use reference::{saved, State};

impl Checker<'_> {
    /// The state as it is read back from its saved form, which is the one that docs/SAVED-FORM.md lays out; with other bytes in its place too.
    pub(super) fn restored(&mut self, rng: &mut Rng, state: State) -> Result<State, String> {
        let form = self.other.save(&state);
        if form != saved::save(&state) {
            return Err("the saved form is another".into());
        }
        for other in [form.clone(), damaged(rng, &form)] {
            self.piece.set(&other, self.behind);
            let (ours, theirs) = (saved::restore(&other).ok_or(20), self.other.restore(self.piece.bytes()));
            if ours != theirs {
                return Err(format!("a saved form is read otherwise: {:?} and {:?}", ours.map(|_| "a state"), theirs.map(|_| "a state")));
            }
            if let Ok(read) = &theirs {
                if self.other.save(read) != other {
                    return Err("bytes that are read are not what is saved of their state".into());
                }
            }
            self.coverage.stops.restored(&other, &form);
        }
        self.other.restore(&form).map_err(|number| format!("a saved form is refused with {number}"))
    }
}

/// One byte changed, anywhere or in a mark, or another length.
fn damaged(rng: &mut Rng, form: &[u8]) -> Vec<u8> {
    let mut other = form.to_vec();
    let (mark, _) = rng.pick(&saved::MARKS);
    let (anywhere, in_mark) = (rng.below(form.len()), mark + rng.below(2));
    match rng.below(10) {
        0 => other.truncate(anywhere),
        1 => other.truncate(form.len() - 1),
        2 => drop(other.remove(0)),
        3 => other.push(rng.pick(&[0, 0xff])),
        4 => other.clear(),
        5..=7 => other[in_mark] ^= 1 << rng.below(8),
        _ => other[anywhere] ^= 1 << rng.below(8),
    }
    other
}
