//! One seeded list with an ill-formed line: opened by the plain implementation and by others, and number, line and byte compared.

use super::{reading, Named, Series};
use crate::coverage::LineCoverage;
use crate::generate::{ill_list, Rng};
use crate::guard::Guarded;
use crate::{hex, Implementation, Plain};
use reference::{Rooms, BLOCK};
use std::fmt::Write;

const ROOMS: Rooms = Rooms { image: 8 * BLOCK, stash: 3 * BLOCK, work: 3 * BLOCK, result: 3 * BLOCK, patch: 4 };

/// The other implementations, with their own copy of the list, between guards.
pub struct LineChecker<'a> {
    others: &'a [Named<'a>],
    list: Guarded,
    coverage: LineCoverage,
}

impl<'a> LineChecker<'a> {
    pub fn new(others: &'a [Named<'a>]) -> LineChecker<'a> {
        LineChecker { others, list: Guarded::new(4 * BLOCK), coverage: LineCoverage::default() }
    }

    fn open(&mut self, list: &[u8], behind: bool) -> Result<(), String> {
        let state = Plain.open(list, ROOMS);
        reading::turned(list, ROOMS, &state)?;
        let ours = state.refusal;
        self.coverage.open(list, &ours);
        for (name, other) in self.others {
            self.list.set(list, behind);
            let theirs = other.open(self.list.bytes(), ROOMS).refusal;
            if theirs != ours {
                return Err(format!("of the first {} bytes, plain and {name} differ: {ours:?} and {theirs:?}", list.len()));
            }
            if self.list.bytes() != list {
                return Err(format!("{name} wrote to the list"));
            }
        }
        Ok(())
    }
}

/// The list, and whether it is opened cut at every byte too.
fn make(seed: u64, index: u64) -> (Vec<u8>, bool) {
    let mut rng = Rng::of_case(seed, index);
    let everywhere = rng.one_in(100);
    (ill_list(&mut rng), everywhere)
}

impl Series for LineChecker<'_> {
    fn case(&mut self, seed: u64, index: u64) -> Result<(), String> {
        let (list, everywhere) = make(seed, index);
        if everywhere {
            self.coverage.cut += 1;
            for end in 0..list.len() {
                self.open(&list[..end], end % 2 == 0)?;
            }
        }
        self.open(&list, index % 4 != 0)
    }

    fn written(&mut self, seed: u64, index: u64) -> String {
        let (list, everywhere) = make(seed, index);
        let text = String::from_utf8_lossy(&list);
        let mut out = format!("seed {seed} case {index}\n{ROOMS:?}\nlist, {} bytes, {}\n{text}\n", list.len(), hex(&list));
        let plain: Named = ("plain", &Plain);
        for end in if everywhere { 0 } else { list.len() }..=list.len() {
            for (name, on) in [plain].iter().chain(self.others) {
                let _ = writeln!(out, "the first {end} bytes, {name}: {:?}", on.open(&list[..end], ROOMS).refusal);
            }
        }
        out
    }

    fn report(&self) -> String {
        self.coverage.report()
    }

    fn missing(&self) -> Vec<String> {
        self.coverage.missing()
    }
}
