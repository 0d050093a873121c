//! How often each thing occurred in a series of ill-formed lines.

use super::counted;
use super::form::Forms;
use reference::Refusal;
use std::fmt::Write;

/// Which of the four lines 3 is given for.
const HEADER: [&str; 4] = ["line 1", "line 2", "line 3", "line 4"];

#[derive(Default, Clone)]
pub struct LineCoverage {
    /// Lists by number, 0 for accepted.
    opened: [u64; 20],
    forms: Forms,
    header: [u64; HEADER.len()],
    /// Lists that were cut at every byte.
    pub cut: u64,
}

impl LineCoverage {
    pub fn open(&mut self, list: &[u8], refusal: &Refusal) {
        self.opened[refusal.number.min(19)] += 1;
        self.forms.refused(list, refusal);
        if refusal.number == 3 {
            self.header[(refusal.line - 1).min(3)] += 1;
        }
    }

    pub fn report(&self) -> String {
        let mut out = String::new();
        let [three, six, seven] = [3, 6, 7].map(|number| self.opened[number]);
        let all: u64 = self.opened.iter().sum();
        let others = all - self.opened[0] - three - six - seven;
        let _ = writeln!(out, "openings {all}: accepted {}, with 3 {three}, 6 {six}, 7 {seven}, other numbers {others}", self.opened[0]);
        let _ = writeln!(out, "lists cut at every byte {}", self.cut);
        let _ = writeln!(out, "3 for: {}", counted(&HEADER, &self.header));
        let _ = writeln!(out, "first faults: {}", self.forms.report());
        out
    }

    /// What never occurred, of all that a default run must have.
    pub fn missing(&self) -> Vec<String> {
        let numbers = [3, 6, 7].map(|number| (format!("an opening with {number}"), self.opened[number]));
        let header = HEADER.iter().zip(self.header).map(|(name, n)| (format!("3 for {name}"), n));
        let forms = self.forms.each().map(|(name, n)| (name.to_string(), n));
        let cut = ("a list cut at every byte".to_string(), self.cut);
        numbers.into_iter().chain(header).chain(forms).chain([cut]).filter(|(_, n)| *n == 0).map(|(name, _)| name).collect()
    }
}
