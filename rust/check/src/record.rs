//! Cases as `tests/unpack` writes them: lines `KEY VALUE`, and an empty line after each case.

use reference::{Hash, Lengths, Outcome, Refusal, State};
use std::collections::{BTreeSet, HashMap};
use std::str::FromStr;

/// One case. What it lacks, or what cannot be read as it should, is an error in words.
pub struct Record(HashMap<String, String>);

pub type Read<T> = Result<T, String>;

fn owned((key, value): (&str, &str)) -> (String, String) {
    (key.to_string(), value.to_string())
}

impl Record {
    /// All cases of a text. One that is cut short counts too, and then lacks something.
    pub fn all(text: &str) -> Vec<Record> {
        let cases = text.split_terminator("\n\n");
        cases.map(|case| Record(case.lines().map(|line| line.split_once(' ').unwrap_or((line, ""))).map(owned).collect())).collect()
    }

    pub fn has(&self, key: &str) -> bool {
        self.0.contains_key(key)
    }

    /// The names in it; for all that a row has, the row's.
    pub fn names(&self) -> BTreeSet<&str> {
        self.0.keys().map(|key| key.split('.').next().unwrap_or(key)).collect()
    }

    pub fn text(&self, key: &str) -> Read<&str> {
        self.0.get(key).map(String::as_str).ok_or_else(|| format!("the case has no {key}"))
    }

    pub fn number<N: FromStr>(&self, key: &str) -> Read<N> {
        self.text(key)?.parse().map_err(|_| format!("{key} is no number"))
    }

    pub fn bytes(&self, key: &str) -> Read<Vec<u8>> {
        let text = self.text(key)?;
        let byte = |k: usize| text.get(k..k + 2).and_then(|two| u8::from_str_radix(two, 16).ok());
        (0..text.len()).step_by(2).map(byte).collect::<Option<_>>().ok_or_else(|| format!("{key} is not in hexadecimal digits"))
    }

    /// As Python writes it.
    pub fn truth(&self, key: &str) -> Read<bool> {
        match self.text(key)? {
            "True" => Ok(true),
            "False" => Ok(false),
            other => Err(format!("{key} is {other}, neither True nor False")),
        }
    }

    pub fn hash(&self, key: &str) -> Read<Hash> {
        self.bytes(key)?.try_into().map_err(|_| format!("{key} is no hash"))
    }

    /// The keys of a row's values.
    pub fn row(&self, key: &str) -> Read<impl Iterator<Item = String>> {
        let (length, key) = (self.number::<usize>(&format!("{key}.length"))?, key.to_string());
        Ok((0..length).map(move |k| format!("{key}.{k}")))
    }

    /// A number, a line and, with 3 and 6 and no other number, a byte: the places from `first` on of a row.
    pub fn refusal(&self, key: &str, first: usize) -> Read<Refusal> {
        let place = |k: usize| self.number::<usize>(&format!("{key}.{}", first + k));
        let (number, line) = (place(0)?, place(1)?);
        let with_byte = matches!(number, 3 | 6);
        if self.number::<usize>(&format!("{key}.length"))? != first + 2 + with_byte as usize {
            return Err(format!("{key} has too many places, or too few"));
        }
        Ok(Refusal { number, line, byte: if with_byte { place(2)? } else { 0 } })
    }

    pub fn outcome(&self, key: &str) -> Read<Outcome> {
        match self.text(&format!("{key}.0"))? {
            "done" => Ok(Outcome::Done),
            "more" => Ok(Outcome::More),
            "stop" => Ok(Outcome::Stop),
            "refused" => Ok(Outcome::Refused(self.refusal(key, 1)?)),
            other => Err(format!("{other} is no outcome")),
        }
    }

    /// A state, zero past its stashes.
    pub fn state(&self, key: &str) -> Read<State> {
        let of = |name: &str| self.number(&format!("{key}.{name}"));
        let (list, image, stash, work) = (of("list_len")?, of("image_len")?, of("stash_len")?, of("work_len")?);
        let lengths = Lengths { list, image, stash, work, result: of("result_len")?, patch: of("patch_len")? };
        let (total, ready) = (self.number(&format!("{key}.total"))?, self.truth(&format!("{key}.ready"))? as usize);
        let mut state = State { at: of("pos")?, line: of("line")?, into: of("into")?, lengths, ..State::ZERO };
        (state.total, state.ready, state.stretches) = (total, ready, of("stretches")?);
        for stash in self.row(&format!("{key}.stashes"))? {
            let k = state.count;
            state.hashes.chunks_exact_mut(20).nth(k).ok_or("more stashes than a state has")?.copy_from_slice(&self.hash(&format!("{stash}.0"))?);
            state.sizes[k] = self.number(&format!("{stash}.1"))?;
            state.count += 1;
        }
        // None, or a row.
        let refusal = format!("{key}.refusal");
        if self.text(&refusal) != Ok("none") {
            state.refusal = self.refusal(&refusal, 0)?;
        }
        Ok(state)
    }
}
