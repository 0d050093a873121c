//! What the tests of the rules share. Each rule is tried on all three implementations.

// No file of tests has a use for all of it.
#![allow(dead_code)]

use check::generate::Rng;
use check::{hex, Implementation, Library, Model, Plain};
use reference::{digest, Answer, Areas, Lengths, Outcome, Refusal, Rooms, State, BLOCK};

pub fn all() -> [&'static dyn Implementation; 3] {
    [&Plain, &Model, &Library]
}

pub fn blocks(letters: &str) -> Vec<u8> {
    letters.bytes().flat_map(|c| [if c == b'0' { 0 } else { c }; BLOCK]).collect()
}

/// The letter of each block, `0` for zeros, `?` for a block of several bytes.
pub fn letters(bytes: &[u8]) -> String {
    let letter = |b: &[u8]| match b[0] {
        c if b.iter().any(|x| *x != c) => '?',
        0 => '0',
        c => c as char,
    };
    bytes.chunks(BLOCK).map(letter).collect()
}

pub fn name(letters: &str) -> String {
    hex(&digest(&blocks(letters)))
}

#[derive(Clone, PartialEq)]
pub struct Lent {
    pub list: Vec<u8>,
    pub image: Vec<u8>,
    pub stash: Vec<u8>,
    pub work: Vec<u8>,
    pub result: Vec<u8>,
    pub patch: Vec<u8>,
}

impl Lent {
    pub fn new(list: &str) -> Lent {
        Lent::with_patch(list, &[])
    }

    pub fn with_patch(list: &str, patch: &[u8]) -> Lent {
        let (image, stash, work, result) = (blocks("ABCDEFGH"), blocks("xyz"), blocks("uvw"), blocks("rst"));
        Lent { list: list.as_bytes().to_vec(), image, stash, work, result, patch: patch.to_vec() }
    }

    pub fn rooms(&self) -> Rooms {
        let Lent { image, stash, work, result, patch, .. } = self;
        Rooms { image: image.len(), stash: stash.len(), work: work.len(), result: result.len(), patch: patch.len() }
    }

    /// The list, and what is lent beside it.
    pub fn areas(&mut self) -> (&[u8], Areas<'_>) {
        let Lent { list, image, stash, work, result, patch } = self;
        (list, Areas { image, stash, work, result, patch })
    }

    pub fn open(&self, on: &dyn Implementation) -> State {
        on.open(&self.list, self.rooms())
    }

    /// Past every stop, to where the run ends.
    pub fn call(&mut self, on: &dyn Implementation, piece: &[u8], state: State) -> Answer {
        let (list, areas) = self.areas();
        on.call_on(list, areas, piece, state)
    }

    /// One call, to the next stop or to where the run ends.
    pub fn call_once(&mut self, on: &dyn Implementation, piece: &[u8], state: State) -> Answer {
        let (list, areas) = self.areas();
        on.call(list, areas, piece, state)
    }

    pub fn run(&mut self, on: &dyn Implementation, data: &[u8], cuts: &[usize]) -> Answer {
        let (list, areas) = self.areas();
        on.run(list, areas, data, cuts)
    }

    /// Image, stash, work and result area, a letter for each block.
    pub fn letters(&self) -> [String; 4] {
        [&self.image, &self.stash, &self.work, &self.result].map(|area| letters(area))
    }

    pub fn all(&mut self, on: &dyn Implementation, piece: &[u8]) -> Answer {
        let state = self.open(on);
        self.call(on, piece, state)
    }
}

/// The areas after a call, past every stop, and the answer: the same on all three, byte for byte, with the patch data as it was.
pub fn after(list: &str, patch: &[u8], piece: &[u8]) -> ([String; 4], Answer) {
    let mut got = Vec::new();
    for on in all() {
        let mut lent = Lent::with_patch(list, patch);
        let answer = lent.all(on, piece);
        assert!(lent.patch == patch, "{list}");
        got.push((lent.letters(), answer, [lent.image, lent.stash, lent.work, lent.result]));
    }
    got.dedup();
    assert_eq!(got.len(), 1, "{list}");
    let (letters, answer, _) = got.remove(0);
    (letters, answer)
}

pub fn said(answer: &Answer) -> (Outcome, usize) {
    (answer.outcome, answer.taken)
}

pub fn refused(number: usize, line: usize) -> Outcome {
    Outcome::Refused(refusal_of(number, line))
}

/// One without a byte: of a number that is neither 3 nor 6.
pub fn refusal_of(number: usize, line: usize) -> Refusal {
    Refusal { number, line, byte: 0 }
}

/// A state of which no two bytes are in the same place and the same, save by chance.
pub fn full_state(rng: &mut Rng) -> State {
    let mut next = || rng.next_u64() as usize;
    State {
        hashes: std::array::from_fn(|_| next() as u8),
        sizes: std::array::from_fn(|_| next()),
        count: next(),
        line: next(),
        at: next(),
        into: next(),
        refusal: Refusal { number: next(), line: next(), byte: next() },
        lengths: Lengths { list: next(), image: next(), stash: next(), work: next(), result: next(), patch: next() },
        total: next() as u64,
        ready: next(),
        stretches: next(),
    }
}
