//! How often each thing occurred in a series of sparse files.

use super::counted;
use crate::generate::sparse::{CHECKSUM, DONT_CARE, FILL, RAW};
use reference::{BLOCK, MOST_IMAGE};
use std::fmt::Write;

/// What makes a file be refused, with the number of it.
const CAUSES: [(usize, &str); 22] = [
    (30, "a header cut short"),
    (30, "the mark"),
    (30, "the major version"),
    (31, "the header size"),
    (31, "the chunk header size"),
    (31, "the block size"),
    (32, "an image of part of a block"),
    (32, "an image of other blocks"),
    (32, "more blocks than an image may have"),
    (33, "a chunk header cut short"),
    (33, "a body cut short"),
    (33, "an unknown type"),
    (33, "no blocks"),
    (33, "a wrong total"),
    (34, "a raw"),
    (34, "a fill"),
    (34, "a don't-care"),
    (35, "first"),
    (35, "between chunks"),
    (35, "after a full image"),
    (36, "blocks missing"),
    (36, "bytes left over"),
];

/// Kinds of files that loaded, each easy to miss.
const KINDS: [&str; 6] = [
    "no blocks",
    "ignored fields not 0",
    "a raw that starts or ends as a chunk",
    "a fill of four unlike bytes",
    "a don't-care at either end",
    "a hundred chunks or more",
];

/// A number that was given, and one that applied too, to the same place or to a later one, and did not count.
const PAIRS: [(usize, &str, &[usize]); 10] = [
    (30, "the same header's", &[31, 32]),
    (31, "the same header's", &[32]),
    (33, "the same chunk's", &[34]),
    (35, "the same chunk's", &[33, 34]),
    (30, "a later", &[33, 34, 35, 36]),
    (31, "a later", &[33, 34, 35, 36]),
    (32, "a later", &[33, 34, 35, 36]),
    (33, "a later", &[33, 34, 35, 36]),
    (34, "a later", &[33, 34, 35, 36]),
    (35, "a later", &[33, 34, 35, 36]),
];

#[derive(Default, Clone)]
pub struct SparseCoverage {
    /// Files by number: 0 and 30 to 36.
    numbers: [u64; 8],
    /// Numbers that are none of these, or not the one that the faults below come to.
    unexplained: u64,
    causes: [u64; CAUSES.len()],
    pairs: [[u64; 4]; PAIRS.len()],
    /// Chunks of files that loaded: raw, fill, don't-care.
    chunks: [u64; 3],
    kinds: [u64; KINDS.len()],
}

impl SparseCoverage {
    pub fn report(&self) -> String {
        let mut out = String::new();
        let _ = writeln!(out, "loaded {}", self.numbers[0]);
        for (number, n) in (30..).zip(&self.numbers[1..]) {
            let of_number = || CAUSES.iter().zip(&self.causes).filter(|(cause, _)| cause.0 == number);
            let (names, counts): (Vec<&str>, Vec<u64>) = of_number().map(|(cause, n)| (cause.1, *n)).unzip();
            let _ = writeln!(out, "{number:>6} {n:>9}, of these: {}", counted(&names, &counts));
        }
        let _ = writeln!(out, "chunks loaded: {}", counted(&["raw", "fill", "don't-care"], &self.chunks));
        let _ = writeln!(out, "files loaded with: {}", counted(&KINDS, &self.kinds));
        let each = self.each_pair().map(|(name, n)| format!("{name} {n}")).collect::<Vec<_>>();
        let _ = writeln!(out, "numbers that came first: {}", each.join("; "));
        out
    }

    fn each_pair(&self) -> impl Iterator<Item = (String, u64)> + '_ {
        PAIRS.iter().zip(&self.pairs).flat_map(|((first, whose, others), counts)| {
            others.iter().zip(counts).map(move |(other, n)| (format!("{first} before {whose} {other}"), *n))
        })
    }

    /// What never occurred, of all that a default run must have.
    pub fn missing(&self) -> Vec<String> {
        let numbers = [0, 30, 31, 32, 33, 34, 35, 36].iter().zip(&self.numbers).map(|(number, n)| (format!("a file with {number}"), *n));
        let causes = CAUSES.iter().zip(&self.causes).map(|((number, name), n)| (format!("{number} by {name}"), *n));
        let chunks = ["raw", "fill", "don't-care"].iter().zip(&self.chunks).map(|(name, n)| (name.to_string(), *n));
        let kinds = KINDS.iter().zip(&self.kinds).map(|(name, n)| (format!("a file loaded with {name}"), *n));
        let explained = std::iter::once(("every number explained".to_string(), (self.unexplained == 0) as u64));
        let all = numbers.chain(causes).chain(chunks).chain(kinds).chain(self.each_pair()).chain(explained);
        all.filter(|(_, n)| *n == 0).map(|(name, _)| name).collect()
    }

    /// Counts a file that was loaded into an image of this length, or refused.
    pub fn load(&mut self, file: &[u8], image: usize, result: Result<(), usize>) {
        let seen = Seen::look(file, image);
        let number = result.err().unwrap_or(0);
        let first = seen.first();
        if number != first.map_or(0, |fault| fault.number()) {
            self.unexplained += 1;
            return;
        }
        let Some(first) = first else {
            self.numbers[0] += 1;
            return self.loaded(file, &seen.chunks);
        };
        self.numbers[number - 29] += 1;
        let others: Vec<&Fault> = seen.faults.iter().filter(|fault| fault.cause != first.cause || fault.place != first.place).collect();
        let same = |fault: &&Fault| fault.place == first.place && fault.number() == number;
        [first].into_iter().chain(others.iter().copied().filter(same)).for_each(|fault| self.causes[fault.cause] += 1);
        for ((pair, whose, numbers), counts) in PAIRS.iter().zip(&mut self.pairs) {
            let fits = |fault: &Fault| (fault.place == first.place) == (*whose != "a later");
            for (other, n) in numbers.iter().zip(counts) {
                *n += (*pair == number && others.iter().any(|fault| fits(fault) && fault.number() == *other)) as u64;
            }
        }
    }

    fn loaded(&mut self, file: &[u8], chunks: &[Placed]) {
        let body = |chunk: &Placed| &file[chunk.at + 12..chunk.at + 12 + chunk.body];
        let like_a_chunk = |bytes: &[u8]| bytes.len() >= 2 && (RAW..=CHECKSUM).contains(&u16::from_le_bytes([bytes[0], bytes[1]]));
        for (kind, n) in [RAW, FILL, DONT_CARE].iter().zip(&mut self.chunks) {
            *n += chunks.iter().filter(|chunk| chunk.kind == *kind).count() as u64;
        }
        let ends = [chunks.first(), chunks.last()];
        let kinds = [
            chunks.is_empty(),
            file[6..8] != [0; 2] || file[24..28] != [0; 4] || chunks.iter().any(|chunk| file[chunk.at + 2..chunk.at + 4] != [0; 2]),
            chunks.iter().map(body).any(|body| like_a_chunk(body) || like_a_chunk(&body[body.len().saturating_sub(16)..])),
            chunks.iter().filter(|chunk| chunk.kind == FILL).map(body).any(|word| (1..4).all(|k| !word[..k].contains(&word[k]))),
            ends.iter().flatten().any(|chunk| chunk.kind == DONT_CARE),
            chunks.len() >= 100,
        ];
        self.kinds.iter_mut().zip(kinds).for_each(|(n, is)| *n += is as u64);
    }
}

/// A chunk as it stands in the file.
struct Placed {
    kind: u16,
    at: usize,
    body: usize,
}

/// What is wrong, and where: 0 is the header, then come the chunks, then the end.
struct Fault {
    place: usize,
    cause: usize,
}

impl Fault {
    fn number(&self) -> usize {
        CAUSES[self.cause].0
    }
}

/// All that is wrong with a file, as one sees it who reads on after a fault.
struct Seen {
    chunks: Vec<Placed>,
    faults: Vec<Fault>,
}

impl Seen {
    fn note(&mut self, place: usize, cause: usize, applies: bool) {
        if applies {
            self.faults.push(Fault { place, cause });
        }
    }

    /// The one that counts: the earliest place's lowest, save that a checksum is always 35.
    fn first(&self) -> Option<&Fault> {
        let place = self.faults.iter().map(|fault| fault.place).min()?;
        let here = || self.faults.iter().filter(|fault| fault.place == place);
        here().find(|fault| fault.number() == 35).or_else(|| here().min_by_key(|fault| fault.number()))
    }

    fn look(file: &[u8], image: usize) -> Seen {
        let mut seen = Seen { chunks: Vec::new(), faults: Vec::new() };
        seen.note(0, 0, file.len() < 28);
        if file.len() < 28 {
            return seen;
        }
        let (blocks, count) = (long(file, 16), long(file, 20));
        seen.note(0, 1, long(file, 0) != 0xED26_FF3A);
        seen.note(0, 2, short(file, 4) != 1);
        seen.note(0, 3, short(file, 8) != 28);
        seen.note(0, 4, short(file, 10) != 12);
        seen.note(0, 5, long(file, 12) != BLOCK);
        seen.note(0, 6, image % BLOCK != 0);
        seen.note(0, 7, image % BLOCK == 0 && image / BLOCK != blocks);
        seen.note(0, 8, blocks > MOST_IMAGE);
        let (mut at, mut place, mut covered) = (28, 1, 0);
        while place <= count {
            if file.len() - at < 12 {
                seen.note(place, 9, true);
                return seen;
            }
            let (kind, of_chunk) = (short(file, at), long(file, at + 4));
            (at, covered) = (seen.chunk(&file[at..], at, place, blocks, covered), covered + if kind == CHECKSUM { 0 } else { of_chunk });
            if at > file.len() {
                return seen;
            }
            place += 1;
        }
        seen.note(place, 20, covered < blocks);
        seen.note(place, 21, at < file.len());
        seen
    }

    /// One chunk; gives where the next one starts.
    fn chunk(&mut self, bytes: &[u8], at: usize, place: usize, image: usize, covered: usize) -> usize {
        let (kind, blocks, total) = (short(bytes, 0), long(bytes, 4), long(bytes, 8));
        let body = match kind {
            RAW => blocks * BLOCK,
            FILL => 4,
            DONT_CARE => 0,
            // Nobody says what these carry but their total.
            _ => total.saturating_sub(12).min(bytes.len() - 12),
        };
        let is_known = (RAW..=DONT_CARE).contains(&kind);
        if kind == CHECKSUM {
            let cause = match () {
                _ if place == 1 => 17,
                _ if covered < image => 18,
                _ => 19,
            };
            self.note(place, cause, true);
            self.note(place, 13, total != 16);
        }
        self.note(place, 10, is_known && bytes.len() - 12 < body);
        self.note(place, 11, !is_known && kind != CHECKSUM);
        self.note(place, 12, blocks == 0);
        self.note(place, 13, is_known && total != 12 + body);
        let cause = match kind {
            RAW => 14,
            FILL => 15,
            _ => 16,
        };
        self.note(place, cause, covered + blocks > image);
        self.chunks.push(Placed { kind, at, body });
        at + 12 + body
    }
}

fn short(bytes: &[u8], at: usize) -> u16 {
    u16::from_le_bytes([bytes[at], bytes[at + 1]])
}

fn long(bytes: &[u8], at: usize) -> usize {
    u32::from_le_bytes([bytes[at], bytes[at + 1], bytes[at + 2], bytes[at + 3]]) as usize
}
