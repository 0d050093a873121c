//! Records seeded cases for tests/c/replay.c, on standard output, and in a file what it must print of them.
//! usage: record_cases [--cases N] [--seed S] [--large] EXPECTED > CASES
//! They are the cases of `differential`, with --lines and --sparse too, and a tenth as many of `power_cuts`: what these ask of the library is
//! written down in the order in which it is asked, and answered by the plain implementation. With --large it is one update of real size instead. In
//! a run of 5,000 cases or more it is a failure when a kind of question or answer, or something that those programs must have, never occurred.
//! Counts go to standard error.

use check::compare::{Checker, LineChecker, Series, SparseChecker};
use check::cuts::{Cuts, Effort};
use check::generate::{Blocks, Rng, Sizes, World};
use check::{answer_numbers, hex, opening_numbers, Form, Implementation, Library, Plain, NO_SAVED_FORM};
use reference::saved::{self, MARKS, SAVED};
use reference::{Answer, Areas, Hash, Outcome, Rooms, State, BLOCK};
use std::cell::{Cell, RefCell};
use std::collections::hash_map::Entry;
use std::collections::{BTreeMap, HashMap};
use std::fs::{remove_file, File};
use std::io::{stdout, BufWriter, StdoutLock, Write};
use std::os::unix::fs::FileExt;

/// So many cases have everything, whatever the seed.
const ENOUGH: u64 = 5_000;

fn main() {
    let (mut cases, mut seed, mut large, mut expected) = (ENOUGH, 1u64, false, None);
    let mut words = std::env::args().skip(1);
    while let Some(word) = words.next() {
        let mut value = || words.next().and_then(|text| text.parse().ok()).unwrap_or_else(|| usage());
        match word.as_str() {
            "--cases" => cases = value(),
            "--seed" => seed = value(),
            "--large" => large = true,
            _ if word.starts_with('-') || expected.is_some() => usage(),
            _ => expected = Some(word),
        }
    }
    let tape = Tape::new(&expected.unwrap_or_else(|| usage()));
    eprintln!("seed {seed}");
    if large {
        return real_size(tape, seed);
    }
    let recorder = Recorder { tape: RefCell::new(tape), probe: probe(), calls: Cell::new(0) };
    let others: [(&str, &dyn Implementation); 1] = [("recorded", &recorder)];
    let mut missing = Vec::new();
    let series: [(&str, &mut dyn Series); 3] = [
        ("lists", &mut Checker::new(&recorder)),
        ("ill formed lines", &mut LineChecker::new(&others)),
        ("sparse files", &mut SparseChecker::new(&others)),
    ];
    for (name, series) in series {
        for index in 0..cases {
            recorder.begin(name, seed, index);
            series.case(seed, index).unwrap_or_else(|difference| stop(&format!("{name}, case {index}: {difference}")));
        }
        missing.extend(series.missing());
    }
    // Not behind every byte of a segment: thousands of cuts that hardly differ.
    let mut cuts = Cuts::new(&recorder, Effort { cuts: 2, every: (1, 0) });
    for index in 0..cases / 10 {
        recorder.begin("power cuts", seed, index);
        cuts.case(seed, index).unwrap_or_else(|difference| stop(&format!("power cuts, case {index}: {difference}")));
    }
    missing.extend(cuts.missing().into_iter().map(String::from));
    let (first, second) = (cuts.cuts, cuts.second);
    let mut tape = recorder.tape.into_inner();
    tape.kinds.extend([(("cuts", 0), first), (("second cuts", 0), second)]);
    tape.end();
    missing.extend(tape.never());
    if cases >= ENOUGH && !missing.is_empty() {
        stop(&format!("never occurred: {}", missing.join("; ")));
    }
}

fn usage() -> ! {
    eprintln!("usage: record_cases [--cases N] [--seed S] [--large] EXPECTED > CASES");
    std::process::exit(2)
}

fn stop(words: &str) -> ! {
    eprintln!("{words}");
    std::process::exit(1)
}

fn or_stop<T>(done: std::io::Result<T>, what: &str) -> T {
    done.unwrap_or_else(|error| stop(&format!("{what}: {error}")))
}

// --- what replay.c has

/// Its rows of bytes.
const ROWS: [char; 9] = ['L', 'I', 'S', 'W', 'R', 'P', 'D', 'F', 'B'];
const LIST: usize = 0;
const IMAGE: usize = 1;
const STASH: usize = 2;
const WORK: usize = 3;
const RESULT: usize = 4;
const PATCH: usize = 5;
const DATA: usize = 6;
const STATE: usize = 7;
const BYTES: usize = 8;

/// What a call or a run is lent.
const LENT: [usize; 8] = [STATE, LIST, IMAGE, STASH, WORK, RESULT, PATCH, DATA];

/// What it has where fields are to be written.
const UNWRITTEN: u8 = 0xa5;

/// Its sum: FNV-1a in steps of eight bytes, then of one.
fn sum(bytes: &[u8]) -> u64 {
    let step = |hash: u64, step: u64| {
        let hash = (hash ^ step).wrapping_mul(0x100_0000_01b3);
        hash ^ (hash >> 32)
    };
    let eights = bytes.chunks_exact(8);
    let ones = eights.remainder();
    let hash = eights.fold(0xcbf2_9ce4_8422_2325, |hash, part| step(hash, part.iter().rev().fold(0, |sum, byte| sum << 8 | *byte as u64)));
    ones.iter().fold(hash, |hash, byte| step(hash, *byte as u64))
}

/// The fields of the state of this saved form, as they lie in C: all but the marks.
fn fields(form: &[u8]) -> Vec<u8> {
    let mut at = 0;
    let unmarked = MARKS.iter().map(|(mark, _)| *mark).chain([SAVED]).flat_map(|mark| {
        let part = &form[at..mark];
        at = (mark + 2).min(SAVED);
        part
    });
    unmarked.copied().collect()
}

/// Questions and answers as they are written down. A kind of answer is counted by its words, and a refusal's number or 0.
struct Tape {
    cases: BufWriter<StdoutLock<'static>>,
    expected: BufWriter<File>,
    rows: [Vec<u8>; ROWS.len()],
    blocks: HashMap<Vec<u8>, usize>,
    kinds: BTreeMap<(&'static str, usize), u64>,
    answers: u64,
}

/// Every kind that must occur.
const KINDS: [(&str, &[usize]); 14] = [
    ("digests", &[0]),
    ("openings", &[0, 1, 2, 3, 4, 5, 6, 7, 8, 9, 10, 11, 12, 13, 14, 15, 18]),
    ("calls done", &[0]),
    ("calls that need more", &[0]),
    ("calls that stop", &[0]),
    ("calls refused", &[6, 7, 8, 9, 10, 11, 12, 13, 14, 16, 17, 18, 19, 20]),
    ("runs done", &[0]),
    ("runs that need more", &[0]),
    ("runs refused", &[16, 19]),
    ("states saved", &[0]),
    ("states read", &[0, 20]),
    ("sparse files", &[0, 30, 31, 32, 33, 34, 35, 36]),
    ("cuts", &[0]),
    ("second cuts", &[0]),
];

impl Tape {
    fn new(expected: &str) -> Tape {
        let (cases, expected) = (BufWriter::new(stdout().lock()), BufWriter::new(or_stop(File::create(expected), expected)));
        let mut tape = Tape { cases, expected, rows: Default::default(), blocks: HashMap::new(), kinds: BTreeMap::new(), answers: 0 };
        // What lists are run over, and the images under sparse files, which are 1 to 255 over and over.
        let (blocks, counted) = (Blocks::new(), (0..=255u8).map(|k| (0..BLOCK).map(|j| ((k as usize * BLOCK + j) % 255) as u8 + 1).collect()));
        for block in (0..=255).map(|id| blocks.block(id).to_vec()).chain(counted) {
            let number = tape.blocks.len();
            if let Entry::Vacant(entry) = tape.blocks.entry(block) {
                let line = format!("block {}", hex(entry.key()));
                entry.insert(number);
                tape.line(&line);
            }
        }
        tape.put(STATE, &[0; SAVED]);
        tape
    }

    fn line(&mut self, text: &str) {
        or_stop(writeln!(self.cases, "{text}"), "cases");
    }

    fn expect(&mut self, text: &str) {
        or_stop(writeln!(self.expected, "{text}"), "expectation");
    }

    /// The row has these bytes from now on: what differs is written.
    fn put(&mut self, row: usize, bytes: &[u8]) {
        let (name, mut old) = (ROWS[row], std::mem::take(&mut self.rows[row]));
        if old.len() != bytes.len() {
            let shorter = old.len().min(bytes.len());
            let first = old.iter().zip(bytes).take_while(|(a, b)| a == b).count();
            let last = old.iter().rev().zip(bytes.iter().rev()).take(shorter - first).take_while(|(a, b)| a == b).count();
            let (gone, fresh) = (old.len() - first - last, bytes.len() - first - last);
            old.splice(first..first + gone, std::iter::repeat(0).take(fresh));
            self.line(&format!("splice {name} {first} {gone} {fresh}"));
        }
        for (k, (old, new)) in old.chunks_mut(BLOCK).zip(bytes.chunks(BLOCK)).enumerate() {
            if old != new {
                self.part(name, k * BLOCK, old, new);
                old.copy_from_slice(new);
            }
        }
        self.rows[row] = old;
    }

    /// A block of a row, or what is left at its end.
    fn part(&mut self, name: char, at: usize, old: &[u8], new: &[u8]) {
        if let Some(number) = self.blocks.get(new) {
            return self.line(&format!("copy {name} {at} {number}"));
        }
        if new.iter().all(|byte| *byte == new[0]) {
            return self.line(&format!("fill {name} {at} {} {}", new.len(), new[0]));
        }
        // A few bytes that are the same between two that differ are written with them.
        let mut from = 0;
        while let Some(first) = (from..new.len()).find(|k| old[*k] != new[*k]) {
            let mut end = first + 1;
            while let Some(next) = (end..new.len().min(end + 16)).find(|k| old[*k] != new[*k]) {
                end = next + 1;
            }
            self.line(&format!("bytes {name} {} {}", at + first, hex(&new[first..end])));
            from = end;
        }
    }

    fn lend(&mut self, list: &[u8], areas: &Areas, data: &[u8]) {
        let Areas { image, stash, work, result, patch } = areas;
        self.put(LIST, list);
        self.put(IMAGE, image);
        self.put(STASH, stash);
        self.put(WORK, work);
        self.put(RESULT, result);
        self.put(PATCH, patch);
        self.put(DATA, data);
    }

    /// What a call or a run has left.
    fn left(&mut self, areas: &Areas, state: &State) {
        let Areas { image, stash, work, result, .. } = areas;
        self.rows[IMAGE].copy_from_slice(image);
        self.rows[STASH].copy_from_slice(stash);
        self.rows[WORK].copy_from_slice(work);
        self.rows[RESULT].copy_from_slice(result);
        self.rows[STATE] = saved::save(state);
    }

    /// A question, its answer in words, and the sums of these rows behind it.
    fn ask(&mut self, kind: &'static str, number: usize, question: &str, answer: &str, rows: &[usize]) {
        let sums: String = rows.iter().map(|row| format!(" {} {:016x}", ROWS[*row], sum(&self.rows[*row]))).collect();
        self.line(question);
        self.expect(&format!("{answer}{sums}"));
        *self.kinds.entry((kind, number)).or_default() += 1;
        self.answers += 1;
    }

    fn opened(&mut self, list: &[u8], rooms: Rooms) -> State {
        let state = Plain.open(list, rooms);
        self.put(LIST, list);
        self.rows[STATE] = saved::save(&state);
        let Rooms { image, stash, work, result, patch } = rooms;
        let [number, line, byte] = opening_numbers(&state);
        let question = format!("open {image} {stash} {work} {result} {patch}");
        self.ask("openings", number as usize, &question, &format!("open {number} {line} {byte}"), &[STATE, LIST]);
        state
    }

    /// A call or a run.
    fn called(&mut self, kinds: [&'static str; 4], question: &str, numbers: [u64; 5], more: &str) {
        let word = question.split(' ').next().unwrap_or(question);
        let [outcome, number, line, byte, taken] = numbers;
        let answer = format!("{word} {outcome} {number} {line} {byte} {taken}{more}");
        self.ask(kinds[outcome as usize], number as usize, question, &answer, &LENT);
    }

    /// The call that is to come, over a state with one byte of its marks changed.
    fn unmarked(&mut self, which: usize) {
        let form = self.rows[STATE].clone();
        let mut damaged = form.clone();
        damaged[MARKS[which % 5].0 + which / 5 % 2] ^= 1 << (which / 10 % 8);
        self.put(STATE, &damaged);
        self.called(CALLS, "call", NO_SAVED_FORM, "");
        self.put(STATE, &form);
    }

    fn never(&self) -> Vec<String> {
        let wanted = KINDS.iter().flat_map(|(kind, numbers)| numbers.iter().map(move |number| (*kind, *number)));
        wanted.filter(|kind| !self.kinds.get(kind).is_some_and(|count| *count > 0)).map(|(kind, number)| format!("{kind}, {number}")).collect()
    }

    /// Writes what is left, and tells what there is.
    fn end(&mut self) {
        self.expect(&format!("{} answers", self.answers));
        or_stop(self.cases.flush().and_then(|()| self.expected.flush()), "cases and expectation");
        let mut told: BTreeMap<&str, Vec<String>> = BTreeMap::new();
        for ((kind, number), count) in &self.kinds {
            told.entry(kind).or_default().push(if *number == 0 { format!("{count}") } else { format!("{count} with {number}") });
        }
        told.iter().for_each(|(kind, counts)| eprintln!("{kind}: {}", counts.join(", ")));
        eprintln!("{} answers", self.answers);
    }
}

const CALLS: [&str; 4] = ["calls done", "calls that need more", "calls refused", "calls that stop"];
const RUNS: [&str; 4] = ["runs done", "runs that need more", "runs refused", "runs that stop"];

// --- the implementation that writes down what it is asked

struct Recorder {
    tape: RefCell<Tape>,
    /// A file that bytes are written to and read from: neither is done where memory is closed.
    probe: File,
    calls: Cell<usize>,
}

/// A file without a name.
fn probe() -> File {
    let name = std::env::temp_dir().join(format!("record_cases-{}", std::process::id()));
    let file = or_stop(File::options().read(true).write(true).create_new(true).open(&name), "a file to try memory with");
    or_stop(remove_file(&name), "a file to try memory with");
    file
}

impl Recorder {
    fn begin(&self, name: &str, seed: u64, index: u64) {
        let mut tape = self.tape.borrow_mut();
        let text = format!("case {index} of {name}, seed {seed}");
        tape.line(&text);
        tape.expect(&text);
    }

    /// Whether all of this may be read, and the areas written. Their bytes stay as they are.
    fn is_open(&self, areas: &mut Areas) -> bool {
        let read = |bytes: &[u8]| bytes.is_empty() || self.probe.write_at(&bytes[..1], 0).is_ok();
        let written = |bytes: &mut [u8]| read(bytes) && (bytes.is_empty() || self.probe.read_at(&mut bytes[..1], 0).is_ok());
        read(areas.patch) && written(areas.image) && written(areas.stash) && written(areas.work) && written(areas.result)
    }
}

impl Implementation for Recorder {
    fn digest(&self, bytes: &[u8]) -> Hash {
        let (mut tape, digest) = (self.tape.borrow_mut(), Plain.digest(bytes));
        tape.put(BYTES, bytes);
        tape.ask("digests", 0, "digest", &format!("digest {}", hex(&digest)), &[BYTES]);
        digest
    }

    fn open(&self, list: &[u8], rooms: Rooms) -> State {
        self.tape.borrow_mut().opened(list, rooms)
    }

    fn call(&self, list: &[u8], mut areas: Areas, piece: &[u8], state: State) -> Answer {
        // Over closed memory it is the library's own affair: what is closed cannot be written down.
        if !self.is_open(&mut areas) {
            return Library.call(list, areas, piece, state);
        }
        let (mut tape, calls) = (self.tape.borrow_mut(), self.calls.get() + 1);
        self.calls.set(calls);
        tape.lend(list, &areas, piece);
        tape.put(STATE, &saved::save(&state));
        if calls % 16 == 0 {
            tape.unmarked(calls / 16);
        }
        let answer = Plain.call(list, areas.reborrow(), piece, state);
        tape.left(&areas, &answer.state);
        tape.called(CALLS, "call", answer_numbers(&answer), "");
        answer
    }

    fn run(&self, list: &[u8], mut areas: Areas, data: &[u8], cuts: &[usize]) -> Answer {
        let mut tape = self.tape.borrow_mut();
        tape.lend(list, &areas, data);
        let answer = Plain.run(list, areas.reborrow(), data, cuts);
        tape.left(&areas, &answer.state);
        let cuts: String = cuts.iter().map(|cut| format!(" {cut}")).collect();
        tape.called(RUNS, &format!("run{cuts}"), answer_numbers(&answer), "");
        answer
    }

    fn save(&self, state: &State) -> Vec<u8> {
        let (mut tape, form) = (self.tape.borrow_mut(), saved::save(state));
        tape.put(STATE, &form);
        tape.ask("states saved", 0, "save", "save", &[STATE]);
        form
    }

    fn restore(&self, bytes: &[u8]) -> Result<State, usize> {
        let (mut tape, state) = (self.tape.borrow_mut(), saved::restore(bytes));
        tape.put(BYTES, bytes);
        let (number, fields) = if state.is_some() { (0, fields(bytes)) } else { (20, vec![UNWRITTEN; SAVED - 2 * MARKS.len()]) };
        tape.ask("states read", number, "restore", &format!("restore {number} {:016x}", sum(&fields)), &[BYTES]);
        state.ok_or(20)
    }

    // The three that cross as C has them are the three above: replay.c does nothing else.
    fn open_form(&self, list: &[u8], rooms: Rooms, form: &mut Form) -> [u64; 3] {
        Library.open_form(list, rooms, form)
    }

    fn call_form(&self, list: &[u8], areas: Areas, piece: &[u8], form: &mut Form) -> [u64; 5] {
        Library.call_form(list, areas, piece, form)
    }

    fn run_form(&self, list: &[u8], areas: Areas, data: &[u8], cuts: &[usize], form: &mut Form) -> [u64; 5] {
        Library.run_form(list, areas, data, cuts, form)
    }

    fn load_sparse(&self, file: &[u8], image: &mut [u8]) -> Result<(), usize> {
        let mut tape = self.tape.borrow_mut();
        tape.put(BYTES, file);
        tape.put(IMAGE, image);
        let loaded = Plain.load_sparse(file, image);
        tape.rows[IMAGE].copy_from_slice(image);
        let number = loaded.err().unwrap_or(0);
        tape.ask("sparse files", number, "sparse", &format!("sparse {number}"), &[BYTES, IMAGE]);
        loaded
    }
}

// --- one update of real size

/// Stretches of calls with pieces of these lengths, so many in each.
const STRETCHES: [(usize, usize); 4] = [(1_000_003, 1_000), (4_096, 500), (65_536, 2_000), (8 << 20, usize::MAX)];

fn real_size(mut tape: Tape, seed: u64) {
    let mut blocks = Blocks::new();
    let (image, area, most, bytes, patch, stretches) = (65_536, 8_192, 1_024, 1_600_000, 48 << 20, 40);
    let sizes = Sizes { image, area, commands: 9_000, most, bytes, patch, often: 20, stashes: 0, stretches, frees: 0 };
    let world = World::good(&mut Rng::new(seed), &mut blocks, &sizes);
    let list = world.list();
    let words = ["new", "zero", "erase", "move", "bsdiff", "stash", "free"];
    let lines = words.map(|word| list.split(|c| *c == b'\n').filter(|line| line.starts_with(format!("{word} ").as_bytes())).count());
    eprintln!(
        "image {image} blocks, list {} bytes, {}, most held {} in {} blocks, new data {} blocks, patch data {} bytes",
        list.len(),
        words.iter().zip(lines).map(|(word, count)| format!("{count} {word}")).collect::<Vec<_>>().join(", "),
        world.header[2],
        world.header[3],
        world.data.len(),
        world.patch.len()
    );
    if lines.contains(&0) {
        stop("a word never occurred");
    }
    let (mut image, data) = (blocks.lay(&world.image), blocks.lay(&world.data));
    let (mut stash, mut work, mut result) = (vec![0x5a; area * BLOCK], vec![0xa5; area * BLOCK], vec![0x3c; most * BLOCK]);
    let mut areas = Areas { image: &mut image, stash: &mut stash, work: &mut work, result: &mut result, patch: &world.patch };
    tape.lend(&list, &areas, &data);
    let mut state = tape.opened(&list, areas.rooms());
    for (length, most) in STRETCHES {
        let (mut calls, mut stops) = (0, 0);
        let answer = loop {
            let left = &data[state.total as usize..];
            let answer = Plain.call(&list, areas.reborrow(), &left[..left.len().min(length)], state);
            state = answer.state;
            calls += 1;
            stops += (answer.outcome == Outcome::Stop) as usize;
            let goes_on = answer.outcome == Outcome::Stop || answer.outcome == Outcome::More && answer.taken < left.len();
            if !goes_on || calls == most {
                break answer;
            }
        };
        tape.left(&areas, &state);
        tape.called(CALLS, &format!("through {length} {most}"), answer_numbers(&answer), &format!(" calls {calls} stops {stops} otherwise 0"));
    }
    if !tape.kinds.contains_key(&("calls done", 0)) {
        stop("the update does not come to its end");
    }
    tape.end();
}
