//! Stops, and runs that are taken up again after a cut: document 02, R-9. Each call is made in both ways, which must agree.

use reference::model::{self, Writes};
use reference::{digest, plain, saved, Answer, Areas, Hash, Lengths, Outcome, Refusal, Rooms, State, BLOCK};

fn blocks(letters: &str) -> Vec<u8> {
    letters.bytes().flat_map(|c| [if c == b'0' { 0 } else { c }; BLOCK]).collect()
}

/// The letter of each block, `0` for zeros, `?` for a block of several bytes.
fn letters(bytes: &[u8]) -> String {
    let letter = |b: &[u8]| match b[0] {
        c if b.iter().any(|x| *x != c) => '?',
        0 => '0',
        c => c as char,
    };
    bytes.chunks(BLOCK).map(letter).collect()
}

fn name(letters: &str) -> String {
    digest(&blocks(letters)).iter().map(|byte| format!("{byte:02x}")).collect()
}

#[derive(Clone, PartialEq)]
struct Lent {
    list: Vec<u8>,
    image: Vec<u8>,
    stash: Vec<u8>,
    work: Vec<u8>,
    result: Vec<u8>,
    patch: Vec<u8>,
}

impl Lent {
    /// An image of eight blocks, seven of stash area, three of work area and three of result area.
    fn new(list: &str) -> Lent {
        let (image, stash, work, result) = (blocks("ABCDEFGH"), blocks("stuvwxy"), blocks("mno"), blocks("pqr"));
        Lent { list: list.as_bytes().to_vec(), image, stash, work, result, patch: Vec::new() }
    }

    fn areas(&mut self) -> (&[u8], Areas<'_>) {
        let Lent { list, image, stash, work, result, patch } = self;
        (list, Areas { image, stash, work, result, patch })
    }

    fn rooms(&self) -> Rooms {
        let Lent { image, stash, work, result, patch, .. } = self;
        Rooms { image: image.len(), stash: stash.len(), work: work.len(), result: result.len(), patch: patch.len() }
    }

    fn letters(&self) -> [String; 4] {
        [&self.image, &self.stash, &self.work, &self.result].map(|area| letters(area))
    }

    fn open(&self) -> State {
        let state = plain::open(&self.list, self.rooms());
        assert_eq!(state.refusal, Refusal { number: 0, line: 0, byte: 0 });
        assert!(state == model::open(&self.list, self.rooms()));
        state
    }

    /// At the first command line, with these stashes; they need not be in the stash area.
    fn holding(&self, stashes: &[(&str, usize)]) -> State {
        let mut state = State { line: 5, at: 8, count: stashes.len(), lengths: Lengths::of(&self.list, self.rooms()), ..State::ZERO };
        for (k, (name, size)) in stashes.iter().enumerate() {
            let hash: Hash = digest(&blocks(name));
            state.hashes[20 * k..20 * k + 20].copy_from_slice(&hash);
            state.sizes[k] = *size;
        }
        state
    }

    fn call(&mut self, piece: &[u8], state: &mut State) -> (Outcome, usize) {
        let mut other = self.clone();
        let (list, areas) = other.areas();
        let slow = model::call(list, areas, piece, *state);
        let (list, areas) = self.areas();
        let called = plain::call(list, areas, piece, state);
        assert!(slow == Answer { state: *state, outcome: called.outcome, taken: called.taken });
        assert!(other == *self);
        (called.outcome, called.taken)
    }

    /// To where the run ends.
    fn call_on(&mut self, piece: &[u8], state: &mut State) -> (Outcome, usize) {
        let mut other = self.clone();
        let (list, areas) = other.areas();
        let slow = model::through(list, areas, piece, *state);
        let (list, areas) = self.areas();
        let called = plain::call_on(list, areas, piece, state);
        assert!(slow == Answer { state: *state, outcome: called.outcome, taken: called.taken });
        assert!(other == *self);
        (called.outcome, called.taken)
    }

    fn writes(&mut self, data: &[u8], state: &State) -> Writes {
        let (list, areas) = self.areas();
        model::writes(list, &areas, data, state)
    }
}

fn refused(number: usize, line: usize) -> Outcome {
    Outcome::Refused(Refusal { number, line, byte: 0 })
}

const STOP: (Outcome, usize) = (Outcome::Stop, 0);

#[test]
fn a_move_stops_after_filling_and_after_writing() {
    let mut lent = Lent::new(&format!("3\n3\n0\n0\nmove {} 2,1,4 3 2,0,3\n", name("ABC")));
    let mut state = lent.open();
    assert_eq!(lent.call(b"", &mut state), STOP);
    assert_eq!((state.line, state.ready, lent.letters()[0].as_str(), lent.letters()[2].as_str()), (5, 1, "ABCDEFGH", "ABC"));
    assert_eq!(lent.call(b"", &mut state), STOP);
    assert_eq!((state.line, state.ready, lent.letters()[0].as_str()), (6, 0, "AABCEFGH"));
    assert_eq!(lent.call(b"", &mut state), (Outcome::Done, 0));
}

#[test]
fn what_goes_before_is_in_the_same_call() {
    let list = format!("3\n4\n1\n1\nzero 2,7,8\nnew 2,6,7\nmove {} 2,5,6 1 2,6,7\nnew 2,4,5\n", name("G"));
    let mut lent = Lent::new(&list);
    let mut state = lent.open();
    let data = [blocks("G"), blocks("N")].concat();
    assert_eq!(lent.call(&data[..BLOCK + 1], &mut state), (Outcome::Stop, BLOCK));
    assert_eq!((state.line, state.ready, state.total), (7, 1, BLOCK as u64));
    assert_eq!(lent.call(&data[BLOCK..], &mut state), STOP);
    assert_eq!(lent.call(&data[BLOCK..], &mut state), (Outcome::Done, BLOCK));
    assert_eq!((lent.letters()[0].as_str(), state.total), ("ABCDNGG0", 2 * BLOCK as u64));
}

#[test]
fn a_finished_line_stops_too() {
    let mut lent = Lent::new(&format!("3\n2\n0\n0\nmove {} 2,1,2 1 2,0,1\nzero 2,1,2\n", name("B")));
    let mut state = lent.open();
    let before = lent.clone();
    assert_eq!(lent.call(b"", &mut state), STOP);
    assert!(lent == before && state.line == 6 && state.ready == 0);
    assert_eq!(lent.call(b"", &mut state), (Outcome::Done, 0));
}

#[test]
fn a_ready_line_is_written_as_it_is() {
    // Neither the source nor the area has the hash, and the target does.
    for (line, after) in [
        (format!("move {} 2,7,8 1 2,0,1", name("H")), ["ABCDEFGm", "stuvwxy"]),
        (format!("bsdiff 0 0 {} {} 4,6,7,7,8 1 2,0,1", name("A"), name("GH")), ["ABCDEFpq", "stuvwxy"]),
        (format!("stash {} 2,0,2", name("Z")), ["ABCDEFGH", "smnvwxy"]),
    ] {
        let mut lent = Lent::new(&format!("3\n0\n2\n7\n{line}\n"));
        let mut state = State { ready: 1, ..lent.holding(&[("a", 1)]) };
        assert_eq!(lent.call(b"x", &mut state), STOP);
        assert_eq!((state.line, state.ready), (6, 0));
        assert_eq!(lent.letters(), [after[0], after[1], "mno", "pqr"]);
        assert_eq!(state.count, 1 + line.starts_with("stash") as usize);
    }
}

#[test]
fn a_free_goes_by_stretches() {
    for (stashes, area, after) in [
        (&[("h", 2), ("i", 3), ("j", 2)][..], "ABCDEFG", &["CDCDEFG", "CDEFEFG", "CDEFGFG"][..]),
        (&[("h", 2), ("i", 4)], "ABCDEFG", &["CDCDEFG", "CDEFEFG"]),
        (&[("h", 3), ("i", 1)], "ABCDEFG", &["DBCDEFG"]),
        (&[("g", 2), ("h", 1), ("i", 1), ("j", 1)], "ABCDEFG", &["ABDDEFG", "ABDEEFG"]),
    ] {
        let mut lent = Lent::new(&format!("3\n0\n4\n7\nfree {}\n", name("h")));
        lent.stash = blocks(area);
        let mut state = lent.holding(stashes);
        let opened = state;
        for (k, expected) in after.iter().enumerate() {
            let last = k + 1 == after.len();
            assert_eq!(lent.call(b"x", &mut state), STOP);
            assert_eq!(lent.letters()[1], *expected);
            assert_eq!((state.line, state.stretches, state.count), if last { (6, 0, stashes.len() - 1) } else { (5, k + 1, stashes.len()) });
            assert!(last || State { stretches: 0, ..state } == opened);
        }
        assert_eq!(lent.call(b"", &mut state), (Outcome::Done, 0));
    }
    // The youngest: no stop.
    let mut lent = Lent::new(&format!("3\n0\n2\n7\nfree {}\nzero 2,0,1\n", name("h")));
    let mut state = lent.holding(&[("g", 2), ("h", 2)]);
    assert_eq!(lent.call(b"", &mut state), (Outcome::Done, 0));
    assert_eq!((state.count, lent.letters()[1].as_str()), (1, "stuvwxy"));
}

#[test]
fn what_a_line_cannot_be_left_in_is_17() {
    let held = [("g", 1), ("h", 2), ("i", 3)];
    let h = name("h");
    // Bytes into the line, ready, stretches: which of them, alone, each line can be left with.
    for (line, into, ready, stretches) in [
        ("zero 2,0,1".into(), false, false, 0),
        ("erase 2,0,1".into(), false, false, 0),
        ("new 2,0,1".into(), true, false, 0),
        ("new 2,0,9".into(), false, false, 0),
        (format!("move {h} 2,0,1 1 2,1,2"), false, true, 0),
        (format!("move {h} 2,0,9 1 2,1,2"), false, false, 0),
        (format!("move {h} 2,0,4 4 2,1,5"), false, false, 0),
        (format!("move {h} 2,0,1 1 - {}:2,0,1", name("x")), false, false, 0),
        (format!("move {h} 2,0,2 2 2,1,2"), false, false, 0),
        (format!("move {h} 2,0,2 2 - {h}:2,1,3"), false, false, 0),
        (format!("stash {} 2,0,1", name("x")), false, true, 0),
        (format!("stash {h} 2,0,1"), false, false, 0),
        (format!("stash {} 2,0,2", name("x")), false, false, 0),
        (format!("bsdiff 0 3 {h} {h} 2,0,1 1 2,1,2"), false, true, 0),
        (format!("bsdiff 1 3 {h} {h} 2,0,1 1 2,1,2"), false, false, 0),
        (format!("free {h}"), false, false, 1),
        (format!("free {}", name("g")), false, false, 4),
        (format!("free {}", name("i")), false, false, 0),
        (format!("free {}", name("x")), false, false, 0),
        ("imgdiff".into(), false, false, 0),
        ("zero 2,0".into(), false, false, 0),
    ] {
        let mut lent = Lent::new(&format!("3\n0\n4\n7\n{line}\n"));
        lent.patch = vec![0; 3];
        let clean = lent.holding(&held);
        let tried = [0, 1, 2, 3, 4, 5, 6, 1 << 32, usize::MAX].map(|n| (n, n == 0 || n <= stretches));
        for (n, good) in tried {
            for (bytes, mark) in [(0, 0), (1, 0), (0, 1), (1, 1), (0, 2), (0, 1 << 32), (0, usize::MAX)] {
                let mut state = State { into: bytes, ready: mark, stretches: n, ..clean };
                let given = state;
                let kinds = (bytes != 0) as usize + (mark != 0) as usize + (n != 0) as usize;
                let fits = kinds <= 1 && (bytes == 0 || into) && (mark == 0 || ready) && good;
                let before = lent.clone();
                let (outcome, taken) = lent.call(b"", &mut state);
                assert_eq!(outcome.number() != 17, fits, "{line}: {bytes} {mark} {n}");
                assert!(fits || (outcome == refused(17, 0) && taken == 0 && state == given && lent == before));
                lent = before;
            }
        }
        // At the text's end.
        let end = State { at: lent.list.len(), line: 6, ..clean };
        for state in [State { ready: 1, ..end }, State { stretches: 1, ..end }, State { into: 1, ..end }] {
            assert_eq!(lent.call(b"", &mut state.clone()), (refused(17, 0), 0));
        }
    }
}

#[test]
fn a_stash_of_no_blocks_is_17() {
    for k in 0..3 {
        let mut lent = Lent::new("3\n0\n4\n7\n");
        let mut state = lent.holding(&[("g", 1), ("h", 1), ("i", 1)]);
        state.sizes[k] = 0;
        assert_eq!(lent.call(b"", &mut state), (refused(17, 0), 0));
        // Past the count it is not looked at.
        state.count = k;
        assert_eq!(lent.call(b"", &mut state), (Outcome::Done, 0));
    }
}

#[test]
fn the_total_goes_on_modulo_two_to_the_64() {
    let mut lent = Lent::new(&format!("3\n2\n1\n1\nnew 2,0,1\nstash {} 2,1,2\n", name("x")));
    let mut state = State { total: u64::MAX, ..lent.holding(&[]) };
    assert_eq!(lent.call(b"ab", &mut state), (Outcome::More, 2));
    assert_eq!(state.total, 1);
    // A refusal after bytes were taken counts them; when it is repeated it takes nothing.
    assert_eq!(lent.call(&[0; BLOCK], &mut state), (refused(16, 6), BLOCK - 2));
    assert_eq!((state.total, state.ready), (BLOCK as u64 - 1, 0));
    assert_eq!(lent.call(b"ab", &mut state), (refused(16, 6), 0));
    assert_eq!(state.total, BLOCK as u64 - 1);
}

/// Of these blocks.
fn bytes(first: usize, end: usize) -> Vec<std::ops::Range<usize>> {
    std::iter::once(first * BLOCK..end * BLOCK).collect()
}

/// A list with every command, of several segments, its data, and what each segment writes.
fn long_run() -> (Lent, Vec<u8>, Vec<Writes>) {
    let patch = |add: &[u8], extra: &[u8]| {
        let number = |n: usize| (n as u64).to_le_bytes();
        [b"CP", &number(add.len())[..], &number(extra.len()), &number(0), add, extra].concat()
    };
    let records = patch(&[1; BLOCK], &blocks("Q"));
    let list = [
        "3\n13\n4\n6".into(),
        format!("stash {} 2,0,2", name("AB")),
        format!("stash {} 2,2,5", name("CDE")),
        "new 2,0,2".into(),
        "zero 2,4,5".into(),
        format!("move {} 2,2,4 2 - {}:2,0,2", name("AB"), name("AB")),
        format!("bsdiff 0 {} {} {} 2,5,7 1 2,2,3", records.len(), name("A"), name("BQ")),
        format!("move {} 2,5,7 2 2,0,2", name("BQ")),
        "erase 2,7,8".into(),
        format!("free {}", name("AB")),
        format!("move {} 2,1,4 3 2,0,3", name("NMA")),
        format!("free {}", name("CDE")),
        "new 2,7,8".into(),
        "".into(),
    ];
    let mut lent = Lent::new(&list.join("\n"));
    lent.patch = records;
    let none = Writes::default;
    let segments = vec![
        Writes { work: bytes(0, 2), ..none() },
        Writes { stash: bytes(0, 2), ..none() },
        Writes { work: bytes(0, 3), ..none() },
        Writes { stash: bytes(2, 5), ..none() },
        // `new` and `zero`, then a filling.
        Writes { image: vec![0..2 * BLOCK, 4 * BLOCK..5 * BLOCK], work: bytes(0, 2), ..none() },
        Writes { image: bytes(2, 4), ..none() },
        Writes { work: bytes(0, 1), result: bytes(0, 2), ..none() },
        Writes { image: bytes(5, 7), ..none() },
        // Skipped.
        none(),
        // `erase`, and the first stretch.
        Writes { image: bytes(7, 8), stash: bytes(0, 2), ..none() },
        Writes { stash: bytes(2, 3), ..none() },
        Writes { work: bytes(0, 3), ..none() },
        Writes { image: bytes(1, 4), ..none() },
        // The youngest is freed; of the last `new` there is a part.
        Writes { image: std::iter::once(7 * BLOCK..7 * BLOCK + 5).collect(), ..none() },
    ];
    let data = [blocks("NM"), b"parts".to_vec()].concat();
    (lent, data, segments)
}

#[test]
fn a_run_that_was_cut_ends_as_one_that_was_not() {
    let (mut lent, data, segments) = long_run();
    let mut state = lent.open();
    let (mut uncut, mut end) = (lent.clone(), state);
    assert_eq!(uncut.call_on(&data, &mut end), (Outcome::More, data.len()));
    assert_eq!(uncut.letters()[..2], ["NNMA0BQ?", "CDEDExy"]);
    let mut seed = 1u32;
    let mut random = move || {
        seed = seed.wrapping_mul(1_664_525).wrapping_add(1_013_904_223);
        (seed >> 24) as u8
    };
    for (k, expected) in segments.iter().enumerate() {
        let rest = &data[state.total as usize..];
        let written = lent.writes(rest, &state);
        assert_eq!(written, *expected, "segment {k}");
        for other in 0..4 {
            let mut cut = lent.clone();
            written.scramble(&mut cut.areas().1, |old| if other == 0 { !old } else { random() });
            let mut from = state;
            assert_eq!(cut.call_on(rest, &mut from).0, Outcome::More);
            assert!(cut == uncut && from == end, "segment {k}");
        }
        // What is not said to be written stays, whatever it is.
        let mut before = lent.clone();
        lent.call(rest, &mut state);
        let mut after = lent.clone();
        written.scramble(&mut before.areas().1, |_| 0);
        written.scramble(&mut after.areas().1, |_| 0);
        assert!(before == after, "segment {k}");
    }
    assert!(lent == uncut && state == end);
}

#[test]
fn what_a_refused_line_writes() {
    let none = Writes::default;
    for (line, patch, number, expected) in [
        // H differs.
        (format!("move {} 2,0,2 2 2,2,4", name("x")), &b""[..], 16, Writes { work: bytes(0, 2), ..none() }),
        (format!("stash {} 2,0,1", name("x")), b"", 16, Writes { work: bytes(0, 1), ..none() }),
        (format!("bsdiff 0 0 {} {} 2,0,1 2 2,2,4", name("x"), name("x")), b"", 16, Writes { work: bytes(0, 2), ..none() }),
        // The patch is malformed.
        (format!("bsdiff 0 2 {} {} 2,0,1 2 2,2,4", name("CD"), name("x")), b"CP", 19, Writes { work: bytes(0, 2), ..none() }),
        // An altered line.
        (format!("move {} 2,7,9 2 2,2,4", name("x")), b"", 8, none()),
    ] {
        let mut lent = Lent::new(&format!("3\n3\n1\n2\nzero 2,7,8\n{line}\n"));
        lent.patch = patch.to_vec();
        let mut state = lent.holding(&[]);
        assert_eq!(lent.writes(b"", &state), Writes { image: bytes(7, 8), ..expected }, "{line}");
        assert_eq!(lent.call(b"", &mut state), (refused(number, 6), 0));
        // Held, it writes nothing more.
        assert_eq!(lent.writes(b"", &state), none());
    }
    // T differs.
    let records = [&b"CP"[..], &[0; 8], &(BLOCK as u64).to_le_bytes(), &[0; 8], &blocks("R")].concat();
    let mut lent = Lent::new(&format!("3\n1\n1\n2\nbsdiff 0 {} {} {} 2,0,1 2 2,2,4\n", records.len(), name("CD"), name("x")));
    lent.patch = records;
    let mut state = lent.open();
    assert_eq!(lent.writes(b"", &state), Writes { work: bytes(0, 2), result: bytes(0, 1), ..none() });
    assert_eq!(lent.call(b"", &mut state), (refused(16, 5), 0));
    assert_eq!(lent.letters(), ["ABCDEFGH", "stuvwxy", "CDo", "Rqr"]);
}

#[test]
fn a_saved_form_is_one_states() {
    let mut state = State { count: 300, line: 1 << 40, at: 3, into: 4, total: u64::MAX - 5, ready: 1 << 33, stretches: 6, ..State::ZERO };
    state.hashes = std::array::from_fn(|k| (k * 7) as u8);
    state.sizes = std::array::from_fn(|k| usize::MAX - k);
    state.refusal = Refusal { number: 20, line: usize::MAX, byte: 7 };
    state.lengths = Lengths { list: 8, image: 9, stash: 10, work: 11, result: 12, patch: usize::MAX };
    let bytes = saved::save(&state);
    assert_eq!(bytes.len(), saved::SAVED);
    assert!(saved::restore(&bytes) == Some(state));
    // No byte is without a meaning: another one is of another state, or of none where a mark stands.
    for at in 0..bytes.len() {
        let mut other = bytes.clone();
        other[at] ^= 0x10;
        let marked = saved::MARKS.iter().any(|(mark, _)| (*mark..mark + 2).contains(&at));
        match saved::restore(&other) {
            Some(read) => assert!(!marked && read != state && saved::save(&read) == other, "{at}"),
            None => assert!(marked, "{at}"),
        }
    }
    for other in [&bytes[1..], &bytes[..bytes.len() - 1], &[], &[&bytes[..], &[0]].concat()] {
        assert!(saved::restore(other).is_none());
    }
}
