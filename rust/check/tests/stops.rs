//! Stops, what a state holds at them, its saved form, and runs that go on after a cut: document 02, R-9.

mod common;

use check::generate::patch::{patch_of, Record};
use check::generate::Rng;
use check::Implementation;
use common::*;
use reference::Outcome::{Done, More, Stop};
use reference::{digest, model, saved, Answer, Lengths, Outcome, Refusal, State, BLOCK, MOST_STASHES};

/// The same over seven blocks of stash area.
fn lent(list: &str) -> Lent {
    Lent { stash: blocks("stuvxyz"), ..Lent::new(list) }
}

/// A state at the first command line that holds these: letters whose hash is the name, and blocks, which need not be those letters.
fn holding(lent: &Lent, stashes: &[(&str, usize)]) -> State {
    let mut state = State { line: 5, at: 8, count: stashes.len(), lengths: Lengths::of(&lent.list, lent.rooms()), ..State::ZERO };
    for (k, (letters, size)) in stashes.iter().enumerate() {
        state.hashes[20 * k..20 * k + 20].copy_from_slice(&digest(&blocks(letters)));
        state.sizes[k] = *size;
    }
    state
}

/// A patch that makes the letter after it of a letter, and adds a block Q.
fn one_more_and_q() -> Vec<u8> {
    patch_of(&[Record { add: vec![1; BLOCK], extra: blocks("Q"), seek: 0 }])
}

/// What a stop shows: line, ready mark, stretches, total and the letters of image, stash, work and result area.
type Shown = (usize, usize, usize, u64, [String; 4]);

fn shown(lent: &Lent, state: &State) -> Shown {
    (state.line, state.ready, state.stretches, state.total, lent.letters())
}

/// Every stop on the way, then how it ends. Each piece begins with what was not taken before.
fn stops(on: &dyn Implementation, lent: &mut Lent, data: &[u8], mut state: State) -> (Vec<Shown>, Answer) {
    let (mut all, mut taken) = (Vec::new(), 0);
    loop {
        let answer = lent.call_once(on, &data[taken..], state);
        taken += answer.taken;
        state = answer.state;
        if answer.outcome != Stop {
            return (all, Answer { taken, ..answer });
        }
        all.push(shown(lent, &state));
    }
}

/// The same on all three implementations, over lists that open.
fn stops_of(list: &str, patch: &[u8], data: &[u8]) -> (Vec<Shown>, (Outcome, usize)) {
    let mut got: Vec<(Vec<Shown>, Answer, Lent)> = Vec::new();
    for on in all() {
        let mut lent = Lent { patch: patch.to_vec(), ..lent(list) };
        let state = lent.open(on);
        assert_eq!(state.refusal.number, 0, "{list}");
        let (stops, answer) = stops(on, &mut lent, data, state);
        got.push((stops, answer, lent));
    }
    assert!(got.iter().all(|one| *one == got[0]), "{list}");
    let (stops, answer, _) = got.remove(0);
    (stops, said(&answer))
}

fn at(line: usize, ready: usize, stretches: usize, total: usize, areas: [&str; 4]) -> Shown {
    (line, ready, stretches, total as u64, areas.map(String::from))
}

const AREAS: [&str; 4] = ["ABCDEFGH", "stuvxyz", "uvw", "rst"];

#[test]
fn each_line_that_stops() {
    let patch = one_more_and_q();
    let whole = patch.len();
    let (a, ab, bq) = (name("A"), name("AB"), name("BQ"));
    // The lines and the total of line 2; the stops.
    for (total, lines, expected) in [
        // Filled, and written: the last line stops too.
        (
            2,
            format!("move {ab} 2,2,4 2 2,0,2\n"),
            vec![at(5, 1, 0, 0, ["ABCDEFGH", "stuvxyz", "ABw", "rst"]), at(6, 0, 0, 0, ["ABABEFGH", "stuvxyz", "ABw", "rst"])],
        ),
        // Over its own source.
        (
            3,
            format!("move {} 2,1,4 3 2,0,3\n", name("ABC")),
            vec![at(5, 1, 0, 0, ["ABCDEFGH", "stuvxyz", "ABC", "rst"]), at(6, 0, 0, 0, ["AABCEFGH", "stuvxyz", "ABC", "rst"])],
        ),
        (
            0,
            format!("stash {ab} 2,0,2\n"),
            vec![at(5, 1, 0, 0, ["ABCDEFGH", "stuvxyz", "ABw", "rst"]), at(6, 0, 0, 0, ["ABCDEFGH", "ABuvxyz", "ABw", "rst"])],
        ),
        // One stop for source, patch and result together.
        (
            2,
            format!("bsdiff 0 {whole} {a} {bq} 2,6,8 1 2,0,1\n"),
            vec![at(5, 1, 0, 0, ["ABCDEFGH", "stuvxyz", "Avw", "BQt"]), at(6, 0, 0, 0, ["ABCDEFBQ", "stuvxyz", "Avw", "BQt"])],
        ),
        // Passed over.
        (2, format!("move {ab} 2,0,2 2 2,4,6\n"), vec![at(6, 0, 0, 0, AREAS)]),
        (1, format!("bsdiff 0 0 {bq} {a} 2,0,1 1 2,4,5\n"), vec![at(6, 0, 0, 0, AREAS)]),
        // The youngest is freed without a stop, also where others are held; zeros stop as little.
        (1, "zero 2,0,1\nerase 2,1,2\n".into(), vec![]),
        (
            0,
            format!("stash {a} 2,0,1\nfree {a}\n"),
            vec![at(5, 1, 0, 0, ["ABCDEFGH", "stuvxyz", "Avw", "rst"]), at(6, 0, 0, 0, ["ABCDEFGH", "Atuvxyz", "Avw", "rst"])],
        ),
    ] {
        let (got, end) = stops_of(&format!("3\n{total}\n2\n7\n{lines}"), &patch, b"piece");
        assert_eq!((got, end), (expected, (Done, 0)), "{lines}");
    }
}

#[test]
fn what_goes_before_a_stop_is_in_its_call() {
    // Without a stop: zeros, new data, a stash freed; then a line is filled, and the bytes taken are that call's.
    let g = name("G");
    let list = format!("3\n5\n1\n1\nstash {g} 2,6,7\nzero 2,7,8\nnew 2,6,7\nfree {g}\nmove {} 2,5,6 1 2,6,7\nnew 2,0,2\n", name("n"));
    let data = blocks("nop");
    let filled = ["ABCDEFn0", "Gtuvxyz", "nvw", "rst"];
    let expected = vec![
        at(5, 1, 0, 0, ["ABCDEFGH", "stuvxyz", "Gvw", "rst"]),
        at(6, 0, 0, 0, ["ABCDEFGH", "Gtuvxyz", "Gvw", "rst"]),
        at(9, 1, 0, BLOCK, filled),
        at(10, 0, 0, BLOCK, ["ABCDEnn0", "Gtuvxyz", "nvw", "rst"]),
    ];
    assert_eq!(stops_of(&list, b"", &data), (expected.clone(), (Done, 3 * BLOCK)));
    // A stop comes before `more`, and before the refusal of the line behind it.
    assert_eq!(stops_of(&list, b"", &data[..BLOCK]), (expected.clone(), (More, BLOCK)));
    assert_eq!(stops_of(&list, b"", &data[..BLOCK - 1]), (expected[..2].to_vec(), (More, BLOCK - 1)));
    let wrong = list.replace("new 2,0,2", &format!("move {g} 2,0,2 2 2,1,3"));
    assert_eq!(stops_of(&wrong, b"", &data), (expected, (refused(16, 10), BLOCK)));
}

#[test]
fn a_refusal_is_no_stop() {
    let patch = one_more_and_q();
    let (a, b) = (name("A"), name("B"));
    for (line, number) in [
        (format!("move {a} 2,7,8 1 2,1,2"), 16),
        (format!("stash {a} 2,1,2"), 16),
        (format!("bsdiff 0 {} {a} {b} 2,6,8 1 2,1,2", patch.len()), 16),
        (format!("bsdiff 0 {} {a} {b} 2,6,8 1 2,0,1", patch.len()), 16),
        (format!("bsdiff 0 {} {a} {b} 2,7,8 1 2,0,1", patch.len()), 19),
    ] {
        for on in all() {
            let mut lent = Lent { patch: patch.clone(), ..lent(&format!("3\n1\n1\n1\nnew 2,4,5\n{line}\n")) };
            let state = holding(&lent, &[]);
            let answer = lent.call_once(on, &blocks("nn"), state);
            assert_eq!(said(&answer), (refused(number, 6), BLOCK), "{line}");
            let State { line: stands, ready, stretches, total, .. } = answer.state;
            assert_eq!((stands, ready, stretches, total), (6, 0, 0, BLOCK as u64), "{line}");
        }
    }
}

#[test]
fn a_free_goes_by_stretches() {
    for (stashes, stretches) in [
        // Gap 2, younger 5: the last is shorter. Younger 4: two. Gap 3, younger 1: one of a block. An older stash stays.
        (&[("h", 2), ("i", 3), ("j", 2)][..], &["CDCDEFG", "CDEFEFG", "CDEFGFG"][..]),
        (&[("h", 2), ("i", 4)], &["CDCDEFG", "CDEFEFG"]),
        (&[("h", 3), ("i", 1)], &["DBCDEFG"]),
        (&[("g", 2), ("h", 1), ("i", 1), ("j", 1)], &["ABDDEFG", "ABDEEFG"]),
        (&[("g", 1), ("h", 2), ("i", 3)], &["ADEDEFG", "ADEFEFG"]),
        (&[("h", 1), ("i", 6)], &["BBCDEFG", "BCCDEFG", "BCDDEFG", "BCDEEFG", "BCDEFFG", "BCDEFGG"]),
        (&[("g", 3), ("h", 4)], &[]),
        (&[("h", 7)], &[]),
    ] {
        for on in all() {
            let mut lent = Lent { stash: blocks("ABCDEFG"), ..lent(&format!("3\n0\n4\n7\nfree {}\n", name("h"))) };
            let opened = holding(&lent, stashes);
            let mut state = opened;
            for (k, area) in stretches.iter().enumerate() {
                let answer = lent.call_once(on, b"piece", state);
                assert_eq!((said(&answer), letters(&lent.stash).as_str()), ((Stop, 0), *area));
                state = answer.state;
                // Until the last one all is held as it was.
                if k + 1 < stretches.len() {
                    assert_eq!(state, State { stretches: k + 1, ..opened });
                }
            }
            let answer = lent.call_once(on, b"piece", state);
            let held = stashes.iter().filter(|(name, _)| *name != "h").map(|(_, size)| *size);
            let State { line, stretches, count, sizes, .. } = answer.state;
            assert_eq!((said(&answer), line, stretches), ((Done, 0), 6, 0));
            assert_eq!(sizes[..count].to_vec(), held.collect::<Vec<_>>());
        }
    }
}

#[test]
fn what_is_ready_is_written_as_it_is() {
    // Neither the area nor the source has the hash, the target has it, and there is no patch.
    for (line, areas) in [
        (format!("move {} 2,7,8 1 2,0,1", name("H")), ["ABCDEFGu", "stuvxyz", "uvw", "rst"]),
        (format!("move {} 4,1,2,0,1 2 2,4,6", name("BA")), ["vuCDEFGH", "stuvxyz", "uvw", "rst"]),
        (format!("move {} 4,1,2,1,2 2 2,4,6", name("BB")), ["AvCDEFGH", "stuvxyz", "uvw", "rst"]),
        (format!("move {} 2,0,1 1 - {}:2,0,1", name("A"), name("a")), ["uBCDEFGH", "stuvxyz", "uvw", "rst"]),
        (format!("bsdiff 0 0 {} {} 2,6,8 1 2,0,1", name("Z"), name("GH")), ["ABCDEFrs", "stuvxyz", "uvw", "rst"]),
        (format!("stash {} 2,0,2", name("Z")), ["ABCDEFGH", "suvvxyz", "uvw", "rst"]),
    ] {
        for mark in [1, 2, 256, 1 << 32, 1 << 63, usize::MAX] {
            for on in all() {
                let mut lent = lent(&format!("3\n0\n2\n7\n{line}\n"));
                let state = State { ready: mark, total: 7, ..holding(&lent, &[("a", 1)]) };
                let answer = lent.call_once(on, b"piece", state);
                assert_eq!((said(&answer), lent.letters()), ((Stop, 0), areas.map(String::from)), "{line}");
                let State { line: stands, ready, total, count, .. } = answer.state;
                assert_eq!((stands, ready, total, count), (6, 0, 7, 1 + line.starts_with("stash") as usize), "{line}");
            }
        }
    }
}

#[test]
fn bytes_not_taken_at_a_stop_come_again() {
    let list = format!("3\n4\n0\n0\nnew 2,0,1\nmove {} 2,1,2 1 2,0,1\nnew 2,2,4\n", name("n"));
    let data = blocks("nop");
    for on in all() {
        // However it is cut, and whatever stands behind what comes again: the same stops, and the same end.
        for piece in [1, 1_000, BLOCK - 1, BLOCK, BLOCK + 1, 2 * BLOCK, 3 * BLOCK] {
            for further in [0, 1, 5_000] {
                let mut lent = lent(&list);
                let mut state = lent.open(on);
                let (mut from, mut end, mut seen) = (0, 0, Vec::new());
                loop {
                    end = (end + if seen.last() == Some(&Stop) { further } else { piece }).min(data.len());
                    let answer = lent.call_once(on, &data[from..end], state);
                    from += answer.taken;
                    state = answer.state;
                    assert_eq!(state.total, from as u64);
                    match answer.outcome {
                        More => assert_eq!(from, end),
                        Stop => assert_eq!(from, BLOCK),
                        Done => break,
                        Outcome::Refused(refusal) => panic!("{refusal:?}"),
                    }
                    seen.push(answer.outcome);
                }
                assert_eq!(seen.iter().filter(|outcome| **outcome == Stop).count(), 2);
                assert_eq!((from, letters(&lent.image).as_str()), (3 * BLOCK, "nnopEFGH"));
            }
        }
        // An empty piece is enough to go on.
        let mut lent = lent(&list);
        let state = lent.open(on);
        let first = lent.call_once(on, &data[..2 * BLOCK], state);
        assert_eq!(said(&first), (Stop, BLOCK));
        let second = lent.call_once(on, b"", first.state);
        assert_eq!(said(&second), (Stop, 0));
        assert_eq!(said(&lent.call_once(on, b"", second.state)), (More, 0));
        // After done the bytes are not taken, however often they come.
        let end = lent.call(on, &data[BLOCK..], second.state);
        assert_eq!(said(&end), (Done, 2 * BLOCK));
        assert_eq!(said(&lent.call_once(on, &data, end.state)), (Done, 0));
    }
}

#[test]
fn what_a_line_cannot_be_left_in_is_17() {
    let held = [("g", 1), ("h", 2), ("i", 3)];
    let h = name("h");
    // Whether each line can be left with bytes into it, ready, and with how many stretches; one of them alone.
    for (line, into, ready, stretches) in [
        ("", false, false, 0),
        ("zero 2,0,1", false, false, 0),
        ("erase 2,0,1", false, false, 0),
        ("new 2,0,1", true, false, 0),
        ("new 2,0,9", false, false, 0),
        (&format!("move {h} 2,0,1 1 2,1,2"), false, true, 0),
        (&format!("move {h} 2,0,2 2 - {h}:2,0,2"), false, true, 0),
        (&format!("move {h} 2,0,3 3 2,0,1 2,2,3 {h}:2,0,2"), false, true, 0),
        (&format!("stash {} 2,0,1", name("x")), false, true, 0),
        (&format!("bsdiff 0 3 {h} {h} 2,0,1 1 2,1,2"), false, true, 0),
        // 8 to 12 and 18 of a move and a bsdiff.
        (&format!("move {h} 2,0,9 1 2,1,2"), false, false, 0),
        (&format!("move {h} 2,0,1 1 2,8,9"), false, false, 0),
        (&format!("move {h} 2,0,4 4 2,1,5"), false, false, 0),
        (&format!("bsdiff 0 3 {h} {h} 2,0,4 1 2,1,2"), false, false, 0),
        (&format!("move {h} 2,0,1 1 - {}:2,0,1", name("x")), false, false, 0),
        (&format!("move {h} 2,0,2 2 2,1,2"), false, false, 0),
        (&format!("move {h} 2,0,1 1 - {h}:2,0,1"), false, false, 0),
        (&format!("move {h} 2,0,2 2 - {h}:2,1,3"), false, false, 0),
        (&format!("bsdiff 1 3 {h} {h} 2,0,1 1 2,1,2"), false, false, 0),
        // 8, 9, 13 and 14 of a stash.
        (&format!("stash {} 2,8,9", name("x")), false, false, 0),
        (&format!("stash {} 2,0,4", name("x")), false, false, 0),
        (&format!("stash {h} 2,0,1"), false, false, 0),
        (&format!("stash {} 2,0,2", name("x")), false, false, 0),
        // Frees: of the middle one, the oldest, the youngest, and of none.
        (&format!("free {h}"), false, false, 1),
        (&format!("free {}", name("g")), false, false, 4),
        (&format!("free {}", name("i")), false, false, 0),
        (&format!("free {}", name("x")), false, false, 0),
        // 6 and 7.
        (&format!("move {h} 2,0,1 1 2,1,1"), false, false, 0),
        (&format!("stash {} 2,0", name("x")), false, false, 0),
        (&format!("free {h} "), false, false, 0),
        ("new 2,0,0", false, false, 0),
        ("imgdiff", false, false, 0),
    ] {
        let line_and_end = if line.is_empty() { String::new() } else { format!("{line}\n") };
        for on in all() {
            let before = Lent { patch: vec![0; 3], ..lent(&format!("3\n0\n4\n7\n{line_and_end}")) };
            let clean = holding(&before, &held);
            for n in [0, 1, 2, 3, 4, 5, 6, 1 << 32, usize::MAX] {
                for (bytes, mark) in [(0, 0), (1, 0), (0, 1), (1, 1), (0, 2), (BLOCK, 0), (0, usize::MAX)] {
                    let state = State { into: bytes, ready: mark, stretches: n, ..clean };
                    let marks = (bytes != 0) as usize + (mark != 0) as usize + (n != 0) as usize;
                    let fits = marks <= 1 && (bytes == 0 || into && bytes < BLOCK) && (mark == 0 || ready) && (n == 0 || n <= stretches);
                    let mut lent = before.clone();
                    let answer = lent.call_once(on, b"", state);
                    assert_eq!(answer.outcome.number() != 17, fits, "{line}: {bytes} {mark} {n}");
                    if !fits {
                        assert!(said(&answer) == (refused(17, 0), 0) && answer.state == state && lent == before, "{line}");
                    }
                    // A held refusal is repeated first, whatever else the state says.
                    let refusal = Refusal { number: 20, line: 3, byte: 9 };
                    let again = lent.call_once(on, b"piece", State { refusal, ..state });
                    assert!(said(&again) == (Outcome::Refused(refusal), 0) && again.state == State { refusal, ..state });
                }
            }
        }
    }
}

#[test]
fn the_total_is_of_all_calls() {
    for on in all() {
        let mut lent = lent(&format!("3\n2\n1\n1\nnew 2,0,1\nstash {} 2,1,2\n", name("x")));
        let first = lent.call_once(on, b"ab", State { total: u64::MAX, ..holding(&lent, &[]) });
        assert_eq!((said(&first), first.state.total), ((More, 2), 1));
        // A refusal counts the bytes taken before it; 17 and a repeated one add nothing, whatever the total is.
        let second = lent.call_once(on, &[0; BLOCK], first.state);
        assert_eq!((said(&second), second.state.total), ((refused(16, 6), BLOCK - 2), BLOCK as u64 - 1));
        let third = lent.call_once(on, b"ab", second.state);
        assert_eq!((said(&third), third.state.total), ((refused(16, 6), 0), BLOCK as u64 - 1));
        let state = State { total: 1 << 63, line: 4, ..first.state };
        let fourth = lent.call_once(on, b"ab", state);
        assert_eq!((said(&fourth), fourth.state), ((refused(17, 0), 0), state));
        // An opening has none, a refused one neither.
        assert_eq!((lent.open(on).total, on.open(b"4\n0\n0\n0\n", lent.rooms()).total), (0, 0));
    }
}

#[test]
fn saved_and_read_back() {
    let mut rng = Rng::new(9);
    for on in all() {
        let border =
            |n: usize| State { hashes: [n as u8; 20 * MOST_STASHES], sizes: [n; MOST_STASHES], count: n, ready: n, stretches: n, ..State::ZERO };
        let states = [State::ZERO, border(1), border(300), border(usize::MAX), border(1 << 63)];
        for state in states.into_iter().chain((0..50).map(|_| full_state(&mut rng))) {
            let form = on.save(&state);
            // As docs/SAVED-FORM.md lays it out.
            assert!(form == saved::save(&state));
            assert!(on.restore(&form) == Ok(state));
        }
    }
}

#[test]
fn a_saved_form_damaged_byte_by_byte() {
    let mut rng = Rng::new(10);
    let state = full_state(&mut rng);
    for on in all() {
        let form = on.save(&state);
        let mut none = Vec::new();
        for at in 0..form.len() {
            for bits in [1, 0x20, 0x80, 0xff] {
                let mut other = form.clone();
                other[at] ^= bits;
                match on.restore(&other) {
                    // No two states have one form, and no bytes are left out of it.
                    Ok(read) => assert!(read != state && on.save(&read) == other, "{at}"),
                    Err(number) => {
                        assert_eq!(number, 20);
                        none.push(at);
                    }
                }
            }
        }
        none.dedup();
        assert_eq!(none, saved::MARKS.iter().flat_map(|(at, _)| [*at, at + 1]).collect::<Vec<_>>());
        // Every other length.
        for length in 0..form.len() {
            assert_eq!(on.restore(&form[..length]), Err(20), "{length}");
        }
        for behind in [&[0][..], &[0; 8], &form] {
            assert_eq!(on.restore(&[&form[..], behind].concat()), Err(20));
            assert_eq!(on.restore(&[behind, &form[..]].concat()), Err(20));
        }
    }
}

/// A list with every command, areas and data for it; it stops thirteen times.
fn long_run() -> (Lent, Vec<u8>) {
    let records = one_more_and_q();
    let list = [
        "3\n13\n4\n6".into(),
        format!("stash {} 2,0,2", name("AB")),
        format!("stash {} 2,2,5", name("CDE")),
        "new 2,0,2".into(),
        "zero 2,4,5".into(),
        format!("move {} 2,2,4 2 - {}:2,0,2", name("AB"), name("AB")),
        format!("bsdiff 0 {} {} {} 2,5,7 1 2,2,3", records.len(), name("A"), name("BQ")),
        format!("move {} 2,5,7 2 2,0,2", name("BQ")),
        "erase 2,7,8".into(),
        format!("free {}", name("AB")),
        format!("move {} 2,1,4 3 2,0,3", name("NMA")),
        format!("free {}", name("CDE")),
        "new 2,7,8".into(),
        "".into(),
    ];
    let data = [blocks("NM"), b"parts".to_vec()].concat();
    (Lent { patch: records, ..lent(&list.join("\n")) }, data)
}

#[test]
fn a_run_that_was_cut_ends_as_one_that_was_not() {
    let mut rng = Rng::new(11);
    for on in all() {
        let (opened, data) = long_run();
        let (mut uncut, mut lent) = (opened.clone(), opened);
        let mut state = lent.open(on);
        let (seen, end) = stops(on, &mut uncut, &data, state);
        assert_eq!((seen.len(), said(&end)), (13, (More, data.len())));
        assert_eq!(uncut.letters()[..2], ["NNMA0BQ?", "CDEDEyz"]);
        // From the opening and from every stop, with anything in what is written up to the next.
        for k in 0..=seen.len() {
            let form = on.save(&state);
            let rest = &data[state.total as usize..];
            let written = {
                let (list, areas) = lent.areas();
                model::writes(list, &areas, rest, &state)
            };
            for other in 0..4 {
                let mut cut = lent.clone();
                written.scramble(&mut cut.areas().1, |old| if other == 0 { !old } else { rng.next_u64() as u8 });
                let restored = on.restore(&form).expect("its own saved form");
                let answer = cut.call(on, &data[restored.total as usize..], restored);
                assert!((answer.outcome, answer.state) == (end.outcome, end.state) && cut == uncut, "{k}");
            }
            state = lent.call_once(on, rest, state).state;
        }
        assert!(lent == uncut && state == end.state);
    }
}

#[test]
fn a_move_over_its_own_source_is_cut() {
    // The accident: the target is half written. From the stop before it R is written whole; from the older state the source is gone.
    for on in all() {
        let mut lent = lent(&format!("3\n3\n0\n0\nmove {} 2,1,4 3 2,0,3\n", name("ABC")));
        let opened = lent.open(on);
        let filled = lent.call_once(on, b"", opened);
        assert_eq!(said(&filled), (Stop, 0));
        let form = on.save(&filled.state);
        lent.image[BLOCK..2 * BLOCK + 100].copy_from_slice(&blocks("AB")[..BLOCK + 100]);
        let mut older = lent.clone();
        let answer = lent.call(on, b"", on.restore(&form).expect("its own saved form"));
        assert_eq!((said(&answer), letters(&lent.image).as_str()), ((Done, 0), "AABCEFGH"));
        assert_eq!(said(&older.call(on, b"", opened)), (refused(16, 5), 0));
    }
}
