//! The borders of a run: pieces, hashes, states, lists altered since opening.

mod common;

use check::hex;
use common::*;
use reference::Outcome::{Done, More};
use reference::{digest, Lengths, Outcome, Refusal, Rooms, State, BLOCK, MOST_AREA, MOST_STASHES};

#[test]
fn pieces_of_any_length() {
    let data = blocks("pq");
    let list = format!("3\n3\n0\n0\nnew 4,6,7,0,1\nmove {} 2,1,2 1 2,6,7\n", name("p"));
    for on in all() {
        for cuts in [vec![], vec![0], vec![1; 20], vec![4_095, 1, 1, 4_095], vec![4_096, 4_096, 0, 0], vec![8_192, 7], vec![0, 8_191, 0, 1, 0]] {
            let mut lent = Lent::new(&list);
            let answer = lent.run(on, &data, &cuts);
            assert_eq!(said(&answer), (Done, 8_192));
            assert_eq!(letters(&lent.image), "qpCDEFpH");
            assert_eq!((answer.state.into, answer.state.at, answer.state.line), (0, list.len(), 7));
        }
        // The line after the last byte runs in that same call.
        let mut lent = Lent::new(&list);
        let state = lent.open(on);
        let first = lent.call(on, &data[..8_191], state);
        assert_eq!(said(&first), (More, 8_191));
        assert_eq!(letters(&lent.work), "uvw");
        let second = lent.call(on, &[b'q', 9, 9], first.state);
        assert_eq!(said(&second), (Done, 1));
        let third = lent.call(on, &data, second.state);
        assert_eq!((said(&third), third.state), ((Done, 0), second.state));
    }
}

#[test]
fn a_hash_that_differs() {
    let list = format!("3\n2\n1\n1\nnew 2,0,1\nstash {} 2,2,3\nzero 2,7,8\n", name("D"));
    let (areas, answer) = after(&list, b"", &blocks("n"));
    assert_eq!(areas, ["nBCDEFGH", "xyz", "Cvw", "rst"]);
    assert_eq!(said(&answer), (refused(16, 6), 4_096));
    assert_eq!((answer.state.line, answer.state.count, answer.state.refusal), (6, 0, refusal_of(16, 6)));
    for on in all() {
        let mut lent = Lent::new(&list);
        let mut state = answer.state;
        assert_eq!(said(&lent.call(on, b"x", state)), (refused(16, 6), 0));
        // Whatever it holds is repeated, before anything is looked at.
        for (number, line, byte) in
            [(17, 3, 0), (99, usize::MAX, 8), (usize::MAX, 0, usize::MAX), (6, 5, 0), (6, 5, 9), (3, 9, usize::MAX), (16, 6, 1), (8, 0, 1)]
        {
            state.refusal = Refusal { number, line, byte };
            state.at = usize::MAX;
            let again = lent.call(on, b"x", state);
            assert_eq!((said(&again), again.state), ((Outcome::Refused(state.refusal), 0), state));
        }
    }
}

#[test]
fn impossible_states() {
    // The number of a call from an altered state of this list, over a stash area of so many blocks.
    let edit_in = |list: &str, blocks: usize, f: &dyn Fn(&mut State)| {
        let mut got = Vec::new();
        for on in all() {
            let mut lent = Lent::new(list);
            lent.stash.resize(blocks * BLOCK, b's');
            let mut state = lent.open(on);
            f(&mut state);
            let before = lent.clone();
            let answer = lent.call(on, b"", state);
            if answer.outcome.number() == 17 {
                assert_eq!((said(&answer), answer.state), ((refused(17, 0), 0), state));
                assert!(lent == before);
            }
            got.push(answer);
        }
        got.dedup();
        assert_eq!(got.len(), 1);
        got[0].outcome.number()
    };
    let edit = |f: &dyn Fn(&mut State)| edit_in("3\n3\n3\n2\nnew 2,0,2\nzero 2,0,1\n", 3, f);
    let hash = |s: &mut State, k: usize, v: u8| s.hashes[20 * k..20 * k + 20].fill(v);
    assert_eq!(edit(&|_| {}), 0);
    assert_eq!(edit(&|s| s.line = 4), 17);
    assert_eq!(edit(&|s| s.at = 7), 17);
    assert_eq!(edit(&|s| (s.at, s.line) = (6, 4)), 17);
    assert_eq!(edit(&|s| s.at = usize::MAX), 17);
    assert_eq!(edit(&|s| (s.at, s.line) = (18, 6)), 0);
    assert_eq!(edit(&|s| (s.at, s.line) = (29, 7)), 0);
    assert_eq!(edit(&|s| (s.at, s.line, s.into) = (29, 7, 1)), 17);
    assert_eq!(edit(&|s| (s.at, s.line, s.into) = (18, 6, 1)), 17);
    assert_eq!(edit(&|s| (s.at, s.line) = (30, 8)), 17);
    assert_eq!(edit(&|s| s.into = 8_191), 0);
    assert_eq!(edit(&|s| s.into = 8_192), 17);
    assert_eq!(edit(&|s| s.into = usize::MAX), 17);
    assert_eq!(edit(&|s| (s.count, s.sizes[0]) = (1, 1)), 0);
    assert_eq!(edit(&|s| s.count = 1), 17);
    assert_eq!(edit(&|s| (s.count, s.sizes[0], s.sizes[1]) = (2, 1, 1)), 17);
    assert_eq!(edit(&|s| s.count = MOST_STASHES + 1), 17);
    assert_eq!(edit(&|s| s.count = usize::MAX), 17);
    assert_eq!(edit(&|s| (s.count, s.sizes[0]) = (1, 2)), 0);
    assert_eq!(edit(&|s| (s.count, s.sizes[0]) = (1, 3)), 17);
    assert_eq!(edit(&|s| s.sizes[0] = usize::MAX), 0);
    assert_eq!(
        edit(&|s| {
            hash(s, 0, 1);
            (s.count, s.sizes[0], s.sizes[1]) = (2, usize::MAX, 2);
        }),
        17
    );
    // More stashes than line 3, up to the most, are possible, where line 4 has room for their blocks.
    let edit_full = |f: &dyn Fn(&mut State)| {
        let list = format!("3\n3\n3\n{}\nnew 2,0,2\nzero 2,0,1\n", MOST_STASHES + 1);
        edit_in(&list, MOST_STASHES + 1, &|s: &mut State| {
            (0..MOST_STASHES).for_each(|k| hash(s, k, k as u8));
            s.sizes = [1; MOST_STASHES];
            s.count = MOST_STASHES;
            f(s);
        })
    };
    assert_eq!(edit_full(&|_| {}), 0);
    for count in [MOST_STASHES + 1, MOST_STASHES + 2, 2 * MOST_STASHES] {
        assert_eq!(edit_full(&|s| s.count = count), 17);
    }
    // One hash twice, near to one another and far apart; past the count it does not matter.
    for (j, k) in [(0, 1), (0, 63), (0, 64), (63, 64), (64, 65), (0, 255), (100, 200), (1, 254), (254, 255)] {
        for count in [k, k + 1] {
            let twice = edit_full(&|s| {
                hash(s, k, j as u8);
                s.count = count;
            });
            assert_eq!(twice, if count > k { 17 } else { 0 }, "{j} {k} {count}");
        }
    }
    // The last stash's blocks count, and it must have some, as every other.
    for (blocks, want) in [(2, 0), (3, 17), (usize::MAX, 17), (0, 17)] {
        assert_eq!(edit_full(&|s| s.sizes[MOST_STASHES - 1] = blocks), want);
    }
    for k in [0, 1, 63, 64, 254] {
        for count in [k, k + 1] {
            let empty = edit_full(&|s| (s.sizes[k], s.count) = (0, count));
            assert_eq!(empty, if count > k { 17 } else { 0 }, "{k} {count}");
        }
    }
    assert_eq!(edit(&|s| s.lengths.list += 1), 17);
    assert_eq!(edit(&|s| s.lengths.image += BLOCK), 17);
    assert_eq!(edit(&|s| s.lengths.stash = 0), 17);
    assert_eq!(edit(&|s| s.lengths.work = 1), 17);
    assert_eq!(edit(&|s| s.lengths.result += BLOCK), 17);
    assert_eq!(edit(&|s| s.lengths.result = 0), 17);
    assert_eq!(edit(&|s| s.lengths.patch = 1), 17);
    assert_eq!(edit(&|s| s.lengths.patch = usize::MAX), 17);
    assert_eq!(edit(&|s| *s = State::ZERO), 17);
    // With number 0 no refusal is held.
    assert_eq!(edit(&|s| s.refusal.line = 9), 0);
    assert_eq!(edit(&|s| s.refusal.byte = 9), 0);
}

#[test]
fn a_list_altered_after_opening() {
    let good = "3\n2\n1\n1\nzero 2,0,1\nzero 2,1,2\n";
    // The number that the line is refused with, and the byte, in a list whose line 6 begins at byte 19.
    for (line, number, byte) in [
        ("zero 2,1,9", 8, 0),
        ("zero 2,2,1", 6, 29),
        ("zero 2,2,0", 6, 28),
        ("zero 2,1,1", 6, 29),
        ("zero 2,0,0", 6, 28),
        ("zero 2,9,9", 6, 29),
        ("new 4,0,1,1,1", 6, 32),
        ("zero 6,0,1,3,3,1,2", 6, 33),
        ("erase 2,4294967295,4294967295", 6, 36),
        (&format!("stash {} 2,3,3", name("D")), 6, 71),
        (&format!("move {} 2,1,2 1 2,0,0", name("A")), 6, 77),
        (&format!("bsdiff 0 0 {} {} 4,1,2,8,8 1 2,0,1", name("A"), name("A")), 6, 121),
        ("zero 2,1\n2", 6, 27),
        ("imgdiff 1,", 7, 0),
        ("imgdifg 1,", 6, 19),
        ("bsdiff 1,2", 6, 27),
        ("Zero 2,1,2", 6, 19),
        ("zero 2,1,2x", 6, 29),
    ] {
        for on in all() {
            let mut lent = Lent::new(good);
            let opened = lent.open(on);
            lent.list = good.replace("zero 2,1,2", line).into_bytes();
            let state = State { lengths: Lengths::of(&lent.list, lent.rooms()), ..opened };
            let refusal = Refusal { number, line: 6, byte };
            let answer = lent.call(on, b"", state);
            assert_eq!(said(&answer), (Outcome::Refused(refusal), 0), "{line:?}");
            assert_eq!(letters(&lent.image), "0BCDEFGH");
            assert_eq!((answer.state.at, answer.state.line, answer.state.refusal), (19, 6, refusal));
            // It stays, over the list that was opened too.
            lent.list = good.as_bytes().to_vec();
            let again = lent.call(on, b"", answer.state);
            assert_eq!((said(&again), again.state), ((Outcome::Refused(refusal), 0), answer.state));
        }
    }
    // Cut short, it is wrong where the text ends.
    for length in 20..good.len() {
        for on in all() {
            let mut lent = Lent::new(good);
            let opened = lent.open(on);
            lent.list.truncate(length);
            let state = State { lengths: Lengths::of(&lent.list, lent.rooms()), ..opened };
            assert_eq!(said(&lent.call(on, b"", state)), (Outcome::Refused(Refusal { number: 6, line: 6, byte: length }), 0));
        }
    }
    // Into a `new` that is no longer one, or that has an empty range: 17, and not kept.
    for line in ["bsdiff 1,", "new 2,0,0", "new 2,9,9", "new 4,0,1,1,1", "new 6,0,1,0,0,1,2"] {
        for on in all() {
            let mut lent = Lent::new("3\n1\n0\n0\nnew 2,0,1\n");
            let first = lent.all(on, b"abc");
            lent.list = format!("3\n1\n0\n0\n{line}\n").into_bytes();
            let state = State { lengths: Lengths::of(&lent.list, lent.rooms()), ..first.state };
            let second = lent.call(on, b"abc", state);
            assert_eq!((said(&second), second.state), ((refused(17, 0), 0), state), "{line}");
            lent.list = b"3\n1\n0\n0\nnew 2,0,1\n".to_vec();
            assert_eq!(said(&lent.call(on, b"", first.state)), (More, 0));
        }
    }
}

#[test]
fn the_most_stashes() {
    // 256 one-block stashes of different bytes; one more is refused, though line 4 has room for its block. Freed room serves again.
    let most = MOST_STASHES;
    let block = |k: usize| [[k as u8; 4], [(k >> 8) as u8; 4]].concat().repeat(BLOCK / 8);
    let image: Vec<u8> = (0..=most).flat_map(block).collect();
    let named: Vec<String> = (0..=most).map(|k| hex(&digest(&block(k)))).collect();
    let last = format!("stash {} 2,{most},{}\n", named[most], most + 1);
    let header = format!("3\n1\n{most}\n{}\n", most + 1);
    let mut list = header.clone();
    for (k, name) in named.iter().enumerate().take(most) {
        list += &format!("stash {name} 2,{k},{}\n", k + 1);
    }
    for on in all() {
        let mut lent = Lent {
            list: format!("{list}{last}").into_bytes(),
            image: image.clone(),
            stash: vec![9; (most + 1) * BLOCK],
            work: vec![8; BLOCK],
            result: Vec::new(),
            patch: Vec::new(),
        };
        assert_eq!(lent.open(on).refusal, refusal_of(14, most + 5));
        // In a call the lines before run, and what they held stays.
        let state = State { line: 5, at: header.len(), lengths: Lengths::of(&lent.list, lent.rooms()), ..State::ZERO };
        let answer = lent.call(on, b"", state);
        assert_eq!((said(&answer), answer.state.count), ((refused(14, most + 5), 0), most));
        assert!(lent.stash == [&image[..most * BLOCK], &[9; BLOCK]].concat());
        // Held already comes before no room, at either end of the table.
        for k in [0, 63, 64, most - 1] {
            lent.list = format!("{list}stash {} 2,0,1\n", named[k]).into_bytes();
            assert_eq!(lent.open(on).refusal, refusal_of(13, most + 5));
        }
        let swap = format!("{list}free {}\n{last}move {} 2,0,1 1 - {}:2,0,1\n", named[0], named[most - 1], named[most - 1]);
        lent.list = swap.into_bytes();
        let answer = lent.all(on, b"");
        assert_eq!(said(&answer), (Done, 0));
        assert_eq!(answer.state.count, most);
        assert!(lent.stash == [&image[BLOCK..], &[9; BLOCK]].concat());
        assert!(lent.image[..BLOCK] == block(most - 1));
    }
}

/// A stash of no blocks, which no list makes: a state that holds one is impossible, whatever its line is and does with it.
#[test]
fn stashes_of_no_blocks() {
    let (a, nothing) = (name("A"), name(""));
    // The state is at the first of these lines, or behind them, and holds nothing's hash, A in a block and B in a block.
    for lines in [
        String::new(),
        "zero 2,0,1\n".into(),
        "erase 2,0,1\n".into(),
        "new 2,0,1\n".into(),
        "new 2,0,9\n".into(),
        "zap\n".into(),
        format!("free {nothing}\n"),
        format!("free {a}\n"),
        format!("stash {nothing} 2,1,2\n"),
        format!("stash {} 2,2,3\n", name("C")),
        format!("move {a} 2,7,8 1 - {a}:2,0,1\n"),
        format!("move {a} 2,7,8 1 2,0,1\n"),
        format!("move {a} 2,0,1 1 2,0,1\n"),
        format!("move {a} 2,7,8 1 - {nothing}:2,0,1\n"),
        format!("bsdiff 0 0 {a} {a} 2,7,8 1 - {a}:2,0,1 {nothing}:2,1,2\n"),
    ] {
        for (order, held) in [([0, 1, 2], 3), ([1, 0, 2], 3), ([1, 2, 0], 3), ([0, 1, 2], 1), ([1, 0, 2], 2), ([1, 2, 0], 2)] {
            for at_end in [false, true] {
                for on in all() {
                    let mut lent = Lent::new(&format!("3\n1\n4\n3\n{lines}"));
                    let mut state = State { line: 5, at: 8, count: held, lengths: Lengths::of(&lent.list, lent.rooms()), ..State::ZERO };
                    if at_end {
                        (state.line, state.at) = (5 + !lines.is_empty() as usize, lent.list.len());
                    }
                    for (k, which) in order.into_iter().enumerate() {
                        let (letters, blocks_held) = [("", 0), ("A", 1), ("B", 1)][which];
                        state.hashes[20 * k..20 * k + 20].copy_from_slice(&digest(&blocks(letters)));
                        state.sizes[k] = blocks_held;
                    }
                    let before = lent.clone();
                    let answer = lent.call_once(on, b"", state);
                    let is_held = order[..held].contains(&0);
                    assert_eq!(answer.outcome.number() == 17, is_held, "{lines} {order:?} {held}");
                    if is_held {
                        assert!(said(&answer) == (refused(17, 0), 0) && answer.state == state && lent == before, "{lines} {order:?}");
                    }
                }
            }
        }
    }
}

#[test]
fn sources_of_several_stashes() {
    let (a, bc, d) = (name("A"), name("BC"), name("D"));
    // Each list first holds A, then B C, then D: the later two are not at the front.
    let held = format!("stash {a} 2,0,1\nstash {bc} 2,1,3\n");
    for (total, area, lines, image, work) in [
        // Form two with one stash that is not at the front, its blocks in the other order.
        (2, 3, format!("move {} 2,5,7 2 - {bc}:4,1,2,0,1\n", name("CB")), "ABCDECBH", "CBD"),
        // Form two with two, the younger first, their places mixed.
        (3, 3, format!("move {} 2,4,7 3 - {bc}:4,2,3,0,1 {a}:2,1,2\n", name("CAB")), "ABCDCABH", "CAB"),
        // One stash twice.
        (2, 3, format!("move {} 2,4,6 2 - {a}:2,1,2 {a}:2,0,1\n", name("AA")), "ABCDAAGH", "AAD"),
        // Form three with two, the image's block between them.
        (3, 4, format!("stash {d} 2,3,4\nmove {} 2,5,8 3 2,7,8 2,1,2 {d}:2,0,1 {a}:2,2,3\n", name("DHA")), "ABCDEDHA", "DHA"),
        // After the oldest is freed, what was behind it is at the front.
        (3, 4, format!("stash {d} 2,3,4\nfree {a}\nmove {} 2,0,3 3 - {d}:2,0,1 {bc}:2,1,3\n", name("DBC")), "DBCDEFGH", "DBC"),
    ] {
        for on in all() {
            let mut lent = Lent::new(&format!("3\n{total}\n3\n{area}\n{held}{lines}"));
            lent.stash = blocks(&"xyzt"[..area]);
            lent.work = blocks("BCD");
            let answer = lent.all(on, b"");
            assert_eq!(said(&answer), (Done, 0), "{lines}");
            assert_eq!((letters(&lent.image).as_str(), letters(&lent.work).as_str()), (image, work), "{lines}");
        }
    }
}

#[test]
fn a_header_altered_after_opening() {
    let good = format!("3\n1\n2\n2\nstash {} 2,0,1\nnew 2,0,1\n", name("A"));
    let other = |from: &str, to: &str| good.replacen(from, to, 1);
    // The header, and whether a call now gives 17. Line 2 is not looked at again, nor a line 3 below what is held.
    for (list, want) in [
        (good.clone(), 0),
        (other("3\n", "4\n"), 17),
        (other("3\n", "x\n"), 17),
        (other("3\n1", "3\n9"), 0),
        (other("3\n1", "3\n+"), 17),
        (other("1\n2\n2", "1\n0\n2"), 0),
        (other("1\n2\n2", "1\n \n2"), 17),
        (other("1\n2\n2", "1\n257\n2"), 17),
        (other("1\n2\n2", "1\n256\n2"), 0),
        (other("2\n2\n", "2\n3\n"), 0),
        (other("2\n2\n", "2\n4\n"), 17),
        (other("2\n2\n", "2\n1\n"), 0),
        (other("2\n2\n", "2\n0\n"), 17),
        (other("2\n2\n", "2\n2 "), 17),
    ] {
        for on in all() {
            let mut lent = Lent::new(&good);
            let first = lent.all(on, b"nn");
            assert_eq!(said(&first), (More, 2));
            let before = lent.letters();
            let mut state = first.state;
            state.at = state.at + list.len() - good.len();
            state.lengths.list = list.len();
            lent.list = list.clone().into_bytes();
            let second = lent.call(on, b"", state);
            assert_eq!(second.outcome.number(), want, "{list:?}");
            if want == 17 {
                assert_eq!((said(&second), second.state), ((refused(17, 0), 0), state));
                assert_eq!(lent.letters(), before);
                // It is not kept: over the list that was opened the run goes on.
                lent.list = good.clone().into_bytes();
                assert_eq!(said(&lent.call(on, b"n", first.state)), (More, 1));
            }
        }
    }
}

/// Areas of these lengths.
fn lent_areas(rooms: Rooms) -> Lent {
    let Rooms { image, stash, work, result, patch } = rooms;
    Lent { list: vec![], image: vec![1; image], stash: vec![2; stash], work: vec![3; work], result: vec![4; result], patch: vec![5; patch] }
}

#[test]
fn areas_and_a_list_that_no_longer_fit() {
    // The lengths are those that the state holds, and they alone would now be refused: 1, then 2.
    for on in all() {
        let list = b"3\n0\n0\n0\nerase 2,0,1\n";
        let rooms = Rooms { image: BLOCK, stash: BLOCK, work: BLOCK, result: BLOCK, patch: 3 };
        let state = on.open(list, rooms);
        for other in [
            Rooms { image: BLOCK + 1, ..rooms },
            Rooms { stash: BLOCK - 1, ..rooms },
            Rooms { work: (MOST_AREA + 1) * BLOCK, ..rooms },
            Rooms { stash: (MOST_AREA + 1) * BLOCK, ..rooms },
            Rooms { result: BLOCK + 1, ..rooms },
            Rooms { result: 4_097 * BLOCK, ..rooms },
        ] {
            let state = State { lengths: Lengths::of(list, other), ..state };
            let answer = on.call(list, lent_areas(other).areas().1, b"", state);
            assert_eq!((said(&answer), answer.state), ((refused(17, 0), 0), state));
        }
        // Patch data of another length alone is 17 too; of any length that the state has, it is not.
        for (held, lent, want) in [(3, 3, 0), (3, 4, 17), (3, 0, 17), (0, 0, 0), (9_999, 9_999, 0)] {
            let state = State { lengths: Lengths { patch: held, ..state.lengths }, ..state };
            let answer = on.call(list, lent_areas(Rooms { patch: lent, ..rooms }).areas().1, b"", state);
            assert_eq!(answer.outcome.number(), want, "{held} {lent}");
        }
        let mut long = list.to_vec();
        long.resize(4_194_304, b'\n');
        for want in [6, 17] {
            let other = State { lengths: Lengths { list: long.len(), ..state.lengths }, ..state };
            let answer = on.call(&long, lent_areas(rooms).areas().1, b"", other);
            assert_eq!(answer.outcome.number(), want);
            long.push(b'\n');
        }
    }
}
