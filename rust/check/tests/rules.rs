//! The samples, and the borders of an opening.

mod common;

use check::hex;
use common::*;
use reference::Outcome::{Done, More};
use reference::{Answer, Outcome, Refusal, Rooms, State, BLOCK, MOST_AREA, MOST_IMAGE, MOST_RESULT};

/// What an opening is refused with, the same on all: the number and the line.
fn refusal(list: &str) -> (usize, usize) {
    let Refusal { number, line, .. } = whole_refusal(list);
    (number, line)
}

/// The same, with the byte.
fn whole_refusal(list: &str) -> Refusal {
    let mut got = Vec::new();
    for on in all() {
        let mut lent = Lent::new(list);
        let state = lent.open(on);
        if state.refusal.number != 0 {
            assert_eq!(state, State { refusal: state.refusal, ..State::ZERO }, "{list}");
            // A run ends with that state, as the implementation itself gives it.
            let answer = lent.run(on, b"", &[]);
            assert_eq!(answer, Answer { state, outcome: Outcome::Refused(state.refusal), taken: 0 }, "{list}");
        }
        got.push(state.refusal);
    }
    got.dedup();
    assert_eq!(got.len(), 1, "{list}");
    got[0]
}

#[test]
fn digests() {
    let million = vec![b'a'; 1_000_000];
    let vectors: [(&[u8], &str); 5] = [
        (b"", "da39a3ee5e6b4b0d3255bfef95601890afd80709"),
        (b"abc", "a9993e364706816aba3e25717850c26c9cd0d89d"),
        (b"abcdbcdecdefdefgefghfghighijhijkijkljklmklmnlmnomnopnopq", "84983e441c3bd26ebaae4aa1f95129e5e54670f1"),
        (
            b"abcdefghbcdefghicdefghijdefghijkefghijklfghijklmghijklmnhijklmnoijklmnopjklmnopqklmnopqrlmnopqrsmnopqrstnopqrstu",
            "a49b2446a02c645bf419f995b67091253a04a259",
        ),
        (&million, "34aa973cd4c4daa4f61eeb2bdbad27316534016f"),
    ];
    for on in all() {
        for (bytes, digest) in vectors {
            assert_eq!(hex(&on.digest(bytes)), digest);
        }
    }
}

#[test]
fn samples() {
    // 1 to 3: what a set names.
    assert_eq!(after("3\n2\n0\n0\nzero 2,3,5\n", b"", b"").0[0], "ABC00FGH");
    let list = format!("3\n0\n1\n3\nstash {} 4,6,7,1,3\n", name("GBC"));
    assert_eq!(after(&list, b"", b"").0[1], "GBC");
    assert_eq!(refusal("3\n7\n0\n0\nzero 4,247114,247116,247150,247155\n"), (8, 5));
    let empty = "3\n7\n0\n0\nzero 6,247114,247116,247150,247155,247156,247156\n";
    assert_eq!(whole_refusal(empty), Refusal { number: 6, line: 5, byte: 56 });
    // 4: ill formed.
    for (set, byte) in [("2,5,3", 18), ("3,1,2,3", 14), ("0", 13), ("4,1,2", 18), ("2,01,2", 16)] {
        assert_eq!(whole_refusal(&format!("3\n0\n0\n0\nzero {set}\n")), Refusal { number: 6, line: 5, byte }, "{set}");
    }
    // 5 and 6.
    assert_eq!(after("3\n1\n0\n0\nzero 2,7,8\n", b"", b"").0[0], "ABCDEFG0");
    assert_eq!(refusal("3\n2\n0\n0\nzero 2,7,9\n"), (8, 5));
    for set in ["2,8,8", "2,9,9"] {
        assert_eq!(whole_refusal(&format!("3\n0\n0\n0\nzero {set}\n")), Refusal { number: 6, line: 5, byte: 18 }, "{set}");
    }
    // 7: a target over its own source.
    let list = format!("3\n3\n0\n0\nmove {} 2,1,4 3 2,0,3\n", name("ABC"));
    let ([image, _, work, _], answer) = after(&list, b"", b"");
    assert_eq!((image.as_str(), work.as_str(), said(&answer)), ("AABCEFGH", "ABC", (Done, 0)));
    // 8 and 9: an image part and a stash, spread.
    let put = format!("3\n3\n1\n1\nstash {} 2,3,4\nmove {} 2,5,8 3 2,0,2 4,0,1,2,3 {}:2", name("D"), name("ADB"), name("D"));
    assert_eq!(after(&format!("{put},1,2\n"), b"", b"").0[0], "ABCDEADB");
    assert_eq!(refusal(&format!("{put},0,1\n")), (12, 6));
    // 10.
    assert_eq!(after("3\n2\n0\n0\nzero 4,0,1,7,8\n", b"", b"").0[0], "0BCDEFG0");
    // 11 and 12: new data.
    for on in all() {
        let mut lent = Lent::new("3\n2\n0\n0\nnew 4,2,3,6,7\n");
        let answer = lent.all(on, &[b'n'; 5_000]);
        assert_eq!(said(&answer), (More, 5_000));
        assert_eq!((answer.state.at, answer.state.line, answer.state.into), (8, 5, 5_000));
        assert!(lent.image[2 * BLOCK..3 * BLOCK].iter().all(|b| *b == b'n'));
        assert!(lent.image[6 * BLOCK..6 * BLOCK + 904].iter().all(|b| *b == b'n'));
        assert!(lent.image[6 * BLOCK + 904..7 * BLOCK].iter().all(|b| *b == b'G'));
    }
    assert_eq!(after("3\n4\n0\n0\nnew 4,2,4,3,5\n", b"", &blocks("pqrs")).0[0], "ABprsFGH");
    // 13: what free leaves.
    let list = format!("3\n0\n2\n3\nstash {x} 2,0,1\nstash {y} 2,1,3\nfree {x}\n", x = name("A"), y = name("BC"));
    let ([_, stash, ..], answer) = after(&list, b"", b"");
    assert_eq!((stash.as_str(), answer.state.count, answer.state.sizes[0]), ("BCC", 1, 2));
    // 14 and 15.
    assert_eq!(said(&after("3\n0\n0\n0\n", b"", b"abc").1), (Done, 0));
    for (total, want) in [(2, (15, 2)), (3, (0, 0)), (4, (15, 2))] {
        assert_eq!(refusal(&format!("3\n{total}\n0\n0\nnew 2,0,2\nzero 2,4,5\n")), want, "{total}");
    }
}

#[test]
fn what_line_2_counts() {
    let h = name("D");
    // The lines, and the one number that opens them.
    let lines: Vec<(String, u64)> = vec![
        ("new 2,0,2\nerase 2,4,5\n".into(), 2),
        ("new 2,0,3\n".into(), 3),
        ("zero 2,0,3\n".into(), 3),
        ("erase 2,0,3\n".into(), 0),
        (format!("move {h} 2,5,7 2 2,0,2\n"), 2),
        (format!("stash {h} 2,0,1\nmove {h} 2,5,6 1 - {h}:2,0,1\n"), 1),
        (format!("stash {h} 2,0,1\nmove {h} 2,5,8 3 2,0,2 4,0,1,2,3 {h}:2,1,2\nfree {h}\n"), 3),
        (format!("stash {h} 2,0,1\nfree {h}\n"), 0),
        // The target of a `bsdiff`, and not N.
        (format!("bsdiff 0 0 {h} {h} 2,0,3 1 2,0,1\n"), 3),
        (format!("bsdiff 0 0 {h} {h} 4,0,1,0,1 3 2,0,3\n"), 2),
        (format!("stash {h} 2,0,1\nbsdiff 0 0 {h} {h} 2,5,7 1 - {h}:2,0,1\nnew 2,0,1\n"), 3),
        // A block counts as often as it is named, in one line or in several.
        ("zero 4,0,1,0,1\n".into(), 2),
        (format!("new 2,0,1\nzero 2,0,1\nmove {h} 2,0,1 1 2,0,1\n"), 3),
    ];
    for (lines, total) in lines {
        for line_2 in 0..=5 {
            let want = if line_2 == total { (0, 0) } else { (15, 2) };
            assert_eq!(refusal(&format!("3\n{line_2}\n1\n1\n{lines}")), want, "{line_2} {lines:?}");
        }
    }
    // Totals at 32 bits and past them, for the largest image.
    let whole = "zero 2,0,1048576\n".repeat(4_095);
    for (total, lines, want) in [
        (u32::MAX, format!("{whole}zero 2,0,1048575\n"), 0),
        (0, format!("{whole}zero 2,0,1048576\n"), 15),
        (u32::MAX, format!("{whole}zero 2,0,1048576\n"), 15),
        (5, format!("{whole}new 2,0,1048576\nzero 2,0,5\n"), 15),
        (0, format!("zero 8192{}\n", ",0,1048576".repeat(4_096)), 15),
        (0, format!("{whole}zero 2,0,1048576\n").replace("zero", "erase"), 0),
    ] {
        let list = format!("3\n{total}\n0\n0\n{lines}");
        for on in all() {
            let rooms = Rooms { image: 1_048_576 * BLOCK, ..Rooms::default() };
            assert_eq!(on.open(list.as_bytes(), rooms).refusal.number, want, "{total}");
        }
    }
}

#[test]
fn header_lines() {
    for (list, want) in [
        ("", (3, 1)),
        ("\n", (3, 1)),
        ("1\n0\n", (3, 3)),
        ("3\n0\n0\n0", (3, 4)),
        ("3 \n0\n0\n0\n", (3, 1)),
        ("3\r\n0\n0\n0\n", (3, 1)),
        ("03\n0\n0\n0\n", (3, 1)),
        ("+3\n0\n0\n0\n", (3, 1)),
        ("3\n4294967296\n0\n0\n", (3, 2)),
        ("3\n4294967295\n0\n0\n", (15, 2)),
        ("3\nimgdiff\n0\n0\n", (3, 2)),
        ("1\n0\n257\n4\n", (4, 1)),
        ("3\n0\n257\n4\n", (5, 3)),
        ("3\n0\n257\n3\n", (5, 3)),
        ("3\n0\n4294967295\n3\n", (5, 3)),
        ("3\n0\n256\n4\n", (5, 4)),
        ("3\n0\n256\n3\n", (0, 0)),
        ("3\n0\n65\n3\n", (0, 0)),
        ("4294967295\n0\n0\n0\n", (4, 1)),
    ] {
        assert_eq!(refusal(list), want, "{list:?}");
    }
}

/// The header of document 002, and borders of the limits that it has to fit.
#[test]
fn the_header_of_a_real_list() {
    for (list, stash, want) in [
        ("3\n314733\n108\n10584\n", 10_584, (15, 2)),
        ("3\n0\n108\n10584\n", 10_584, (0, 0)),
        ("3\n0\n108\n10584\n", 32_768, (0, 0)),
        ("3\n0\n108\n10584\n", 10_583, (5, 4)),
        ("3\n0\n108\n10584\n", 4_096, (5, 4)),
        ("3\n0\n108\n10584\n", 32_769, (1, 0)),
        ("3\n0\n256\n32768\n", 32_768, (0, 0)),
        ("3\n0\n256\n32769\n", 32_768, (5, 4)),
        ("3\n0\n257\n32768\n", 32_768, (5, 3)),
    ] {
        for on in all() {
            let Refusal { number, line, .. } = on.open(list.as_bytes(), Rooms { stash: stash * BLOCK, ..Rooms::default() }).refusal;
            assert_eq!((number, line), want, "{list:?}, {stash} blocks");
        }
    }
    // Its first lines, in its own places of an image of 4 GiB: N of 16,290 is taken, and the target of 16,276 is over every result area.
    let (h, t) = ("ffc645d03fa4f56e72fefa872b792a76c26f9bb4", "4bc0c9ddf123d54a04c800824c0951873e195ef1");
    let moves = format!("move {h} 2,289578,289582 4 2,287350,287354\nmove {h} 2,285947,288845 2898 2,283719,286617\n");
    let patched = format!("bsdiff 0 3169086 {h} {t} 2,295583,299679 16290 2,295583,311873\n");
    let too_long = format!("bsdiff 0 3169086 {h} {t} 2,295583,311859 16290 2,295583,311873\n");
    for (lines, work, want) in
        [(format!("{moves}{patched}"), 16_290, (0, 0)), (format!("{moves}{patched}"), 16_289, (9, 7)), (format!("{moves}{too_long}"), 32_768, (9, 7))]
    {
        let list = format!("3\n6998\n108\n10584\n{lines}");
        let rooms = Rooms { image: 1_048_576 * BLOCK, stash: 10_584 * BLOCK, work: work * BLOCK, result: 4_096 * BLOCK, patch: 3_169_086 };
        for on in all() {
            let Refusal { number, line, .. } = on.open(list.as_bytes(), rooms).refusal;
            assert_eq!((number, line), want, "{lines}");
        }
    }
}

/// Sizes and places up to the largest area, which an opening judges by their numbers alone.
#[test]
fn sizes_up_to_the_largest_area() {
    let (h, other) = ("da39a3ee5e6b4b0d3255bfef95601890afd80709", "a9993e364706816aba3e25717850c26c9cd0d89d");
    let area = MOST_AREA;
    let most = format!("stash {h} 2,0,{area}\n");
    let two = format!("stash {h} 2,0,5000\nstash {other} 2,0,20000\n");
    let rooms = Rooms { image: MOST_IMAGE * BLOCK, stash: area * BLOCK, work: area * BLOCK, result: MOST_RESULT * BLOCK, patch: 0 };
    for (total, lines, want) in [
        (0, most.clone(), (0, 0)),
        (0, format!("stash {h} 2,0,32769\n"), (9, 5)),
        (0, format!("{most}stash {other} 2,0,0\n"), (6, 6)),
        (0, format!("{most}stash {other} 2,0,1\n"), (14, 6)),
        (0, format!("{most}free {h}\nstash {other} 2,0,32768\n"), (0, 0)),
        (32_768, format!("move {h} 2,0,32768 32768 2,1,32769\n"), (0, 0)),
        (32_769, format!("move {h} 2,0,32769 32769 2,1,32770\n"), (9, 5)),
        (32_768, format!("{most}move {h} 2,0,32768 32768 - {h}:2,0,32768\n"), (0, 0)),
        (32_768, format!("{most}move {h} 2,0,32768 32768 - {h}:4,32767,32768,0,32767\n"), (0, 0)),
        (32_768, format!("{most}move {h} 2,0,32768 32768 - {h}:2,1,32769\n"), (12, 6)),
        (32_768, format!("{most}move {h} 2,0,32768 32768 - {h}:4,0,32767,32766,32767\n"), (12, 6)),
        (32_768, format!("{most}move {h} 2,0,32768 32768 - {h}:4,0,32767,0,1\n"), (12, 6)),
        (32_768, format!("{most}move {h} 2,0,32768 32768 - {h}:4,0,4097,4096,32767\n"), (12, 6)),
        (32_768, format!("{most}move {h} 2,0,32768 32768 - {h}:4,1,32768,0,1\n"), (0, 0)),
        (30_000, format!("{two}move {h} 2,0,30000 30000 2,7,5007 2,10000,15000 {h}:2,5000,10000 {other}:4,15000,30000,0,5000\n"), (0, 0)),
        (30_000, format!("{two}move {h} 2,0,30000 30000 2,7,5007 2,10000,15000 {h}:2,5000,10000 {other}:4,14999,29999,0,5000\n"), (12, 7)),
        (30_000, format!("{two}move {h} 2,0,30000 30000 2,7,5007 2,10000,15000 {h}:2,5001,10001 {other}:4,15000,30000,0,5000\n"), (12, 7)),
        (30_000, format!("{two}move {h} 2,0,30000 30000 2,7,5007 2,10000,15000 {h}:2,5000,10000 {other}:4,15001,30001,0,5000\n"), (12, 7)),
        (4_096, format!("{most}bsdiff 0 0 {h} {h} 2,0,4096 32768 - {h}:2,0,32768\n"), (0, 0)),
        (4_097, format!("{most}bsdiff 0 0 {h} {h} 2,0,4097 32768 - {h}:2,0,32768\n"), (9, 6)),
    ] {
        let list = format!("3\n{total}\n2\n{area}\n{lines}");
        for on in all() {
            let Refusal { number, line, .. } = on.open(list.as_bytes(), rooms).refusal;
            assert_eq!((number, line), want, "{lines}");
        }
    }
    // The marks that one line leaves are not the next one's, whatever its N is.
    let lines = format!(
        "{two}move {h} 2,0,20000 20000 - {other}:2,0,20000\nmove {h} 2,0,5000 5000 - {h}:2,0,5000\n\
         move {h} 2,0,25000 25000 - {h}:2,0,5000 {other}:2,5000,25000\nmove {h} 2,0,20000 20000 - {other}:4,4097,20000,0,4097\n"
    );
    for on in all() {
        assert_eq!(on.open(format!("3\n70000\n2\n25000\n{lines}").as_bytes(), rooms).refusal, refusal_of(0, 0));
    }
}

#[test]
fn command_lines() {
    let h = "da39a3ee5e6b4b0d3255bfef95601890afd80709";
    // What line 2 would have to be, the lines, and the number that the last of them is refused with.
    let cases: Vec<(u64, String, usize)> = vec![
        (0, "\n".into(), 6),
        (0, " \n".into(), 6),
        (0, "imgdiff".into(), 7),
        (0, "imgdiff\n".into(), 7),
        (0, "imgdiff anything".into(), 7),
        (0, "imgdiff\t1\n".into(), 6),
        (0, "imgdiffx 1\n".into(), 6),
        (0, "bsdiff".into(), 6),
        (0, "bsdiff\n".into(), 6),
        (0, "bsdiff anything\n".into(), 6),
        (0, "zero 2,0,1".into(), 6),
        (0, "zero  2,0,1\n".into(), 6),
        (0, "zero 2,0,1 \n".into(), 6),
        (0, "ZERO 2,0,1\n".into(), 6),
        (0, "zero\n".into(), 6),
        (0, "zero 2,0,4294967296\n".into(), 6),
        (4_294_967_295, "zero 2,0,4294967295\n".into(), 8),
        (0, format!("free {h}\n"), 10),
        (0, format!("free {h} \n"), 6),
        (0, format!("free {}\n", h.to_uppercase()), 6),
        (0, format!("free {}\n", &h[1..]), 6),
        (0, format!("free {h}0\n"), 6),
        (1, format!("move {h} 2,0,1 1 2,0,1\n"), 0),
        (1, format!("move {h} 2,0,1 1 -\n"), 6),
        (1, format!("move {h} 2,0,1 1 - \n"), 6),
        (1, format!("move {h} 2,0,1 1 2,0,1 2,0,1\n"), 6),
        (1, format!("move {h} 2,0,1 1 - {h}:2,0,1\n"), 10),
        (1, format!("move {h} 2,0,1 1 2,8,9\n"), 8),
        (4, format!("move {h} 2,0,4 4 2,0,9\n"), 8),
        (4, format!("move {h} 2,0,4 4 2,0,4\n"), 9),
        (1, format!("move {h} 2,0,1 1 2,0,4\n"), 9),
        (2, format!("move {h} 2,0,2 1 2,0,1\n"), 11),
        (1, format!("move {h} 2,0,1 1 2,0,2\n"), 11),
        (1, format!("move {h} 2,0,1 0 2,0,1\n"), 11),
        (0, format!("stash {h} 2,0,4\n"), 9),
        (0, format!("stash {h} 2,0,3\n"), 14),
        (0, format!("stash {h} 2,0,2\nstash {h} 2,0,3\n"), 13),
        (0, format!("stash {h} 2,0,1\nfree {h}\nfree {h}\n"), 10),
        (0, format!("stash {h} 2,0,2\nfree {h}\nstash {h} 2,0,1\n"), 0),
        (2, format!("stash {h} 2,0,1\nmove {h} 2,0,2 2 - {h}:2,0,1 {h}:2,0,1\n"), 12),
        (2, format!("stash {h} 2,0,1\nmove {h} 2,0,2 2 - {h}:2,0,2\n"), 11),
        (1, format!("stash {h} 2,0,1\nmove {h} 2,0,1 0 - {h}:2,0,1\n"), 11),
        (1, format!("stash {h} 2,0,1\nmove {h} 2,0,1 1 - {h}:2,1,2\n"), 12),
        (1, format!("stash {h} 2,0,1\nmove {h} 2,0,1 1 - {h}:2,0,4294967295\n"), 11),
        (1, format!("stash {h} 2,0,1\nmove {h} 2,0,1 1 - {h}:2,4294967294,4294967295\n"), 12),
        (1, format!("stash {h} 2,0,1\nmove {h} 2,0,1 1 - {h}:2,0,2 {}:2,0,1\n", h.replace('d', "e")), 10),
        (2, format!("stash {h} 2,0,1\nmove {h} 2,0,2 2 2,0,1 2,0,2 {h}:2,1,2\n"), 11),
        (2, format!("stash {h} 2,0,1\nmove {h} 2,0,2 2 - {h}:2,0,1 {h}:2,1,2\n"), 0),
        (2, format!("stash {h} 2,0,1\nmove {h} 2,0,2 2 2,0,1 2,0,1 {h}:2,1,2\n"), 0),
    ];
    for (total, text, want) in cases {
        let lines = text.matches('\n').count() + !text.ends_with('\n') as usize;
        let line = if want == 0 { 0 } else { 4 + lines };
        assert_eq!(refusal(&format!("3\n{total}\n1\n2\n{text}")), (want, line), "{text:?}");
    }
}

/// An end that is its start is ill formed, whatever else is said of its line: 6 is the lowest number of a command line, but for 7.
#[test]
fn empty_ranges() {
    let h = "da39a3ee5e6b4b0d3255bfef95601890afd80709";
    // With a range of a block in the mark's place each line opens.
    let lines = [
        (1, "zero @\n".to_string()),
        (0, "erase @\n".into()),
        (1, "new @\n".into()),
        (0, format!("stash {h} @\n")),
        (1, format!("move {h} @ 1 2,0,1\n")),
        (1, format!("move {h} 2,0,1 1 @\n")),
        (1, format!("stash {h} 2,0,1\nmove {h} 2,0,1 1 - {h}:@\n")),
        (2, format!("stash {h} 2,0,1\nmove {h} 2,0,2 2 @ 2,1,2 {h}:2,0,1\n")),
        (2, format!("stash {h} 2,0,1\nmove {h} 2,0,2 2 2,0,1 @ {h}:2,1,2\n")),
        (2, format!("stash {h} 2,0,1\nmove {h} 2,0,2 2 2,0,1 2,1,2 {h}:@\n")),
        (1, format!("bsdiff 0 0 {h} {h} @ 1 2,0,1\n")),
        (1, format!("bsdiff 0 0 {h} {h} 2,0,1 1 @\n")),
        (1, format!("stash {h} 2,0,1\nbsdiff 0 0 {h} {h} 2,0,1 1 - {h}:@\n")),
        (1, format!("stash {h} 2,0,1\nbsdiff 0 0 {h} {h} 2,0,1 2 2,0,1 @ {h}:2,1,2\n")),
    ];
    for (total, text) in &lines {
        let list = format!("3\n{total}\n1\n1\n{text}");
        let start = list.find('@').expect("a mark");
        let line = list[..start].matches('\n').count() + 1;
        assert_eq!(refusal(&list.replace('@', "2,0,1")), (0, 0), "{text:?}");
        // Alone, before and behind that range, and between two: the set, and the byte in it. Some lie past the image, or at N and past it.
        for (set, byte) in [
            ("2,0,0", 4),
            ("2,1,1", 5),
            ("2,8,8", 5),
            ("2,9,9", 5),
            ("2,429496730,429496730", 20),
            ("2,4294967294,4294967294", 22),
            ("2,4294967295,4294967295", 11),
            ("4,0,0,0,1", 4),
            ("4,8,8,0,1", 5),
            ("4,0,1,1,1", 9),
            ("4,0,1,4294967295,4294967295", 15),
            ("6,0,1,7,7,0,1", 9),
            ("6,8,8,0,1,9,9", 5),
        ] {
            let want = Refusal { number: 6, line, byte: start + byte };
            assert_eq!(whole_refusal(&list.replace('@', set)), want, "{set} in {text:?}");
        }
    }
    // Before 8 to 14, 18 and 15; after an earlier line's; 7 is given by its word alone.
    for (total, text, want) in [
        (0, "zero 4,0,9,3,3\n".to_string(), (6, 5)),
        (0, format!("move {h} 2,0,5 5 2,3,3\n"), (6, 5)),
        (0, format!("move {h} 2,0,0 0 2,0,0\n"), (6, 5)),
        (0, format!("free {h}\nzero 2,3,3\n"), (10, 5)),
        (0, format!("bsdiff 9 9 {h} {h} 2,0,0 0 2,0,0\n"), (6, 5)),
        (9, "zero 2,0,1\nnew 2,3,3\n".into(), (6, 6)),
        (0, format!("imgdiff 0 0 {h} {h} 2,0,0 0 2,0,0\n"), (7, 5)),
    ] {
        assert_eq!(refusal(&format!("3\n{total}\n1\n1\n{text}")), want, "{text:?}");
    }
}

#[test]
fn area_lengths() {
    let list = b"3\n0\n0\n0\n";
    let (area, whole) = (32_768 * 4_096, 4_096 * 4_096);
    for on in all() {
        for (image, stash, work, result, want) in [
            (0, 0, 0, 0, 0),
            (1, 0, 0, 0, 1),
            (0, BLOCK - 1, 0, 0, 1),
            (0, 0, BLOCK + 1, 0, 1),
            (0, 0, 0, BLOCK - 1, 1),
            (0, 0, 0, 1, 1),
            (256 * whole, area, area, whole, 0),
            (256 * whole + BLOCK, area, area, whole, 1),
            (0, area, 0, 0, 0),
            (0, 0, area, 0, 0),
            (0, area - BLOCK, area - BLOCK, 0, 0),
            (0, whole + BLOCK, whole + BLOCK, 0, 0),
            (0, area + BLOCK, 0, 0, 1),
            (0, 0, area + BLOCK, 0, 1),
            (0, area + 1, 0, 0, 1),
            (0, 0, area - 1, 0, 1),
            (0, 0, 0, whole + BLOCK, 1),
            (0, 0, 0, whole + 1, 1),
            (usize::MAX, 0, 0, 0, 1),
            (usize::MAX - BLOCK + 1, 0, 0, 0, 1),
            (0, 0, 0, usize::MAX, 1),
            (0, 0, 0, usize::MAX - BLOCK + 1, 1),
        ] {
            // The patch data may have any length.
            for patch in [0, 1, BLOCK, 1 << 33, usize::MAX] {
                let state = on.open(list, Rooms { image, stash, work, result, patch });
                assert_eq!(state.refusal, refusal_of(want, 0));
                assert_eq!((state.lengths.result, state.lengths.patch), if want == 0 { (result, patch) } else { (0, 0) });
            }
        }
        let mut long = vec![b'x'; 4_194_305];
        let nothing = Rooms::default();
        assert_eq!(on.open(&long, nothing).refusal, refusal_of(2, 0));
        assert_eq!(on.open(&long, Rooms { image: 1, ..nothing }).refusal, refusal_of(1, 0));
        assert_eq!(on.open(&long, Rooms { result: 1, ..nothing }).refusal, refusal_of(1, 0));
        long.pop();
        assert_eq!(on.open(&long, nothing).refusal, Refusal { number: 3, line: 1, byte: 0 });
    }
}
