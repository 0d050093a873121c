//! Lines whose target already has the result. They are passed over: of all that is lent only the target is read, and nothing is written.

mod common;

use check::generate::patch::{patch_of, Record};
use check::{hex, Implementation};
use common::*;
use reference::Outcome::{Done, More};
use reference::{digest, Answer, Lengths, Outcome, State, BLOCK};

const UNTOUCHED: [&str; 4] = ["ABCDEFGH", "xyz", "uvw", "rst"];

/// What makes the letter B of the letter A.
fn one_more() -> Vec<u8> {
    patch_of(&[Record { add: vec![1; BLOCK], extra: Vec::new(), seek: 0 }])
}

/// A call from line 5 of a list with this line alone, on each implementation: the outcome, and the areas. The stashes A, of the block x, and B, of
/// y and z, are held, so that no stash has its hash. Opening is left out: it would judge the line first.
fn called(line: &str, patch: &[u8]) -> (Outcome, [String; 4]) {
    let mut got = Vec::new();
    for on in all() {
        let mut lent = Lent::with_patch(&format!("3\n1\n2\n3\n{line}\n"), patch);
        let mut state = State { line: 5, at: 8, count: 2, lengths: Lengths::of(&lent.list, lent.rooms()), ..State::ZERO };
        state.hashes[..20].copy_from_slice(&digest(&blocks("A")));
        state.hashes[20..40].copy_from_slice(&digest(&blocks("B")));
        (state.sizes[0], state.sizes[1]) = (1, 2);
        let answer = lent.call(on, b"piece", state);
        let after = match answer.outcome {
            Outcome::Refused(refusal) => State { refusal, ..state },
            _ => State { line: 6, at: lent.list.len(), ..state },
        };
        assert_eq!((answer.state, answer.taken), (after, 0), "{line}");
        assert!(lent.patch == patch, "{line}");
        got.push((answer.outcome, lent.letters()));
    }
    got.dedup();
    assert_eq!(got.len(), 1, "{line}");
    got.remove(0)
}

fn is_passed_over(line: &str, patch: &[u8]) {
    assert_eq!(called(line, patch), (Done, UNTOUCHED.map(String::from)), "{line}");
}

#[test]
fn a_move_of_each_form() {
    let (a, b) = (name("A"), name("B"));
    // The target in letters, its set and the source, which never has that hash.
    for (target, set, source) in [
        ("B", "2,1,2", "2,5,6".to_string()),
        ("ABC", "2,0,3", "2,4,7".into()),
        ("GBC", "4,6,7,1,3", "2,3,6".into()),
        ("BA", "4,1,2,0,1", "2,0,2".into()),
        ("BB", "4,1,2,1,2", "2,0,2".into()),
        ("BAB", "6,1,2,0,1,1,2", "2,0,3".into()),
        ("C", "2,2,3", format!("- {a}:2,0,1")),
        ("CDE", "2,2,5", format!("- {a}:2,1,2 {b}:4,2,3,0,1")),
        ("CD", "2,2,4", format!("2,7,8 2,1,2 {a}:2,0,1")),
        ("CDE", "2,2,5", format!("2,7,8 2,1,2 {b}:4,2,3,0,1")),
        ("HGF", "6,7,8,6,7,5,6", format!("2,0,1 2,2,3 {a}:2,0,1 {a}:2,1,2")),
    ] {
        is_passed_over(&format!("move {} {set} {} {source}", name(target), target.len()), b"");
    }
    // Onto its own place, its source good.
    is_passed_over(&format!("move {} 2,0,3 3 2,0,3", name("ABC")), b"");
}

#[test]
fn a_bsdiff_of_each_form() {
    let (a, b, good) = (name("A"), name("B"), one_more());
    // The target in letters, its set, N, and the source, which has the hash A in the first of them alone.
    for (target, set, n, source) in [
        ("B", "2,1,2", 1, "2,0,1".to_string()),
        ("B", "2,1,2", 1, "2,5,6".into()),
        ("BC", "2,1,3", 1, "2,5,6".into()),
        ("HGF", "6,7,8,6,7,5,6", 1, "2,5,6".into()),
        ("BB", "4,1,2,1,2", 3, "2,5,8".into()),
        ("B", "2,1,2", 3, format!("- {b}:2,1,3 {a}:2,0,1")),
        ("BC", "2,1,3", 2, format!("2,7,8 2,1,2 {a}:2,0,1")),
    ] {
        let t = name(target);
        is_passed_over(&format!("bsdiff 0 {} {a} {t} {set} {n} {source}", good.len()), &good);
        // Malformed, of no bytes, and at the end of the patch data.
        is_passed_over(&format!("bsdiff 0 {} {a} {t} {set} {n} {source}", good.len() - 1), &good);
        is_passed_over(&format!("bsdiff 7 19 {a} {t} {set} {n} {source}"), &good);
        is_passed_over(&format!("bsdiff 0 0 {a} {t} {set} {n} {source}"), b"");
        is_passed_over(&format!("bsdiff {} 0 {a} {t} {set} {n} {source}", good.len()), &good);
    }
}

#[test]
fn near_misses_of_a_move() {
    // The letters of H, the target's set, N and the source; how it ends.
    for (h, set, n, source, outcome, image, work) in [
        // One block of the target, more blocks, and blocks in another order.
        ("AC", "2,0,2", 2, "2,4,6", refused(16, 5), "ABCDEFGH", "EFw"),
        ("CB", "2,0,2", 2, "2,4,6", refused(16, 5), "ABCDEFGH", "EFw"),
        ("A", "2,0,2", 2, "2,4,6", refused(16, 5), "ABCDEFGH", "EFw"),
        ("B", "2,0,2", 2, "2,4,6", refused(16, 5), "ABCDEFGH", "EFw"),
        ("ABC", "2,0,2", 2, "2,4,6", refused(16, 5), "ABCDEFGH", "EFw"),
        ("AB", "4,1,2,0,1", 2, "2,4,6", refused(16, 5), "ABCDEFGH", "EFw"),
        // A block that is named twice is hashed twice.
        ("B", "4,1,2,1,2", 2, "2,4,6", refused(16, 5), "ABCDEFGH", "EFw"),
        ("BA", "6,1,2,0,1,1,2", 3, "2,4,7", refused(16, 5), "ABCDEFGH", "EFG"),
        // Their sources are good: they run.
        ("AB", "4,1,2,0,1", 2, "2,0,2", Done, "BACDEFGH", "ABw"),
        ("BC", "4,2,3,1,2", 2, "2,1,3", Done, "ACBDEFGH", "BCw"),
        ("EF", "4,1,2,1,2", 2, "2,4,6", Done, "AFCDEFGH", "EFw"),
        ("ABC", "2,1,4", 3, "2,0,3", Done, "AABCEFGH", "ABC"),
    ] {
        let line = format!("move {} {set} {n} {source}", name(h));
        assert_eq!(called(&line, b""), (outcome, [image, "xyz", work, "rst"].map(String::from)), "{line}");
    }
}

#[test]
fn near_misses_of_a_bsdiff() {
    let good = one_more();
    let whole = good.len();
    // The letters of H and of T, the target's set, N, the source and the patch's bytes; how it ends.
    for (h, t, set, n, source, bytes, outcome, image, work, result) in [
        // The target has H and not T, be the source good or not.
        ("A", "B", "2,0,1", 1, "2,0,1", whole, Done, "BBCDEFGH", "Avw", "Bst"),
        ("A", "B", "2,0,1", 1, "2,0,1", 0, refused(19, 5), "ABCDEFGH", "Avw", "rst"),
        ("B", "C", "2,1,2", 1, "2,0,1", whole, refused(16, 5), "ABCDEFGH", "Avw", "rst"),
        // T of N blocks, of which the target has fewer or more.
        ("AB", "BC", "2,1,2", 2, "2,0,2", 0, refused(19, 5), "ABCDEFGH", "ABw", "rst"),
        ("A", "B", "2,1,3", 1, "2,0,1", 0, refused(19, 5), "ABCDEFGH", "Avw", "rst"),
        // Blocks in another order, and one that is named twice.
        ("A", "BC", "4,2,3,1,2", 1, "2,0,1", 0, refused(19, 5), "ABCDEFGH", "Avw", "rst"),
        ("A", "B", "4,1,2,1,2", 1, "2,0,1", 0, refused(19, 5), "ABCDEFGH", "Avw", "rst"),
        // The result area has T, and the target has not.
        ("A", "r", "2,1,2", 1, "2,0,1", whole, refused(16, 5), "ABCDEFGH", "Avw", "Bst"),
    ] {
        let line = format!("bsdiff 0 {bytes} {} {} {set} {n} {source}", name(h), name(t));
        assert_eq!(called(&line, &good), (outcome, [image, "xyz", work, result].map(String::from)), "{line}");
    }
}

#[test]
fn each_byte_of_the_target_counts() {
    let list = format!("3\n2\n0\n0\nmove {} 2,3,5 2 2,0,2\n", name("AB"));
    for at in [0, 1, 63, 64, BLOCK - 1, BLOCK, BLOCK + 1, 2 * BLOCK - 1] {
        for on in all() {
            let mut lent = Lent::new(&list);
            lent.image = blocks("ABCABFGH");
            assert_eq!((said(&lent.all(on, b"")), letters(&lent.work).as_str()), ((Done, 0), "uvw"));
            // With another byte the line runs, and mends it.
            lent.image[3 * BLOCK + at] ^= 0x20;
            assert_eq!((said(&lent.all(on, b"")), letters(&lent.work).as_str()), ((Done, 0), "ABw"), "{at}");
            assert_eq!(letters(&lent.image), "ABCABFGH");
        }
    }
}

#[test]
fn a_finished_line_is_checked_as_any_other() {
    let (a, b, t) = (name("A"), name("B"), name("ABCD"));
    // Each target has the line's hash, where it lies in the image.
    for (line, number) in [
        (format!("move {a} 2,0,1 1 2,8,9"), 8),
        (format!("move {} 2,7,9 2 2,0,2", name("H")), 8),
        (format!("bsdiff 0 0 {a} {b} 2,1,2 1 2,8,9"), 8),
        (format!("move {t} 2,0,4 4 2,0,4"), 9),
        (format!("move {a} 2,0,1 1 2,0,4"), 9),
        (format!("bsdiff 0 0 {a} {b} 2,1,2 4 2,0,4"), 9),
        (format!("bsdiff 0 0 {a} {t} 2,0,4 1 2,0,1"), 9),
        (format!("move {a} 2,0,1 1 - {}:2,0,1", name("C")), 10),
        (format!("bsdiff 0 0 {a} {b} 2,1,2 1 - {}:2,0,1", name("C")), 10),
        (format!("move {} 2,0,2 1 2,0,1", name("AB")), 11),
        (format!("move {a} 2,0,1 1 2,0,2"), 11),
        (format!("move {a} 2,0,1 1 - {b}:2,0,1"), 11),
        (format!("bsdiff 0 0 {a} {b} 2,1,2 1 - {b}:2,0,1"), 11),
        (format!("move {a} 2,0,1 1 - {a}:2,1,2"), 12),
        (format!("move {} 2,0,2 2 - {a}:2,0,1 {a}:2,0,1", name("AB")), 12),
        (format!("bsdiff 0 0 {a} {b} 2,1,2 1 - {a}:2,1,2"), 12),
        (format!("bsdiff 0 1 {a} {b} 2,1,2 1 2,0,1"), 18),
        (format!("bsdiff 4294967295 4294967295 {a} {b} 2,1,2 1 2,0,1"), 18),
    ] {
        assert_eq!(called(&line, b""), (refused(number, 5), UNTOUCHED.map(String::from)), "{line}");
    }
    // An opening looks at no block, and line 2 counts the line.
    for (total, want) in [(0, 15), (1, 0), (2, 15)] {
        for on in all() {
            assert_eq!(Lent::new(&format!("3\n{total}\n0\n0\nmove {a} 2,0,1 1 2,7,8\n")).open(on).refusal.number, want);
        }
    }
}

/// The list once more from its top, over areas that are filled anew: what it answers.
fn again(lent: &mut Lent, on: &dyn Implementation) -> Answer {
    fill(lent);
    lent.run(on, b"piece", &[])
}

/// Fills all areas but the image, so that a byte written to one of them shows.
fn fill(lent: &mut Lent) {
    for (area, k) in [(&mut lent.stash, 3), (&mut lent.work, 5), (&mut lent.result, 7)] {
        area.iter_mut().enumerate().for_each(|(at, byte)| *byte = (at * k + at / 251) as u8);
    }
}

/// The list once more, every line passed over: not a byte is another, however it is called.
fn passes_over_all(lent: &mut Lent, on: &dyn Implementation) {
    let bytes = |lent: &Lent| [&lent.image, &lent.stash, &lent.work, &lent.result].map(Vec::clone);
    let lines = lent.list.iter().filter(|byte| **byte == b'\n').count();
    fill(lent);
    let before = bytes(lent);
    for cuts in [vec![], vec![0, 1, 2]] {
        let answer = lent.run(on, b"piece", &cuts);
        assert_eq!((said(&answer), answer.state.at, answer.state.line), ((Done, 0), lent.list.len(), lines + 1));
        assert!(bytes(lent) == before, "{}", String::from_utf8_lossy(&lent.list));
    }
}

/// Moves whose targets share no block; the sources of the first are targets of later ones.
fn moves() -> (Vec<String>, [&'static str; 5]) {
    let lines = [
        format!("move {} 2,4,6 2 2,0,2\n", name("AB")),
        format!("move {} 4,1,2,0,1 2 2,2,4\n", name("CD")),
        format!("move {} 2,2,4 2 4,7,8,4,5\n", name("HA")),
        format!("move {} 4,7,8,6,7 2 4,3,4,0,1\n", name("AD")),
    ];
    // The image before the first line, and after each.
    (lines.to_vec(), ["ABCDEFGH", "ABCDABGH", "DCCDABGH", "DCHAABGH", "DCHAABDA"])
}

#[test]
fn moves_whose_targets_share_no_block_run_twice() {
    let (lines, images) = moves();
    for on in all() {
        let mut lent = Lent::new(&format!("3\n8\n0\n0\n{}", lines.concat()));
        assert_eq!(said(&lent.all(on, b"")), (Done, 0));
        assert_eq!(lent.letters(), [images[4], "xyz", "ADw", "rst"]);
        passes_over_all(&mut lent, on);
    }
}

#[test]
fn such_moves_begun_again_after_any_of_them() {
    let (lines, images) = moves();
    for on in all() {
        for (done, image) in images.iter().enumerate() {
            let mut lent = Lent::new(&format!("3\n{}\n0\n0\n{}", 2 * done, lines[..done].concat()));
            assert_eq!((said(&lent.all(on, b"")), letters(&lent.image).as_str()), ((Done, 0), *image));
            lent.list = format!("3\n8\n0\n0\n{}", lines.concat()).into_bytes();
            assert_eq!(said(&again(&mut lent, on)), (Done, 0));
            assert_eq!(letters(&lent.image), images[4], "{done}");
        }
    }
}

#[test]
fn a_move_over_its_own_source_runs_twice() {
    // Upwards, downwards, and by one block of three that are not alike.
    for (h, set, n, source, image) in
        [("ABC", "2,1,4", 3, "2,0,3", "AABCEFGH"), ("BCD", "2,0,3", 3, "2,1,4", "BCDDEFGH"), ("CAB", "2,0,3", 3, "4,2,3,0,2", "CABDEFGH")]
    {
        for on in all() {
            let mut lent = Lent::new(&format!("3\n3\n0\n0\nmove {} {set} {n} {source}\n", name(h)));
            assert_eq!((said(&lent.all(on, b"")), lent.letters()), ((Done, 0), [image, "xyz", h, "rst"].map(String::from)));
            passes_over_all(&mut lent, on);
        }
    }
}

#[test]
fn a_patch_over_its_own_source_runs_twice() {
    let patch = one_more();
    let line = |h: &str, t: &str, set: &str| format!("bsdiff 0 {} {} {} {set} 1 2,0,1\n", patch.len(), name(h), name(t));
    for on in all() {
        let mut lent = Lent::with_patch(&format!("3\n1\n0\n0\n{}", line("A", "B", "2,0,1")), &patch);
        assert_eq!(said(&lent.all(on, b"")), (Done, 0));
        assert_eq!(lent.letters(), ["BBCDEFGH", "xyz", "Avw", "Bst"]);
        passes_over_all(&mut lent, on);
        // Other bytes in the patch's place are not looked at.
        lent.patch.fill(0);
        passes_over_all(&mut lent, on);
        // From the first one's target, which no later line changes.
        let mut lent = Lent::with_patch(&format!("3\n2\n0\n0\n{}{}", line("A", "B", "2,0,1"), line("B", "C", "2,7,8")), &patch);
        assert_eq!((said(&lent.all(on, b"")), letters(&lent.image).as_str()), ((Done, 0), "BBCDEFGC"));
        passes_over_all(&mut lent, on);
    }
}

#[test]
fn to_run_again_is_not_safe_in_general() {
    let (patch, whole) = (one_more(), BLOCK + 26);
    let [a, b, c, d] = ["A", "B", "C", "D"].map(name);
    // The lines; how the second run ends, and the image after the first, which stays.
    for (total, lines, outcome, image) in [
        // A later line wrote over the first one's target and over its source.
        (3, format!("move {a} 2,1,2 1 2,0,1\nmove {c} 2,0,1 1 2,2,3\nmove {d} 2,1,2 1 2,3,4\n"), refused(16, 5), "CDCDEFGH"),
        (3, format!("move {a} 2,7,8 1 2,0,1\nzero 4,7,8,0,1\n"), refused(16, 5), "0BCDEFG0"),
        // A stash is always read.
        (1, format!("stash {a} 2,0,1\nmove {b} 2,0,1 1 2,1,2\nfree {a}\n"), refused(16, 5), "BBCDEFGH"),
        // Patched twice in one place: the first patch has another source by then.
        (2, format!("bsdiff 0 {whole} {a} {b} 2,0,1 1 2,0,1\nbsdiff 0 {whole} {b} {c} 2,0,1 1 2,0,1\n"), refused(16, 5), "CBCDEFGH"),
    ] {
        for on in all() {
            let mut lent = Lent::with_patch(&format!("3\n{total}\n1\n1\n{lines}"), &patch);
            assert_eq!((said(&lent.all(on, b"")), letters(&lent.image).as_str()), ((Done, 0), image), "{lines}");
            assert_eq!(said(&again(&mut lent, on)), (outcome, 0), "{lines}");
            assert_eq!(letters(&lent.image), image, "{lines}");
        }
    }
}

#[test]
fn other_commands_are_never_passed_over() {
    let (a, b) = (name("A"), name("B"));
    for on in all() {
        // New data is taken again.
        let mut lent = Lent::new("3\n1\n0\n0\nnew 2,3,4\n");
        for _ in 0..2 {
            assert_eq!(said(&lent.run(on, &blocks("p"), &[9])), (Done, BLOCK));
        }
        // A stash goes through the work area, also where the stash area has it.
        let mut lent = Lent::new(&format!("3\n0\n2\n2\nstash {a} 2,0,1\nstash {b} 2,1,2\nfree {a}\n"));
        for work in ["Bvw", "Bpw"] {
            let answer = lent.all(on, b"");
            assert_eq!((said(&answer), answer.state.count), ((Done, 0), 1));
            assert_eq!(lent.letters(), ["ABCDEFGH", "BBz", work, "rst"]);
            lent.work = blocks("opw");
        }
    }
}

#[test]
fn lines_around_a_finished_one() {
    let (a, cd) = (name("A"), name("CD"));
    // The first line fills the work area, the second is finished.
    let lines = format!("move {cd} 2,6,8 2 2,2,4\nmove {a} 2,0,1 1 2,1,2\n");
    for (total, last, outcome, areas) in [
        (4, format!("move {a} 2,1,2 1 2,4,5\n"), refused(16, 7), ["ABCDEFCD", "xyz", "EDw", "rst"]),
        (4, format!("bsdiff 0 0 {a} {a} 2,1,2 1 2,0,1\n"), refused(19, 7), ["ABCDEFCD", "xyz", "ADw", "rst"]),
        (3, format!("stash {a} 2,4,5\n"), refused(16, 7), ["ABCDEFCD", "xyz", "EDw", "rst"]),
        (4, "new 2,1,2\n".into(), More, ["ABCDEFCD", "xyz", "CDw", "rst"]),
        (4, "zero 2,1,2\n".into(), Done, ["A0CDEFCD", "xyz", "CDw", "rst"]),
        (4, format!("move {a} 2,1,2 1 2,0,1\n"), Done, ["AACDEFCD", "xyz", "ADw", "rst"]),
    ] {
        let (got, answer) = after(&format!("3\n{total}\n1\n1\n{lines}{last}"), b"", b"");
        assert_eq!((said(&answer), got), ((outcome, 0), areas.map(String::from)), "{last}");
    }
    // What a line before it leaves decides.
    let zeros = name("0");
    assert_eq!(said(&after(&format!("3\n2\n0\n0\nzero 2,1,2\nmove {zeros} 2,1,2 1 2,5,6\n"), b"", b"").1), (Done, 0));
    assert_eq!(said(&after(&format!("3\n2\n0\n0\nzero 2,1,2\nmove {} 2,1,2 1 2,5,6\n", name("B")), b"", b"").1), (refused(16, 6), 0));
}

#[test]
fn finished_by_new_data() {
    let data = [blocks("p"), (0..BLOCK).map(|k| (k * 7 + k / 256) as u8).collect()].concat();
    let made = hex(&digest(&data[BLOCK..]));
    let list = format!("3\n4\n0\n0\nnew 2,0,1\nmove {} 2,0,1 1 2,7,8\nnew 2,3,4\nmove {made} 2,3,4 1 2,7,8\n", name("p"));
    for on in all() {
        for cuts in [vec![], vec![0], vec![4_095, 1, 0, 1], vec![4_096, 4_096], vec![1, 8_190], vec![8_192, 7]] {
            let mut lent = Lent::new(&list);
            assert_eq!(said(&lent.run(on, &data, &cuts)), (Done, 2 * BLOCK));
            assert_eq!((letters(&lent.work).as_str(), letters(&lent.image).as_str()), ("uvw", "pBC?EFGH"));
        }
        // The line is passed over in the call that has the last byte.
        let mut lent = Lent::new(&list);
        let state = lent.open(on);
        let first = lent.call(on, &data[..BLOCK - 1], state);
        assert_eq!((said(&first), first.state.line), ((More, BLOCK - 1), 5));
        let second = lent.call(on, b"p", first.state);
        assert_eq!((said(&second), second.state.line, second.state.into), ((More, 1), 7, 0));
        assert_eq!(lent.letters(), ["pBCDEFGH", "xyz", "uvw", "rst"]);
        // Another last byte: the line runs, and its source has not its hash.
        let mut lent = Lent::new(&list);
        let first = lent.call(on, &data[..BLOCK - 1], state);
        assert_eq!(said(&lent.call(on, b"q", first.state)), (refused(16, 6), 1));
        assert_eq!(lent.letters(), ["?BCDEFGH", "xyz", "Hvw", "rst"]);
    }
}

#[test]
fn a_refusal_stays_though_its_line_is_finished_by_then() {
    let list = format!("3\n1\n0\n0\nmove {} 2,1,2 1 2,0,1\n", name("Z"));
    for on in all() {
        let mut lent = Lent::new(&list);
        let first = lent.all(on, b"");
        assert_eq!(said(&first), (refused(16, 5), 0));
        lent.image[BLOCK..2 * BLOCK].fill(b'Z');
        let second = lent.call(on, b"", first.state);
        assert_eq!((said(&second), second.state), ((refused(16, 5), 0), first.state));
        // Opened anew, the list is finished.
        assert_eq!(said(&lent.all(on, b"")), (Done, 0));
    }
}
