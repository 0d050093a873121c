//! Patches: `bsdiff` lines, their refusals, and what a run of them leaves.

mod common;

use check::generate::patch::{bits, patch_of, Record};
use check::hex;
use common::*;
use reference::Outcome::{Done, More};
use reference::{digest, Lengths, Outcome, Refusal, Rooms, State, BLOCK};

const FARTHEST: i64 = 2_147_483_647;
const MINUS: u64 = 1 << 63;

fn record(add: &[u8], extra: &[u8], seek: i64) -> Record {
    Record { add: add.to_vec(), extra: extra.to_vec(), seek }
}

/// A record with any mark and any bits in its numbers.
fn raw(mark: &[u8], numbers: [u64; 3], body: &[u8]) -> Vec<u8> {
    [mark, &numbers.map(u64::to_le_bytes).concat(), body].concat()
}

/// A list with one `bsdiff` over all the patch data: source and target by letters, and their sets.
fn one_line(patch: &[u8], source: &str, from: &str, target: &str, to: &str) -> String {
    let line = format!("bsdiff 0 {} {} {} {to} {} {from}\n", patch.len(), name(source), name(target), source.len());
    format!("3\n{}\n0\n0\n{line}", size(to))
}

/// The blocks of a set.
fn size(set: &str) -> usize {
    let numbers: Vec<usize> = set.split(',').skip(1).map(|n| n.parse().expect("a number")).collect();
    numbers.chunks(2).map(|pair| pair[1] - pair[0]).sum()
}

/// How a list ends without new data, and the areas then.
fn ends(list: &str, patch: &[u8]) -> (Outcome, [String; 4]) {
    let (areas, answer) = after(list, patch, b"");
    (answer.outcome, areas)
}

/// What an opening is refused with, the same on all.
fn opened(list: &str, patch: &[u8]) -> (usize, usize) {
    let mut got: Vec<Refusal> = all().map(|on| Lent::with_patch(list, patch).open(on).refusal).to_vec();
    got.dedup();
    assert_eq!(got.len(), 1, "{list}");
    (got[0].number, got[0].line)
}

/// Of a block: what makes the letter B of the letter A.
const ONE_MORE: [u8; BLOCK] = [1; BLOCK];

#[test]
fn pairs_that_bsdiff_wrote() {
    let folder = concat!(env!("CARGO_MANIFEST_DIR"), "/../../tests/cases/bsdiff");
    let read = |name: String| std::fs::read(format!("{folder}/{name}")).unwrap_or_else(|error| panic!("{name}: {error}"));
    let manifest = String::from_utf8(read("manifest.json".into())).expect("text");
    let names: Vec<&str> = manifest.split("\"name\": \"").skip(1).filter_map(|after| after.split('"').next()).collect();
    assert_eq!(names, ["edit", "grow", "shift"]);
    for name in names {
        let [old, new, patch] = ["old", "new", "patch"].map(|kind| read(format!("{name}.{kind}")));
        assert!(old.len() % BLOCK == 0 && new.len() % BLOCK == 0);
        let (n, r) = (old.len() / BLOCK, new.len() / BLOCK);
        let (h, t) = (hex(&digest(&old)), hex(&digest(&new)));
        let [last, but_last] = [&old[(n - 1) * BLOCK..], &old[..(n - 1) * BLOCK]].map(|part| hex(&digest(part)));
        let line = format!("bsdiff 3 {} {h} {t} 2,1,{} {n}", patch.len(), r + 1);
        // The old file in the image from block 0 on, as one stash, and its last block from a stash.
        let lists = [
            format!("3\n{r}\n0\n0\n{line} 2,0,{n}\n"),
            format!("3\n{r}\n1\n{n}\nstash {h} 2,0,{n}\nerase 2,0,{n}\n{line} - {h}:2,0,{n}\n"),
            format!("3\n{r}\n1\n1\nstash {last} 2,{},{n}\nerase 2,{},{n}\n{line} 2,0,{} 2,0,{} {last}:2,{},{n}\n", n - 1, n - 1, n - 1, n - 1, n - 1),
            format!(
                "3\n{r}\n2\n{n}\nstash {but_last} 2,0,{}\nstash {last} 2,{},{n}\nerase 2,0,{n}\n{line} - {last}:2,{},{n} {but_last}:2,0,{}\n",
                n - 1,
                n - 1,
                n - 1,
                n - 1
            ),
        ];
        for list in lists {
            for on in all() {
                let mut lent = Lent::with_patch(&list, &[b"pre", &patch[..], b"post"].concat());
                lent.image = old.clone();
                lent.image.resize((n.max(r) + 2) * BLOCK, b'-');
                (lent.stash, lent.work, lent.result) = (vec![b's'; n * BLOCK], vec![b'w'; (n + 1) * BLOCK], vec![b'r'; (r + 1) * BLOCK]);
                assert_eq!(said(&lent.all(on, b"")), (Done, 0), "{name}");
                assert!(lent.image[BLOCK..(r + 1) * BLOCK] == new, "{name}");
                assert!(lent.work[..n * BLOCK] == old && lent.work[n * BLOCK..] == [b'w'; BLOCK], "{name}");
                assert!(lent.result[..r * BLOCK] == new && lent.result[r * BLOCK..] == [b'r'; BLOCK], "{name}");
            }
        }
        // Each of its bytes altered, in steps: another result, or no patch.
        for at in (0..patch.len()).step_by(97) {
            let mut other = patch.clone();
            other[at] ^= 0x81;
            let list = format!("3\n{r}\n0\n0\nbsdiff 0 {} {h} {t} 2,1,{} {n} 2,0,{n}\n", patch.len(), r + 1);
            let mut got = Vec::new();
            for on in all() {
                let mut lent = Lent::with_patch(&list, &other);
                lent.image = old.clone();
                lent.image.resize((n.max(r) + 2) * BLOCK, b'-');
                (lent.work, lent.result) = (vec![b'w'; n * BLOCK], vec![b'r'; r * BLOCK]);
                let answer = lent.all(on, b"");
                assert!(matches!(answer.outcome.number(), 0 | 16 | 19), "{name} {at}");
                got.push((answer, lent.image, lent.work, lent.result));
            }
            got.dedup();
            assert_eq!(got.len(), 1, "{name} {at}");
        }
    }
}

#[test]
fn each_refusal_of_a_run() {
    let good = patch_of(&[record(&ONE_MORE, b"", 0)]);
    let line = |hash: &str, result: &str, bytes: usize| {
        format!("3\n2\n0\n0\nzero 2,7,8\nbsdiff 0 {bytes} {} {} 2,3,4 1 2,0,1\nerase 2,6,7\n", name(hash), name(result))
    };
    let whole = good.len();
    for (list, outcome, areas) in [
        (line("A", "B", whole), Done, ["ABCBEF00", "xyz", "Avw", "Bst"]),
        // The source: only the work area is written.
        (line("C", "B", whole), refused(16, 6), ["ABCDEFG0", "xyz", "Avw", "rst"]),
        // The source's hash comes before the patch.
        (line("C", "B", whole - 1), refused(16, 6), ["ABCDEFG0", "xyz", "Avw", "rst"]),
        // The patch: the work area has the source.
        (line("A", "B", whole - 1), refused(19, 6), ["ABCDEFG0", "xyz", "Avw", "rst"]),
        (line("A", "C", whole - 1), refused(19, 6), ["ABCDEFG0", "xyz", "Avw", "rst"]),
        // The result: the result area has it.
        (line("A", "C", whole), refused(16, 6), ["ABCDEFG0", "xyz", "Avw", "Bst"]),
    ] {
        assert_eq!(ends(&list, &good), (outcome, areas.map(String::from)), "{list}");
    }
    // 18 is the opening's; in a run it is looked at again, and changes nothing itself.
    let list = line("A", "B", whole + 1);
    assert_eq!(opened(&list, &good), (18, 6));
    for on in all() {
        let mut lent = Lent::with_patch(&line("A", "B", whole), &good);
        let state = lent.open(on);
        lent.list = list.clone().into_bytes();
        let answer = lent.call(on, b"piece", state);
        assert_eq!(said(&answer), (refused(18, 6), 0));
        assert_eq!(lent.letters(), ["ABCDEFG0", "xyz", "uvw", "rst"]);
        // It is held, as 19 is.
        assert_eq!(answer.state.refusal, refusal_of(18, 6));
        assert_eq!(said(&lent.call(on, b"", answer.state)), (refused(18, 6), 0));
        lent.list = line("A", "B", whole - 1).into_bytes();
        let state = State { lengths: Lengths::of(&lent.list, lent.rooms()), ..state };
        let answer = lent.call(on, b"", state);
        assert_eq!((said(&answer), answer.state.refusal), ((refused(19, 6), 0), refusal_of(19, 6)));
        lent.patch[0] = b'c';
        let again = lent.call(on, b"", answer.state);
        assert_eq!((said(&again), again.state), ((refused(19, 6), 0), answer.state));
    }
}

#[test]
fn malformed_patches() {
    let n = BLOCK as u64;
    let body = [1u8; BLOCK];
    let good = raw(b"CP", [n, 0, 0], &body);
    let two = |first: Vec<u8>, second: Vec<u8>| [first, second].concat();
    let whole = |seek: u64| raw(b"CP", [n, 0, seek], &body);
    let empty = |seek: u64| raw(b"CP", [0, 0, seek], b"");
    let cases: Vec<(&str, Vec<u8>, bool)> = vec![
        ("a good one", good.clone(), true),
        ("extra bytes", raw(b"CP", [0, n, 0], &[b'B'; BLOCK]), true),
        ("records of nothing before and after it", [empty(0), good.clone(), empty(0)].concat(), true),
        ("no mark", raw(b"", [n, 0, 0], &body), false),
        ("another mark's first byte", raw(b"DP", [n, 0, 0], &body), false),
        ("another mark's second byte", raw(b"CQ", [n, 0, 0], &body), false),
        ("the mark turned round", raw(b"PC", [n, 0, 0], &body), false),
        ("the second record's mark", two(good.clone(), raw(b"CO", [0, 0, 0], b"")), false),
        ("a byte left over", two(good.clone(), b"C".to_vec()), false),
        ("a mark left over", two(good.clone(), b"CP".to_vec()), false),
        ("25 bytes left over", two(good.clone(), empty(0)[..25].to_vec()), false),
        ("minus zero to add", raw(b"CP", [MINUS, n, 0], &body), false),
        ("minus zero of extra", raw(b"CP", [n, MINUS, 0], &body), false),
        ("minus zero to seek", whole(MINUS), false),
        ("minus zero in the last record", two(good.clone(), empty(MINUS)), false),
        ("minus one to add", two(raw(b"CP", [bits(-1), 0, 0], b""), good.clone()), false),
        ("minus one of extra", two(raw(b"CP", [0, bits(-1), 0], b""), good.clone()), false),
        ("a block to add, negative", raw(b"CP", [bits(-4_096), 0, 0], &body), false),
        ("extra negative, so that the sum fits", raw(b"CP", [n + 1, bits(-1), 0], &[1; BLOCK + 1]), false),
        ("add bytes past the end", raw(b"CP", [n + 1, 0, 0], &body), false),
        ("extra bytes past the end", raw(b"CP", [n, 1, 0], &body), false),
        ("the largest add length", raw(b"CP", [MINUS - 1, 0, 0], &body), false),
        ("the largest extra length", raw(b"CP", [n, MINUS - 1, 0], &body), false),
        ("lengths whose sum wraps", raw(b"CP", [MINUS - 1, MINUS - 1, 0], &body), false),
        ("lengths whose sum with the head wraps", raw(b"CP", [MINUS - 26, MINUS - 26, 0], &body), false),
        ("an add length that is good modulo 2^32", raw(b"CP", [n + (1 << 32), 0, 0], &body), false),
        ("no add bytes: the result too short", empty(0), false),
        ("a byte too few", raw(b"CP", [n - 1, 0, 0], &body[1..]), false),
        ("a byte too many", raw(b"CP", [n + 1, 0, 0], &[1; BLOCK + 1]), false),
        ("an extra byte too many", raw(b"CP", [n, 1, 0], &[1; BLOCK + 1]), false),
        ("a block too many", two(good.clone(), raw(b"CP", [0, n, 0], &body)), false),
        // The last seek is looked at too; the position after the add is 4,096.
        ("the highest position after it", whole(bits(FARTHEST - 4_096)), true),
        ("one past it", whole(bits(FARTHEST - 4_095)), false),
        ("the lowest position after it", whole(bits(-FARTHEST - 4_096)), true),
        ("one below it", whole(bits(-FARTHEST - 4_097)), false),
        ("the largest seek", whole(MINUS - 1), false),
        ("the smallest seek", whole(u64::MAX), false),
        ("a seek that is good modulo 2^32", whole(1 << 32), false),
        ("the highest position before a record of nothing", two(whole(bits(FARTHEST - 4_096)), empty(0)), true),
        ("one past the lowest in a record of nothing", two(whole(bits(-FARTHEST - 4_096)), empty(bits(-1))), false),
        ("there and back", [whole(bits(FARTHEST - 4_096)), empty(bits(-2 * FARTHEST)), empty(bits(2 * FARTHEST))].concat(), true),
        ("past it and back", [whole(bits(FARTHEST - 4_095)), empty(bits(-FARTHEST - 1))].concat(), false),
        (
            "extra bytes at the highest position, which do not move it",
            two(raw(b"CP", [0, 4_000, bits(FARTHEST)], &[b'B'; 4_000]), raw(b"CP", [0, 96, 0], &[b'B'; 96])),
            true,
        ),
        (
            "a byte to add at the highest position",
            two(raw(b"CP", [0, 4_095, bits(FARTHEST)], &[b'B'; 4_095]), raw(b"CP", [1, 0, bits(-1)], b"B")),
            false,
        ),
        (
            "a byte to add up to the highest position",
            two(raw(b"CP", [0, 4_095, bits(FARTHEST - 1)], &[b'B'; 4_095]), raw(b"CP", [1, 0, 0], b"B")),
            true,
        ),
    ];
    for (what, patch, is_good) in cases {
        let (outcome, areas) = ends(&one_line(&patch, "A", "2,0,1", "B", "2,3,4"), &patch);
        let expected = match is_good {
            true => (Done, ["ABCBEFGH", "xyz", "Avw", "Bst"]),
            false => (refused(19, 5), ["ABCDEFGH", "xyz", "Avw", "rst"]),
        };
        assert_eq!((outcome, areas), (expected.0, expected.1.map(String::from)), "{what}");
        // Bytes around it do not matter, nor do they make it good.
        let among = [b"CP", &patch[..], b"CP"].concat();
        let list = one_line(&patch, "A", "2,0,1", "B", "2,3,4").replace("bsdiff 0", "bsdiff 2");
        assert_eq!(ends(&list, &among).0, expected.0, "{what}, among others");
    }
}

#[test]
fn every_beginning_of_a_patch() {
    // Add bytes and extra bytes in both records, so that an end falls within every field and between any two of them.
    let patch = patch_of(&[record(&[1; 40], &[b'B'; 30], 30), record(&[1; 20], &[b'B'; BLOCK - 90], -7)]);
    for length in 0..=patch.len() {
        let want = if length == patch.len() { Done } else { refused(19, 5) };
        // The data ends there, and goes on.
        for (data, on_whole) in [(&patch[..length], false), (&patch[..], true)] {
            if on_whole && length > 200 && length < patch.len() - 3 {
                continue;
            }
            let (outcome, areas) = ends(&one_line(&patch[..length], "A", "2,0,1", "B", "2,3,4"), data);
            assert_eq!(outcome, want, "{length}");
            let after = if want == Done { ["ABCBEFGH", "xyz", "Avw", "Bst"] } else { ["ABCDEFGH", "xyz", "Avw", "rst"] };
            assert_eq!(areas, after, "{length}");
        }
    }
}

#[test]
fn patches_of_no_bytes() {
    // There is no target without blocks, of whatever source.
    for (n, from) in [(0, "2,5,5"), (2, "2,0,2")] {
        let list = format!("3\n0\n0\n0\nbsdiff 0 0 {} {} 2,4,4 {n} {from}\n", name("AB"), name(""));
        assert_eq!(opened(&list, b""), (6, 5));
    }
    // At the very end of the data, and one past it.
    for (from, want) in [(0, (0, 0)), (7, (0, 0)), (8, (18, 5))] {
        let list = format!("3\n1\n0\n0\nbsdiff {from} 0 {} {} 2,4,5 1 2,0,1\n", name("A"), name("A"));
        assert_eq!(opened(&list, b"CPCPCPC"), want);
    }
    // Nothing makes a block, nor do records of nothing.
    let areas = ["ABCDEFGH", "xyz", "Avw", "rst"].map(String::from);
    for patch in [Vec::new(), patch_of(&[record(b"", b"", 5), record(b"", b"", -9)])] {
        assert_eq!(ends(&one_line(&patch, "A", "2,0,1", "A", "2,4,5"), &patch), (refused(19, 5), areas.clone()));
    }
}

#[test]
fn where_bytes_are_added_from() {
    // Each record's stretch, in blocks and bytes of them, makes letters: A of 1, and 0 of the source's outside.
    let block = BLOCK as i64;
    let added = |k: u8| [k; BLOCK];
    for (what, records, source, from, target, to) in [
        ("in order", vec![record(&added(1), b"", 0), record(&added(1), b"", 0)], "AB", "2,0,2", "BC", "2,4,6"),
        ("backwards", vec![record(b"", b"", block), record(&added(1), b"", -2 * block), record(&added(1), b"", 0)], "AB", "2,0,2", "CB", "2,4,6"),
        ("the same again", vec![record(&added(1), b"", -block), record(&added(2), b"", -block)], "AB", "2,0,2", "BC", "2,4,6"),
        // The work area goes on with v, which is no source.
        ("past the source", vec![record(b"", b"", block), record(&added(b'q'), b"", 0)], "A", "2,0,1", "q", "2,4,5"),
        ("before the source", vec![record(b"", b"", -block), record(&added(b'q'), b"", 0)], "A", "2,0,1", "q", "2,4,5"),
        ("far past it", vec![record(b"", b"", FARTHEST - block), record(&added(b'q'), b"", 0)], "A", "2,0,1", "q", "2,4,5"),
        ("far before it", vec![record(b"", b"", -FARTHEST), record(&added(b'q'), b"", 0)], "A", "2,0,1", "q", "2,4,5"),
        // Over its start and over its end.
        ("over the start", vec![record(b"", b"", -block), record(&[added(b'q'), added(1)].concat(), b"", 0)], "A", "2,0,1", "qB", "2,4,6"),
        ("over the end", vec![record(&[added(1), added(b'q')].concat(), b"", 0)], "A", "2,0,1", "Bq", "2,4,6"),
        ("modulo 256", vec![record(&added(255), b"", 0)], "B", "2,1,2", "A", "2,4,5"),
        ("extra bytes do not move it", vec![record(&added(1), &added(b'q'), 0), record(&added(1), b"", 0)], "AB", "2,0,2", "BqC", "2,4,7"),
        // More target than source, and less.
        ("a target of two", vec![record(&added(1), &added(b'q'), 0)], "A", "2,0,1", "Bq", "2,4,6"),
        ("a target of one", vec![record(&added(1), b"", 0)], "ABC", "2,0,3", "B", "2,4,5"),
    ] {
        let patch = patch_of(&records);
        let (outcome, areas) = ends(&one_line(&patch, source, from, target, to), &patch);
        let image = format!("ABCD{target}{}", &"EFGH"[target.len()..]);
        let work = format!("{source}{}", &"uvw"[source.len()..]);
        let result = format!("{target}{}", &"rst"[target.len()..]);
        assert_eq!((outcome, areas), (Done, [image, "xyz".into(), work, result]), "{what}");
    }
}

#[test]
fn targets_and_sources() {
    let patch = patch_of(&[record(&ONE_MORE, b"", 0), record(&ONE_MORE, b"", 0)]);
    let bytes = patch.len();
    let [a, ab, bc, cd] = ["A", "AB", "BC", "CD"].map(name);
    for (what, total, lines, areas) in [
        ("a target over its source", 2, format!("bsdiff 0 {bytes} {bc} {cd} 2,0,2 2 2,1,3\n"), ["CDCDEFGH", "xyz", "BCw", "CDt"]),
        ("a block twice", 2, format!("bsdiff 0 {bytes} {ab} {bc} 4,6,7,6,7 2 2,0,2\n"), ["ABCDEFCH", "xyz", "ABw", "BCt"]),
        ("a source backwards", 2, format!("bsdiff 0 {bytes} {} {} 2,4,6 2 4,1,2,0,1\n", name("BA"), name("CB")), ["ABCDCBGH", "xyz", "BAw", "CBt"]),
        // One after the other, the second from what the first wrote.
        (
            "two lines",
            4,
            format!("bsdiff 0 {bytes} {ab} {bc} 2,4,6 2 2,0,2\nbsdiff 0 {bytes} {bc} {cd} 2,6,8 2 2,4,6\n"),
            ["ABCDBCCD", "xyz", "BCw", "CDt"],
        ),
        (
            "a stash",
            2,
            format!("stash {ab} 2,0,2\nerase 2,0,2\nbsdiff 0 {bytes} {ab} {bc} 2,0,2 2 - {ab}:2,0,2\nfree {ab}\n"),
            ["BCCDEFGH", "ABz", "ABw", "BCt"],
        ),
        (
            "a stash and the image",
            2,
            format!("stash {a} 2,0,1\nerase 2,0,1\nbsdiff 0 {bytes} {ab} {bc} 2,6,8 2 2,1,2 2,1,2 {a}:2,0,1\n"),
            ["0BCDEFBC", "Ayz", "ABw", "BCt"],
        ),
    ] {
        let list = format!("3\n{total}\n1\n2\n{lines}");
        assert_eq!(ends(&list, &patch), (Done, areas.map(String::from)), "{what}");
    }
    // Moves need no result area.
    for on in all() {
        let mut lent = Lent::new(&format!("3\n2\n0\n0\nmove {ab} 2,4,6 2 2,0,2\n"));
        lent.result.clear();
        assert_eq!(said(&lent.all(on, b"")), (Done, 0));
        assert_eq!(letters(&lent.image), "ABCDABGH");
    }
}

#[test]
fn lines_and_which_number_comes_first() {
    let h = name("A");
    let data = [0u8; 100];
    // Before the line there is a stash of one block, held under `h`; the work and the result area have three blocks, the patch data 100 bytes.
    let cases: Vec<(u64, String, usize)> = vec![
        (1, format!("bsdiff 0 100 {h} {h} 2,0,1 1 2,0,1\n"), 0),
        (3, format!("bsdiff 0 0 {h} {h} 2,0,3 1 - {h}:2,0,1\n"), 0),
        (1, format!("bsdiff 100 0 {h} {h} 2,0,1 2 2,0,1 2,0,1 {h}:2,1,2\n"), 0),
        // The form: 6 before all else.
        (0, "bsdiff".into(), 6),
        (0, "bsdiff\n".into(), 6),
        (0, "bsdiff \n".into(), 6),
        (0, "bsdiff 0\n".into(), 6),
        (0, "bsdiff 0 0\n".into(), 6),
        (0, format!("bsdiff 0 0 {h}\n"), 6),
        (0, format!("bsdiff 0 0 {h} {h}\n"), 6),
        (0, format!("bsdiff 0 0 {h} {h} 2,0,1\n"), 6),
        (0, format!("bsdiff 0 0 {h} {h} 2,0,1 1\n"), 6),
        (0, format!("bsdiff 0 0 {h} {h} 2,0,1 1 \n"), 6),
        (0, format!("bsdiff 0 0 {h} {h} 2,0,1 1 -\n"), 6),
        (0, format!("bsdiff 0 0 {h} {h} 2,0,1 1 2,0,1 2,0,1\n"), 6),
        (0, format!("bsdiff 0 0 {h} {h} 2,0,1 1 2,0,1"), 6),
        (0, format!("bsdiff 0 0 {h} {h} 2,0,1 1 2,0,1 \n"), 6),
        (0, format!("bsdiff  0 0 {h} {h} 2,0,1 1 2,0,1\n"), 6),
        (0, format!("bsdiff 0 0 {h} 2,0,1 1 2,0,1\n"), 6),
        (0, format!("bsdiff 0 {h} {h} 2,0,1 1 2,0,1\n"), 6),
        (0, format!("bsdiff 0 0 0 {h} {h} 2,0,1 1 2,0,1\n"), 6),
        (0, format!("bsdiff 00 0 {h} {h} 2,0,1 1 2,0,1\n"), 6),
        (0, format!("bsdiff 0 -1 {h} {h} 2,0,1 1 2,0,1\n"), 6),
        (0, format!("bsdiff +0 0 {h} {h} 2,0,1 1 2,0,1\n"), 6),
        (0, format!("bsdiff 4294967296 0 {h} {h} 2,0,1 1 2,0,1\n"), 6),
        (0, format!("bsdiff 0 4294967296 {h} {h} 2,0,1 1 2,0,1\n"), 6),
        (0, format!("bsdiff 0 0 {} {h} 2,0,1 1 2,0,1\n", &h[1..]), 6),
        (0, format!("bsdiff 0 0 {h} {} 2,0,1 1 2,0,1\n", h.to_uppercase()), 6),
        (0, format!("bsdiff 0 0 {h} {h}0 2,0,1 1 2,0,1\n"), 6),
        (0, format!("Bsdiff 0 0 {h} {h} 2,0,1 1 2,0,1\n"), 6),
        (0, format!("bsdiff2 0 0 {h} {h} 2,0,1 1 2,0,1\n"), 6),
        (0, format!("bsdiff 0 0 {h} {h} 2,9,9 1 2,0,1\n"), 6),
        (0, format!("bsdiff 101 0 {h} {h} 2,0,1 4 4,0,4,8,8\n"), 6),
        (0, format!("bsdiff 0 0 {h} {h} 2,0,1 1 - {h}:4,0,1,1,1\n"), 6),
        (0, format!("imgdiff 0 0 {h} {h} 2,0,1 1 2,0,1\n"), 7),
        (0, format!("imgdiff 0 0 {h} {h} 2,0,1 1 2,0,1"), 7),
        // 8: of R or S, and not of L.
        (1, format!("bsdiff 101 0 {h} {h} 2,8,9 4 2,0,4\n"), 8),
        (1, format!("bsdiff 0 0 {h} {h} 2,9,10 1 2,0,1\n"), 8),
        (1, format!("bsdiff 0 0 {h} {h} 2,0,1 1 2,8,9\n"), 8),
        (1, format!("bsdiff 0 0 {h} {h} 2,0,1 1 - {h}:2,8,9\n"), 12),
        // 9: N, S, or R over the result area; repeats count.
        (1, format!("bsdiff 101 0 {h} {h} 2,0,1 4 2,0,4\n"), 9),
        (1, format!("bsdiff 101 0 {h} {h} 2,0,1 1 2,0,4\n"), 9),
        (4, format!("bsdiff 101 0 {h} {h} 2,0,4 1 2,0,1\n"), 9),
        (4, format!("bsdiff 101 0 {h} {h} 4,0,2,0,2 1 2,0,2\n"), 9),
        (4, format!("bsdiff 101 0 {h} {h} 2,0,4 1 - {}:2,0,1\n", name("B")), 9),
        (3, format!("bsdiff 0 0 {h} {h} 4,0,2,0,1 1 2,0,1\n"), 0),
        // 10.
        (1, format!("bsdiff 101 0 {h} {h} 2,0,1 1 - {}:2,0,2\n", name("B")), 10),
        // 11: of the source alone; R may have any size.
        (1, format!("bsdiff 101 0 {h} {h} 2,0,1 1 2,0,2\n"), 11),
        (1, format!("bsdiff 101 0 {h} {h} 2,0,1 2 2,0,1\n"), 11),
        (1, format!("bsdiff 101 0 {h} {h} 2,0,1 1 - {h}:2,0,2\n"), 11),
        (1, format!("bsdiff 101 0 {h} {h} 2,0,1 2 - {h}:2,0,1\n"), 11),
        (1, format!("bsdiff 101 0 {h} {h} 2,0,1 2 2,0,1 2,0,2 {h}:2,1,2\n"), 11),
        (2, format!("bsdiff 0 0 {h} {h} 2,0,2 1 2,0,1\n"), 0),
        (2, format!("move {h} 2,0,2 1 2,0,1\n"), 11),
        // 12.
        (1, format!("bsdiff 101 0 {h} {h} 2,0,1 1 - {h}:2,1,2\n"), 12),
        (1, format!("bsdiff 101 0 {h} {h} 2,0,1 2 2,0,1 2,1,2 {h}:2,1,2\n"), 12),
        // 18, after them, by one and past 32 bits.
        (1, format!("bsdiff 101 0 {h} {h} 2,0,1 1 2,0,1\n"), 18),
        (1, format!("bsdiff 0 101 {h} {h} 2,0,1 1 2,0,1\n"), 18),
        (1, format!("bsdiff 1 100 {h} {h} 2,0,1 1 2,0,1\n"), 18),
        (1, format!("bsdiff 1 99 {h} {h} 2,0,1 1 2,0,1\n"), 0),
        (1, format!("bsdiff 4294967295 4294967295 {h} {h} 2,0,1 1 2,0,1\n"), 18),
        (1, format!("bsdiff 4294967295 1 {h} {h} 2,0,1 1 2,0,1\n"), 18),
        (1, format!("bsdiff 1 4294967295 {h} {h} 2,0,1 1 2,0,1\n"), 18),
        // It is its line's: before a later line's 6, and before 15; after an earlier line's 14.
        (9, format!("bsdiff 101 0 {h} {h} 2,0,1 1 2,0,1\nnonsense\n"), 18),
        (9, format!("stash {} 2,0,1\nbsdiff 101 0 {h} {h} 2,0,1 1 2,0,1\n", name("B")), 14),
    ];
    for (total, text, want) in cases {
        let line = match want {
            0 => 0,
            _ => 6,
        };
        assert_eq!(opened(&format!("3\n{total}\n1\n1\nstash {h} 2,0,1\n{text}"), &data), (want, line), "{text:?}");
    }
    // 15 is the last, and counts R.
    for (total, want) in [(1, (15, 2)), (2, (0, 0)), (3, (15, 2))] {
        assert_eq!(opened(&format!("3\n{total}\n0\n0\nbsdiff 0 0 {h} {h} 2,0,2 1 2,0,1\n"), &data), want);
    }
    // R over the result area: what 9 looks at is the area that is lent.
    for (result, target, want) in [(0, "2,0,1", 9), (1, "2,0,1", 0), (1, "4,0,1,0,1", 9), (4_096, "2,0,4096", 0), (4_096, "2,0,4097", 9)] {
        let list = format!("3\n{}\n0\n0\nbsdiff 0 0 {h} {h} {target} 1 2,0,1\n", size(target));
        for on in all() {
            let rooms = Rooms { image: 5_000 * BLOCK, work: BLOCK, result: result * BLOCK, ..Rooms::default() };
            assert_eq!(on.open(list.as_bytes(), rooms).refusal.number, want, "{result} {target}");
        }
    }
}

#[test]
fn new_data_around_patches() {
    let patch = patch_of(&[record(&ONE_MORE, b"", 0)]);
    let (p, q) = (name("p"), name("q"));
    let list = format!("3\n4\n0\n0\nnew 2,0,1\nbsdiff 0 {} {p} {q} 2,1,2 1 2,0,1\nnew 2,2,4\n", patch.len());
    let data = blocks("pst");
    for on in all() {
        for cuts in [vec![], vec![4_095, 1, 1], vec![4_096, 4_096], vec![4_096, 0, 0], vec![1, 4_096, 4_096], vec![0, 12_287, 0]] {
            let mut lent = Lent::with_patch(&list, &patch);
            let answer = lent.run(on, &data, &cuts);
            assert_eq!(said(&answer), (Done, 12_288));
            assert_eq!(lent.letters(), ["pqstEFGH", "xyz", "pvw", "qst"]);
        }
        // The last byte of the source runs the patch, in that same call.
        let mut lent = Lent::with_patch(&list, &patch);
        let state = lent.open(on);
        let first = lent.call(on, &data[..4_095], state);
        assert_eq!((said(&first), lent.letters()[2].as_str()), ((More, 4_095), "uvw"));
        let second = lent.call(on, b"p", first.state);
        assert_eq!((said(&second), second.state.line), ((More, 1), 7));
        assert_eq!(lent.letters(), ["pqCDEFGH", "xyz", "pvw", "qst"]);
        // A wrong byte of new data: the source's hash differs, and the bytes are taken.
        let mut lent = Lent::with_patch(&list, &patch);
        assert_eq!(said(&lent.run(on, &blocks("sst"), &[5_000])), (refused(16, 6), 4_096));
        assert_eq!(lent.letters(), ["sBCDEFGH", "xyz", "svw", "rst"]);
    }
}

#[test]
fn what_changed_since_opening() {
    let patch = patch_of(&[record(&ONE_MORE, b"", 0)]);
    let list = format!("3\n2\n0\n0\nnew 2,7,8\nbsdiff 0 {} {} {} 2,2,3 1 2,0,1\n", patch.len(), name("A"), name("B"));
    let untouched = ["ABCDEFGH", "xyz", "uvw", "rst"];
    for on in all() {
        let mut lent = Lent::with_patch(&list, &patch);
        let state = lent.open(on);
        assert_eq!((state.lengths.result, state.lengths.patch), (3 * BLOCK, patch.len()));
        // Another length of the patch data, or of the result area: 17, and not kept.
        let edits: [fn(&mut Lent); 5] = [
            |lent| lent.patch.push(0),
            |lent| lent.patch.truncate(lent.patch.len() - 1),
            |lent| lent.patch.clear(),
            |lent| lent.result.truncate(2 * BLOCK),
            |lent| lent.result.resize(4 * BLOCK, 0),
        ];
        for edit in edits {
            let mut other = Lent::with_patch(&list, &patch);
            edit(&mut other);
            let answer = other.call(on, &blocks("p"), state);
            assert_eq!((said(&answer), answer.state), ((refused(17, 0), 0), state));
            assert_eq!(other.letters()[..3], untouched[..3]);
        }
        // Other bytes are seen where they are used, and not before.
        let first = lent.call(on, b"ppp", state);
        assert_eq!(said(&first), (More, 3));
        for (at, want, result) in [(0, 19, "rst"), (9, 19, "rst"), (26, 16, "?st"), (patch.len() - 1, 16, "?st")] {
            let mut other = Lent::with_patch(&list, &patch);
            other.image = lent.image.clone();
            other.patch[at] ^= 0x80;
            assert_eq!(said(&other.call(on, b"ppp", first.state)), (More, 3));
            let answer = other.call(on, &[b'p'; BLOCK - 3], first.state);
            assert_eq!(said(&answer), (refused(want, 6), BLOCK - 3), "{at}");
            assert_eq!(other.letters(), ["ABCDEFGp", "xyz", "Avw", result], "{at}");
        }
        // Into a `new` that is now a `bsdiff`: 17.
        let mut other = Lent::with_patch(&list, &patch);
        other.list = list.replace("new 2,7,8\nbsdiff", "bsdiff\nbsdiff 2,").into_bytes();
        other.list.truncate(list.len());
        let answer = other.call(on, b"p", first.state);
        assert_eq!((said(&answer), answer.state), ((refused(17, 0), 0), first.state));
    }
}
