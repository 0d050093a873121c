//! What this crate adds to the library: areas lent by name, states in the open and saved, an updater that keeps them together.

use muongrabi::{call, digest, open, run, Areas, Called, Fields, Lengths, Outcome, Refusal, Stash, State, Updater, BLOCK, MOST_STASHES, SAVED};
use std::hint::black_box;

/// Blocks, each filled with its letter.
fn blocks(letters: &str) -> Vec<u8> {
    letters.bytes().flat_map(|letter| [letter; BLOCK]).collect()
}

/// The first byte of each block, all of whose bytes are alike.
fn letters(bytes: &[u8]) -> String {
    assert!(bytes.chunks(BLOCK).all(|block| block.iter().all(|byte| *byte == block[0])));
    bytes.chunks(BLOCK).map(|block| if block[0] == 0 { '0' } else { block[0] as char }).collect()
}

fn name(letters: &str) -> String {
    digest(&blocks(letters)).iter().map(|byte| format!("{byte:02x}")).collect()
}

/// A stash, new data, a move over its own source, what was stashed put back elsewhere, and a patch.
fn list() -> String {
    let (a, bcd, f, g) = (name("A"), name("BCD"), name("F"), name("G"));
    let patch = format!("bsdiff 3 {} {f} {g} 2,5,6 1 2,5,6", BLOCK + 26);
    format!("3\n8\n1\n1\nstash {a} 2,0,1\nnew 4,0,1,7,8\nmove {bcd} 2,2,5 3 2,1,4\nmove {a} 2,6,7 1 - {a}:2,0,1\nfree {a}\n{patch}\nzero 2,1,2\n")
}

const AFTER: &str = "p0BCDGAq";

/// Three bytes that no line names, and one record, which adds one to each byte of a block.
fn patch() -> Vec<u8> {
    let numbers = [BLOCK as u64, 0, 0].map(u64::to_le_bytes).concat();
    [b"any", &b"CP"[..], &numbers, &[1; BLOCK]].concat()
}

struct Lent {
    image: Vec<u8>,
    stash: Vec<u8>,
    work: Vec<u8>,
    result: Vec<u8>,
    patch: Vec<u8>,
}

impl Lent {
    fn new() -> Lent {
        Lent { image: blocks("ABCDEFGH"), stash: blocks("x"), work: blocks("uvw"), result: blocks("rs"), patch: patch() }
    }

    fn areas(&mut self) -> Areas<'_> {
        Areas { image: &mut self.image, stash: &mut self.stash, work: &mut self.work, result: &mut self.result, patch: &self.patch }
    }

    fn letters(&self) -> [String; 4] {
        [&self.image, &self.stash, &self.work, &self.result].map(|area| letters(area))
    }
}

#[test]
fn each_area_is_lent_as_itself() {
    let (list, mut lent) = (list(), Lent::new());
    let mut updater = Updater::open(list.as_bytes(), lent.areas()).expect("a good list");
    assert_eq!(updater.write(&blocks("pqr")), Outcome::Done);
    assert_eq!((updater.taken(), updater.state().line(), updater.state().at()), (2 * BLOCK as u64, 12, list.len()));
    let shown = [updater.image(), updater.stash(), updater.work(), updater.result()].map(letters);
    assert_eq!(shown, [AFTER, "A", "FCD", "Gs"]);
    assert_eq!(lent.letters(), shown);
}

#[test]
fn a_run_ends_alike_however_it_is_made() {
    let list = list();
    let data = blocks("pq");
    for size in [1_000, 4_095, 4_096, 4_097, 9_000] {
        let mut lent = Lent::new();
        let mut updater = Updater::open(list.as_bytes(), lent.areas()).expect("a good list");
        let mut outcome = updater.write(&[]);
        for piece in data.chunks(size) {
            assert_eq!(outcome, Outcome::More);
            outcome = updater.write(piece);
        }
        assert_eq!(outcome, Outcome::Done);
        let state = updater.into_state();

        let mut other = Lent::new();
        let cuts = vec![size; data.len() / size];
        let (called, other_state) = run(list.as_bytes(), other.areas(), &data, &cuts);
        assert_eq!((called, other_state), (Called { outcome: Outcome::Done, taken: data.len() }, state));
        assert_eq!(other.letters(), lent.letters());
    }
}

#[test]
fn a_run_goes_on_from_kept_fields() {
    let (list, mut lent) = (list(), Lent::new());
    let mut updater = Updater::open(list.as_bytes(), lent.areas()).expect("a good list");
    assert_eq!(updater.write(&blocks("pq")[..5_000]), Outcome::More);
    let kept: Fields = updater.into_state().fields();
    assert_eq!((kept.count, kept.stashes[0].hash, kept.stashes[0].blocks), (1, digest(&blocks("A")), 1));
    assert_eq!((kept.line, kept.into, kept.list), (6, 5_000, list.len()));
    assert_eq!((kept.total, kept.ready, kept.stretches), (5_000, 0, 0));
    assert_eq!(kept.lengths, Lengths { image: 8 * BLOCK, stash: BLOCK, work: 3 * BLOCK, result: 2 * BLOCK, patch: BLOCK + 29 });

    let state = State::from(&kept);
    assert_eq!(state.fields(), kept);
    let mut updater = Updater::resume(list.as_bytes(), lent.areas(), state);
    assert_eq!(updater.write(&blocks("pq")[5_000..]), Outcome::Done);
    assert_eq!((updater.taken(), updater.state().total()), (3_192, 8_192));
    assert_eq!(lent.letters()[0], AFTER);
}

const STOP: Called = Called { outcome: Outcome::Stop, taken: 0 };

#[test]
fn a_call_goes_to_the_next_stop() {
    let (list, mut lent) = (list(), Lent::new());
    let mut updater = Updater::open(list.as_bytes(), lent.areas()).expect("a good list");
    let data = blocks("pqr");
    // Filled, and held.
    for (ready, line, work, stash) in [(true, 5, "Avw", "x"), (false, 6, "Avw", "A")] {
        assert_eq!(updater.call(&data), STOP);
        let fields = updater.state().fields();
        assert_eq!((fields.ready != 0, fields.line, fields.total), (ready, line, 0));
        assert_eq!((letters(updater.work()).as_str(), letters(updater.stash()).as_str()), (work, stash));
    }
    // What is taken by the `new` belongs to the call that fills the next line.
    assert_eq!(updater.call(&data), Called { outcome: Outcome::Stop, taken: 2 * BLOCK });
    assert_eq!((updater.state().line(), updater.state().total(), updater.taken()), (7, 2 * BLOCK as u64, 2 * BLOCK as u64));
    // The rest: a move written, one filled and written, the youngest stash freed and the patch filled, then written.
    for line in [8, 8, 9, 10, 11] {
        assert_eq!((updater.call(&data[2 * BLOCK..]), updater.state().line()), (STOP, line));
    }
    assert_eq!(updater.call(&data[2 * BLOCK..]), Called { outcome: Outcome::Done, taken: 0 });
    assert_eq!(lent.letters(), [AFTER, "A", "FCD", "Gs"]);
}

#[test]
fn a_run_goes_on_from_a_saved_form() {
    let (list, data) = (list(), blocks("pq"));
    let mut lent = Lent::new();
    let mut saved = open(list.as_bytes(), lent.areas().lengths()).expect("a good list").save();
    let mut stops = 0;
    // As if the power went after each call: of all that is kept only areas and saved form are left.
    loop {
        let state = State::restore(&saved).expect("its own saved form");
        let from = state.total() as usize;
        let mut updater = Updater::resume(list.as_bytes(), lent.areas(), state);
        let called = updater.call(&data[from..]);
        if called.outcome != Outcome::Stop {
            assert_eq!(called.outcome, Outcome::Done);
            break;
        }
        saved = updater.into_state().save();
        stops += 1;
    }
    assert_eq!(stops, 8);
    assert_eq!(lent.letters(), [AFTER, "A", "FCD", "Gs"]);
}

#[test]
fn a_saved_form_is_one_states() {
    let mut fields = open(b"3\n0\n0\n0\n", Lengths { image: 0, stash: 0, work: 0, result: 0, patch: 0 }).expect("a good list").fields();
    // Every byte of it is another, past the count too, and no number is possible.
    for (k, stash) in fields.stashes.iter_mut().enumerate() {
        stash.hash = std::array::from_fn(|j| (20 * k + j) as u8);
        stash.blocks = usize::MAX - k;
    }
    (fields.count, fields.line, fields.at, fields.into) = (300, 1 << 40, 3, 1 << 63);
    (fields.total, fields.ready, fields.stretches) = (usize::MAX, 1 << 33, 77);
    (fields.refusal, fields.list) = (Refusal::new(20, usize::MAX, 13), 7);
    fields.lengths = Lengths { image: 8, stash: 9, work: 10, result: 11, patch: usize::MAX };
    let state = State::from(&fields);
    let bytes: [u8; SAVED] = state.save();
    assert_eq!(state.as_bytes(), &bytes);
    assert_eq!(State::restore(&bytes), Ok(state.clone()));
    // Laid out as docs/SAVED-FORM.md says.
    for (at, mark) in [(0, b"SH"), (5_122, b"SB"), (7_172, b"SP"), (7_230, b"SR"), (7_256, b"SL")] {
        assert_eq!(bytes[at..at + 2], *mark);
    }
    for (k, stash) in fields.stashes.iter().enumerate() {
        assert_eq!(bytes[2 + 20 * k..][..20], stash.hash);
        assert_eq!(bytes[5_124 + 8 * k..][..8], stash.blocks.to_le_bytes());
    }
    let Fields { count, line, at, into, total, ready, stretches, refusal, list, lengths, .. } = fields;
    let Lengths { image, stash, work, result, patch } = lengths;
    let progress = [count, line, at, into, total, ready, stretches];
    let refused = [refusal.number(), refusal.line(), refusal.raw_byte()];
    for (at, numbers) in [(7_174, &progress[..]), (7_232, &refused), (7_258, &[list, image, stash, work, result, patch])] {
        let row: Vec<u8> = numbers.iter().flat_map(|number| number.to_le_bytes()).collect();
        assert_eq!(bytes[at..at + row.len()], row);
    }
    // Another length, and none.
    let refused = Err(Refusal::new(Refusal::NO_SAVED_FORM, 0, 0));
    for other in [&bytes[1..], &bytes[..SAVED - 1], &[], &[&bytes[..], &[0]].concat()] {
        assert_eq!(State::restore(other), refused);
    }
    // With another byte it is another state's, or no state's: five marks have two bytes each.
    let mut none = 0;
    for at in 0..SAVED {
        let mut other = bytes;
        other[at] ^= 0x80;
        match State::restore(&other) {
            Ok(read) => assert!(read != state && read.save() == other, "{at}"),
            Err(refusal) => {
                assert_eq!(Err(refusal), refused, "{at}");
                none += 1;
            }
        }
    }
    assert_eq!(none, 10);
}

#[test]
fn every_field_crosses_as_itself() {
    let mut fields = open(b"3\n0\n0\n0\n", Lengths { image: 0, stash: 0, work: 0, result: 0, patch: 0 }).expect("a good list").fields();
    for (k, stash) in fields.stashes.iter_mut().enumerate() {
        stash.hash = [k as u8; 20];
        stash.blocks = 1_000 + k;
    }
    (fields.count, fields.line, fields.at, fields.into) = (1, 2, 3, 4);
    (fields.total, fields.ready, fields.stretches) = (14, 15, 16);
    (fields.refusal, fields.list) = (Refusal::new(0, 6, 13), 7);
    fields.lengths = Lengths { image: 8, stash: 9, work: 10, result: 11, patch: 12 };
    let mut state = State::from(&fields);
    assert_eq!(state.refusal(), None);
    // It fits nothing, and comes back as it was.
    let mut lent = Lent::new();
    let refused = Called { outcome: Outcome::Refused(Refusal::new(Refusal::STATE_IMPOSSIBLE, 0, 0)), taken: 0 };
    assert_eq!(call(b"3\n0\n0\n0\n", lent.areas(), b"piece", &mut state), refused);
    assert_eq!(state.fields(), fields);
    assert_eq!(lent.letters(), ["ABCDEFGH", "x", "uvw", "rs"]);
    // What it shows of itself has every field, and of the stashes those that there can be.
    let shown = format!("{state:?}");
    for part in ["count: 1,", "line: 2,", "at: 3,", "into: 4,", "refusal: None", "list: 7,", "image: 8,", "stash: 9,", "work: 10,", "result: 11,"] {
        assert!(shown.contains(part), "{part} in {shown}");
    }
    for part in ["patch: 12 ", "blocks: 1000 ", "total: 14,", "ready: 15,", "stretches: 16,"] {
        assert!(shown.contains(part), "{part} in {shown}");
    }
    assert!(!shown.contains("blocks: 1001"), "{shown}");
    fields.count = usize::MAX;
    assert!(format!("{:?}", State::from(&fields)).contains("blocks: 1255"));
    // A refusal that is held is repeated as it is, its byte too, and the state stays as it was.
    for refusal in [Refusal::new(99, 6, 5), Refusal::new(Refusal::LINE_FORM, 0, usize::MAX), Refusal::new(Refusal::HASH_DIFFERS, 9, 1)] {
        fields.refusal = refusal;
        let mut state = State::from(&fields);
        assert_eq!(state.refusal(), Some(refusal));
        assert_eq!(call(b"", lent.areas(), b"", &mut state).outcome, Outcome::Refused(refusal));
        assert_eq!(state.fields(), fields);
    }
    assert_eq!(lent.letters(), ["ABCDEFGH", "x", "uvw", "rs"]);
}

#[test]
fn a_state_is_changed_where_it_lies_and_nothing_beside_it() {
    #[repr(C)]
    struct Between {
        before: [u8; 64],
        state: State,
        after: [u8; 64],
    }
    // All stashes but one are held; the list brings the last and frees it again.
    let list = format!("3\n1\n256\n256\nstash {} 2,0,1\nnew 2,0,1\nfree {}\n", name("A"), name("A"));
    let mut lent = Lent { stash: vec![0; MOST_STASHES * BLOCK], ..Lent::new() };
    let mut fields = open(list.as_bytes(), lent.areas().lengths()).expect("a good list").fields();
    for (k, stash) in fields.stashes.iter_mut().enumerate() {
        (stash.hash, stash.blocks) = ([k as u8; 20], 1);
    }
    fields.count = MOST_STASHES - 1;
    let mut between = Between { before: [0xc3; 64], state: State::from(&fields), after: [0xc3; 64] };
    for (piece, called, count) in [
        (blocks(""), STOP, MOST_STASHES - 1),
        (blocks(""), STOP, MOST_STASHES),
        (blocks(""), Called { outcome: Outcome::More, taken: 0 }, MOST_STASHES),
        (blocks("p"), Called { outcome: Outcome::Done, taken: BLOCK }, MOST_STASHES - 1),
    ] {
        assert_eq!(call(list.as_bytes(), lent.areas(), &piece, &mut black_box(&mut between).state), called);
        let Between { before, state, after } = black_box(&between);
        assert_eq!((before, after), (&[0xc3; 64], &[0xc3; 64]));
        let now = state.fields();
        assert_eq!(now.count, count);
        assert_eq!(now.stashes[..MOST_STASHES - 1], fields.stashes[..MOST_STASHES - 1]);
        if count == MOST_STASHES {
            assert_eq!(now.stashes[MOST_STASHES - 1], Stash { hash: digest(&blocks("A")), blocks: 1 });
        }
    }
}

#[test]
fn refusals_stop_a_run_and_stay() {
    let list = format!("3\n2\n0\n0\nnew 2,0,1\nmove {} 2,1,2 1 2,2,3\n", name("A"));
    let mut lent = Lent::new();
    let refused = Outcome::Refused(Refusal::new(Refusal::HASH_DIFFERS, 6, 0));
    let mut updater = Updater::open(list.as_bytes(), lent.areas()).expect("a good list");
    assert_eq!(updater.write(&blocks("pq")), refused);
    assert_eq!(updater.taken(), BLOCK as u64);
    assert_eq!(updater.write(&blocks("pq")), refused);
    assert_eq!((updater.taken(), updater.state().refusal()), (BLOCK as u64, Some(Refusal::new(16, 6, 0))));
    assert_eq!(lent.letters(), ["pBCDEFGH", "x", "Cvw", "rs"]);
    // A refused opening changes nothing.
    let mut lent = Lent::new();
    let opened = Updater::open(b"3\n10\n0\n0\nnew 2,0,1\nzero 2,0,9\n", lent.areas()).map(|_| ());
    assert_eq!(opened, Err(Refusal::new(Refusal::PAST_IMAGE, 6, 0)));
    let (called, state) = run(b"3\n10\n0\n0\nnew 2,0,1\nzero 2,0,9\n", lent.areas(), &blocks("p"), &[]);
    assert_eq!(called, Called { outcome: Outcome::Refused(Refusal::new(8, 6, 0)), taken: 0 });
    assert_eq!((state.refusal(), state.line(), state.fields().list), (Some(Refusal::new(8, 6, 0)), 0, 0));
    assert_eq!(State::restore(state.as_bytes()), Ok(state));
    assert_eq!(lent.letters(), ["ABCDEFGH", "x", "uvw", "rs"]);
}

#[test]
fn an_ill_formed_line_has_its_byte() {
    let lengths = Lengths { image: 8 * BLOCK, stash: 0, work: 0, result: 0, patch: 0 };
    for (list, refusal) in [
        ("", Refusal::new(Refusal::HEADER_FORM, 1, 0)),
        ("3\n0\n", Refusal::new(Refusal::HEADER_FORM, 3, 4)),
        ("3\n0\n00\n0\n", Refusal::new(Refusal::HEADER_FORM, 3, 5)),
        ("3\n0\n0\n0\nzero 2,0,1\nzap\n", Refusal::new(Refusal::LINE_FORM, 6, 20)),
        ("3\n0\n0\n0\nzero 2,5,3\n", Refusal::new(Refusal::LINE_FORM, 5, 18)),
        ("3\n0\n0\n0\nzero 2,8,8\n", Refusal::new(Refusal::LINE_FORM, 5, 18)),
        ("3\n0\n0\n0\nzero 2,0,0\n", Refusal::new(Refusal::LINE_FORM, 5, 17)),
        ("3\n1\n0\n0\nzero 4,0,1,5,5\n", Refusal::new(Refusal::LINE_FORM, 5, 22)),
        ("3\n0\n0\n0\nzero 2,0,1", Refusal::new(Refusal::LINE_FORM, 5, 18)),
    ] {
        assert_eq!(open(list.as_bytes(), lengths), Err(refusal), "{list:?}");
        assert_eq!(refusal.byte(), Some(refusal.raw_byte()));
        let mut image = blocks("ABCDEFGH");
        let areas = Areas { image: &mut image, stash: &mut [], work: &mut [], result: &mut [], patch: &[] };
        let (called, state) = run(list.as_bytes(), areas, b"", &[]);
        assert_eq!((called.outcome, state.refusal()), (Outcome::Refused(refusal), Some(refusal)), "{list:?}");
    }
    // In a call, of a line altered since opening; and it stays.
    let mut lent = Lent::new();
    let state = open(b"3\n1\n0\n0\nzero 2,0,1\n", lent.areas().lengths()).expect("a good list");
    for (altered, byte) in [(b"3\n1\n0\n0\nzero 3,0,1\n", 14), (b"3\n1\n0\n0\nzero 2,1,1\n", 18)] {
        let mut updater = Updater::resume(altered, lent.areas(), state.clone());
        let refusal = Refusal::new(Refusal::LINE_FORM, 5, byte);
        for _ in 0..2 {
            assert_eq!(updater.write(b"data"), Outcome::Refused(refusal));
            assert_eq!(updater.state().refusal(), Some(refusal));
        }
    }
    assert_eq!(lent.letters(), ["ABCDEFGH", "x", "uvw", "rs"]);
}

#[test]
fn areas_of_other_lengths_are_refused() {
    let list = b"3\n1\n0\n0\nnew 2,0,1\n";
    let other: [fn(&mut Lent); 3] = [|lent| lent.work.truncate(BLOCK), |lent| lent.result.truncate(BLOCK), |lent| lent.patch.truncate(1)];
    for change in other {
        let mut lent = Lent::new();
        let state = open(list, lent.areas().lengths()).expect("a good list");
        change(&mut lent);
        let mut updater = Updater::resume(list, lent.areas(), state.clone());
        assert_eq!(updater.write(&blocks("p")), Outcome::Refused(Refusal::new(17, 0, 0)));
        // 17 is not kept.
        assert_eq!(updater.into_state(), state);
    }
}

#[test]
fn patches_are_refused_as_they_are() {
    let line = |from: usize, bytes: usize, after: &str| format!("3\n1\n0\n0\nbsdiff {from} {bytes} {} {} 2,5,6 1 2,5,6\n", name("F"), name(after));
    let refused = |number| Outcome::Refused(Refusal::new(number, 5, 0));
    // One byte past the patch data, a byte short, and another result.
    let mut lent = Lent::new();
    let opened = Updater::open(line(3, BLOCK + 27, "G").as_bytes(), lent.areas()).map(|_| ());
    assert_eq!(opened, Err(Refusal::new(Refusal::PAST_PATCH, 5, 0)));
    for (list, number, work, result) in [
        (line(3, BLOCK + 25, "G"), Refusal::PATCH_MALFORMED, "Fvw", "rs"),
        (line(2, BLOCK + 26, "G"), Refusal::PATCH_MALFORMED, "Fvw", "rs"),
        (line(3, BLOCK + 26, "H"), Refusal::HASH_DIFFERS, "Fvw", "Gs"),
    ] {
        let mut lent = Lent::new();
        let mut updater = Updater::open(list.as_bytes(), lent.areas()).expect("a good list");
        assert_eq!(updater.write(&[]), refused(number));
        assert_eq!(lent.letters(), ["ABCDEFGH", "x", work, result]);
    }
}

/// The image that was left, with all else that is lent as it was at first.
fn lent_anew(image: Vec<u8>) -> Lent {
    Lent { image, ..Lent::new() }
}

#[test]
fn a_list_whose_lines_are_finished_changes_nothing() {
    let [a, bcd, f, g] = ["A", "BCD", "F", "G"].map(name);
    // A move over its own source, another, and a patch in its own place: no two targets share a block.
    let list = format!("3\n5\n0\n0\nmove {bcd} 2,2,5 3 2,1,4\nmove {a} 2,6,7 1 2,0,1\nbsdiff 3 {} {f} {g} 2,5,6 1 2,5,6\n", BLOCK + 26);
    let mut lent = Lent::new();
    assert_eq!(Updater::open(list.as_bytes(), lent.areas()).expect("a good list").write(&[]), Outcome::Done);
    assert_eq!(lent.letters(), ["ABBCDGAH", "x", "FCD", "Gs"]);
    // Once more from the top, with its patch and with other bytes in that place.
    let mut lent = lent_anew(lent.image);
    for _ in 0..2 {
        let mut updater = Updater::open(list.as_bytes(), lent.areas()).expect("a good list");
        assert_eq!(updater.write(b"data"), Outcome::Done);
        assert_eq!((updater.taken(), updater.state().line(), updater.state().at()), (0, 8, list.len()));
        assert_eq!(lent.letters(), ["ABBCDGAH", "x", "uvw", "rs"]);
        lent.patch.fill(0);
    }
    // Where one block is another, its line runs.
    lent.image[3 * BLOCK..4 * BLOCK].fill(b'Z');
    let outcome = Updater::open(list.as_bytes(), lent.areas()).expect("a good list").write(&[]);
    assert_eq!(outcome, Outcome::Refused(Refusal::new(Refusal::HASH_DIFFERS, 5, 0)));
    assert_eq!(lent.letters(), ["ABBZDGAH", "x", "BBZ", "rs"]);
}

#[test]
fn a_move_over_its_own_source_runs_twice() {
    let list = format!("3\n3\n0\n0\nmove {} 2,1,4 3 2,0,3\n", name("ABC"));
    let mut lent = Lent::new();
    for work in ["ABC", "uvw"] {
        assert_eq!(run(list.as_bytes(), lent.areas(), &[], &[]).0, Called { outcome: Outcome::Done, taken: 0 });
        assert_eq!(lent.letters(), ["AABCEFGH", "x", work, "rs"]);
        lent = lent_anew(lent.image);
    }
}

#[test]
fn a_finished_line_is_refused_as_any_other() {
    let [a, b, abcd] = ["A", "B", "ABCD"].map(name);
    for (list, number) in [
        (format!("3\n1\n0\n0\nmove {a} 2,0,1 1 2,8,9\n"), Refusal::PAST_IMAGE),
        (format!("3\n4\n0\n0\nmove {abcd} 2,0,4 4 2,0,4\n"), Refusal::PAST_AREA),
        (format!("3\n1\n0\n0\nmove {a} 2,0,1 1 - {a}:2,0,1\n"), Refusal::NOT_HELD),
        (format!("3\n1\n0\n0\nbsdiff 3 {} {a} {b} 2,1,2 1 2,0,1\n", BLOCK + 27), Refusal::PAST_PATCH),
    ] {
        // In a call the line is checked again, before its target is looked at.
        let mut lent = Lent::new();
        let mut fields = open(b"3\n0\n0\n0\n", lent.areas().lengths()).expect("a good list").fields();
        fields.list = list.len();
        let refusal = Refusal::new(number, 5, 0);
        assert_eq!(open(list.as_bytes(), fields.lengths), Err(refusal));
        assert_eq!(call(list.as_bytes(), lent.areas(), &[], &mut State::from(&fields)).outcome, Outcome::Refused(refusal));
        assert_eq!(lent.letters(), ["ABCDEFGH", "x", "uvw", "rs"]);
    }
}

#[test]
fn outcomes_in_words() {
    assert_eq!(Outcome::Done.to_string(), "done");
    assert_eq!(Outcome::More.to_string(), "more new data is needed");
    assert_eq!(Outcome::Stop.to_string(), "stopped for saving");
    assert_eq!(Outcome::Refused(Refusal::new(4, 1, 0)).to_string(), "refused: line 1: the list's version is not 3 (refusal 4)");
}

#[cfg(feature = "std")]
mod io {
    use super::*;
    use std::io::{copy, ErrorKind, Write};

    #[test]
    fn data_is_copied_in() {
        let (list, mut lent) = (list(), Lent::new());
        let mut updater = Updater::open(list.as_bytes(), lent.areas()).expect("a good list");
        assert_eq!(copy(&mut &blocks("pq")[..], &mut updater).expect("all is taken"), 2 * BLOCK as u64);
        assert_eq!(updater.write(&[]), Outcome::Done);
        assert_eq!(lent.letters()[0], AFTER);
    }

    #[test]
    fn data_past_the_end_is_an_error() {
        let (list, mut lent) = (list(), Lent::new());
        let mut updater = Updater::open(list.as_bytes(), lent.areas()).expect("a good list");
        let error = updater.write_all(&blocks("pqr")).expect_err("a block too many");
        assert_eq!((error.kind(), updater.taken()), (ErrorKind::WriteZero, 2 * BLOCK as u64));
        assert_eq!(lent.letters()[0], AFTER);
    }

    #[test]
    fn flush_runs_what_needs_no_data() {
        let mut lent = Lent::new();
        let mut updater = Updater::open(b"3\n8\n0\n0\nzero 2,0,8\n", lent.areas()).expect("a good list");
        copy(&mut std::io::empty(), &mut updater).expect("nothing to take");
        updater.flush().expect("nothing to refuse");
        assert_eq!(lent.letters()[0], "00000000");
    }

    #[test]
    fn an_empty_write_runs_what_needs_no_data() {
        let mut lent = Lent::new();
        let mut updater = Updater::open(b"3\n8\n0\n0\nzero 2,0,8\n", lent.areas()).expect("a good list");
        assert_eq!(Write::write(&mut updater, &[]).expect("nothing to refuse"), 0);
        assert_eq!(lent.letters()[0], "00000000");
    }

    #[test]
    fn data_that_ends_too_soon_is_no_error() {
        let (list, mut lent) = (list(), Lent::new());
        let mut updater = Updater::open(list.as_bytes(), lent.areas()).expect("a good list");
        assert_eq!(copy(&mut &blocks("pq")[..5_000], &mut updater).expect("all is taken"), 5_000);
        updater.flush().expect("nothing to refuse");
        assert_eq!(updater.write(&[]), Outcome::More);
    }

    #[test]
    fn a_refusal_is_an_error_after_the_bytes_before_it() {
        let list = format!("3\n2\n0\n0\nnew 2,0,1\nmove {} 2,1,2 1 2,2,3\n", name("A"));
        let mut lent = Lent::new();
        let mut updater = Updater::open(list.as_bytes(), lent.areas()).expect("a good list");
        assert_eq!(Write::write(&mut updater, &blocks("pq")).expect("the new is taken"), BLOCK);
        let refusal = Refusal::new(Refusal::HASH_DIFFERS, 6, 0);
        for error in [Write::write(&mut updater, &blocks("q")).map(|_| ()), updater.flush()] {
            let error = error.expect_err("the line is refused");
            assert_eq!((error.kind(), error.to_string()), (ErrorKind::InvalidData, refusal.to_string()));
            let inner = error.into_inner().and_then(|inner| inner.downcast::<Refusal>().ok());
            assert_eq!(inner.as_deref(), Some(&refusal));
        }
    }
}
