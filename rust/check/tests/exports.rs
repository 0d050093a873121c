//! The exports as a caller in C has them: a state as the bytes of its saved form, which may be none, and arrays that hold something before.

mod common;

use check::generate::Rng;
use check::guard::Guarded;
use check::{answer_numbers, opening_numbers, raw, Form, Implementation, Plain, NO_SAVED_FORM};
use common::*;
use reference::saved::{self, MARKS, SAVED};
use reference::{Areas, Lengths, Refusal, State, BLOCK, MOST_STASHES};

/// The saved form of a state, which is as it crosses.
fn form_of(state: &State) -> Form {
    *whole(&mut saved::save(state))
}

/// As many bytes as a state has.
fn whole(bytes: &mut [u8]) -> &mut Form {
    bytes.try_into().expect("as many bytes as a state has")
}

/// What is lent, each against a page that may not be touched: list, piece, image, stash, work and result area, patch data.
struct Walled([Guarded; 7]);

impl Walled {
    fn new(lent: &Lent, piece: &[u8], behind: bool) -> Walled {
        let Lent { list, image, stash, work, result, patch } = lent;
        Walled([list, piece, image, stash, work, result, patch].map(|bytes| {
            let mut walled = Guarded::new(bytes.len());
            walled.set(bytes, behind);
            walled
        }))
    }

    fn close(&mut self) {
        self.0.iter_mut().for_each(|walled| walled.close(false));
    }

    fn open(&mut self) {
        self.0.iter_mut().for_each(Guarded::open);
    }

    fn call(&mut self, state: &mut Form) -> [u64; 5] {
        let [list, piece, image, stash, work, result, patch] = &mut self.0;
        let [image, stash, work, result] = [image, stash, work, result].map(Guarded::bytes_mut);
        raw::call(list.bytes(), Areas { image, stash, work, result, patch: patch.bytes() }, piece.bytes(), state)
    }

    fn holds(&self, lent: &Lent, piece: &[u8]) -> bool {
        let Lent { list, image, stash, work, result, patch } = lent;
        self.0.iter().zip([list, piece, image, stash, work, result, patch]).all(|(walled, bytes)| walled.bytes() == bytes)
    }
}

/// A list that writes at once, with the state of its opening.
fn opened() -> (Lent, State) {
    let lent = Lent::with_patch("3\n3\n1\n1\nzero 2,7,8\nnew 2,0,2\n", b"patch data");
    let state = lent.open(&Plain);
    assert_eq!(state.refusal.number, 0);
    (lent, state)
}

#[test]
fn a_call_over_no_saved_form_is_20_and_touches_nothing() {
    let (mut lent, state) = opened();
    let form = form_of(&state);
    let mut others: Vec<Form> = Vec::new();
    // Every other value of each byte of a mark.
    for at in MARKS.iter().flat_map(|(at, _)| [*at, at + 1]) {
        for value in (0..=255).filter(|value| *value != form[at]) {
            let mut other = form;
            other[at] = value;
            others.push(other);
        }
    }
    assert_eq!(others.len(), 10 * 255);
    // Two marks in each other's place, each mark turned, and no mark at all.
    for (k, (at, mark)) in MARKS.iter().enumerate() {
        let (next, next_mark) = MARKS[(k + 1) % MARKS.len()];
        let mut swapped = form;
        swapped[*at..at + 2].copy_from_slice(next_mark);
        swapped[next..next + 2].copy_from_slice(*mark);
        let mut turned = form;
        turned.swap(*at, at + 1);
        others.extend([swapped, turned]);
    }
    others.extend([[0; SAVED], [0xff; SAVED], [b'S'; SAVED]]);
    let piece = blocks("n");
    for behind in [true, false] {
        let mut walled = Walled::new(&lent, &piece, behind);
        let mut room = Guarded::new(SAVED);
        walled.close();
        for other in &others {
            room.set(other, behind);
            // Of the state itself nothing may be written.
            room.close(true);
            assert_eq!(walled.call(whole(room.bytes_mut())), NO_SAVED_FORM);
            assert!(room.bytes() == other);
            room.open();
        }
        walled.open();
        assert!(walled.holds(&lent, &piece));
        // The same call over the form itself.
        let now = room.value(form, behind);
        assert_eq!(walled.call(now), [1, 0, 0, 0, BLOCK as u64]);
        let after = lent.call_once(&Plain, &piece, state);
        assert!(walled.holds(&lent, &piece) && now[..] == saved::save(&after.state));
        lent = opened().0;
    }
}

#[test]
fn an_opening_writes_its_state_whole() {
    let (good, _) = opened();
    for list in [&good.list[..], b"3\n3\n1\n1\nzero 2,7,9\n", b"3\n3\n1\n1\nzero 2,,8\n", b"", b"2\n0\n0\n0\n"] {
        let expected = Plain.open(list, good.rooms());
        for before in [0, 0xa5, 0xff] {
            for behind in [true, false] {
                let mut room = Guarded::new(SAVED);
                let state = room.value([before; SAVED], behind);
                assert_eq!(raw::open(list, good.rooms(), state), opening_numbers(&expected));
                assert!(state[..] == saved::save(&expected));
            }
        }
    }
}

#[test]
fn a_run_writes_its_state_whole() {
    let data = blocks("nop");
    for (end, cuts) in [(2 * BLOCK, &[100, 0, 5_000][..]), (BLOCK, &[]), (3 * BLOCK, &[7])] {
        for list in [opened().0.list, b"4\n0\n0\n0\n".to_vec()] {
            let (mut ours, mut theirs) = (Lent { list: list.clone(), ..opened().0 }, Lent { list, ..opened().0 });
            let expected = ours.run(&Plain, &data[..end], cuts);
            let mut state = [0xa5; SAVED];
            let (list, areas) = theirs.areas();
            assert_eq!(raw::run(list, areas, &data[..end], cuts, &mut state), answer_numbers(&expected));
            assert!(state[..] == saved::save(&expected.state) && ours == theirs);
        }
    }
}

#[test]
fn a_state_may_lie_anywhere() {
    let piece = blocks("n");
    for at in 0..=8 {
        let ((mut ours, state), (mut theirs, _)) = (opened(), opened());
        let expected = ours.call_once(&Plain, &piece, state);
        let mut room = [0xc3; SAVED + 16];
        let bytes = whole(&mut room[at..at + SAVED]);
        bytes.copy_from_slice(&saved::save(&state));
        let (list, areas) = theirs.areas();
        assert_eq!(raw::call(list, areas, &piece, bytes), answer_numbers(&expected));
        assert!(bytes[..] == saved::save(&expected.state) && ours == theirs, "{at}");
        assert!(room[..at].iter().chain(&room[at + SAVED..]).all(|byte| *byte == 0xc3), "{at}");
    }
}

#[test]
fn an_impossible_state_stays_as_it_is() {
    let mut rng = Rng::new(12);
    for _ in 0..20 {
        let mut lent = opened().0;
        let before = lent.clone();
        let none = Refusal { number: 0, line: 0, byte: 0 };
        let state = State { refusal: none, ..full_state(&mut rng) };
        let form = form_of(&state);
        let mut after = form;
        let (list, areas) = lent.areas();
        assert_eq!(raw::call(list, areas, b"piece", &mut after), [2, 17, 0, 0, 0]);
        assert!(after == form && lent == before);
        // A refusal that is held comes back as it is, every bit of its numbers.
        let refused = full_state(&mut rng);
        let mut after = form_of(&refused);
        let (list, areas) = lent.areas();
        let Refusal { number, line, byte } = refused.refusal;
        assert_eq!(raw::call(list, areas, b"piece", &mut after), [2, number as u64, line as u64, byte as u64, 0]);
        assert!(after[..] == saved::save(&refused) && lent == before);
    }
}

/// The numbers of a state beside its tables, in the order of the saved form.
fn numbers(state: &State) -> [usize; raw::NUMBERS] {
    let State { count, line, at, into, total, ready, stretches, refusal, lengths, .. } = *state;
    let Lengths { list, image, stash, work, result, patch } = lengths;
    let [number, refused_line, byte] = [refusal.number, refusal.line, refusal.byte];
    [count, line, at, into, total as usize, ready, stretches, number, refused_line, byte, list, image, stash, work, result, patch]
}

/// Tables and numbers, against pages that may not be touched.
struct Parts {
    hashes: Guarded,
    sizes: Guarded,
    numbers: Guarded,
    behind: bool,
}

impl Parts {
    fn new(behind: bool) -> Parts {
        let room = |bytes: usize| Guarded::new(bytes);
        Parts { hashes: room(raw::TABLE_BYTES), sizes: room(8 * MOST_STASHES), numbers: room(8 * raw::NUMBERS), behind }
    }

    fn put(&mut self, state: &State) -> (&mut [u8; raw::TABLE_BYTES], &mut [usize; MOST_STASHES], &mut [usize; raw::NUMBERS]) {
        let Parts { hashes, sizes, numbers: row, behind } = self;
        (hashes.value(state.hashes, *behind), sizes.value(state.sizes, *behind), row.value(numbers(state), *behind))
    }
}

#[test]
fn fields_cross_by_their_places() {
    let mut rng = Rng::new(13);
    for behind in [true, false] {
        let mut parts = Parts::new(behind);
        let mut room = Guarded::new(SAVED);
        for k in 0..40 {
            let state = if k == 0 { State::ZERO } else { full_state(&mut rng) };
            let (hashes, sizes, row) = parts.put(&state);
            let out = room.value([0xa5; SAVED], behind);
            raw::save(hashes, sizes, row, out);
            assert!(out[..] == saved::save(&state));
            // What is only read stays.
            assert!((*hashes, *sizes, *row) == (state.hashes, state.sizes, numbers(&state)));
            // Read back over the fields of another.
            let (hashes, sizes, row) = parts.put(&full_state(&mut rng));
            assert_eq!(raw::restore(out, hashes, sizes, row), 0);
            assert!((*hashes, *sizes, *row) == (state.hashes, state.sizes, numbers(&state)));
            assert!(out[..] == saved::save(&state));
        }
    }
}

#[test]
fn bytes_that_are_no_saved_form_leave_the_fields_as_they_are() {
    let mut rng = Rng::new(14);
    let form = saved::save(&full_state(&mut rng));
    let changed = MARKS.iter().flat_map(|(at, _)| [*at, at + 1]).flat_map(|at| [1, 0x20, 0x80, 0xff].map(|bits| (at, bits)));
    let changed = changed.map(|(at, bits)| {
        let mut other = form.clone();
        other[at] ^= bits;
        other
    });
    let lengths = [0, 1, SAVED - 1].map(|length| form[..length].to_vec());
    let longer = [[&form[..], &[0]].concat(), form.repeat(2)];
    let others: Vec<Vec<u8>> = changed.chain(lengths).chain(longer).collect();
    for behind in [true, false] {
        let mut parts = Parts::new(behind);
        for other in &others {
            let kept = full_state(&mut rng);
            let (hashes, sizes, row) = parts.put(&kept);
            assert_eq!(raw::restore(other, hashes, sizes, row), 20);
            assert!((*hashes, *sizes, *row) == (kept.hashes, kept.sizes, numbers(&kept)));
        }
    }
}
