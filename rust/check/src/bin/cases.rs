//! Cases made apart from the project, through the library and both implementations of the reference: openings, single calls, sequences of calls
//! with everything that stands after each, runs taken up again after a cut, saved states, and sparse files with the image before and after.
//! usage: tests/unpack CASES | cases [--self]
//! --self leaves the library out.

use check::record::{Read, Record};
use check::{hex, Implementation, Library, Model, Plain};
use reference::{Areas, Outcome, Refusal, Rooms, State};
use std::fmt::Debug;
use std::io::Read as _;

fn main() {
    let mut text = String::new();
    let words: Vec<String> = std::env::args().skip(1).collect();
    let itself = words == ["--self"];
    if !(itself || words.is_empty()) || std::io::stdin().read_to_string(&mut text).is_err() {
        eprintln!("usage: tests/unpack CASES | cases [--self]");
        std::process::exit(2);
    }
    let all: [(&str, &dyn Implementation); 3] = [("library", &Library), ("plain", &Plain), ("model", &Model)];
    let (mut passed, mut failed) = (0, 0);
    for case in Record::all(&text) {
        for (name, on) in all.into_iter().skip(itself as usize) {
            match agrees(&case, on) {
                Ok(()) => passed += 1,
                Err(difference) => {
                    failed += 1;
                    println!("{}, {name}: {difference}", case.text("name").unwrap_or("a case without a name"));
                }
            }
        }
    }
    println!("{passed} passed, {failed} failed");
    // No case at all is a fault too.
    std::process::exit((failed > 0 || passed == 0) as i32);
}

/// Ok, or how what the implementation does differs from what the case says.
fn agrees(case: &Record, on: &dyn Implementation) -> Read<()> {
    match case.text("kind") {
        Ok("open") => opening(case, on),
        Ok("call") => one_call(case, on),
        Ok("seq") => sequence(case, on),
        Ok("saved") => saved(case, on),
        Ok(other) => Err(format!("{other} is no kind of case")),
        // Those of sparse files have none.
        Err(_) => sparse(case, on),
    }
}

fn same<T: PartialEq + Debug>(what: &str, got: T, expected: T) -> Read<()> {
    if got == expected {
        return Ok(());
    }
    Err(format!("{what} is {got:?}, not {expected:?}"))
}

/// The refusal first: in words a whole state has thousands of numbers.
fn same_state(what: &str, got: State, expected: State) -> Read<()> {
    same(&format!("{what}: the refusal"), got.refusal, expected.refusal)?;
    same(what, got, expected)
}

/// What a state holds past its stashes is left free.
fn named(mut state: State) -> State {
    state.sizes.iter_mut().skip(state.count).for_each(|size| *size = 0);
    state.hashes.iter_mut().skip(state.count.saturating_mul(20)).for_each(|byte| *byte = 0);
    state
}

fn opening(case: &Record, on: &dyn Implementation) -> Read<()> {
    let list = case.bytes("list")?;
    let of = |name: &str| case.number(name);
    let (image, stash, work) = (of("image_len")?, of("stash_len")?, of("work_len")?);
    let state = on.open(&list, Rooms { image, stash, work, result: of("result_len")?, patch: of("patch_len")? });
    if case.text("expect") == Ok("ok") {
        return same("the refusal", state.refusal, Refusal { number: 0, line: 0, byte: 0 });
    }
    same_state("a refused opening's state", state, State { refusal: case.refusal("expect", 0)?, ..State::ZERO })
}

/// What a case lends beside the list.
struct Lent {
    image: Vec<u8>,
    stash: Vec<u8>,
    work: Vec<u8>,
    result: Vec<u8>,
    patch: Vec<u8>,
}

impl Lent {
    fn of(case: &Record) -> Read<Lent> {
        let (image, stash, work) = (case.bytes("image")?, case.bytes("stash")?, case.bytes("work")?);
        Ok(Lent { image, stash, work, result: case.bytes("result")?, patch: case.bytes("patch")? })
    }

    fn areas(&mut self) -> Areas<'_> {
        let Lent { image, stash, work, result, patch } = self;
        Areas { image, stash, work, result, patch }
    }

    /// The areas that are written.
    fn written(&self) -> [(&str, &[u8]); 4] {
        [("image", &self.image), ("stash", &self.stash), ("work", &self.work), ("result", &self.result)]
    }

    /// Each has the digest that the case has for it below this key.
    fn same_digests(&self, case: &Record, on: &dyn Implementation, key: &str) -> Read<()> {
        for (name, area) in self.written() {
            let key = format!("{key}.{name}");
            same(&key, hex(&on.digest(area)).as_str(), case.text(&key)?)?;
        }
        Ok(())
    }
}

/// A call from any state, and all bytes after it.
fn one_call(case: &Record, on: &dyn Implementation) -> Read<()> {
    let (list, piece) = (case.bytes("list")?, case.bytes("piece")?);
    let mut lent = Lent::of(case)?;
    let answer = on.call(&list, lent.areas(), &piece, case.state("state")?);
    same("the outcome", answer.outcome, case.outcome("outcome")?)?;
    same("what is taken", answer.taken, case.number("taken")?)?;
    same_state("the state after it", named(answer.state), case.state("state_after")?)?;
    for (name, area) in lent.written() {
        same_bytes(name, area, &case.bytes(&format!("{name}_after"))?)?;
    }
    same_bytes("patch", &lent.patch, &case.bytes("patch")?)
}

/// Calls from the opening, or from a state that was saved at a stop, over areas as a cut may have left them.
fn sequence(case: &Record, on: &dyn Implementation) -> Read<()> {
    let (list, new) = (case.bytes("list")?, case.bytes("new")?);
    let mut lent = Lent::of(case)?;
    let mut state = case.state("state")?;
    if case.has("uncut.outcome.0") {
        restart(case, on, &list, &new, state)?;
    } else {
        same_state("the opening's state", on.open(&list, lent.areas().rooms()), state)?;
    }
    let mut pieces = case.row("pieces")?;
    let mut not_taken = None;
    for step in case.row("steps")? {
        let key = pieces.next().ok_or("more steps than pieces")?;
        let (from, length): (usize, usize) = (case.number(&format!("{key}.0"))?, case.number(&format!("{key}.1"))?);
        let piece = from.checked_add(length).and_then(|end| new.get(from..end)).ok_or("a piece past the new data")?;
        same("where the piece after a stop begins", from, not_taken.unwrap_or(from))?;
        let of = |name: &str| format!("{step}.{name}");
        let answer = on.call(&list, lent.areas(), piece, state);
        state = answer.state;
        not_taken = (answer.outcome == Outcome::Stop).then_some(from + answer.taken);
        same(&of("outcome"), answer.outcome, case.outcome(&of("outcome"))?)?;
        same(&of("taken"), answer.taken, case.number(&of("taken"))?)?;
        same_state(&of("state"), named(state), case.state(&of("state"))?)?;
        lent.same_digests(case, on, &step)?;
        same_bytes("patch", &lent.patch, &case.bytes("patch")?)?;
    }
    match pieces.next() {
        Some(_) => Err("more pieces than steps".into()),
        None => Ok(()),
    }
}

/// The run that was cut ends as the one that was not, with the new data from the state's total on; with its state too, where the case has it.
fn restart(case: &Record, on: &dyn Implementation, list: &[u8], new: &[u8], state: State) -> Read<()> {
    let mut lent = Lent::of(case)?;
    let rest = usize::try_from(state.total).ok().and_then(|total| new.get(total..)).ok_or("a total past the new data")?;
    let answer = on.call_on(list, lent.areas(), rest, state);
    same("the outcome after the cut", answer.outcome, case.outcome("uncut.outcome")?)?;
    if case.has("uncut.state.pos") {
        same_state("the state after the cut", named(answer.state), case.state("uncut.state")?)?;
    }
    lent.same_digests(case, on, "uncut")
}

/// Saved and read back it is the same state, also past its stashes; other bytes are refused with 20, or are the saved form of what is read.
fn saved(case: &Record, on: &dyn Implementation) -> Read<()> {
    let state = case.state("state")?;
    let form = on.save(&state);
    same_bytes("the saved form", &form, &reference::saved::save(&state))?;
    match on.restore(&form) {
        Ok(back) => same_state("the state that is read back", back, state)?,
        Err(number) => return Err(format!("its own saved form is refused with {number}")),
    }
    let changed = (0..form.len()).flat_map(|at| [1, 0x80, 0xff].map(|bits| (at, bits))).map(|(at, bits)| {
        let mut other = form.clone();
        other[at] ^= bits;
        other
    });
    let shorter = [&form[1..], &form[..form.len() - 1], &[]].map(<[u8]>::to_vec);
    let longer = [0, 1, 0xff].map(|byte| [&form[..], &[byte]].concat());
    for other in changed.chain(shorter).chain(longer) {
        match on.restore(&other) {
            Err(number) => same("the number of other bytes", number, 20)?,
            Ok(back) => same("whether other bytes are what is saved of their state", on.save(&back) == other, true)?,
        }
    }
    Ok(())
}

/// A file, the image before it, and the image after it where it is loaded: as a whole, or zeros and what changes of them.
fn sparse(case: &Record, on: &dyn Implementation) -> Read<()> {
    let number: usize = case.number("number")?;
    let (before, after) = match (case.has("image_zeros"), number) {
        (false, 0) => ("image", Some("image_after")),
        (true, 0) => ("image_zeros", Some("image_changes")),
        (false, _) => ("image", None),
        (true, _) => ("image_zeros", None),
    };
    // Nothing that the case says is passed over.
    same("what the case has", case.names(), ["name", "file", "number", before].into_iter().chain(after).collect())?;
    let file = case.bytes("file")?;
    let zeros = |length: usize| vec![0u8; length];
    let mut image = if before == "image" { case.bytes(before)? } else { zeros(case.number(before)?) };
    let kept = if before == "image" { image.clone() } else { Vec::new() };
    same("the number", on.load_sparse(&file, &mut image).err().unwrap_or(0), number)?;
    match (before, after) {
        ("image", None) => same_bytes("image", &image, &kept),
        ("image", Some(after)) => same_bytes("image", &image, &case.bytes(after)?),
        (_, after) => {
            for change in after.map_or(Ok(None), |after| case.row(after).map(Some))?.into_iter().flatten() {
                let (at, bytes): (usize, Vec<u8>) = (case.number(&format!("{change}.0"))?, case.bytes(&format!("{change}.1"))?);
                let there = at.checked_add(bytes.len()).and_then(|end| image.get_mut(at..end)).ok_or("a change past the image")?;
                same_bytes("image", there, &bytes)?;
                there.fill(0);
            }
            // The rest, by blocks: it may be larger than what memory has for a second one.
            let zero = [0; 1 << 16];
            same("all else being 0", image.chunks(zero.len()).all(|part| *part == zero[..part.len()]), true)
        }
    }
}

fn same_bytes(name: &str, got: &[u8], expected: &[u8]) -> Read<()> {
    same(&format!("the length of {name}"), got.len(), expected.len())?;
    match got.iter().zip(expected).position(|(a, b)| a != b) {
        Some(at) => Err(format!("{name} differs at byte {at}")),
        None => Ok(()),
    }
}
