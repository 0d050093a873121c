//! The rules a second time, slow and by other means: lines and fields are split apart, every number that applies to a line is
//! collected before the lowest is taken, where a line is wrong is found by trying, a line is a row of parts with stops between them, and new
//! data goes byte by byte. It guards the plain loops against slips.

mod fault;
mod patch;
mod read;
mod run;
mod sparse;
mod writes;

use crate::{Answer, Areas, Lengths, Outcome, Refusal, Rooms, State, BLOCK, MOST_STASHES};
use read::{blocks, decode, past, rules, size, Command, Ranges, Rules, Source};
use run::{End, Part, Run};
pub use sparse::load_sparse;
pub use writes::{writes, Writes};

/// Stashes: hash and blocks, oldest first.
type Held = [(Vec<u8>, u64)];

/// Those that a state holds.
fn stashes(state: &State) -> Vec<(Vec<u8>, u64)> {
    state.hashes.chunks(20).map(|h| h.to_vec()).zip(state.sizes.iter().map(|s| *s as u64)).take(state.count).collect()
}

/// Every number of 8 to 14 and 18 that applies; 12 is looked at only where no lower one does.
fn faults(command: &Command, rules: &Rules, held: &Held) -> Vec<usize> {
    let mut found = Vec::new();
    let mut fault = |number: usize, applies: bool| {
        if applies {
            found.push(number)
        }
    };
    let size_of = |name: &Vec<u8>| held.iter().find(|stash| stash.0 == *name).map(|stash| stash.1);
    match command {
        Command::Zero(target) | Command::Erase(target) | Command::New(target) => fault(8, past(target, rules.image)),
        Command::Free { hash } => fault(10, size_of(hash).is_none()),
        Command::Stash { hash, source } => {
            fault(14, held.len() as u64 + 1 > rules.stashes);
            fault(14, held.iter().map(|stash| stash.1).sum::<u64>() + size(source) > rules.held);
            fault(13, size_of(hash).is_some());
            fault(9, size(source) > rules.work);
            fault(8, past(source, rules.image));
        }
        Command::Move { target, n, source, .. } | Command::Bsdiff { target, n, source, .. } => {
            if let Command::Bsdiff { patch: (from, bytes), .. } = command {
                fault(18, (*from as u128 + *bytes as u128) > rules.patch as u128);
                fault(9, size(target) > rules.result);
            } else {
                fault(11, size(target) != *n);
            }
            fault(8, past(target, rules.image));
            fault(9, *n > rules.work);
            let nothing = Vec::new();
            let (from, first, parts) = match source {
                Source::Image(from) => (Some(from), None, &nothing),
                Source::Stashes(parts) => (None, None, parts),
                Source::Both(from, first, parts) => (Some(from), Some(first), parts),
            };
            if let Some(from) = from {
                fault(8, past(from, rules.image));
                fault(9, size(from) > rules.work);
                fault(11, size(from) != first.map_or(*n, size));
            }
            for (name, places) in parts {
                match size_of(name) {
                    None => fault(10, true),
                    Some(blocks) => fault(11, blocks != size(places)),
                }
            }
            if from.is_none() || first.is_some() {
                let sets: Vec<&Ranges> = first.into_iter().chain(parts.iter().map(|part| &part.1)).collect();
                fault(11, sets.iter().map(|set| size(set)).sum::<u64>() != *n);
                if found.iter().all(|number| *number > 12) {
                    let mut places: Vec<usize> = sets.into_iter().flat_map(blocks).collect();
                    places.sort();
                    if places != (0..*n as usize).collect::<Vec<_>>() {
                        found.push(12);
                    }
                }
            }
        }
    }
    found
}

/// The command of the line that starts at this byte; or the number that it is refused with, and for 6 the byte.
fn judge(line: &[u8], at: usize, rules: &Rules, held: &Held) -> Result<Command, (usize, usize)> {
    let command = decode(line).map_err(|number| (number, if number == 6 { at + fault::of_command(line) } else { 0 }))?;
    match faults(&command, rules, held).into_iter().min() {
        Some(number) => Err((number, 0)),
        None => Ok(command),
    }
}

/// The refusal of an opening, if any, and where its first command line starts.
fn opening(list: &[u8], lengths: &Lengths) -> Result<usize, Refusal> {
    let rules = rules(list, lengths)?;
    let mut held: Vec<(Vec<u8>, u64)> = Vec::new();
    let mut counted: Vec<u64> = Vec::new();
    let mut at = rules.after;
    for (k, line) in list[rules.after..].split_inclusive(|c| *c == b'\n').enumerate() {
        match judge(line, at, &rules, &held).map_err(|(number, byte)| Refusal { number, line: k + 5, byte })? {
            Command::New(target) | Command::Zero(target) => counted.push(size(&target)),
            Command::Move { target, .. } | Command::Bsdiff { target, .. } => counted.push(size(&target)),
            Command::Erase(_) => {}
            Command::Stash { hash, source } => held.push((hash, size(&source))),
            Command::Free { hash } => held.retain(|stash| stash.0 != hash),
        }
        at += line.len();
    }
    if counted.iter().sum::<u64>() != rules.total {
        return Err(Refusal { number: 15, line: 2, byte: 0 });
    }
    Ok(rules.after)
}

pub fn open(list: &[u8], rooms: Rooms) -> State {
    let lengths = Lengths::of(list, rooms);
    let mut state = State::ZERO;
    match opening(list, &lengths) {
        Ok(at) => {
            state.line = 5;
            state.at = at;
            state.lengths = lengths;
        }
        Err(refusal) => state.refusal = refusal,
    }
    state
}

fn impossible(list: &[u8], lengths: &Lengths, state: &State) -> bool {
    let Ok(rules) = rules(list, lengths) else { return true };
    let starts: Vec<usize> = std::iter::once(0).chain((0..list.len()).filter(|k| list[*k] == b'\n').map(|k| k + 1)).collect();
    let Some(before) = starts.iter().position(|start| *start == state.at) else { return true };
    if *lengths != state.lengths || before < 4 || before + 1 != state.line || state.count > MOST_STASHES {
        return true;
    }
    let held = stashes(state);
    let mut names: Vec<&Vec<u8>> = held.iter().map(|stash| &stash.0).collect();
    names.sort();
    names.dedup();
    if names.len() != held.len() || held.iter().map(|stash| stash.1 as u128).sum::<u128>() > rules.held as u128 {
        return true;
    }
    if held.iter().any(|stash| stash.1 == 0) {
        return true;
    }
    let line = list[state.at..].split_inclusive(|c| *c == b'\n').next().unwrap_or(b"");
    let midway = |in_line: &dyn Fn(Command) -> bool| judge(line, state.at, &rules, &held).is_ok_and(in_line);
    let bytes = |command| matches!(command, Command::New(target) if size(&target) as u128 * BLOCK as u128 > state.into as u128);
    let area = |command| matches!(command, Command::Move { .. } | Command::Stash { .. } | Command::Bsdiff { .. });
    let gap = |command| matches!(command, Command::Free { hash } if run::stretches(&held, &hash).len() > state.stretches);
    (state.into != 0 && !midway(&bytes)) || (state.ready != 0 && !midway(&area)) || (state.stretches != 0 && !midway(&gap))
}

/// What a call runs with, from a possible state; or what it is refused with at once.
fn begin<'a>(list: &[u8], areas: Areas<'a>, piece: &'a [u8], state: State) -> Result<(Run<'a>, Rules), Refusal> {
    if state.refusal.number != 0 {
        return Err(state.refusal);
    }
    let lengths = Lengths::of(list, areas.rooms());
    if impossible(list, &lengths, &state) {
        return Err(Refusal { number: 17, line: 0, byte: 0 });
    }
    let Areas { image, stash, work, result, patch } = areas;
    Ok((Run { image, stash, work, result, patch, piece, state, taken: 0 }, rules(list, &lengths).expect("possible")))
}

/// One call with one piece of new data, to the next stop or to where the run ends.
pub fn call(list: &[u8], areas: Areas, piece: &[u8], state: State) -> Answer {
    match begin(list, areas, piece, state) {
        Ok((mut run, rules)) => {
            let end = to_stop(list, &rules, &mut run, |_, _| ());
            run.answers(end)
        }
        Err(refusal) => Answer { state, outcome: Outcome::Refused(refusal), taken: 0 },
    }
}

/// A part of a line that was done, or begun: with the stashes and the bytes into a `new` before it, and the bytes that it took.
struct Did<'a> {
    part: &'a Part,
    command: &'a Command,
    held: &'a Held,
    into: usize,
    bytes: usize,
}

/// Part after part, to the first that has a stop behind it; each is shown with the run as it left it.
fn to_stop(list: &[u8], rules: &Rules, run: &mut Run, mut shown: impl FnMut(&Run, Did)) -> End {
    for line in list[run.state.at..].split_inclusive(|c| *c == b'\n') {
        let held = stashes(&run.state);
        let command = match judge(line, run.state.at, rules, &held) {
            Ok(command) => command,
            Err((number, byte)) => return End::Refused(number, byte),
        };
        let parts = run.left(&command, &held);
        let (into, taken) = (run.state.into, run.taken);
        let done = run.does(&parts[0], &command, &held);
        shown(run, Did { part: &parts[0], command: &command, held: &held, into, bytes: run.taken - taken });
        if let Err(end) = done {
            return end;
        }
        if parts.len() == 1 {
            run.passes(&command, &held, line.len());
        }
        if parts[0].stops() {
            return End::Stop;
        }
    }
    End::Done
}

/// The model of document 01, as document 02 has it by now: without stops, to where the run ends. A line that is begun is first brought to its
/// end by calls.
pub fn through(list: &[u8], mut areas: Areas, data: &[u8], mut state: State) -> Answer {
    while state.ready != 0 || state.stretches != 0 {
        let answer = call(list, areas.reborrow(), &[], state);
        if answer.outcome != Outcome::Stop {
            return answer;
        }
        state = answer.state;
    }
    match begin(list, areas, data, state) {
        Ok((mut run, rules)) => {
            let end = to_end(list, &rules, &mut run);
            run.answers(end)
        }
        Err(refusal) => Answer { state, outcome: Outcome::Refused(refusal), taken: 0 },
    }
}

/// Line after line.
fn to_end(list: &[u8], rules: &Rules, run: &mut Run) -> End {
    for line in list[run.state.at..].split_inclusive(|c| *c == b'\n') {
        let held = stashes(&run.state);
        let command = match judge(line, run.state.at, rules, &held) {
            Ok(command) => command,
            Err((number, byte)) => return End::Refused(number, byte),
        };
        let parts = match command {
            Command::Free { .. } => vec![Part::Free],
            _ => run.left(&command, &held),
        };
        for part in &parts {
            if let Err(end) = run.does(part, &command, &held) {
                return end;
            }
        }
        run.passes(&command, &held, line.len());
    }
    End::Done
}
