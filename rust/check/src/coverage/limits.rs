//! What only long tables and long rows of marks get right: many stashes, and sources past 4,096 blocks.

use super::{blocks, hash_of, ranges};
use reference::{Answer, Lengths, State, BLOCK, MOST_STASHES};

/// Stashes, and blocks of an area, from which a table or a row of marks that is too short would show.
const MANY: usize = 64;
const LONG: u64 = 4_096;

/// The fourth and the last five are of openings, the others of calls.
pub const LIMITS: [&str; 11] = [
    "over 64 stashes held",
    "256 stashes held",
    "a stash past the 64th in a source",
    "a 257th stash opened",
    "a 257th stash called",
    "one hash twice, over 64 apart",
    "an area past 4,096 blocks",
    "N past 4,096",
    "a place past 4,096",
    "12 for a place at N or above, N past 4,096",
    "12 for places taken twice, all past 4,096",
];

/// What an opening had of these.
pub(super) fn opened(list: &[u8], lengths: &Lengths, state: &State) -> [bool; LIMITS.len()] {
    let mut has = [false; LIMITS.len()];
    let refusal = state.refusal;
    let lines = || list.split(|c| *c == b'\n');
    if refusal.number == 14 {
        let before = |word: &[u8]| lines().take(refusal.line - 1).filter(|line| line.starts_with(word)).count();
        has[3] = before(b"stash ") - before(b"free ") == MOST_STASHES;
    }
    if lengths.stash.max(lengths.work) as u64 <= LONG * BLOCK as u64 {
        return has;
    }
    match refusal.number {
        0 => {
            has[6] = true;
            for (n, places) in lines().filter_map(placed) {
                has[7] |= n > LONG;
                has[8] |= places.iter().any(|place| *place >= LONG);
            }
        }
        12 => {
            if let Some((n, mut places)) = lines().nth(refusal.line - 1).and_then(placed) {
                has[9] = n > LONG && places.iter().any(|place| *place >= n);
                places.sort();
                let twice: Vec<u64> = places.windows(2).filter(|two| two[0] == two[1]).map(|two| two[0]).collect();
                has[10] = !has[9] && !twice.is_empty() && twice.iter().all(|place| *place >= LONG);
            }
        }
        _ => {}
    }
    has
}

/// Two of the hashes that are the same stand far from one another, and none near.
fn far_apart(state: &State) -> bool {
    let hash = |k: usize| &state.hashes[20 * k..20 * k + 20];
    let same = (0..state.count).flat_map(|k| (0..k).map(move |j| (j, k))).filter(|(j, k)| hash(*j) == hash(*k));
    same.map(|(j, k)| k - j).min() > Some(MANY)
}

/// What a call had of these; whether it was refused with 17 for one hash twice.
pub(super) fn called(list: &[u8], before: &State, answer: &Answer, twice: bool) -> [bool; LIMITS.len()] {
    let mut has = [false; LIMITS.len()];
    let (count, number) = (answer.state.count, answer.outcome.number());
    if number == 17 {
        has[5] = twice && far_apart(before);
        return has;
    }
    has[0] = count > MANY;
    has[1] = count == MOST_STASHES;
    has[4] = count == MOST_STASHES && number == 14;
    if before.count > MANY {
        let names: Vec<Vec<u8>> = (MANY..before.count).map(|k| hash_of(before, k)).collect();
        let sourced =
            list[before.at..answer.state.at].split(|c| *c == b'\n').filter(|line| line.starts_with(b"move ") || line.starts_with(b"bsdiff "));
        has[2] = sourced
            .flat_map(|line| line.split(|c| *c == b' '))
            .any(|field| field.get(40) == Some(&b':') && names.iter().any(|name| field.starts_with(name)));
    }
    has
}

/// N and the places of a `move` or a `bsdiff` whose source names stashes.
fn placed(line: &[u8]) -> Option<(u64, Vec<u64>)> {
    let fields: Vec<&[u8]> = line.split(|c| *c == b' ').collect();
    let (n, source) = match fields[..] {
        [b"move", _, _, n, ref source @ ..] | [b"bsdiff", _, _, _, _, _, n, ref source @ ..] => (n, source),
        _ => return None,
    };
    let n = std::str::from_utf8(n).ok()?.parse().ok()?;
    let sets: Vec<Vec<(u64, u64)>> = source.get(1..)?.iter().map(|field| ranges(field)).collect::<Option<_>>()?;
    // Few enough to be laid out: a good line has N of them.
    if sets.iter().map(|set| blocks(set)).sum::<u64>() > 1 << 20 {
        return None;
    }
    Some((n, sets.iter().flatten().flat_map(|(start, end)| *start..*end).collect()))
}
