//! Texts spoiled byte by byte.

use super::ill::{ill_header, ill_line};
use super::lines::{line_around, line_starts};
use super::Rng;
use reference::{MOST_AREA, MOST_STASHES};

const LIKELY: &[u8] = b"0123456789abcdef ,:-\n\n01279 ,ABFGgz+.\t\r\0\xff/;`";

/// Spoils the text itself.
pub fn damage(rng: &mut Rng, list: &mut Vec<u8>) {
    for _ in 0..rng.pick(&[1, 1, 1, 2, 3]) {
        let some = !list.is_empty();
        let at = rng.below(list.len());
        match rng.below(26) {
            0..=2 if some => list[at] = rng.pick(LIKELY),
            3 if some => list[at] = rng.next_u64() as u8,
            4 | 5 => list.insert(at, rng.pick(LIKELY)),
            6 | 7 if some => {
                list.remove(at);
            }
            8 => list.truncate(at),
            9 => {
                list.pop();
            }
            10 => swap_lines(rng, list),
            11 | 12 => border_number(rng, list),
            14 => ill_set(rng, list),
            15 => cut_off(rng, list, at),
            16 => other_space(rng, list),
            17 | 18 => header_byte(rng, list),
            19..=25 => other_line(rng, list),
            _ => again_or_gone(rng, list, at),
        }
    }
}

fn swap_lines(rng: &mut Rng, list: &mut Vec<u8>) {
    let mut lines: Vec<Vec<u8>> = list.split_inclusive(|c| *c == b'\n').map(|l| l.to_vec()).collect();
    if lines.len() > 1 {
        let (a, b) = (rng.below(lines.len()), rng.below(lines.len()));
        lines.swap(a, b);
    }
    *list = lines.concat();
}

/// Puts a number that stands at some border in the place of one that stands there.
fn border_number(rng: &mut Rng, list: &mut Vec<u8>) {
    let starts: Vec<usize> =
        (0..list.len()).filter(|k| list[*k].is_ascii_digit() && (*k == 0 || matches!(list[*k - 1], b' ' | b',' | b':' | b'\n'))).collect();
    if starts.is_empty() {
        return;
    }
    let start = rng.pick(&starts);
    let end = start + list[start..].iter().take_while(|c| c.is_ascii_digit()).count();
    let old = String::from_utf8_lossy(&list[start..end]).to_string();
    let value: u64 = old.parse().unwrap_or(0);
    let new = match rng.below(13) {
        0 => "4294967295".to_string(),
        1 => "4294967296".to_string(),
        2 => "4294967297".to_string(),
        3 => "18446744073709551616".to_string(),
        4 => format!("0{old}"),
        5 => format!("+{old}"),
        6 => String::new(),
        7 => format!("{}", value.saturating_sub(1)),
        8 => "0".to_string(),
        9 => format!("{}", value + (1u64 << 32)),
        10 => "00".to_string(),
        11 => "4294967294".to_string(),
        _ => format!("{}", value + 1),
    };
    list.splice(start..end, new.into_bytes());
}

const ILL_SETS: [&str; 19] = [
    "0",
    "1,0",
    "3,0,1,2",
    "2,1,0",
    "4,0,1",
    "2,0,1,2",
    "2,,1",
    "2,0",
    "2",
    "02,0,1",
    "2,0,1,",
    "",
    "2,0,1,0,1",
    "4294967294,0,1",
    "2,0,-1",
    "1,0,1",
    "2,0,0",
    "2,3,3",
    "4,0,1,8,8",
];

/// Puts an ill-formed range set in the place of one that stands there.
fn ill_set(rng: &mut Rng, list: &mut Vec<u8>) {
    let starts: Vec<usize> = (1..list.len()).filter(|k| list[*k].is_ascii_digit() && matches!(list[*k - 1], b' ' | b':')).collect();
    if starts.is_empty() {
        return;
    }
    let start = rng.pick(&starts);
    let end = start + list[start..].iter().take_while(|c| !matches!(c, b' ' | b'\n')).count();
    list.splice(start..end, rng.pick(&ILL_SETS).bytes());
}

const LAST_LINES: [&[u8]; 11] = [
    b"bsdiff",
    b"imgdiff",
    b"bsdiff ",
    b"imgdiff 0 1",
    b"bsdiff 0 0 da39a3ee5e6b4b0d3255bfef95601890afd80709 da39a3ee5e6b4b0d3255bfef95601890afd80709 2,0,1 1 2,0,1",
    b"bsdif",
    b"imgdiffs",
    b"zero 2,0,1",
    b"free da39a3ee5e6b4b0d3255bfef95601890afd80709",
    b"new 2,0",
    b"\n",
];

/// The text ends within the line around this byte.
fn cut_off(rng: &mut Rng, list: &mut Vec<u8>, at: usize) {
    let (start, _) = line_around(list, at);
    list.truncate(start);
    list.extend_from_slice(rng.pick(&LAST_LINES));
}

/// A space more, one less, or another byte in its place.
fn other_space(rng: &mut Rng, list: &mut Vec<u8>) {
    let spaces: Vec<usize> = (0..list.len()).filter(|k| list[*k] == b' ').collect();
    if spaces.is_empty() {
        return;
    }
    let k = rng.pick(&spaces);
    match rng.below(3) {
        0 => list.insert(k, b' '),
        1 => list[k] = rng.pick(b"\t\n,:"),
        _ => {
            list.remove(k);
        }
    }
}

/// A byte of the header, mostly: another, one less, one more.
fn header_byte(rng: &mut Rng, list: &mut Vec<u8>) {
    let some = !list.is_empty();
    let k = rng.below(10.min(list.len()));
    match rng.below(3) {
        0 if some => list[k] = rng.pick(b"0123459 \r\n\n+,a\t-"),
        1 if some => {
            list.remove(k);
        }
        _ => list.insert(k, rng.pick(b"0011239 \r\r\n\n+,a\t-")),
    }
}

/// An ill-formed line in the place of one behind the header, or between two; mostly the text ends with it where it has no LF. Now and then it is
/// the header that is ill formed.
pub fn other_line(rng: &mut Rng, list: &mut Vec<u8>) {
    if rng.one_in(8) {
        return header_in_place(rng, list);
    }
    let starts = line_starts(list);
    let last = starts.len() - 1;
    let start = starts[rng.between(4.min(last), last)];
    let end = if rng.percent(50) { line_around(list, start).1 } else { start };
    let line = ill_line(rng);
    let cut = !line.ends_with(b"\n") && rng.percent(80);
    let after = start + line.len();
    list.splice(start..end, line);
    if cut {
        list.truncate(after);
    }
}

/// An ill-formed header, or what there is of it.
fn header_in_place(rng: &mut Rng, list: &mut Vec<u8>) {
    let after = line_starts(list).get(4).copied().unwrap_or(list.len());
    list.splice(0..after, ill_header(rng));
}

/// The line around this byte, somewhere once more or taken out.
fn again_or_gone(rng: &mut Rng, list: &mut Vec<u8>, at: usize) {
    let (start, end) = line_around(list, at);
    if rng.percent(50) {
        let line = list[start..end].to_vec();
        let to = line_around(list, rng.below(list.len())).0;
        list.splice(to..to, line);
    } else {
        list.drain(start..end);
    }
}

/// Puts another number, or none that is one, in a line of the header.
pub fn other_header(rng: &mut Rng, list: &mut Vec<u8>, stash: usize) {
    let starts = line_starts(list);
    let line = rng.below(4);
    let (Some(start), Some(next)) = (starts.get(line), starts.get(line + 1)) else { return };
    let text = match line {
        _ if rng.one_in(4) => rng.pick(&["", "03", "+3", "4294967296", "3 ", "3\r", "x"]).to_string(),
        0 => rng.pick(&["0", "1", "2", "4", "33", "4294967295"]).to_string(),
        1 => rng.pick(&["0", "1", "7", "4294967295"]).to_string(),
        2 => rng.pick(&[0, 1, 64, 65, MOST_STASHES - 1, MOST_STASHES, MOST_STASHES + 1, MOST_STASHES + 2, 4_294_967_295]).to_string(),
        _ => rng.pick(&[0, 1, stash.saturating_sub(1), stash, stash + 1, stash + 1, 4_097, MOST_AREA + 1]).to_string(),
    };
    list.splice(*start..*next - 1, text.into_bytes());
}
