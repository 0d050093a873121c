//! Where a line is wrong, found by trying: as many of its bytes are right as some good line begins with. Which lines are good, the reader of
//! whole lines says alone.
//!
//! An ending that makes a line good proves that it can go on. Where none of those that are tried does, none does at all:
//! - Fields before the last one stay as they are. Behind the last one come those of some form with the same word, and any will do, since no
//!   field's form depends on what another one says. Behind its last field a form can only go on with P's.
//! - A word, a hash, a dash, and a P up to its colon have one length, and so has a field with no byte yet: what it lacks is what the form's own
//!   field has from there on. A hash takes any digits.
//! - A number that is no end is good with the digits that it has, or with a 0 where it has none: a digit more makes no start smaller. A count
//!   that is odd may be even with a digit more; the least that can follow is a 0, and makes it even.
//! - An end passes its start if the greatest number does that begins with its digits: 4,294,967,295 if that does, else they and as many nines
//!   as fit.
//! - Behind a count the first block, behind a start the greatest end, behind an end nothing: the set then has whole pairs.
//! - A set may announce more numbers than any list has room for. Each pair is judged alone, and those that are missing may name the first block:
//!   with an even count the set can go on just when it is good with the number of those that are there in the count's place.

use super::read::{decode, number};

const HASH: &str = "0000000000000000000000000000000000000000";
const PART: &str = "0000000000000000000000000000000000000000:2,0,1";
const SET: &str = "2,0,1";
const MOST: &str = "4294967295";

/// A line of each form, by its fields.
const FORMS: [&[&str]; 11] = [
    &["zero", SET],
    &["erase", SET],
    &["new", SET],
    &["stash", HASH, SET],
    &["free", HASH],
    &["move", HASH, SET, "0", SET],
    &["move", HASH, SET, "0", "-", PART],
    &["move", HASH, SET, "0", SET, SET, PART],
    &["bsdiff", "0", "0", HASH, HASH, SET, "0", SET],
    &["bsdiff", "0", "0", HASH, HASH, SET, "0", "-", PART],
    &["bsdiff", "0", "0", HASH, HASH, SET, "0", SET, SET, PART],
];

/// Which byte of a command line, which is no good, is the first at which no good line goes on: one of it, its LF, or the text's end behind it.
pub(super) fn of_command(line: &[u8]) -> usize {
    longest(line, |start| {
        let fields: Vec<&[u8]> = start.split(|c| *c == b' ').collect();
        FORMS.iter().filter(|form| fields.len() == 1 || form[0].as_bytes() == fields[0]).any(|form| goes_on(&fields, form))
    })
}

/// The same of a header line.
pub(super) fn of_header(line: &[u8]) -> usize {
    longest(line, |start| ["", "0"].iter().any(|more| number(&[start, more.as_bytes()].concat()).is_some()))
}

/// The longest beginning that can go on. Those of one that can go on can too, and one of no byte can, so it is sought by halves.
fn longest(line: &[u8], can: impl Fn(&[u8]) -> bool) -> usize {
    let body = line.strip_suffix(b"\n").unwrap_or(line);
    let (mut good, mut bad) = (0, body.len() + 1);
    while bad - good > 1 {
        let between = (good + bad) / 2;
        if can(&body[..between]) {
            good = between;
        } else {
            bad = between;
        }
    }
    good
}

/// Whether these fields, the last of them with some ending, and those that the form has behind it are a good line.
fn goes_on(fields: &[&[u8]], form: &[&str]) -> bool {
    let (before, last) = fields.split_at(fields.len() - 1);
    let here = form.get(before.len()).unwrap_or(&form[form.len() - 1]);
    let after = form.get(fields.len()..).unwrap_or(&[]);
    endings(last[0], here).into_iter().any(|ending| {
        let whole = lowered([last[0], ending.as_bytes()].concat());
        let mut line = before.to_vec();
        line.push(&whole);
        line.extend(after.iter().map(|field| field.as_bytes()));
        decode(&[line.join(&b' '), b"\n".to_vec()].concat()).is_ok()
    })
}

/// What is tried behind the bytes of a field, where the form has that one.
fn endings(field: &[u8], form: &str) -> Vec<String> {
    let commas = field.iter().filter(|c| **c == b',').count();
    let digits = field.iter().rev().take_while(|c| c.is_ascii_digit()).count();
    let mut all = vec![form.get(field.len()..).unwrap_or("").to_string()];
    match commas {
        0 => all.extend([",0,1", "0,0,1"].map(String::from)),
        _ if commas % 2 == 1 => all.extend(["", "0"].map(|more| format!("{more},{MOST}"))),
        _ => {
            all.extend((0..=9).map(|nines| "9".repeat(nines)));
            all.push(MOST.get(digits..).unwrap_or("").to_string());
        }
    }
    all
}

/// The field, with the number of the numbers that are there in the place of a greater even count.
fn lowered(field: Vec<u8>) -> Vec<u8> {
    let set = field.iter().position(|c| *c == b':').map_or(0, |colon| colon + 1);
    let Some(comma) = field[set..].iter().position(|c| *c == b',') else { return field };
    let there = field[set..].iter().filter(|c| **c == b',').count();
    match number(&field[set..set + comma]) {
        Some(count) if count % 2 == 0 && count > there as u64 => [&field[..set], there.to_string().as_bytes(), &field[set + comma..]].concat(),
        _ => field,
    }
}
