//! Where a line is wrong: the byte that 3 and 6 report, on all three implementations.

use check::{Implementation, Library, Model, Plain};
use reference::{Refusal, Rooms, State, BLOCK};

const HEADER: &str = "3\n0\n0\n0\n";
const H: &str = "da39a3ee5e6b4b0d3255bfef95601890afd80709";

/// What an opening is refused with, the same on all.
fn refusal(list: &[u8]) -> Refusal {
    let all: [&dyn Implementation; 3] = [&Plain, &Model, &Library];
    let rooms = Rooms { image: 8 * BLOCK, stash: BLOCK, work: BLOCK, result: BLOCK, patch: 0 };
    let [one, other, third] = all.map(|on| on.open(list, rooms));
    assert!(one == other && other == third, "{}: {:?}", list.escape_ascii(), [one, other, third].map(|state| state.refusal));
    if one.refusal.number != 0 {
        assert_eq!(one, State { refusal: one.refusal, ..State::ZERO });
    }
    one.refusal
}

/// The text ends with a line that is wrong at this place, counted from where the line's last part begins, behind `before`. It is wrong there
/// whatever stands behind that byte. Cut before it, the line can go on, so that it is wrong where the text ends; and with the ending it is good,
/// where there is one that fits a list.
fn wrong_at(before: &str, part: &str, place: usize, ending: Option<&str>) {
    let line = before.matches('\n').count() + 1;
    let wrong = |place: usize| Refusal { number: 6, line, byte: before.len() + place };
    let with = |part: &[u8], after: &str| [before.as_bytes(), part, after.as_bytes()].concat();
    let part = part.as_bytes();
    for after in ["\n", "\nzero 2,0,1\n", "\nx\n", "\n\n"] {
        assert_eq!(refusal(&with(part, after)), wrong(place), "{}", with(part, after).escape_ascii());
    }
    // The text may end anywhere; where it ends with LF there is no such line.
    for cut in before.ends_with('\n') as usize..=part.len() {
        let text = with(&part[..cut], "");
        let is_7 = text.ends_with(b"\nimgdiff") || text.windows(9).any(|bytes| bytes == b"\nimgdiff ");
        let expected = if is_7 { Refusal { number: 7, line, byte: 0 } } else { wrong(cut.min(place)) };
        assert_eq!(refusal(&text), expected, "{}", text.escape_ascii());
    }
    if place < part.len() {
        for after in ["0", "9", ",", " ", ":", "a", "-", "0,1\n", " 2,0,1\n", "\nx"] {
            assert_eq!(refusal(&with(&part[..=place], after)), wrong(place), "{}", with(&part[..=place], after).escape_ascii());
        }
    }
    if let Some(ending) = ending {
        let good = with(&part[..place], &format!("{ending}\n"));
        assert!(!matches!(refusal(&good).number, 3 | 6 | 7), "{}", good.escape_ascii());
    }
}

#[test]
fn header_lines() {
    for (text, line, byte) in [
        ("", 1, 0),
        ("\n", 1, 0),
        ("3", 1, 1),
        ("3\n", 2, 2),
        ("3\n0\n", 3, 4),
        ("3\n0\n0\n", 4, 6),
        ("3\n0\n0\n0", 4, 7),
        ("03\n0\n0\n0\n", 1, 1),
        ("00\n0\n0\n0\n", 1, 1),
        ("3 \n0\n0\n0\n", 1, 1),
        (" 3\n0\n0\n0\n", 1, 0),
        ("3\r\n0\n0\n0\n", 1, 1),
        ("+3\n0\n0\n0\n", 1, 0),
        ("-3\n0\n0\n0\n", 1, 0),
        ("3,\n0\n0\n0\n", 1, 1),
        ("3\0\n0\n0\n0\n", 1, 1),
        ("3\u{e4}\n0\n0\n0\n", 1, 1),
        ("4294967296\n0\n0\n0\n", 1, 9),
        ("4294967300\n0\n0\n0\n", 1, 9),
        ("42949672950\n0\n0\n0\n", 1, 10),
        ("99999999999\n0\n0\n0\n", 1, 9),
        ("3\n\n0\n0\n", 2, 2),
        ("3\n01\n0\n0\n", 2, 3),
        ("3\n4294967296\n0\n0\n", 2, 11),
        ("3\n0\nimgdiff\n0\n", 3, 4),
        ("3\n0\n0\n0 \nzero 2,0,1\n", 4, 7),
        ("3\n0\n0\nx0\nzero 2,0,1\n", 4, 6),
        // 3 comes before 4 and 5, and the first line that is wrong before a later one.
        ("7\n0\n0\n", 4, 6),
        ("7\n0\n999\nx\n", 4, 8),
        ("3\n0\n99999999999\n", 3, 13),
        ("3\nx\ny\nz\n", 2, 2),
    ] {
        for cut in 0..=text.len() {
            let there = &text.as_bytes()[..cut];
            let lines = there.iter().filter(|byte| **byte == b'\n').count();
            let (line, byte) = if cut <= byte { (lines + 1, cut) } else { (line, byte) };
            assert_eq!(refusal(there), Refusal { number: 3, line, byte }, "{}", there.escape_ascii());
        }
    }
}

/// A set stands wherever a line has one, and is wrong at the same place in it.
#[test]
fn range_sets() {
    // What stands before the set, and behind it.
    let places: Vec<(String, String)> = vec![
        ("zero ".into(), "".into()),
        ("erase ".into(), "".into()),
        ("new ".into(), "".into()),
        (format!("stash {H} "), "".into()),
        (format!("move {H} "), " 0 2,0,1".into()),
        (format!("move {H} 2,0,1 0 "), "".into()),
        (format!("move {H} 2,0,1 0 "), format!(" 2,0,1 {H}:2,0,1")),
        (format!("move {H} 2,0,1 0 2,0,1 "), format!(" {H}:2,0,1")),
        (format!("move {H} 2,0,1 0 - {H}:"), "".into()),
        (format!("move {H} 2,0,1 0 2,0,1 2,0,1 {H}:2,0,1 {H}:"), format!(" {H}:2,0,1")),
        (format!("bsdiff 0 0 {H} {H} "), " 0 2,0,1".into()),
        (format!("bsdiff 0 0 {H} {H} 2,0,1 0 "), "".into()),
        (format!("bsdiff 0 0 {H} {H} 2,0,1 0 - {H}:"), "".into()),
    ];
    let blocks = |count: usize| ",0,1".repeat(count / 2);
    // The set, the place in it, which may be the byte behind it, and an ending from there on.
    let sets: Vec<(&str, usize, Option<String>)> = vec![
        // The count: none begins with 0; an odd one may become even, as long as another digit fits.
        ("", 0, Some("2,0,1".into())),
        ("0", 0, Some("2,0,1".into())),
        ("00", 0, Some("2,0,1".into())),
        ("0,1", 0, Some("2,0,1".into())),
        ("02,0,1", 0, Some("2,0,1".into())),
        ("1", 1, Some(format!("0{}", blocks(10)))),
        ("1,2", 1, Some(format!("0{}", blocks(10)))),
        ("3,1,2,3", 1, Some(format!("0{}", blocks(30)))),
        ("7,1,2", 1, Some(format!("8{}", blocks(78)))),
        ("11,1,2", 2, Some(format!("0{}", blocks(110)))),
        ("429496729,1", 9, None),
        ("4294967291,1", 9, None),
        ("4294967295,1", 9, None),
        ("4294967296,1", 9, None),
        ("429496731,1", 8, None),
        ("429496730", 9, None),
        ("500000001,1", 8, None),
        ("500000000", 9, None),
        ("2147483649,1", 9, None),
        ("4294967294", 10, None),
        ("4294967294,x", 11, None),
        ("99999999999", 8, None),
        ("+2,0,1", 0, Some("2,0,1".into())),
        ("a", 0, Some("2,0,1".into())),
        (" 2,0,1", 0, Some("2,0,1".into())),
        // As many numbers as it says, joined by commas.
        ("2", 1, Some(",0,1".into())),
        ("2,", 2, Some("0,1".into())),
        ("2,1", 3, Some(",2".into())),
        ("2,1,", 4, Some("2".into())),
        ("2,,2", 2, Some("1,2".into())),
        (",1,2", 0, Some("2,1,2".into())),
        ("2;1,2", 1, Some(",1,2".into())),
        ("2 1,2", 1, Some(",1,2".into())),
        ("2,1.2", 3, Some(",2".into())),
        ("2,x,1", 2, Some("0,1".into())),
        ("2,0,x", 4, Some("1".into())),
        ("4,1,2", 5, Some(",3,4".into())),
        ("4,1,2,3", 7, Some(",4".into())),
        ("2,1,2,", 5, Some("".into())),
        ("2,1,2,3", 5, Some("".into())),
        ("2,1,2x", 5, Some("".into())),
        ("2,1,2\r", 5, Some("".into())),
        ("2,1,2\t", 5, Some("".into())),
        ("2,1,2\0", 5, Some("".into())),
        ("2,1,\u{e4}", 4, Some("2".into())),
        // Numbers: a leading zero, one too large.
        ("2,01,2", 3, Some(",2".into())),
        ("2,00,2", 3, Some(",2".into())),
        ("2,1,02", 4, Some("2".into())),
        ("2,4294967296,1", 11, Some(",429496730".into())),
        ("2,42949672940,1", 12, Some(",4294967295".into())),
        ("2,1,4294967296", 13, Some("".into())),
        ("2,1,99999999999", 13, Some("".into())),
        // A start that no end can follow.
        ("2,4294967295", 11, Some("4,4294967295".into())),
        ("2,4294967295,4294967295", 11, Some(",4294967295".into())),
        ("2,42949672950,1", 11, Some("0,4294967295".into())),
        ("4,0,1,4294967295,5", 15, Some(",429496730".into())),
        // An end that is its start: where no digit more can lift it.
        ("2,0,0", 4, Some("1".into())),
        ("2,0,00", 4, Some("1".into())),
        ("2,0,01", 4, Some("1".into())),
        ("2,1,1", 5, Some("0".into())),
        ("2,8,8", 5, Some("0".into())),
        ("2,9,9", 5, Some("0".into())),
        ("2,10,10", 7, Some("0".into())),
        ("2,42949672,42949672", 19, Some("9".into())),
        ("2,429496729,429496729", 21, Some("5".into())),
        ("2,429496729,4294967296", 21, Some("0".into())),
        ("2,429496730,429496730", 20, Some("1".into())),
        ("2,429496731,429496731", 20, Some("2".into())),
        ("2,429496739,429496739", 19, Some("40".into())),
        ("2,500000000,500000000", 20, Some("1".into())),
        ("2,999999999,999999999", 12, Some("1000000000".into())),
        ("2,1000000000,1000000000", 22, Some("1".into())),
        ("2,4000000000,4000000000", 22, Some("1".into())),
        ("2,4294967289,4294967289", 21, Some("90".into())),
        ("2,4294967294,4294967294", 22, Some("5".into())),
        ("4,0,0,1,2", 4, Some("1,1,2".into())),
        ("4,8,8,1,2", 5, Some("0,1,2".into())),
        ("6,0,1,3,3,5,6", 9, Some("0,5,6".into())),
        ("6,0,1,0,0,5,6", 8, Some("1,5,6".into())),
        ("4,0,1,8,8", 9, Some("0".into())),
        ("4,0,1,429496730,429496730", 24, Some("1".into())),
        // An end below its start likewise.
        ("2,5,3", 5, Some("0".into())),
        ("2,5,0", 4, Some("6".into())),
        ("2,5,05", 4, Some("6".into())),
        ("2,10,1", 6, Some("1".into())),
        ("2,10,9", 6, Some("0".into())),
        ("2,99,98", 7, Some("0".into())),
        ("2,4294967294,3", 13, Some("4294967295".into())),
        ("2,4294967294,429496729", 22, Some("5".into())),
        ("2,4294967294,4294967293", 22, Some("5".into())),
        ("2,4294967290,4294967289", 21, Some("91".into())),
        ("2,4294967290,42949672895", 21, Some("91".into())),
        ("2,4294967290,42949671", 20, Some("291".into())),
        ("2,4200000000,41", 14, Some("200000001".into())),
        ("2,4200000000,5", 13, Some("4294967295".into())),
        ("2,3000000000,2", 13, Some("3000000001".into())),
        ("2,3000000000,30", 15, Some("00000001".into())),
        ("2,1000000000,99", 13, Some("1000000001".into())),
        ("2,1000000000,1", 14, Some("000000001".into())),
        ("2,500000000,49", 13, Some("000000000".into())),
        ("2,500000000,4", 13, Some("000000000".into())),
        ("2,429496730,42949672", 20, Some("90".into())),
        ("2,999999998,99999999", 20, Some("9".into())),
        ("2,999999999,99999999", 12, Some("1000000000".into())),
        ("4,5,3,0,1", 5, Some("0,0,1".into())),
        ("4,0,1,5,3", 9, Some("0".into())),
        ("4,0,1,5,", 8, Some("6".into())),
        ("4,9,10,4294967294,5", 18, Some("4294967295".into())),
    ];
    for (before, after) in &places {
        for (set, place, ending) in &sets {
            let ending = ending.as_ref().map(|ending| format!("{ending}{after}"));
            wrong_at(&format!("{HEADER}{before}"), &format!("{set}{after}"), *place, ending.as_deref());
        }
    }
    // These are good, whatever else is said of them.
    for set in ["2,0,1", "2,8,9", "2,4294967294,4294967295", "2,429496729,4294967290", "2,429496730,429496731", "2,999999999,1000000000", "4,5,6,0,1"]
    {
        for (before, after) in &places {
            let good = format!("{HEADER}{before}{set}{after}\n");
            assert!(!matches!(refusal(good.as_bytes()).number, 3 | 6 | 7), "{good}");
        }
    }
}

#[test]
fn lines() {
    let short = &H[..39];
    let set = "2,0,1";
    let moved = format!("move {H} {set} 0");
    let patched = format!("bsdiff 0 0 {H} {H} {set} 0");
    // The line, the place in it, and an ending from there on.
    let cases: Vec<(String, usize, String)> = vec![
        // Words.
        ("".into(), 0, "zero 2,0,1".into()),
        (" ".into(), 0, "zero 2,0,1".into()),
        ("x".into(), 0, "zero 2,0,1".into()),
        ("\0".into(), 0, "zero 2,0,1".into()),
        ("\u{e4}".into(), 0, "zero 2,0,1".into()),
        ("Zero 2,0,1".into(), 0, "zero 2,0,1".into()),
        (" zero 2,0,1".into(), 0, "zero 2,0,1".into()),
        ("i".into(), 0, "zero 2,0,1".into()),
        ("imgdif".into(), 0, "zero 2,0,1".into()),
        ("imgdif 1".into(), 0, "zero 2,0,1".into()),
        ("imgdiffs 0".into(), 0, "zero 2,0,1".into()),
        ("imgdiff\t0".into(), 0, "zero 2,0,1".into()),
        ("z".into(), 1, "ero 2,0,1".into()),
        ("zap".into(), 1, "ero 2,0,1".into()),
        ("zer".into(), 3, "o 2,0,1".into()),
        ("zer 2,0,1".into(), 3, "o 2,0,1".into()),
        ("zero".into(), 4, " 2,0,1".into()),
        ("zerox 2,0,1".into(), 4, " 2,0,1".into()),
        ("zeros".into(), 4, " 2,0,1".into()),
        ("zero\t2,0,1".into(), 4, " 2,0,1".into()),
        ("zero\r".into(), 4, " 2,0,1".into()),
        ("zero\0".into(), 4, " 2,0,1".into()),
        ("zero  2,0,1".into(), 5, "2,0,1".into()),
        ("e".into(), 1, "rase 2,0,1".into()),
        ("eraser 2,0,1".into(), 5, " 2,0,1".into()),
        ("n".into(), 1, "ew 2,0,1".into()),
        ("news 2,0,1".into(), 3, " 2,0,1".into()),
        ("m".into(), 1, format!("ove {H} {set} 0 {set}")),
        ("moved".into(), 4, format!(" {H} {set} 0 {set}")),
        ("st".into(), 2, format!("ash {H} {set}")),
        ("stas".into(), 4, format!("h {H} {set}")),
        ("f".into(), 1, format!("ree {H}")),
        ("from".into(), 2, format!("ee {H}")),
        ("b".into(), 1, format!("sdiff 0 0 {H} {H} {set} 0 {set}")),
        ("bs".into(), 2, format!("diff 0 0 {H} {H} {set} 0 {set}")),
        ("bsdif 0".into(), 5, format!("f 0 0 {H} {H} {set} 0 {set}")),
        ("bsdiff".into(), 6, format!(" 0 0 {H} {H} {set} 0 {set}")),
        ("bsdiff2 0".into(), 6, format!(" 0 0 {H} {H} {set} 0 {set}")),
        // A line's end: nothing stands before it that is no part of a field.
        ("zero 2,0,1 ".into(), 10, "".into()),
        ("zero 2,0,1\r".into(), 10, "".into()),
        ("zero 2,0,1 2,0,1".into(), 10, "".into()),
        (format!("free {H} "), 45, "".into()),
        (format!("free {H}\r"), 45, "".into()),
        (format!("stash {H} {set} "), 52, "".into()),
        // Hashes.
        ("free".into(), 4, format!(" {H}")),
        ("free ".into(), 5, H.into()),
        ("free  ".into(), 5, H.into()),
        (format!("free {short}"), 44, "9".into()),
        (format!("free {short}g"), 44, "9".into()),
        (format!("free {H}0"), 45, "".into()),
        (format!("free {}", H.to_uppercase()), 5, H.into()),
        (format!("free {}A", &H[..7]), 12, H[7..].into()),
        (format!("free {}/", &H[..7]), 12, H[7..].into()),
        (format!("free {}:", &H[..7]), 12, H[7..].into()),
        (format!("free {}`", &H[..7]), 12, H[7..].into()),
        (format!("stash {short} {set}"), 45, format!("9 {set}")),
        (format!("stash {H}"), 46, format!(" {set}")),
        (format!("stash {H}:{set}"), 46, format!(" {set}")),
        (format!("move {short} {set} 0 {set}"), 44, format!("9 {set} 0 {set}")),
        (format!("move {set} 0 {set}"), 6, format!("{} {set} 0 {set}", &H[1..])),
        // Fields that are missing, doubled or another's.
        (format!("move {H}"), 45, format!(" {set} 0 {set}")),
        (format!("move {H} {set}"), 51, format!(" 0 {set}")),
        (format!("move {H} {set} "), 52, format!("0 {set}")),
        (moved.clone(), 53, format!(" {set}")),
        (format!("{moved} "), 54, set.into()),
        (format!("{moved}0 {set}"), 53, format!(" {set}")),
        (format!("move {H} {set} 4294967296 {set}"), 61, format!(" {set}")),
        (format!("move {H} {set} x {set}"), 52, format!("0 {set}")),
        (format!("move {H} {set} 0,1 {set}"), 53, format!(" {set}")),
        // Sources: S, or a dash and P's, or S, L and P's.
        (format!("{moved} x"), 54, set.into()),
        (format!("{moved} -"), 55, format!(" {H}:{set}")),
        (format!("{moved} - "), 56, format!("{H}:{set}")),
        (format!("{moved} --"), 55, format!(" {H}:{set}")),
        (format!("{moved} -2,0,1"), 55, format!(" {H}:{set}")),
        (format!("{moved} - 2,0,1"), 57, format!("{}:{set}", &H[1..])),
        (format!("{moved} - x"), 56, format!("{H}:{set}")),
        (format!("{moved} - {short}:{set}"), 95, format!("9:{set}")),
        (format!("{moved} - {H}"), 96, format!(":{set}")),
        (format!("{moved} - {H} {set}"), 96, format!(":{set}")),
        (format!("{moved} - {H}:"), 97, set.into()),
        (format!("{moved} - {H}:{set} "), 103, format!("{H}:{set}")),
        (format!("{moved} - {H}:{set} {set}"), 104, format!("{}:{set}", &H[1..])),
        (format!("{moved} - {H}:{set} -"), 103, format!("{H}:{set}")),
        (format!("{moved} {set} "), 60, format!("{set} {H}:{set}")),
        (format!("{moved} {set} -"), 60, format!("{set} {H}:{set}")),
        (format!("{moved} {set} {H}:{set}"), 60, format!("{set} {H}:{set}")),
        (format!("{moved} {set} {set}"), 65, format!(" {H}:{set}")),
        (format!("{moved} {set} {set} "), 66, format!("{H}:{set}")),
        (format!("{moved} {set} {set} {set}"), 67, format!("{}:{set}", &H[1..])),
        (format!("{moved} {set} {set} {H}:{set} "), 113, format!("{H}:{set}")),
        // `bsdiff`: two numbers and two hashes before the same.
        ("bsdiff ".into(), 7, format!("0 0 {H} {H} {set} 0 {set}")),
        ("bsdiff 0".into(), 8, format!(" 0 {H} {H} {set} 0 {set}")),
        ("bsdiff 00 0".into(), 8, format!(" 0 {H} {H} {set} 0 {set}")),
        ("bsdiff -1 0".into(), 7, format!("0 0 {H} {H} {set} 0 {set}")),
        ("bsdiff 4294967296 0".into(), 16, format!(" 0 {H} {H} {set} 0 {set}")),
        ("bsdiff 0 0".into(), 10, format!(" {H} {H} {set} 0 {set}")),
        ("bsdiff 0 00".into(), 10, format!(" {H} {H} {set} 0 {set}")),
        (format!("bsdiff 0 {H} {H} {set} 0 {set}"), 9, format!("0 {H} {H} {set} 0 {set}")),
        (format!("bsdiff 0 0 {H}"), 51, format!(" {H} {set} 0 {set}")),
        (format!("bsdiff 0 0 {H} {set} 0 {set}"), 53, format!("{} {set} 0 {set}", &H[1..])),
        (format!("bsdiff 0 0 {H} {H}"), 92, format!(" {set} 0 {set}")),
        (format!("bsdiff 0 0 {H} {H} {set}"), 98, format!(" 0 {set}")),
        (patched.clone(), 100, format!(" {set}")),
        (format!("{patched} -"), 102, format!(" {H}:{set}")),
        (format!("{patched} {set} {set}"), 112, format!(" {H}:{set}")),
    ];
    for (line, place, ending) in &cases {
        // The first of the lines, and a later one.
        for before in [HEADER.to_string(), format!("{HEADER}zero 2,0,1\nnew 2,4,5\n")] {
            wrong_at(&before, line, *place, Some(ending));
        }
    }
}

/// A line that is good but for its LF is wrong at the text's end, and cut anywhere before it likewise.
#[test]
fn every_beginning_of_a_good_line() {
    let set = "4,3,30,0,4294967295";
    for line in [
        format!("zero {set}"),
        format!("erase {set}"),
        format!("new {set}"),
        format!("stash {H} {set}"),
        format!("free {H}"),
        format!("move {H} {set} 4294967295 {set}"),
        format!("move {H} {set} 1 - {H}:{set} {H}:{set}"),
        format!("move {H} {set} 10 {set} {set} {H}:{set} {H}:{set}"),
        format!("bsdiff 4294967295 0 {H} {H} {set} 1 {set}"),
        format!("bsdiff 0 10 {H} {H} {set} 1 - {H}:{set}"),
        format!("bsdiff 1 2 {H} {H} {set} 0 {set} {set} {H}:{set}"),
    ] {
        let before = format!("{HEADER}zero 2,0,1\n");
        let text = format!("{before}{line}");
        for cut in before.len() + 1..=text.len() {
            assert_eq!(refusal(&text.as_bytes()[..cut]), Refusal { number: 6, line: 6, byte: cut }, "{}", &text[..cut]);
        }
        // Each byte that no good line has anywhere is wrong where it stands.
        for at in before.len()..=text.len() {
            for other in [0, b'\t', b'\r', b';', b'_', b'A', 0x7f, 0x80, 0xc3, 0xff] {
                let list = [&text.as_bytes()[..at], &[other], &text.as_bytes()[at..], b"\n"].concat();
                assert_eq!(refusal(&list), Refusal { number: 6, line: 6, byte: at }, "{}", list.escape_ascii());
            }
        }
    }
}

/// The other numbers report none.
#[test]
fn other_refusals_have_no_byte() {
    for (list, number) in [
        ("4\n0\n0\n0\n".to_string(), 4),
        ("3\n0\n257\n0\n".into(), 5),
        (format!("{HEADER}imgdiff"), 7),
        (format!("{HEADER}imgdiff x\n"), 7),
        (format!("{HEADER}zero 2,7,9\n"), 8),
        (format!("{HEADER}stash {H} 2,0,2\n"), 9),
        (format!("{HEADER}free {H}\n"), 10),
        (format!("{HEADER}move {H} 2,0,1 0 2,0,1\n"), 11),
        (format!("{HEADER}zero 2,0,1\n"), 15),
        (format!("{HEADER}bsdiff 1 0 {H} {H} 2,0,1 1 2,0,1\n"), 18),
    ] {
        let given = refusal(list.as_bytes());
        assert_eq!((given.number, given.byte), (number, 0), "{list}");
    }
    // In one line 6 comes before 8, and a line's before a later one's.
    for (list, number, line, byte) in [
        (format!("{HEADER}zero 4,0,9,5,x\n"), 6, 5, 21),
        (format!("{HEADER}zero 2,9,9\n"), 6, 5, 18),
        (format!("{HEADER}zero 4,0,9,3,3\n"), 6, 5, 22),
        (format!("{HEADER}move {H} 2,0,1 1 - {H}:2,9,9\n"), 6, 5, 110),
        (format!("{HEADER}imgdiff 2,9,9\n"), 7, 5, 0),
        (format!("{HEADER}zero 2,0,9\nx\n"), 8, 5, 0),
        (format!("{HEADER}x\nzero 2,0,9\n"), 6, 5, 8),
        (format!("{HEADER}zero 2,0,1\nx\n"), 6, 6, 19),
    ] {
        assert_eq!(refusal(list.as_bytes()), Refusal { number, line, byte }, "{list}");
    }
}
