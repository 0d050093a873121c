//! What stands at the first fault of a line that is ill formed: read once more, for counting alone. All that stands before it is right.

use super::{add, counted};
use crate::generate::line_starts;
use reference::{plain, Answer, Outcome, Refusal, Rooms, State};

const MOST: u64 = 4_294_967_295;

/// Of one refusal with 3 or 6 there may be several.
pub const FORMS: [&str; 76] = [
    "an empty line",
    "a first byte of no word",
    "a word like imgdiff",
    "a word cut short",
    "a word with another byte",
    "a word too long",
    "a word alone",
    "two spaces",
    "a space at the end",
    "a space at the end where a field may follow",
    "a field too many",
    "a field missing",
    "a dash without P",
    "S and L without P",
    "a P without its colon",
    "a hash of 39 digits",
    "a hash of fewer digits",
    "a hash of 41 digits",
    "upper case in a hash",
    "another byte in a hash",
    "no count",
    "a count of 0",
    "a count with a leading zero",
    "a count of 1",
    "an odd count with room for a digit",
    "an odd count with just that room",
    "an odd count of nine digits without room",
    "an odd count of ten digits",
    "a count too large",
    "a start with a leading zero",
    "a start too large",
    "a start of 4294967295",
    "an end with a leading zero",
    "an end too large",
    "a low end that could grow",
    "a low end that could grow, to ten digits alone",
    "a low end at its first digit",
    "a low end at a digit between",
    "a low end at its tenth digit",
    "a low end at a 0",
    "a low end in a later pair",
    "an empty range from 0",
    "an empty range from a start that can grow",
    "an empty range from 429496730",
    "an empty range from 4294967294",
    "an empty range from 4294967295",
    "an empty range in R",
    "an empty range in S",
    "an empty range in the first L",
    "an empty range in the L of a P",
    "an empty range in the first pair of several",
    "an empty range in a middle pair",
    "an empty range in the last pair of several",
    "a set too short",
    "a set too long",
    "over a million numbers announced",
    "a number without digits",
    "N, O or B with a leading zero",
    "N, O or B too large",
    "a number too large by one to four",
    "a number too large at its tenth digit, of many",
    "a number too large at its eleventh digit",
    "a fault in R, S or the first L",
    "a fault in the L of a P",
    "a CR",
    "a tab",
    "a byte 0",
    "a byte over 127",
    "the LF",
    "the text's end",
    "a good line without its LF",
    "a header line absent",
    "a header line empty",
    "a header line with a leading zero",
    "a header line too large",
    "a header line without its LF",
];

/// How often each of FORMS occurred.
#[derive(Clone)]
pub struct Forms([u64; FORMS.len()]);

impl Default for Forms {
    fn default() -> Forms {
        Forms([0; FORMS.len()])
    }
}

impl Forms {
    /// Counts a refusal of this list; only 3 and 6 are faults of form.
    pub(super) fn refused(&mut self, list: &[u8], refusal: &Refusal) {
        if let 3 | 6 = refusal.number {
            add(&mut self.0, &forms(list, refusal));
        }
    }

    pub(super) fn report(&self) -> String {
        counted(&FORMS, &self.0)
    }

    pub(super) fn each(&self) -> impl Iterator<Item = (&'static str, u64)> + '_ {
        FORMS.into_iter().zip(self.0)
    }

    /// Those of empty ranges.
    pub(super) fn empty_ranges(&self) -> impl Iterator<Item = (&'static str, u64)> + '_ {
        self.each().filter(|(name, _)| name.starts_with("an empty range "))
    }
}

/// What a call did with a byte.
pub const BYTES: [&str; 6] = [
    "6 in the first command line",
    "6 in a later line",
    "6 after bytes were taken",
    "6 repeated with its byte",
    "3 repeated with its byte",
    "another number repeated with a byte",
];

/// What a call had of these.
pub(super) fn called(before: &State, answer: &Answer) -> [bool; BYTES.len()] {
    let Outcome::Refused(Refusal { number, line, byte }) = answer.outcome else { return [false; BYTES.len()] };
    let (repeats, of_form) = (before.refusal.number != 0, number == 6 || number == 3);
    let (six, held) = (number == 6 && !repeats, repeats && byte != 0);
    [six && line == 5, six && line > 5, six && answer.taken > 0, held && number == 6, held && number == 3, held && !of_form]
}

const WORDS: [&[u8]; 7] = [b"zero", b"erase", b"new", b"stash", b"free", b"move", b"bsdiff"];

/// What a field must be.
#[derive(Clone, Copy)]
enum Field {
    Hash,
    Number,
    Target,
    /// The S of a `stash`.
    Stashed,
    /// S, or a dash.
    Source,
    /// The first L of form three.
    Places,
    Part,
}

/// The fault: the bytes of the line before it, its own byte unless the text ends there, and those behind it.
struct Fault<'a> {
    before: &'a [u8],
    here: Option<u8>,
    after: &'a [u8],
    found: Vec<&'static str>,
}

/// Which of FORMS stand where a list is refused with 3 or 6.
fn forms(list: &[u8], refusal: &Refusal) -> [bool; FORMS.len()] {
    let start = line_starts(list).get(refusal.line - 1).copied().unwrap_or(list.len());
    let (before, rest) = list[start..].split_at(refusal.byte.clamp(start, list.len()) - start);
    let mut fault = Fault { before, here: rest.first().copied(), after: rest.get(1..).unwrap_or(b""), found: Vec::new() };
    match refusal.number {
        3 => fault.header(),
        _ => fault.command(),
    }
    fault.byte();
    FORMS.map(|name| fault.found.contains(&name))
}

fn value(digits: &[u8]) -> u64 {
    digits.iter().fold(0, |value, c| 10 * value + (c - b'0') as u64)
}

impl Fault<'_> {
    fn is(&mut self, name: &'static str) {
        self.found.push(name);
    }

    /// It is a digit.
    fn digit(&self) -> bool {
        matches!(self.here, Some(b'0'..=b'9'))
    }

    /// The number with it, where it is one.
    fn with(&self, digits: &[u8]) -> u64 {
        10 * value(digits) + (self.here.unwrap_or(b'0') - b'0') as u64
    }

    /// The line ends there, or the text.
    fn ends(&self) -> bool {
        matches!(self.here, None | Some(b'\n'))
    }

    /// The line ends before what is due.
    fn short(&mut self, name: &'static str) {
        if self.ends() {
            self.is(name);
        }
    }

    fn byte(&mut self) {
        match self.here {
            None => self.is("the text's end"),
            Some(b'\n') => self.is("the LF"),
            Some(b'\r') => self.is("a CR"),
            Some(b'\t') => self.is("a tab"),
            Some(0) => self.is("a byte 0"),
            Some(128..) => self.is("a byte over 127"),
            Some(_) => {}
        }
    }

    fn header(&mut self) {
        match (self.before, self.here) {
            (b"", None) => self.is("a header line absent"),
            (b"", Some(b'\n')) => self.is("a header line empty"),
            (b"0", Some(b'0'..=b'9')) => self.is("a header line with a leading zero"),
            (digits, Some(b'0'..=b'9')) => self.large("a header line too large", digits.len()),
            (_, None) => self.is("a header line without its LF"),
            _ => {}
        }
    }

    fn command(&mut self) {
        let fields: Vec<&[u8]> = self.before.split(|c| *c == b' ').collect();
        let [_, .., last] = fields[..] else { return self.word() };
        let good = is_good(&[self.before, b"\n"].concat());
        match self.here {
            None if good => self.is("a good line without its LF"),
            Some(b' ') if last.is_empty() => self.is("two spaces"),
            Some(b' ') if good && matches!(self.after, [] | [b'\n', ..]) => self.is("a space at the end"),
            Some(b' ') if good => self.is("a field too many"),
            _ if last.is_empty() => self.short("a space at the end where a field may follow"),
            _ => {}
        }
        let field = field(&fields);
        match field {
            Field::Hash => self.hash(last, false),
            Field::Number => self.number(last),
            Field::Source if last == b"-" => self.short("a dash without P"),
            Field::Target | Field::Stashed | Field::Source => self.set(last, field),
            Field::Places => {
                self.set(last, field);
                if is_good(&[self.before, b" 0123456789012345678901234567890123456789:2,0,1\n"].concat()) {
                    self.short("S and L without P");
                }
            }
            Field::Part => match last.iter().position(|c| *c == b':') {
                Some(colon) => self.set(&last[colon + 1..], field),
                None => self.hash(last, true),
            },
        }
    }

    fn word(&mut self) {
        let name = match (self.before, self.here) {
            (b"", Some(b'\n')) => "an empty line",
            (b"", Some(b'i')) => "a word like imgdiff",
            (b"", _) => "a first byte of no word",
            (word, None | Some(b'\n')) if WORDS.contains(&word) => "a word alone",
            (word, _) if WORDS.contains(&word) => "a word too long",
            (_, None | Some(b' ' | b'\n')) => "a word cut short",
            _ => "a word with another byte",
        };
        self.is(name);
    }

    fn hash(&mut self, digits: &[u8], in_part: bool) {
        match (digits.len(), self.here) {
            (40, Some(b'0'..=b'9' | b'a'..=b'f')) => self.is("a hash of 41 digits"),
            (40, _) if in_part => self.is("a P without its colon"),
            (40, _) => self.short("a field missing"),
            (_, Some(b'A'..=b'F')) => self.is("upper case in a hash"),
            (39, None | Some(b' ' | b'\n' | b':')) => self.is("a hash of 39 digits"),
            (_, None | Some(b' ' | b'\n' | b':')) => self.is("a hash of fewer digits"),
            _ => self.is("another byte in a hash"),
        }
    }

    /// A number that passes the limit with this digit, behind so many others.
    fn large(&mut self, name: &'static str, digits: usize) {
        self.is(name);
        let more = self.after.iter().take_while(|c| c.is_ascii_digit()).count();
        match digits {
            10 => self.is("a number too large at its eleventh digit"),
            9 if more == 0 && self.before.ends_with(b"429496729") => self.is("a number too large by one to four"),
            9 if more > 3 => self.is("a number too large at its tenth digit, of many"),
            _ => {}
        }
    }

    fn number(&mut self, digits: &[u8]) {
        match digits {
            b"" => self.is("a number without digits"),
            b"0" if self.digit() => self.is("N, O or B with a leading zero"),
            _ if self.digit() => self.large("N, O or B too large", digits.len()),
            _ => self.short("a field missing"),
        }
    }

    fn set(&mut self, set: &[u8], field: Field) {
        let numbers: Vec<&[u8]> = set.split(|c| *c == b',').collect();
        let (there, digits) = (numbers.len() - 1, numbers[numbers.len() - 1]);
        let due = value(numbers[0]);
        let found = self.found.len();
        match (there, self.empty(set, there)) {
            (0, _) => self.count(digits),
            (_, Some(start)) => self.empty_range(start, there.div_ceil(2) as u64, due / 2, field),
            _ if there % 2 == 1 => self.start(digits),
            _ => self.end(value(numbers[there - 1]), digits, there),
        }
        if self.found.len() == found && there > 0 {
            // The number is good, and what follows it is not.
            match self.here {
                _ if (there as u64) < due => self.is("a set too short"),
                Some(b',') => self.is("a set too long"),
                _ => return self.short("a field missing"),
            }
        }
        if there > 0 && due > 1_000_000 {
            self.is("over a million numbers announced");
        }
        self.is(if let Field::Part = field { "a fault in the L of a P" } else { "a fault in R, S or the first L" });
    }

    /// The number that the pair with the fault, after so many numbers, has for its start and for its end.
    fn empty(&self, set: &[u8], there: usize) -> Option<u64> {
        let first = there.checked_sub(1)? / 2 * 2 + 1;
        let rest = [self.here?].into_iter().chain(self.after.iter().copied()).take_while(|c| !matches!(c, b' ' | b'\n'));
        let field: Vec<u8> = set.iter().copied().chain(rest).collect();
        let mut pair = field.split(|c| *c == b',').skip(first);
        let (start, end) = (pair.next()?, pair.next()?);
        let number: u32 = std::str::from_utf8(start).ok()?.parse().ok()?;
        (start == end && number.to_string().as_bytes() == start).then_some(number as u64)
    }

    /// An empty range in one pair of so many.
    fn empty_range(&mut self, start: u64, pair: u64, pairs: u64, field: Field) {
        match start {
            0 => self.is("an empty range from 0"),
            1..=429_496_729 => self.is("an empty range from a start that can grow"),
            429_496_730 => self.is("an empty range from 429496730"),
            4_294_967_294 => self.is("an empty range from 4294967294"),
            MOST => self.is("an empty range from 4294967295"),
            _ => {}
        }
        self.is(match field {
            Field::Part => "an empty range in the L of a P",
            Field::Places => "an empty range in the first L",
            Field::Target => "an empty range in R",
            _ => "an empty range in S",
        });
        match pair {
            _ if pairs == 1 => {}
            1 => self.is("an empty range in the first pair of several"),
            _ if pair == pairs => self.is("an empty range in the last pair of several"),
            _ => self.is("an empty range in a middle pair"),
        }
    }

    fn count(&mut self, digits: &[u8]) {
        match (digits, self.here) {
            (b"", Some(b'0')) if self.after.first().is_some_and(u8::is_ascii_digit) => self.is("a count with a leading zero"),
            (b"", Some(b'0')) => self.is("a count of 0"),
            (b"", _) => self.is("no count"),
            (_, Some(b'0'..=b'9')) if self.with(digits) > MOST => self.large("a count too large", digits.len()),
            (_, Some(b'0'..=b'9')) if digits.len() == 9 => self.is("an odd count of ten digits"),
            (_, Some(b'0'..=b'9')) => self.is("an odd count of nine digits without room"),
            (b"1", _) => self.is("a count of 1"),
            _ if value(digits) % 2 == 0 => self.is("a set too short"),
            _ if value(digits) > 400_000_000 => self.is("an odd count with just that room"),
            _ => self.is("an odd count with room for a digit"),
        }
    }

    fn start(&mut self, digits: &[u8]) {
        match digits {
            b"" => self.is("a number without digits"),
            b"0" if self.digit() => self.is("a start with a leading zero"),
            _ if self.digit() && self.with(digits) == MOST => self.is("a start of 4294967295"),
            _ if self.digit() => self.large("a start too large", digits.len()),
            _ => {}
        }
    }

    /// It must pass `start`, and is the set's k-th number.
    fn end(&mut self, start: u64, digits: &[u8], k: usize) {
        let low = match (digits, self.here) {
            (_, Some(b'0'..=b'9')) if self.with(digits) > MOST => return self.large("an end too large", digits.len()),
            (b"", Some(b'0')) if self.after.first().is_some_and(u8::is_ascii_digit) => return self.is("an end with a leading zero"),
            (b"", Some(b'0')) => "a low end at a 0",
            (b"", Some(b'1'..=b'9')) => "a low end at its first digit",
            (b"", _) => return self.is("a number without digits"),
            (_, Some(b'0'..=b'9')) if digits.len() == 9 => "a low end at its tenth digit",
            (_, Some(b'0'..=b'9')) => "a low end at a digit between",
            _ if value(digits) <= start && start >= 1_000_000_000 => "a low end that could grow, to ten digits alone",
            _ if value(digits) <= start => "a low end that could grow",
            _ => return,
        };
        self.is(low);
        if k > 2 {
            self.is("a low end in a later pair");
        }
    }
}

/// What the last of these fields must be; the first is one of the seven words.
fn field(fields: &[&[u8]]) -> Field {
    let k = fields.len() - 1;
    match (fields[0], k) {
        (b"zero" | b"erase" | b"new", _) => Field::Target,
        (b"free", _) | (b"stash", 1) => Field::Hash,
        (b"stash", _) => Field::Stashed,
        (b"bsdiff", 1 | 2) => Field::Number,
        (b"bsdiff", 3) => Field::Hash,
        (word, _) => match if word == b"bsdiff" { k - 3 } else { k } {
            1 => Field::Hash,
            2 => Field::Target,
            3 => Field::Number,
            4 => Field::Source,
            5 if fields[k - 1] != b"-" => Field::Places,
            _ => Field::Part,
        },
    }
}

/// The line is well formed: whatever else refuses it, 6 and 7 do not.
fn is_good(line: &[u8]) -> bool {
    let list = [b"3\n0\n0\n0\n", line].concat();
    !matches!(plain::open(&list, Rooms::default()).refusal.number, 6 | 7)
}
