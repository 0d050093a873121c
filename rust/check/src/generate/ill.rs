//! Lines that are ill formed, mostly by one fault: at the places where the first byte that is wrong is easily missed.

use super::Rng;

const MOST: u64 = 4_294_967_295;

/// What a part of a line is.
#[derive(Clone, Copy, PartialEq)]
enum Kind {
    Word,
    Space,
    Hash,
    Number,
    Count,
    Start,
    End,
    Comma,
    Colon,
    Dash,
}

#[derive(Clone)]
struct Part {
    kind: Kind,
    text: Vec<u8>,
}

/// A line in its parts.
struct Parts(Vec<Part>);

/// Bytes that no line has where they stand, most of them; each as often as it is to be tried.
const ODD: &[u8] = b"\r\r\t\t\0\0\xff\x80\xc3  ,,::--+.;/`@GgAFXxz_\n\"01259";

/// Behind a whole line.
const TAILS: [&[u8]; 13] = [b" ", b" ", b"\r", b"\t", b",", b" 0", b"  ", b":2,0,1", b" -", b"\0", b",1,2", b"0", b" 2,0,1"];

/// In a header line's place.
const ILL_HEADERS: [&[u8]; 14] = [b"03", b"00", b"3 ", b"3\r", b" 3", b"\t3", b"+3", b"-3", b"x", b"3x", b"\0", b"\xff", b"3,", b"0x3"];

/// Any number, as many with few digits as with many; often at a border.
fn any_number(rng: &mut Rng) -> u64 {
    match rng.below(10) {
        0 => rng.pick(&[0, 0, 1, 9, 10, MOST, MOST, MOST - 1, 429_496_729, 429_496_730, 4_294_967_290, 4_000_000_000, 500_000_000, 1_000_000_000]),
        1..=5 => rng.below(12) as u64,
        _ => rng.next_u64() % 10u64.pow(rng.between(1, 10) as u32) % (MOST + 1),
    }
}

fn any_hash(rng: &mut Rng) -> Vec<u8> {
    (0..40).map(|_| rng.pick(b"0123456789abcdef")).collect()
}

impl Parts {
    fn push(&mut self, kind: Kind, text: impl Into<Vec<u8>>) {
        self.0.push(Part { kind, text: text.into() });
    }

    fn space(&mut self) {
        self.push(Kind::Space, " ");
    }

    fn hash(&mut self, rng: &mut Rng) {
        self.push(Kind::Hash, any_hash(rng));
    }

    fn number(&mut self, rng: &mut Rng) {
        self.push(Kind::Number, any_number(rng).to_string());
    }

    fn set(&mut self, rng: &mut Rng) {
        let pairs = if rng.one_in(8) { rng.between(4, 12) } else { rng.pick(&[1, 1, 1, 2, 2, 3]) };
        self.push(Kind::Count, (2 * pairs).to_string());
        for _ in 0..pairs {
            let (a, b) = (any_number(rng), any_number(rng));
            let start = a.min(b).min(MOST - 1);
            self.push(Kind::Comma, ",");
            self.push(Kind::Start, start.to_string());
            self.push(Kind::Comma, ",");
            self.push(Kind::End, a.max(b).max(start + 1).to_string());
        }
    }

    /// R, N and a source in one of its three forms.
    fn moved(&mut self, rng: &mut Rng) {
        self.set(rng);
        self.space();
        self.number(rng);
        self.space();
        let form = rng.between(1, 3);
        if form == 2 {
            self.push(Kind::Dash, "-");
        } else {
            self.set(rng);
        }
        if form == 3 {
            self.space();
            self.set(rng);
        }
        for _ in 0..if form == 1 { 0 } else { rng.pick(&[1, 1, 2, 3]) } {
            self.space();
            self.hash(rng);
            self.push(Kind::Colon, ":");
            self.set(rng);
        }
    }

    /// A line that is well formed.
    fn good(rng: &mut Rng) -> Parts {
        let mut line = Parts(Vec::new());
        let word = rng.pick(&["zero", "zero", "erase", "new", "stash", "free", "move", "move", "bsdiff"]);
        line.push(Kind::Word, word);
        line.space();
        match word {
            "zero" | "erase" | "new" => line.set(rng),
            "free" => line.hash(rng),
            "stash" => {
                line.hash(rng);
                line.space();
                line.set(rng);
            }
            _ => {
                if word == "bsdiff" {
                    for _ in 0..2 {
                        line.number(rng);
                        line.space();
                    }
                    line.hash(rng);
                    line.space();
                }
                line.hash(rng);
                line.space();
                line.moved(rng);
            }
        }
        line
    }

    /// Some part of this kind, if there is one.
    fn some(&self, rng: &mut Rng, kind: Kind) -> Option<usize> {
        let all: Vec<usize> = (0..self.0.len()).filter(|k| self.0[*k].kind == kind).collect();
        (!all.is_empty()).then(|| rng.pick(&all))
    }

    fn put(&mut self, k: usize, text: impl Into<Vec<u8>>) {
        self.0[k].text = text.into();
    }

    fn text(&self) -> Vec<u8> {
        self.0.iter().flat_map(|part| part.text.iter().copied()).collect()
    }
}

/// A line that is ill formed, mostly, and mostly with its LF.
pub fn ill_line(rng: &mut Rng) -> Vec<u8> {
    let mut line = Parts::good(rng);
    let what = rng.below(19);
    match what {
        0..=10 => spoil_some(rng, &mut line),
        11 | 12 => cut_fields(rng, &mut line),
        13 => other_count(rng, &mut line),
        17 | 18 => empty_range(rng, &mut line),
        _ => {}
    }
    let mut text = line.text();
    match what {
        14 => odd_byte(rng, &mut text),
        15 if rng.one_in(8) => text.clear(),
        15 => text.truncate(rng.below(text.len() + 1)),
        16 => text.extend_from_slice(rng.pick(&TAILS)),
        _ => {}
    }
    if rng.one_in(12) {
        odd_byte(rng, &mut text);
    }
    if rng.percent(90) {
        text.push(b'\n');
    }
    text
}

/// Kinds of parts, each as often as it is to be spoiled.
const OFTEN: [Kind; 14] = [
    Kind::Word,
    Kind::Hash,
    Kind::Hash,
    Kind::Number,
    Kind::Count,
    Kind::Count,
    Kind::Count,
    Kind::Start,
    Kind::End,
    Kind::End,
    Kind::Space,
    Kind::Comma,
    Kind::Colon,
    Kind::Dash,
];

/// One part of a line spoiled as befits its kind.
fn spoil_some(rng: &mut Rng, line: &mut Parts) {
    let Some(k) = (0..100).find_map(|_| {
        let kind = rng.pick(&OFTEN);
        line.some(rng, kind)
    }) else {
        return;
    };
    let text = line.0[k].text.clone();
    match line.0[k].kind {
        Kind::Word => line.put(k, ill_word(rng, &text)),
        Kind::Hash => line.put(k, ill_hash(rng, text)),
        // No end can follow the greatest number.
        Kind::Start if rng.one_in(4) => line.put(k, MOST.to_string()),
        Kind::Number | Kind::Start => line.put(k, ill_number(rng, &text)),
        Kind::Count => line.put(k, ill_count(rng, &text)),
        Kind::End => low_end(rng, line, k),
        Kind::Space => line.put(k, rng.pick(&[&b"  "[..], b"  ", b"", b"\t", b"\r", b"\n", b",", b" \t", b"\0", b" - ", b":", b"\xa0"])),
        Kind::Comma => line.put(k, rng.pick(&[&b",,"[..], b"", b" ", b";", b", ", b",-", b",+", b",0", b".", b":", b"\n", b",\t"])),
        Kind::Colon | Kind::Dash => line.put(k, rng.pick(&[&b""[..], b" ", b"::", b";", b": ", b",", b"-", b"--", b":-", b"\n", b"=", b"0"])),
    }
}

fn ill_word(rng: &mut Rng, word: &[u8]) -> Vec<u8> {
    let mut word = word.to_vec();
    let k = rng.below(word.len());
    match rng.below(8) {
        0 | 1 => word.truncate(k),
        2 => word[k] = rng.pick(b"abcdefghijklmnopqrstuvwxyz"),
        3 => word[k] = rng.pick(ODD),
        4 => word[k] = word[k].to_ascii_uppercase(),
        5 => word.push(rng.pick(b"seof0,:-\t\r")),
        6 => {
            let like: [&[u8]; 11] =
                [b"i", b"im", b"imgdif", b"imgdif", b"imgdiffs", b"imgdiff\t", b"imgdifF", b"imgdiff", b"img", b"imgpatch", b"imgdiff,"];
            word = rng.pick(&like).to_vec();
        }
        _ => {
            let other: [&[u8]; 13] = [b"", b"z", b"ne", b"mov", b"bsdif", b"stas", b"fre", b"eras", b"zer", b"Zero", b"format", b"newmove", b"-"];
            word = rng.pick(&other).to_vec();
        }
    }
    word
}

/// Mostly a digit less or more, or one that is none.
fn ill_hash(rng: &mut Rng, mut hash: Vec<u8>) -> Vec<u8> {
    let k = rng.below(hash.len());
    match rng.below(8) {
        0 => hash.truncate(39),
        1 => {
            hash.remove(k);
        }
        2 => hash.push(rng.pick(b"0f9a")),
        3 => hash.insert(k, rng.pick(b"0f9a")),
        4 | 5 => hash[k] = rng.pick(b"ABCDEF"),
        6 => hash[k] = rng.pick(b"gG/:`@ ,-\0\xff\rzx\n"),
        _ => hash.truncate(rng.pick(&[0, 1, k, 20, 38])),
    }
    hash
}

/// No number, or not to its end.
fn ill_number(rng: &mut Rng, number: &[u8]) -> Vec<u8> {
    let number = String::from_utf8_lossy(number);
    let zeros = "0".repeat(rng.between(1, 12));
    let digits: String = (0..rng.between(1, 20)).map(|_| rng.pick(&['0', '4', '9', '5'])).collect();
    match rng.below(10) {
        0 | 1 => format!("{zeros}{number}"),
        2 => (MOST + 1 + rng.below(4) as u64).to_string(),
        3 => rng.pick(&["4294967300", "5000000000", "9999999999", "42949672950", "42949672951", "10000000000", "429496729555"]).to_string(),
        4 => format!("429496729{digits}"),
        5 => format!("{number}{digits}"),
        6 => rng.pick(&["18446744073709551616", "18446744073709551617", "4294967297", "99999999999999999999999"]).to_string(),
        7 => String::new(),
        8 => format!("{}{number}", rng.pick(&['+', '-', ' ', '0', '.'])),
        _ => format!("{number}{}", rng.pick(&['x', '.', '-', 'a', ' ', '\t', 'L'])),
    }
    .into_bytes()
}

/// Mostly odd: with room for a digit more, or just not.
fn ill_count(rng: &mut Rng, count: &[u8]) -> Vec<u8> {
    const BORDERS: [&str; 21] = [
        "429496729",
        "429496730",
        "429496731",
        "429496728",
        "4294967293",
        "4294967294",
        "4294967295",
        "4294967296",
        "4294967297",
        "2147483647",
        "2147483648",
        "2147483649",
        "500000000",
        "500000001",
        "999999999",
        "1000000001",
        "42949672951",
        "42949672940",
        "99999999999",
        "429496727",
        "399999999",
    ];
    match rng.below(10) {
        0 => rng.pick(&["0", "0", "00", "01", "02", "000000000000"]).as_bytes().to_vec(),
        1 => rng.pick(&["1", "1", "11", "1", "10"]).as_bytes().to_vec(),
        2 => rng.pick(&["3", "5", "7", "9", "13", "429496729", "429496727"]).as_bytes().to_vec(),
        3..=6 => {
            // As it is, or with a digit more or one less.
            let border = rng.pick(&BORDERS);
            let digit = rng.pick(&["", "", "", "0", "1", "4", "5", "9"]);
            let kept = if rng.one_in(6) { border.len() - 1 } else { border.len() };
            [&border.as_bytes()[..kept], digit.as_bytes()].concat()
        }
        7 => (any_number(rng) | 1).to_string().into_bytes(),
        8 => [b"0", count].concat(),
        _ => ill_number(rng, count),
    }
}

/// An end below its start, which may be so at its first digit or only behind its last; or no number.
fn low_end(rng: &mut Rng, line: &mut Parts, k: usize) {
    // Before an end stand a comma and its start.
    let mut start: u64 = String::from_utf8_lossy(&line.0[k - 2].text).parse().unwrap_or(0);
    if rng.percent(70) {
        let near = MOST - rng.below(100) as u64;
        let nine = 429_496_720 + rng.below(20) as u64;
        let any = any_number(rng).max(1);
        let ten = rng.between(1_000_000_000, MOST as usize) as u64;
        let round = rng.pick(&[4_200_000_000, 500_000_000, 4_000_000_000, 1_000_000_000, 999_999_999]);
        start = rng.pick(&[near, near, near, nine, MOST - 1, MOST - 5, round, round, ten, ten, ten, 5, 19, 0, any]);
        line.put(k - 2, start.to_string());
    }
    let digits = start.to_string();
    let end = match rng.below(10) {
        // Its beginning, the last digit of which is mostly one lower or higher, and more digits.
        0..=3 => {
            let kept = rng.below(digits.len() + 1);
            let mut end = digits.as_bytes()[..kept].to_vec();
            if let (Some(last), true) = (end.last_mut(), rng.percent(70)) {
                *last = (*last as i32 + rng.pick(&[-1, -1, -1, 1])).clamp(48, 57) as u8;
            }
            let more = rng.below(13usize.saturating_sub(kept));
            let of = rng.pick(&[&b"0"[..], b"9", b"0459", b"0123456789"]);
            end.extend((0..more).map(|_| rng.pick(of)));
            end
        }
        4 => start.saturating_sub(1).to_string().into_bytes(),
        5 => (start / 10).to_string().into_bytes(),
        6 => rng.pick(&["0", "0", "00", "01", "05", "0000"]).as_bytes().to_vec(),
        7 => format!("0{}", rng.below(20)).into_bytes(),
        8 => (rng.next_u64() % start.max(1)).to_string().into_bytes(),
        _ => {
            let end = line.0[k].text.clone();
            ill_number(rng, &end)
        }
    };
    line.put(k, end);
}

/// An end that is its start: one that a digit more could lift, or none.
fn empty_range(rng: &mut Rng, line: &mut Parts) {
    let Some(k) = line.some(rng, Kind::End) else { return };
    let any = any_number(rng);
    let start = rng.pick(&[0, 0, 8, any, any, 429_496_729, 429_496_730, 429_496_730, 999_999_999, 1_000_000_000, MOST - 1, MOST - 1, MOST, MOST]);
    line.put(k - 2, start.to_string());
    line.put(k, start.to_string());
}

/// Without the rest of a line from the start of a field on, or one field less or twice; or all P's are gone.
fn cut_fields(rng: &mut Rng, line: &mut Parts) {
    if let (Some(colon), true) = (line.0.iter().position(|part| part.kind == Kind::Colon), rng.percent(50)) {
        // Before a colon stand a hash and a space.
        return line.0.truncate(colon - rng.pick(&[1, 2, 2, 2]));
    }
    let Some(k) = line.some(rng, Kind::Space) else { return };
    let next = (k + 1..line.0.len()).find(|j| line.0[*j].kind == Kind::Space).unwrap_or(line.0.len());
    match rng.below(6) {
        0..=2 => line.0.truncate(k),
        3 => line.0.truncate(k + 1),
        4 => {
            line.0.drain(k..next);
        }
        _ => {
            let again = line.0[k..next].to_vec();
            line.0.splice(k..k, again);
        }
    }
}

/// Another number of numbers than a set announces, or another even count.
fn other_count(rng: &mut Rng, line: &mut Parts) {
    let Some(k) = line.some(rng, Kind::Count) else { return };
    let count: u64 = String::from_utf8_lossy(&line.0[k].text).parse().unwrap_or(2);
    let after = (k + 1..line.0.len()).find(|j| line.0[*j].kind == Kind::Space).unwrap_or(line.0.len());
    match rng.below(7) {
        0 => line.put(k, (count + 2).to_string()),
        1 => line.put(k, count.saturating_sub(2).max(2).to_string()),
        2 => line.put(k, rng.pick(&["4294967294", "4294967290", "1000000", "429496728", "2147483648", "20", "100"])),
        3 | 4 => {
            // The last numbers are gone, the commas before them or not.
            let fewer = rng.between(1, after - k);
            line.0.drain(after - fewer..after);
        }
        _ => {
            let more = rng.pick(&[",", ",0", ",0,1", ",1,0", ",4294967296"]);
            line.0[after - 1].text.extend_from_slice(more.as_bytes());
        }
    }
}

/// A byte that has no place, in another's place or between two; or one is gone.
fn odd_byte(rng: &mut Rng, text: &mut Vec<u8>) {
    let k = rng.below(text.len() + 1);
    let byte = if rng.percent(80) { rng.pick(ODD) } else { rng.next_u64() as u8 };
    match rng.below(5) {
        0 | 1 if k < text.len() => text[k] = byte,
        2 if k < text.len() => {
            text.remove(k);
        }
        _ => text.insert(k, byte),
    }
}

/// A header that is ill formed, mostly: all of it, or what there is of it.
pub fn ill_header(rng: &mut Rng) -> Vec<u8> {
    let good = ["3".to_string(), rng.below(12).to_string(), rng.below(4).to_string(), rng.below(4).to_string()];
    let mut lines = good.map(String::into_bytes);
    let k = rng.below(4);
    let mut ends = 4;
    match rng.below(10) {
        0..=3 => lines[k] = ill_number(rng, &lines[k]),
        4 => lines[k].clear(),
        5 => lines[k] = rng.pick(&ILL_HEADERS).to_vec(),
        // Lines are absent.
        6 => ends = k,
        _ => {}
    }
    let mut text: Vec<u8> = lines[..ends].join(&b'\n');
    if ends > 0 && rng.percent(95) {
        text.push(b'\n');
    }
    match rng.below(6) {
        0 => odd_byte(rng, &mut text),
        1 => text.truncate(rng.below(text.len() + 1)),
        _ => {}
    }
    text
}

/// A list of a few lines with a header, one of them ill formed: a line, or the header.
pub fn ill_list(rng: &mut Rng) -> Vec<u8> {
    const GOOD: [&str; 10] = [
        "zero 2,0,1\n",
        "erase 4,0,1,7,8\n",
        "new 2,3,5\n",
        "new 4,2,3,6,7\n",
        "zero 6,0,1,1,2,7,8\n",
        "move 0123456789abcdef0123456789abcdef01234567 2,1,4 3 2,0,3\n",
        "stash ffffffffffffffffffffffffffffffffffffffff 2,0,1\nfree ffffffffffffffffffffffffffffffffffffffff\n",
        "bsdiff 0 4 0123456789abcdef0123456789abcdef01234567 76543210fedcba9876543210fedcba9876543210 2,1,2 3 2,0,3\n",
        "stash 00000000000000000000000000000000000000aa 2,0,1\n\
         move 0123456789abcdef0123456789abcdef01234567 2,5,8 3 2,0,2 4,0,1,2,3 00000000000000000000000000000000000000aa:2,1,2\n\
         free 00000000000000000000000000000000000000aa\n",
        "stash 00000000000000000000000000000000000000bb 2,4,5\n\
         move 0123456789abcdef0123456789abcdef01234567 2,5,6 1 - 00000000000000000000000000000000000000bb:2,0,1\n\
         free 00000000000000000000000000000000000000bb\n",
    ];
    let mut list = if rng.one_in(7) { ill_header(rng) } else { b"3\n7\n1\n1\n".to_vec() };
    for _ in 0..rng.pick(&[0, 0, 0, 1, 1, 2, 4]) {
        list.extend_from_slice(rng.pick(&GOOD).as_bytes());
    }
    list.extend(ill_line(rng));
    if list.ends_with(b"\n") && rng.one_in(3) {
        let more = if rng.percent(50) { rng.pick(&GOOD).as_bytes().to_vec() } else { ill_line(rng) };
        list.extend(more);
    }
    list
}
