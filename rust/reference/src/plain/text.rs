//! Reading the text.

use crate::Hash;

const MOST_NUMBER: u64 = 4_294_967_295;

/// The fewest blocks that a range may have.
pub(super) const LEAST: u64 = 1;

/// A place in the text. What must stand there is read and moves it on. Where that does not stand there, the place is then the first byte at
/// which no good line could go on, or the text's end.
#[derive(Clone, Copy)]
pub(super) struct Reader<'a> {
    pub(super) text: &'a [u8],
    pub(super) at: usize,
    /// The fewest blocks of a range; 0 where there is none to read, or where it was read before.
    pub(super) least: u64,
}

/// A range set as it stands in the text.
#[derive(Clone, Copy)]
pub(super) struct Set {
    pub(super) first: usize,
    pub(super) pairs: usize,
    pub(super) blocks: u64,
    pub(super) end: u64,
}

impl<'a> Reader<'a> {
    pub(super) fn peek(&self) -> Option<u8> {
        self.text.get(self.at).copied()
    }

    pub(super) fn byte(&mut self, want: u8) -> Option<()> {
        if self.peek()? != want {
            return None;
        }
        self.at += 1;
        Some(())
    }

    pub(super) fn bytes(&mut self, want: &[u8]) -> Option<()> {
        for byte in want {
            self.byte(*byte)?;
        }
        Some(())
    }

    /// Decimal, at most 4,294,967,295, no sign, no leading zero.
    pub(super) fn number(&mut self) -> Option<u64> {
        self.number_to(MOST_NUMBER)
    }

    /// The same, at most this one.
    fn number_to(&mut self, most: u64) -> Option<u64> {
        let start = self.at;
        let mut value = 0u64;
        while let Some(c @ b'0'..=b'9') = self.peek() {
            if self.at > start && value == 0 {
                return None;
            }
            value = 10 * value + (c - b'0') as u64;
            if value > most {
                return None;
            }
            self.at += 1;
        }
        if self.at == start {
            return None;
        }
        Some(value)
    }

    /// A number that is no good here, read once more from its start: to the first digit that it may not have, else to the byte behind it. `open`
    /// says of a value whether it can go on.
    #[cold]
    fn no_number(&mut self, start: usize, open: impl Fn(u64) -> bool) {
        self.at = start;
        let mut value = 0u64;
        while let Some(c @ b'0'..=b'9') = self.peek() {
            let leading = self.at > start && value == 0;
            value = 10 * value + (c - b'0') as u64;
            if leading || value > MOST_NUMBER || !open(value) {
                return;
            }
            self.at += 1;
        }
    }

    fn digit(&mut self) -> Option<u8> {
        let value = match self.peek()? {
            c @ b'0'..=b'9' => c - b'0',
            c @ b'a'..=b'f' => c - b'a' + 10,
            _ => return None,
        };
        self.at += 1;
        Some(value)
    }

    pub(super) fn hash(&mut self) -> Option<Hash> {
        let mut hash = [0u8; 20];
        for byte in hash.iter_mut() {
            let high = self.digit()?;
            *byte = 16 * high + self.digit()?;
        }
        Some(hash)
    }

    /// A count, even and at least 2, then that many numbers; each pair is a range of `least` blocks or more.
    pub(super) fn set(&mut self) -> Option<Set> {
        let count = self.count()?;
        let mut set = Set { first: self.at, pairs: (count / 2) as usize, blocks: 0, end: 0 };
        for _ in 0..set.pairs {
            let (start, end) = self.pair()?;
            set.blocks += end - start;
            set.end = set.end.max(end);
        }
        Some(set)
    }

    fn count(&mut self) -> Option<u64> {
        let start = self.at;
        match self.number() {
            Some(count) if count >= 2 && count % 2 == 0 => Some(count),
            _ => {
                // With a digit more an odd one is even.
                self.no_number(start, |value| value != 0 && (value % 2 == 0 || 10 * value <= MOST_NUMBER));
                None
            }
        }
    }

    fn pair(&mut self) -> Option<(u64, u64)> {
        self.byte(b',')?;
        // A start that no end can follow is too large.
        let start = self.number_to(MOST_NUMBER - self.least)?;
        self.byte(b',')?;
        let (at, lowest) = (self.at, start + self.least);
        match self.number() {
            Some(end) if end >= lowest => Some((start, end)),
            _ => {
                self.no_number(at, |value| reaches(value, lowest));
                None
            }
        }
    }

    /// One `H:L`.
    pub(super) fn part(&mut self) -> Option<(Hash, Set)> {
        let hash = self.hash()?;
        self.byte(b':')?;
        Some((hash, self.set()?))
    }
}

/// Whether these digits, with some more behind them or none, can be a number that is not below `lowest`.
fn reaches(value: u64, lowest: u64) -> bool {
    let (mut low, mut high) = (value, value);
    while low <= MOST_NUMBER {
        if high >= lowest {
            return true;
        }
        if value == 0 {
            return false;
        }
        low *= 10;
        high = 10 * high + 9;
    }
    false
}

/// The pairs of a set that was read before.
struct Pairs<'a> {
    reader: Reader<'a>,
    left: usize,
}

impl Iterator for Pairs<'_> {
    type Item = (usize, usize);

    fn next(&mut self) -> Option<(usize, usize)> {
        if self.left == 0 {
            return None;
        }
        self.left -= 1;
        let (start, end) = self.reader.pair()?;
        Some((start as usize, end as usize))
    }
}

impl Set {
    pub(super) fn pairs<'a>(&self, text: &'a [u8]) -> impl Iterator<Item = (usize, usize)> + 'a {
        Pairs { reader: Reader { text, at: self.first, least: 0 }, left: self.pairs }
    }

    /// The block numbers in the written order.
    pub(super) fn each<'a>(&self, text: &'a [u8]) -> impl Iterator<Item = usize> + 'a {
        self.pairs(text).flat_map(|(start, end)| start..end)
    }
}
