//! A line read as a command.

use super::text::{Reader, Set};
use crate::Hash;

/// A `move` as written, or what a `bsdiff` has of one: `source` in forms one and three, `places` in form three, `parts` P's from `first` in
/// forms two and three.
#[derive(Clone, Copy)]
pub(super) struct Move {
    pub(super) hash: Hash,
    pub(super) target: Set,
    pub(super) n: u64,
    pub(super) source: Option<Set>,
    pub(super) places: Option<Set>,
    pub(super) first: usize,
    pub(super) parts: usize,
}

/// A `bsdiff`: so many bytes of the patch data, from there on, turn the source into a target of this hash.
#[derive(Clone, Copy)]
pub(super) struct Bsdiff {
    pub(super) from: u64,
    pub(super) bytes: u64,
    pub(super) result: Hash,
    pub(super) line: Move,
}

pub(super) enum Command {
    Zero(Set),
    Erase(Set),
    New(Set),
    Move(Move),
    Bsdiff(Bsdiff),
    Stash(Hash, Set),
    Free(Hash),
}

struct Parts<'a> {
    reader: Reader<'a>,
    left: usize,
}

impl Iterator for Parts<'_> {
    type Item = (Hash, Set);

    fn next(&mut self) -> Option<(Hash, Set)> {
        if self.left == 0 {
            return None;
        }
        self.left -= 1;
        self.reader.byte(b' ')?;
        self.reader.part()
    }
}

impl Move {
    pub(super) fn parts<'a>(&self, text: &'a [u8]) -> impl Iterator<Item = (Hash, Set)> + 'a {
        Parts { reader: Reader { text, at: self.first, least: 0 }, left: self.parts }
    }
}

/// A first word, whatever follows it.
fn is_imgdiff(text: &[u8]) -> bool {
    match text.strip_prefix(b"imgdiff") {
        Some(rest) => matches!(rest.first(), None | Some(b' ' | b'\n')),
        None => false,
    }
}

/// The command line at `at`, each of its ranges of so many blocks at least, and where the next line starts; or 6 and the byte of the line's
/// first fault, or 7.
pub(super) fn decode(list: &[u8], at: usize, least: u64) -> Result<(Command, usize), (usize, usize)> {
    let mut reader = Reader { text: list, at, least };
    match command(&mut reader) {
        Some(command) => Ok((command, reader.at)),
        None if is_imgdiff(list.get(at..).unwrap_or_default()) => Err((7, 0)),
        None => Err((6, reader.at)),
    }
}

/// No two words start alike.
fn command(reader: &mut Reader) -> Option<Command> {
    let command = match reader.peek()? {
        b'z' => {
            reader.bytes(b"zero ")?;
            Command::Zero(reader.set()?)
        }
        b'e' => {
            reader.bytes(b"erase ")?;
            Command::Erase(reader.set()?)
        }
        b'n' => {
            reader.bytes(b"new ")?;
            Command::New(reader.set()?)
        }
        b'm' => {
            reader.bytes(b"move ")?;
            let hash = reader.hash()?;
            Command::Move(move_line(reader, hash)?)
        }
        b'b' => {
            reader.bytes(b"bsdiff ")?;
            Command::Bsdiff(bsdiff_line(reader)?)
        }
        b's' => {
            reader.bytes(b"stash ")?;
            let hash = reader.hash()?;
            reader.byte(b' ')?;
            Command::Stash(hash, reader.set()?)
        }
        b'f' => {
            reader.bytes(b"free ")?;
            Command::Free(reader.hash()?)
        }
        _ => return None,
    };
    reader.byte(b'\n')?;
    Some(command)
}

/// What follows `bsdiff ` up to the LF.
fn bsdiff_line(reader: &mut Reader) -> Option<Bsdiff> {
    let from = reader.number()?;
    reader.byte(b' ')?;
    let bytes = reader.number()?;
    reader.byte(b' ')?;
    let hash = reader.hash()?;
    reader.byte(b' ')?;
    let result = reader.hash()?;
    Some(Bsdiff { from, bytes, result, line: move_line(reader, hash)? })
}

/// What follows the hashes of a `move` or a `bsdiff`, up to the LF.
fn move_line(reader: &mut Reader, hash: Hash) -> Option<Move> {
    reader.byte(b' ')?;
    let target = reader.set()?;
    reader.byte(b' ')?;
    let n = reader.number()?;
    reader.byte(b' ')?;
    let mut line = Move { hash, target, n, source: None, places: None, first: 0, parts: 0 };
    if reader.peek() == Some(b'-') {
        reader.at += 1;
    } else {
        line.source = Some(reader.set()?);
        if reader.peek() == Some(b'\n') {
            return Some(line);
        }
        reader.byte(b' ')?;
        line.places = Some(reader.set()?);
    }
    line.first = reader.at;
    loop {
        reader.byte(b' ')?;
        reader.part()?;
        line.parts += 1;
        if reader.peek() == Some(b'\n') {
            return Some(line);
        }
    }
}
