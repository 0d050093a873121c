//! Commands and their text.

use super::sets::{size, Set};
use crate::hex;
use reference::Hash;

/// The source of a `move` or a `bsdiff`, in its three forms: S; stashes with their places; S with its places and stashes with theirs.
#[derive(Clone)]
pub enum Source {
    Image(Set),
    Stashes(Vec<(Hash, Set)>),
    Both(Set, Set, Vec<(Hash, Set)>),
}

/// A command line, or any bytes in its place.
#[derive(Clone)]
pub enum Command {
    Zero(Set),
    Erase(Set),
    New(Set),
    Move { hash: Hash, target: Set, n: u32, source: Source },
    Bsdiff { from: u32, bytes: u32, hash: Hash, result: Hash, target: Set, n: u32, source: Source },
    Stash { hash: Hash, source: Set },
    Free { hash: Hash },
    Raw(Vec<u8>),
}

fn set_text(out: &mut Vec<u8>, set: &Set) {
    out.extend_from_slice((2 * set.len()).to_string().as_bytes());
    for (start, end) in set {
        out.extend_from_slice(format!(",{start},{end}").as_bytes());
    }
}

fn parts_text(out: &mut Vec<u8>, parts: &[(Hash, Set)]) {
    for (hash, set) in parts {
        out.push(b' ');
        out.extend_from_slice(hex(hash).as_bytes());
        out.push(b':');
        set_text(out, set);
    }
}

/// What a `move` and a `bsdiff` have in common: R, N and the source.
fn move_text(out: &mut Vec<u8>, target: &Set, n: u32, source: &Source) {
    set_text(out, target);
    out.extend_from_slice(format!(" {n} ").as_bytes());
    match source {
        Source::Image(set) => set_text(out, set),
        Source::Stashes(parts) => {
            out.push(b'-');
            parts_text(out, parts);
        }
        Source::Both(set, places, parts) => {
            set_text(out, set);
            out.push(b' ');
            set_text(out, places);
            parts_text(out, parts);
        }
    }
}

impl Command {
    /// Writes the line, with its LF.
    pub fn text(&self, out: &mut Vec<u8>) {
        match self {
            Command::Zero(set) => {
                out.extend_from_slice(b"zero ");
                set_text(out, set);
            }
            Command::Erase(set) => {
                out.extend_from_slice(b"erase ");
                set_text(out, set);
            }
            Command::New(set) => {
                out.extend_from_slice(b"new ");
                set_text(out, set);
            }
            Command::Move { hash, target, n, source } => {
                out.extend_from_slice(format!("move {} ", hex(hash)).as_bytes());
                move_text(out, target, *n, source);
            }
            Command::Bsdiff { from, bytes, hash, result, target, n, source } => {
                out.extend_from_slice(format!("bsdiff {from} {bytes} {} {} ", hex(hash), hex(result)).as_bytes());
                move_text(out, target, *n, source);
            }
            Command::Stash { hash, source } => {
                out.extend_from_slice(format!("stash {} ", hex(hash)).as_bytes());
                set_text(out, source);
            }
            Command::Free { hash } => out.extend_from_slice(format!("free {}", hex(hash)).as_bytes()),
            Command::Raw(bytes) => out.extend_from_slice(bytes),
        }
        out.push(b'\n');
    }

    /// The size of its target; 0 if it has none.
    pub(super) fn target_size(&self) -> u64 {
        match self {
            Command::Zero(target) | Command::Erase(target) | Command::New(target) => size(target),
            Command::Move { target, .. } | Command::Bsdiff { target, .. } => size(target),
            Command::Stash { .. } | Command::Free { .. } | Command::Raw(_) => 0,
        }
    }

    /// Target, N and source of a `move` or a `bsdiff`.
    pub(super) fn moved(&mut self) -> Option<(&mut Set, &mut u32, &mut Source)> {
        match self {
            Command::Move { target, n, source, .. } | Command::Bsdiff { target, n, source, .. } => Some((target, n, source)),
            _ => None,
        }
    }

    /// Target and hash of what a `move` or a `bsdiff` writes.
    pub(super) fn made(&mut self) -> Option<(&mut Set, &mut Hash)> {
        match self {
            Command::Move { target, hash, .. } | Command::Bsdiff { target, result: hash, .. } => Some((target, hash)),
            _ => None,
        }
    }

    /// The source of a `move` or a `bsdiff`, and N.
    pub(super) fn source(&self) -> Option<(&Source, u32)> {
        match self {
            Command::Move { n, source, .. } | Command::Bsdiff { n, source, .. } => Some((source, *n)),
            _ => None,
        }
    }

    /// The range sets, those of R and S first; how many of them those are.
    pub(super) fn sets(&mut self) -> (Vec<&mut Set>, usize) {
        match self {
            Command::Zero(set) | Command::Erase(set) | Command::New(set) | Command::Stash { source: set, .. } => (vec![set], 1),
            Command::Move { target, source, .. } | Command::Bsdiff { target, source, .. } => match source {
                Source::Image(set) => (vec![target, set], 2),
                Source::Stashes(parts) => (std::iter::once(target).chain(parts.iter_mut().map(|p| &mut p.1)).collect(), 1),
                Source::Both(set, places, parts) => ([target, set, places].into_iter().chain(parts.iter_mut().map(|p| &mut p.1)).collect(), 2),
            },
            Command::Free { .. } | Command::Raw(_) => (Vec::new(), 0),
        }
    }
}
