//! A list with all that it needs.

use super::command::Command;
use reference::Hash;

/// A list with the image it runs on, the new data it takes, the patch data it names and the areas it needs. Blocks are named by their bytes'
/// number.
#[derive(Clone)]
pub struct World {
    pub image: Vec<u8>,
    pub stash: usize,
    pub work: usize,
    pub result: usize,
    pub header: [u64; 4],
    pub commands: Vec<Command>,
    pub data: Vec<u8>,
    pub patch: Vec<u8>,
    /// Lines that it does not have: each may stand before the command of this number, and is refused there.
    pub refused: Vec<(usize, Command)>,
}

/// How large a world may be: blocks of the image and of an area, commands, blocks of one command, bytes of the list and of the patch data. One
/// command in `often` may have its most blocks, the others a part of that. So many `stashes` of a block are made before all else. A `free` moves the
/// younger stashes in no more than so many `stretches`. With `frees` there are so many more of them among some twenty lines.
#[derive(Clone, Copy)]
pub struct Sizes {
    pub image: usize,
    pub area: usize,
    pub commands: usize,
    pub most: usize,
    pub bytes: usize,
    pub patch: usize,
    pub often: usize,
    pub stashes: usize,
    pub stretches: usize,
    pub frees: usize,
}

impl Sizes {
    pub fn small(image: usize, area: usize, commands: usize) -> Sizes {
        Sizes { image, area, commands, most: 4, bytes: usize::MAX, patch: 1 << 20, often: 1, stashes: 0, stretches: usize::MAX, frees: 0 }
    }
}

impl World {
    /// The sizes of the targets of all commands of some kind.
    pub(super) fn targets(&self, kind: impl Fn(&Command) -> bool) -> u64 {
        self.commands.iter().filter(|command| kind(command)).map(Command::target_size).sum()
    }

    /// What line 2 must be: the targets of `new`, `zero`, `move` and `bsdiff`.
    pub fn total(&self) -> u64 {
        self.targets(|command| matches!(command, Command::New(_) | Command::Zero(_) | Command::Move { .. } | Command::Bsdiff { .. }))
    }

    /// The hashes of the first stashes, which stand before all else.
    pub fn first_hashes(&self, count: usize) -> impl Iterator<Item = Hash> + '_ {
        self.commands[..count].iter().filter_map(|command| if let Command::Stash { hash, .. } = command { Some(*hash) } else { None })
    }

    /// The list's text.
    pub fn list(&self) -> Vec<u8> {
        let mut out = Vec::new();
        for number in self.header {
            out.extend_from_slice(format!("{number}\n").as_bytes());
        }
        for command in &self.commands {
            command.text(&mut out);
        }
        out
    }
}
