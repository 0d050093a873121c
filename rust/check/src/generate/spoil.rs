//! Lists spoiled so that a certain refusal applies.

use super::command::{Command, Source};
use super::sets::{any_set, one_block_less, put_empty};
use super::{patch, Rng, World};
use reference::{MOST_AREA, MOST_STASHES};
use std::ops::Range;

#[derive(Clone, Copy)]
enum Fault {
    Version,
    Total,
    MostStashes,
    MostBlocks,
    PastImage,
    Empty,
    Length,
    Name,
    Size,
    MoveSize,
    Places,
    Again,
    Gone,
    Swapped,
    Line,
    Stash,
    Hash,
    Patch,
    PatchPlace,
    Result,
    Field,
}

/// Each as often as it is to be tried.
const FAULTS: [Fault; 32] = [
    Fault::Version,
    Fault::Total,
    Fault::MostStashes,
    Fault::MostBlocks,
    Fault::PastImage,
    Fault::PastImage,
    Fault::Empty,
    Fault::Empty,
    Fault::Length,
    Fault::Length,
    Fault::Name,
    Fault::Name,
    Fault::Size,
    Fault::Places,
    Fault::Places,
    Fault::Again,
    Fault::Gone,
    Fault::Swapped,
    Fault::Line,
    Fault::Stash,
    Fault::Hash,
    Fault::Hash,
    Fault::MoveSize,
    Fault::MoveSize,
    Fault::Places,
    Fault::Places,
    Fault::Patch,
    Fault::PatchPlace,
    Fault::PatchPlace,
    Fault::PatchPlace,
    Fault::Result,
    Fault::Field,
];

fn is_move(command: &Command) -> bool {
    matches!(command, Command::Move { .. })
}

fn is_bsdiff(command: &Command) -> bool {
    matches!(command, Command::Bsdiff { .. })
}

fn has_source(command: &Command) -> bool {
    command.source().is_some()
}

fn moves_stashes(command: &Command) -> bool {
    matches!(command.source(), Some((Source::Stashes(_) | Source::Both(..), _)))
}

fn moves_both(command: &Command) -> bool {
    matches!(command.source(), Some((Source::Both(..), _)))
}

fn has_sets(command: &Command) -> bool {
    !matches!(command, Command::Free { .. } | Command::Raw(_))
}

fn names_stashes(command: &Command) -> bool {
    moves_stashes(command) || matches!(command, Command::Free { .. })
}

impl World {
    /// Makes one thing wrong, mostly so that a certain number applies. Line 2 mostly follows what is now counted.
    pub fn spoil(&mut self, rng: &mut Rng) {
        let (total, follows) = (self.header[1], self.header[1] == self.total());
        self.one_fault(rng);
        if follows && self.header[1] == total && self.total() <= u32::MAX as u64 && rng.percent(75) {
            self.header[1] = self.total();
        }
    }

    fn one_fault(&mut self, rng: &mut Rng) {
        if rng.one_in(6) {
            return self.spoil_move(rng);
        }
        let fault = if self.commands.iter().any(moves_stashes) && rng.one_in(4) { Fault::Places } else { rng.pick(&FAULTS) };
        let count = self.commands.len();
        let at = rng.below(count);
        let [_, _, stashes, blocks] = self.header;
        match fault {
            Fault::Version => self.header[0] = rng.pick(&[0, 1, 2, 4, 33, 4_294_967_295]),
            Fault::Total => self.other_total(rng),
            Fault::MostStashes => {
                let most = MOST_STASHES as u64;
                self.header[2] = rng.pick(&[stashes.saturating_sub(1), 0, 64, 65, most - 1, most, most + 1, most + 2, 4_294_967_295]);
            }
            Fault::MostBlocks => {
                let area = self.stash as u64;
                self.header[3] =
                    rng.pick(&[blocks.saturating_sub(1), 0, area, area + 1, 4_097, MOST_AREA as u64, MOST_AREA as u64 + 1, 4_294_967_295]);
            }
            Fault::PastImage => self.past_image(rng, at),
            Fault::Empty => self.empty_range(rng, 0..count),
            Fault::Length => self.other_length(rng, self.seek(at, has_source)),
            Fault::Name => self.other_name(rng, self.seek(at, names_stashes)),
            Fault::Size => self.other_size(rng, at),
            Fault::MoveSize => self.other_size(rng, self.seek(at, has_source)),
            Fault::Places => self.other_places(rng, self.seek(at, moves_stashes)),
            Fault::Again => {
                if let Some(again) = self.commands.get(at).cloned() {
                    self.commands.insert(rng.between(at, count), again);
                }
            }
            Fault::Gone => {
                if count > 0 {
                    self.commands.remove(at);
                }
            }
            Fault::Swapped => {
                if count > 0 {
                    self.commands.swap(at, rng.below(count));
                }
            }
            Fault::Line => {
                let to = rng.between(0, count);
                let line = if rng.percent(50) { rng.pick(&RAW_LINES[..6]) } else { rng.pick(&RAW_LINES) };
                self.commands.insert(to, Command::Raw(line.to_vec()));
            }
            Fault::Stash => self.one_more_stash(rng, at),
            Fault::Hash => self.wrong_hash(rng),
            Fault::Patch => self.spoil_patch(rng),
            Fault::PatchPlace => self.other_patch_place(rng, self.seek(at, is_bsdiff)),
            Fault::Result => self.other_result(rng, self.seek(at, is_bsdiff)),
            Fault::Field => self.other_fields(rng, self.seek(at, is_bsdiff)),
        }
    }

    /// Another number on line 2: beside the right one, at a border, or counted by another rule.
    fn other_total(&mut self, rng: &mut Rng) {
        let total = self.header[1];
        let new = self.targets(|command| matches!(command, Command::New(_)));
        let zero = self.targets(|command| matches!(command, Command::Zero(_)));
        let erased = self.targets(|command| matches!(command, Command::Erase(_)));
        let moved = self.targets(is_move);
        let patched = self.targets(is_bsdiff);
        // N of each `bsdiff` in place of its target.
        let sources: u64 = self.commands.iter().filter(|command| is_bsdiff(command)).filter_map(|c| Some(c.source()?.1 as u64)).sum();
        let less = |blocks: u64| total.saturating_sub(blocks);
        let by_source = (less(patched) + sources).min(4_294_967_295);
        let other = [total + 1, less(1), 0, 4_294_967_295, new, total + erased, less(zero), less(moved), less(new), less(patched), by_source];
        self.header[1] = rng.pick(&other);
    }

    /// The first command of this kind from there on, all around.
    fn seek(&self, from: usize, is: impl Fn(&Command) -> bool) -> usize {
        let count = self.commands.len();
        (0..count).map(|k| (from + k) % count).find(|k| is(&self.commands[*k])).unwrap_or(from)
    }

    /// An end past the image, of R or S and sometimes of L.
    fn past_image(&mut self, rng: &mut Rng, at: usize) {
        let bound = self.image.len() as u32;
        let Some(command) = self.commands.get_mut(at) else { return };
        let (mut sets, of_image) = command.sets();
        if sets.is_empty() {
            return;
        }
        let which = if rng.percent(80) { rng.below(of_image) } else { rng.below(sets.len()) };
        let set = &mut sets[which];
        let k = rng.below(set.len());
        let (start, end) = set[k];
        let length = end.saturating_sub(start);
        let over = rng.pick(&[1, 1, 2, 1000, u32::MAX - bound]);
        let to = bound.saturating_add(over);
        set[k] = match rng.below(3) {
            0 => (to.saturating_sub(length.max(1)), to),
            1 => (to - 1, to),
            _ => (start.min(to - 1), to),
        };
    }

    /// Puts a range without blocks in a set of one of these commands.
    pub fn empty_range(&mut self, rng: &mut Rng, commands: Range<usize>) {
        let bound = self.image.len() as u32;
        let of = |is: fn(&Command) -> bool| -> Vec<usize> { commands.clone().filter(|k| self.commands.get(*k).is_some_and(is)).collect() };
        // Few have every kind of set.
        let mut all = of(rng.pick(&[moves_both, moves_both, moves_stashes, has_sets]));
        if all.is_empty() {
            all = of(has_sets);
        }
        if all.is_empty() {
            return;
        }
        let (mut sets, _) = self.commands[rng.pick(&all)].sets();
        // The third is the first L, where there is one.
        let which = if rng.percent(50) { rng.below(sets.len()) } else { 2.min(sets.len() - 1) };
        put_empty(rng, sets[which], bound);
    }

    /// N.
    fn other_length(&mut self, rng: &mut Rng, at: usize) {
        let (work, bound) = (self.work as u32, self.image.len());
        let Some((target, n, source)) = self.commands.get_mut(at).and_then(Command::moved) else { return };
        match rng.below(8) {
            0 => *n = n.saturating_add(1),
            1 => *n = n.saturating_sub(1),
            2 => *n = work + 1,
            3 => *n = u32::MAX,
            4 | 5 => *n = 0,
            _ => {
                // One more than the work area, all else fitting.
                *n = work + 1;
                *target = any_set(rng, *n as usize, bound);
                if rng.percent(70) {
                    *source = Source::Image(any_set(rng, *n as usize, bound));
                }
            }
        }
    }

    /// A name that may not be held.
    fn other_name(&mut self, rng: &mut Rng, at: usize) {
        if self.commands.is_empty() {
            return;
        }
        let mut name = [0u8; 20];
        name[rng.below(20)] = rng.next_u64() as u8;
        let other = rng.below(self.commands.len());
        if let Command::Stash { hash, .. } | Command::Move { hash, .. } | Command::Bsdiff { hash, .. } | Command::Free { hash } =
            &self.commands[other]
        {
            if rng.percent(60) {
                name = *hash;
            }
        }
        match &mut self.commands[at] {
            Command::Move { source: Source::Stashes(parts) | Source::Both(_, _, parts), .. }
            | Command::Bsdiff { source: Source::Stashes(parts) | Source::Both(_, _, parts), .. } => {
                let k = rng.below(parts.len());
                parts[k].0 = name;
            }
            Command::Free { hash } => *hash = name,
            _ => self.commands.insert(at, Command::Free { hash: name }),
        }
    }

    /// A set of another size.
    fn other_size(&mut self, rng: &mut Rng, at: usize) {
        let bound = self.image.len();
        let Some(command) = self.commands.get_mut(at) else { return };
        let (mut sets, _) = command.sets();
        if sets.is_empty() {
            return;
        }
        let which = rng.below(sets.len());
        let set = &mut sets[which];
        let k = rng.below(set.len());
        match rng.below(4) {
            0 => set[k].1 = set[k].1.saturating_add(1),
            1 if one_block_less(set) => {}
            1 | 2 => set.push((0, rng.between(1, bound) as u32)),
            _ if set.len() > 1 => {
                set.remove(k);
            }
            _ => set[k] = (0, 4_294_967_295),
        }
    }

    /// Places taken twice, or at N and above, mostly in the line that has the most of them.
    pub fn misplace(&mut self, rng: &mut Rng) {
        let mut at = self.seek(rng.below(self.commands.len()), moves_stashes);
        if rng.percent(75) {
            let spread = (0..self.commands.len()).filter(|k| moves_stashes(&self.commands[*k]));
            at = spread.max_by_key(|k| self.commands[*k].source().map(|(_, n)| n)).unwrap_or(at);
        }
        self.other_places(rng, at);
    }

    /// One stash more than line 3 has, where line 4 has room: right behind the first ones, or later.
    pub fn one_stash_too_many(&mut self, rng: &mut Rng) {
        let first = self.commands.iter().take_while(|command| matches!(command, Command::Stash { .. })).count();
        let at = if rng.percent(70) { first } else { rng.between(first, self.commands.len()) };
        self.header[2] = (first as u64).max(self.header[2]);
        self.header[3] = self.stash as u64;
        self.commands.insert(at, Command::Stash { hash: [0xcd; 20], source: vec![(0, 1)] });
    }

    /// Places taken twice, or at N and above.
    fn other_places(&mut self, rng: &mut Rng, at: usize) {
        let Some(command) = self.commands.get_mut(at) else { return };
        let Some((Source::Stashes(_) | Source::Both(..), n)) = command.source() else { return };
        let (mut sets, of_image) = command.sets();
        let which = rng.between(of_image, sets.len() - 1);
        let set = &mut sets[which];
        let k = rng.below(set.len());
        let (from, above) = (set[k].0, n.saturating_add(1));
        let length = set[k].1.saturating_sub(from);
        let start = rng.pick(&[
            0,
            from.saturating_add(1),
            from.saturating_sub(1),
            n.saturating_sub(length),
            n,
            above.saturating_sub(length),
            u32::MAX - length,
        ]);
        set[k] = (start, start.saturating_add(length));
    }

    /// A stash more, of any size and name, held or not.
    fn one_more_stash(&mut self, rng: &mut Rng, at: usize) {
        let k = rng.between(1, self.work + 1);
        let source = any_set(rng, k, self.image.len().max(1));
        let mut hash = [rng.next_u64() as u8; 20];
        let old = self.commands.iter().find_map(|c| if let Command::Stash { hash, .. } = c { Some(*hash) } else { None });
        if rng.percent(70) {
            hash = old.unwrap_or(hash);
        }
        let to = rng.between(at, self.commands.len());
        self.commands.insert(to, Command::Stash { hash, source });
    }

    /// Several faults in one `move` or `bsdiff`, so that it matters which number is lowest.
    fn spoil_move(&mut self, rng: &mut Rng) {
        let (work, bound) = (self.work as u32, self.image.len() as u32);
        let one = if rng.one_in(3) { is_bsdiff } else { moves_stashes };
        let at = self.seek(rng.below(self.commands.len()), one);
        if let Some(Command::Bsdiff { from, target, .. }) = self.commands.get_mut(at) {
            if rng.percent(50) {
                *from = u32::MAX;
            }
            if rng.percent(30) {
                target.extend((0..=self.result as u32).map(|_| (0, 1)));
            }
        }
        let Some((target, n, source)) = self.commands.get_mut(at).and_then(Command::moved) else { return };
        let (mut from, mut parts) = match source {
            Source::Image(set) => (Some(set), None),
            Source::Stashes(parts) => (None, Some(parts)),
            Source::Both(set, _, parts) => (Some(set), Some(parts)),
        };
        if let Some(parts) = &mut parts {
            if rng.percent(60) {
                let again = parts[rng.below(parts.len())].clone();
                parts.push(again);
            }
        }
        for _ in 0..rng.between(2, 3) {
            match (rng.below(7), &mut from, &mut parts) {
                (0, _, _) => target.push((0, bound + 1)),
                (1, _, _) => *n = work + 1,
                (2, Some(set), _) => set.push((bound + 1, bound + 2)),
                (3, Some(set), _) => set.push((0, bound)),
                (4, _, Some(parts)) => {
                    let k = rng.below(parts.len());
                    parts[k].0[19] ^= 0x55;
                }
                (5 | 6, _, Some(parts)) => {
                    let k = rng.below(parts.len());
                    parts[k].1.push((0, 1));
                }
                _ => *n = n.saturating_add(1),
            }
        }
    }

    /// Whether there is a patch to spoil.
    pub fn has_patch(&self) -> bool {
        self.commands.iter().any(is_bsdiff)
    }

    /// A patch malformed, cut or longer, or a target that it does not fit; the list opens all the same, mostly.
    pub fn spoil_patch(&mut self, rng: &mut Rng) {
        let at = self.seek(rng.below(self.commands.len()), is_bsdiff);
        let Some(Command::Bsdiff { from, bytes, hash, result, .. }) = self.commands.get_mut(at) else { return };
        // The source's hash, too, now and then: it comes first.
        if rng.one_in(12) {
            hash[rng.below(20)] ^= 1 << rng.below(8);
        }
        let start = (*from as usize).min(self.patch.len());
        let end = start.saturating_add(*bytes as usize).min(self.patch.len());
        let patch = &mut self.patch[start..end];
        match rng.below(13) {
            0..=6 => patch::spoil(rng, patch),
            7 | 8 => {
                // Cut or longer, and there are bytes enough for it.
                *bytes = patch::other_length(rng, patch) as u32;
                let needed = start + *bytes as usize;
                if needed > self.patch.len() && rng.percent(80) {
                    self.patch.resize(needed, rng.pick(&[0, 0x43, 0xff]));
                }
            }
            9 => *from = from.saturating_sub(rng.between(1, 3) as u32),
            10 => {
                // A block more or less of the target.
                let follows = self.header[1] == self.total();
                let Some(Command::Bsdiff { target, .. }) = self.commands.get_mut(at) else { return };
                if rng.percent(40) || !one_block_less(target) {
                    target.push((0, 1));
                }
                if follows {
                    self.header[1] = self.total();
                }
            }
            // No record at all.
            11 if rng.one_in(3) => *bytes = 0,
            _ => result[rng.below(20)] ^= 1 << rng.below(8),
        }
    }

    /// O or B at the end of the patch data, one past it, or at the border of 32 bits.
    fn other_patch_place(&mut self, rng: &mut Rng, at: usize) {
        let length = self.patch.len() as u32;
        let Some(Command::Bsdiff { from, bytes, .. }) = self.commands.get_mut(at) else { return };
        match rng.below(10) {
            0 | 1 => *bytes = length.saturating_sub(*from) + 1,
            2 => *bytes = length.saturating_sub(*from),
            3 => (*from, *bytes) = (length, rng.pick(&[0, 1])),
            4 => (*from, *bytes) = (length + 1, 0),
            5 => *from = (length + 1).saturating_sub(*bytes),
            // Sums past 32 bits.
            6..=8 => (*from, *bytes) = (u32::MAX, rng.pick(&[0, 1, 1, 2, 27, u32::MAX])),
            _ => *bytes = rng.pick(&[u32::MAX, u32::MAX - *from, (u32::MAX - *from).saturating_add(1), 1 << 31]),
        }
    }

    /// A target of the result area's blocks, of one more, or of many more.
    fn other_result(&mut self, rng: &mut Rng, at: usize) {
        let (room, bound) = (self.result, self.image.len());
        let Some(Command::Bsdiff { target, .. }) = self.commands.get_mut(at) else { return };
        let blocks = rng.pick(&[room, room + 1, room + 1, room + 1, room + 20]);
        *target = any_set(rng, blocks, bound);
    }

    /// A field less, one twice, or two of them in the other order.
    fn other_fields(&mut self, rng: &mut Rng, at: usize) {
        let Some(command) = self.commands.get_mut(at) else { return };
        let mut text = Vec::new();
        command.text(&mut text);
        text.pop();
        let mut fields: Vec<&[u8]> = text.split(|c| *c == b' ').collect();
        let k = rng.below(fields.len());
        match rng.below(4) {
            0 | 1 => {
                fields.remove(k);
            }
            2 => fields.insert(k, fields[k]),
            _ => fields.truncate(k + 1),
        }
        *command = Command::Raw(fields.join(&b' '));
    }

    /// Changes one hash that a run compares.
    pub fn wrong_hash(&mut self, rng: &mut Rng) {
        let count = self.commands.len();
        let from = rng.below(count);
        for k in 0..count {
            let hash = match &mut self.commands[(from + k) % count] {
                Command::Bsdiff { result, .. } if rng.percent(50) => result,
                Command::Move { hash, .. } | Command::Stash { hash, .. } | Command::Bsdiff { hash, .. } => hash,
                _ => continue,
            };
            hash[rng.below(20)] ^= 1 << rng.below(8);
            return;
        }
    }
}

/// Lines that are no good, but for the seventh where there is as much patch data; the first six by the word alone, refused with 7.
const RAW_LINES: [&[u8]; 30] = [
    b"imgdiff 0 3169086 ffc645d03fa4f56e72fefa872b792a76c26f9bb4 4bc0c9ddf123d54a04c800824c0951873e195ef1 2,0,1 1 2,0,1",
    b"imgdiff 1 2 x",
    b"imgdiff 0 0 da39a3ee5e6b4b0d3255bfef95601890afd80709 da39a3ee5e6b4b0d3255bfef95601890afd80709 2,0,0 0 2,0,0",
    b"imgdiff",
    b"imgdiff ",
    b"imgdiff  \xff",
    b"bsdiff 0 3169086 ffc645d03fa4f56e72fefa872b792a76c26f9bb4 4bc0c9ddf123d54a04c800824c0951873e195ef1 2,0,1 1 2,0,1",
    b"bsdiff",
    b"bsdiff ",
    b"bsdiff 0 0 da39a3ee5e6b4b0d3255bfef95601890afd80709 2,0,1 1 2,0,1",
    b"bsdiff 0 4294967296 da39a3ee5e6b4b0d3255bfef95601890afd80709 da39a3ee5e6b4b0d3255bfef95601890afd80709 2,0,1 1 2,0,1",
    b"imgdiff\t0",
    b"bsdiff\t0",
    b"bsdiffs 1",
    b" bsdiff",
    b"",
    b" ",
    b"zero",
    b"zero ",
    b"move",
    b"stash ",
    b"free",
    b"new",
    b"erase  2,0,1",
    b"Zero 2,0,1",
    b"zero 2,0,1 ",
    b"zero\t2,0,1",
    b"zero 2,0,1\r",
    b"free da39a3ee5e6b4b0d3255bfef95601890afd80709 ",
    b"move da39a3ee5e6b4b0d3255bfef95601890afd80709 2,0,1 1 2,0,1 2,0,1",
];
