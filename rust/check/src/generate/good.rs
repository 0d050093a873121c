//! Good lists.

use super::command::{Command, Source};
use super::finished::Ran;
use super::patch::differ;
use super::sets::{any_set, blocks_of, place_set, Set};
use super::{Blocks, Rng, Sizes, World};
use reference::{Hash, MOST_RESULT, MOST_STASHES};

/// What a good list does, followed block by block while it is made.
pub(super) struct Follow {
    pub(super) image: Vec<u8>,
    pub(super) held: Vec<(Hash, Vec<u8>)>,
    pub(super) ran: Vec<Ran>,
    sizes: Sizes,
}

impl Follow {
    fn blocks(&self) -> usize {
        self.held.iter().map(|stash| stash.1.len()).sum()
    }

    pub(super) fn write(&mut self, set: &Set, from: &[u8]) {
        for (block, id) in blocks_of(set).zip(from) {
            self.image[block] = *id;
        }
    }

    pub(super) fn read(&self, set: &Set) -> Vec<u8> {
        blocks_of(set).map(|block| self.image[block]).collect()
    }

    /// How many blocks a command gets, within its room; none where there is no room for one, or no block in the image.
    pub(super) fn some(&self, rng: &mut Rng, room: usize) -> Option<usize> {
        if room == 0 || self.image.is_empty() {
            return None;
        }
        let Sizes { most, often, .. } = self.sizes;
        let most = if often == 1 || rng.one_in(often) { most } else { most / 64 };
        Some(rng.between(1, room.min(most)))
    }

    /// Whether there is patch data enough.
    pub(super) fn is_enough(&self, patch: &[u8]) -> bool {
        patch.len() > self.sizes.patch
    }

    /// Some of the held stashes, now and then many, which together fit the work area; one may come twice.
    fn some_held(&self, rng: &mut Rng, work: usize) -> Vec<usize> {
        let mut chosen = Vec::new();
        let mut blocks = 0;
        let wanted = if self.held.len() > 20 && rng.one_in(20) { self.held.len() } else { 3 };
        for _ in 0..rng.between(1, wanted) {
            if self.held.is_empty() {
                break;
            }
            let k = rng.below(self.held.len());
            let size = self.held[k].1.len();
            if blocks + size <= work {
                chosen.push(k);
                blocks += size;
            }
        }
        chosen
    }
}

impl World {
    /// A list that opens, and on its data runs to its end.
    pub fn good(rng: &mut Rng, blocks: &mut Blocks, sizes: &Sizes) -> World {
        let letters = rng.pick(&[3, 6, 12, 200]);
        let mut image: Vec<u8> = (0..sizes.image).map(|_| rng.between(0, letters) as u8).collect();
        if sizes.stashes > 0 {
            // Each of them of another block.
            let mut all: Vec<u8> = (0..=255).collect();
            rng.shuffle(&mut all);
            image[..sizes.stashes].copy_from_slice(&all[..sizes.stashes]);
        }
        let most_result = sizes.area.min(MOST_RESULT);
        let mut world = World {
            image: image.clone(),
            stash: sizes.area,
            work: sizes.area,
            result: most_result,
            header: [3, 0, 0, 0],
            commands: Vec::new(),
            data: Vec::new(),
            patch: Vec::new(),
            refused: Vec::new(),
        };
        if rng.percent(30) {
            world.work = rng.between(sizes.stashes.min(1), sizes.area);
        }
        if rng.percent(30) {
            world.stash = rng.between(sizes.stashes, sizes.area);
        }
        if rng.percent(30) {
            world.result = rng.between(0, most_result);
        }
        let mut follow = Follow { image, held: Vec::new(), ran: Vec::new(), sizes: *sizes };
        for block in 0..sizes.stashes {
            let ids = vec![follow.image[block]];
            let hash = blocks.digest(&ids);
            follow.held.push((hash, ids));
            world.commands.push(Command::Stash { hash, source: vec![(block as u32, block as u32 + 1)] });
        }
        let mut most = (sizes.stashes, sizes.stashes);
        let mut bytes = 40;
        let stash_weight = rng.pick(&[1, 4, 8]);
        for _ in 0..sizes.commands {
            if world.refused.len() < 4 && rng.one_in(2) {
                world.note_refused(rng, blocks, &follow);
            }
            let before = world.commands.len();
            let command = match rng.below(15 + stash_weight + sizes.frees) {
                0 => good_zero(rng, &mut follow),
                1 | 2 => world.good_new(rng, letters, &mut follow),
                3 | 4 => good_free(rng, &mut follow),
                5..=8 => world.good_move(rng, blocks, &mut follow),
                9 | 10 => world.good_bsdiff(rng, blocks, letters, &mut follow),
                11..=13 => world.good_finished(rng, blocks, &follow),
                14 => world.good_near(rng, blocks, &mut follow),
                kind if kind >= 15 + stash_weight => good_free(rng, &mut follow),
                _ => world.good_stash(rng, blocks, &mut follow),
            };
            world.commands.extend(command);
            if sizes.bytes < usize::MAX {
                let mut text = Vec::new();
                world.commands[before..].iter().for_each(|command| command.text(&mut text));
                bytes += text.len();
            }
            most = (most.0.max(follow.held.len()), most.1.max(follow.blocks()));
            if bytes > sizes.bytes {
                break;
            }
        }
        world.header = [3, world.total(), most.0 as u64, most.1 as u64];
        if rng.percent(30) {
            world.header[2] = rng.pick(&[most.0 as u64 + 1, 64, MOST_STASHES as u64]).clamp(most.0 as u64, MOST_STASHES as u64);
            world.header[3] = world.stash as u64;
        }
        world
    }

    fn good_new(&mut self, rng: &mut Rng, letters: usize, follow: &mut Follow) -> Option<Command> {
        let k = 1 + follow.some(rng, usize::MAX)? / 2;
        let set = any_set(rng, k, follow.image.len());
        let from: Vec<u8> = (0..k).map(|_| rng.between(0, letters) as u8).collect();
        follow.write(&set, &from);
        self.data.extend_from_slice(&from);
        Some(Command::New(set))
    }

    fn good_stash(&self, rng: &mut Rng, blocks: &mut Blocks, follow: &mut Follow) -> Option<Command> {
        let k = follow.some(rng, self.work.min(self.stash - follow.blocks()))?;
        let source = any_set(rng, k, follow.image.len());
        let ids = follow.read(&source);
        let hash = blocks.digest(&ids);
        if follow.held.len() == MOST_STASHES || follow.held.iter().any(|stash| stash.0 == hash) {
            return None;
        }
        follow.held.push((hash, ids));
        Some(Command::Stash { hash, source })
    }

    fn good_move(&self, rng: &mut Rng, blocks: &mut Blocks, follow: &mut Follow) -> Option<Command> {
        let (whole, source) = self.good_source(rng, follow)?;
        let target = any_set(rng, whole.len(), follow.image.len());
        Some(follow.move_of(blocks, (&whole, source), target))
    }

    /// A target of any size, and a patch that makes it of the source; a move where there is patch data enough.
    fn good_bsdiff(&mut self, rng: &mut Rng, blocks: &mut Blocks, letters: usize, follow: &mut Follow) -> Option<Command> {
        if follow.is_enough(&self.patch) {
            return self.good_move(rng, blocks, follow);
        }
        let (whole, source) = self.good_source(rng, follow)?;
        let k = follow.some(rng, self.result)?;
        let target = any_set(rng, k, follow.image.len());
        let ids: Vec<u8> = (0..k).map(|j| if rng.percent(30) { *whole.get(j).unwrap_or(&7) } else { rng.between(0, letters) as u8 }).collect();
        Some(self.bsdiff_of(rng, blocks, (&whole, source), (&ids, target), follow))
    }

    /// A `bsdiff` of this source, which makes these blocks for its target.
    pub(super) fn bsdiff_of(
        &mut self,
        rng: &mut Rng,
        blocks: &mut Blocks,
        (whole, source): (&[u8], Source),
        (ids, target): (&[u8], Set),
        follow: &mut Follow,
    ) -> Command {
        let (from, bytes) = self.put_patch(rng, blocks, whole, ids);
        let (hash, result) = (blocks.digest(whole), blocks.digest(ids));
        follow.runs(Command::Bsdiff { from, bytes, hash, result, target, n: whole.len() as u32, source }, whole, ids)
    }

    /// A patch that makes these blocks of those: where it starts in the patch data, and its bytes.
    pub(super) fn put_patch(&mut self, rng: &mut Rng, blocks: &Blocks, whole: &[u8], ids: &[u8]) -> (u32, u32) {
        let records = if blocks.is_made_up() { Vec::new() } else { differ(rng, &blocks.lay(whole), &blocks.lay(ids)) };
        // Sometimes bytes lie between two patches that belong to none.
        for _ in 0..rng.pick(&[0, 0, 1, 7]) {
            self.patch.push(rng.next_u64() as u8);
        }
        let from = self.patch.len() as u32;
        records.iter().for_each(|record| record.write(&mut self.patch));
        (from, self.patch.len() as u32 - from)
    }

    /// A source in one of the three forms, and its blocks put together.
    pub(super) fn good_source(&self, rng: &mut Rng, follow: &Follow) -> Option<(Vec<u8>, Source)> {
        let named = if rng.percent(65) { follow.some_held(rng, self.work) } else { Vec::new() };
        let from_stash: usize = named.iter().map(|k| follow.held[*k].1.len()).sum();
        let room = self.work - from_stash;
        let form = match named.is_empty() {
            true => 1,
            false if room == 0 => 2,
            false => rng.pick(&[2, 3, 3]),
        };
        let from_image = if form == 2 { 0 } else { follow.some(rng, room)? };
        let n = from_image + from_stash;
        let set = any_set(rng, from_image, follow.image.len());
        let mut places = any_order(rng, n);
        if form == 1 {
            places.sort();
        }

        // The source put together, and who fills which of its places.
        let mut whole = vec![0u8; n];
        let mut fill = |places: &[usize], ids: &[u8]| places.iter().zip(ids).for_each(|(place, id)| whole[*place] = *id);
        let (mine, mut rest) = places.split_at(from_image);
        fill(mine, &follow.read(&set));
        let first = place_set(rng, mine);
        let mut parts = Vec::new();
        for k in named {
            let (hash, ids) = &follow.held[k];
            let (mine, after) = rest.split_at(ids.len());
            fill(mine, ids);
            parts.push((*hash, place_set(rng, mine)));
            rest = after;
        }
        let source = match form {
            1 => Source::Image(set),
            2 => Source::Stashes(parts),
            _ => Source::Both(set, first, parts),
        };
        Some((whole, source))
    }
}

fn good_zero(rng: &mut Rng, follow: &mut Follow) -> Option<Command> {
    let bound = follow.image.len();
    let k = follow.some(rng, bound)?;
    let set = any_set(rng, k, bound);
    follow.write(&set, &vec![0; k]);
    Some(if rng.percent(50) { Command::Zero(set) } else { Command::Erase(set) })
}

fn good_free(rng: &mut Rng, follow: &mut Follow) -> Option<Command> {
    if follow.held.is_empty() {
        return None;
    }
    let mut j = rng.below(follow.held.len());
    let blocks = |stashes: &[(Hash, Vec<u8>)]| stashes.iter().map(|stash| stash.1.len()).sum::<usize>();
    if blocks(&follow.held[j + 1..]).div_ceil(blocks(&follow.held[j..=j])) > follow.sizes.stretches {
        j = follow.held.len() - 1;
    }
    let (hash, _) = follow.held.remove(j);
    Some(Command::Free { hash })
}

/// The numbers below n: shuffled, turned, backwards or in order.
fn any_order(rng: &mut Rng, n: usize) -> Vec<usize> {
    let mut order: Vec<usize> = (0..n).collect();
    match rng.below(4) {
        // Of many, rows are shuffled and not each: a range for each would fill the list.
        0 if n > 4_096 => {
            let mut rows: Vec<&[usize]> = order.chunks(n / 50).collect();
            rng.shuffle(&mut rows);
            order = rows.concat();
        }
        0 => rng.shuffle(&mut order),
        1 => order.rotate_left(rng.below(n)),
        2 if n <= 4_096 => order.reverse(),
        _ => {}
    }
    order
}
