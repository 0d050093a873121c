//! Digests, lengths that no memory here has, ill-formed lines, and the longest lists.

use super::{Checker, Lent};
use crate::generate::{other_line, Rng, Sizes, World};
use crate::hex;
use reference::{digest, Rooms, BLOCK, MOST_AREA, MOST_IMAGE, MOST_LIST, MOST_RESULT};

impl Checker<'_> {
    pub(super) fn digest(&mut self, rng: &mut Rng) -> Result<(), String> {
        let mut length = rng.pick(&[0, 1, 55, 56, 57, 63, 64, 65, 119, 120, 127, 128, 129, 4_096]);
        if rng.percent(50) {
            length = rng.below(300);
        }
        let id = rng.between(0, 255) as u8;
        let mut bytes = self.blocks.block(id)[..length].to_vec();
        for _ in 0..4 {
            if length > 0 {
                bytes[rng.below(length)] = rng.next_u64() as u8;
            }
        }
        self.piece.set(&bytes, self.behind);
        self.coverage.digests += 1;
        let (ours, theirs) = (digest(&bytes), self.other.digest(self.piece.bytes()));
        self.note(|| format!("digest of {}: {} and {}", hex(&bytes), hex(&ours), hex(&theirs)));
        if ours != theirs {
            return Err("digest differs".into());
        }
        Ok(())
    }

    /// Openings for areas of lengths that no memory here has.
    pub(super) fn odd_lengths(&mut self, rng: &mut Rng, lent: &Lent) -> Result<(), String> {
        let image = MOST_IMAGE * BLOCK;
        let area = MOST_AREA * BLOCK;
        for _ in 0..3 {
            let odd = |rng: &mut Rng, most: usize, real: usize| {
                if rng.percent(55) {
                    return real;
                }
                rng.pick(&[
                    0,
                    1,
                    BLOCK - 1,
                    BLOCK + 1,
                    most - BLOCK,
                    most - 1,
                    most,
                    most,
                    most + 1,
                    most + BLOCK,
                    4_096 * BLOCK,
                    4_097 * BLOCK,
                    usize::MAX,
                    usize::MAX - BLOCK + 1,
                    1 << 63,
                ])
            };
            let rooms = Rooms {
                image: odd(rng, image, lent.image.len()),
                stash: odd(rng, area, lent.stash.len()),
                work: odd(rng, area, lent.work.len()),
                result: odd(rng, MOST_RESULT * BLOCK, lent.result.len()),
                // Any length will do.
                patch: odd(rng, 1 << 32, lent.patch.len()),
            };
            self.open(&lent.list, rooms)?;
        }
        if rng.one_in(6) {
            // One byte too many, or just not, with a good or a bad header.
            let mut long = lent.list.clone();
            long.resize(MOST_LIST + rng.below(3), b'\n');
            let odd = rng.below(5) / 4;
            self.open(&long, Rooms { image: lent.image.len() + odd, ..lent.rooms() })?;
        }
        Ok(())
    }

    /// Openings of a good list with an ill-formed line each.
    pub(super) fn ill_lines(&mut self, rng: &mut Rng, world: &World, rooms: Rooms) -> Result<(), String> {
        let good = world.list();
        for _ in 0..12 {
            let mut list = good.clone();
            other_line(rng, &mut list);
            self.open(&list, rooms)?;
        }
        Ok(())
    }

    /// Openings with areas past 4,096 blocks, a good list and spoiled ones: they take the lengths alone, so that nothing need be lent.
    pub(super) fn large_openings(&mut self, rng: &mut Rng) -> Result<(), String> {
        let any = rng.between(4_097, MOST_AREA);
        let area = rng.pick(&[4_097, any, any, MOST_AREA - 1, MOST_AREA, MOST_AREA]);
        let image = rng.between(area, 2 * area);
        let sizes = Sizes {
            image,
            area,
            commands: rng.between(5, 12),
            most: area,
            often: 2,
            bytes: 1 << 20,
            patch: 0,
            stashes: 0,
            stretches: usize::MAX,
            frees: 0,
        };
        let world = World::good(rng, &mut self.made_up, &sizes);
        let World { stash, work, result, .. } = world;
        let rooms = Rooms { image: image * BLOCK, stash: stash * BLOCK, work: work * BLOCK, result: result * BLOCK, patch: world.patch.len() };
        let state = self.open(&world.list(), rooms)?;
        if state.refusal.number != 0 {
            return Err(format!("a good list is refused: {:?}", state.refusal));
        }
        for _ in 0..3 {
            let mut other = world.clone();
            if rng.percent(75) {
                other.misplace(rng);
            } else {
                other.spoil(rng);
            }
            self.open(&other.list(), rooms)?;
        }
        Ok(())
    }

    /// A list of the greatest length, and one byte more.
    pub(super) fn longest(&mut self, rng: &mut Rng) -> Result<(), String> {
        // Lines of 12 and 13 bytes fill any length.
        let mut list = b"3\n0\n0\n0\n".to_vec();
        let body = MOST_LIST - list.len();
        let longer = body % 12;
        let x = rng.below(9);
        for _ in 0..(body - 13 * longer) / 12 {
            list.extend_from_slice(format!("erase 2,{x},{}\n", x + 1).as_bytes());
        }
        for _ in 0..longer {
            list.extend_from_slice(b"erase 2,9,10\n");
        }
        let image = self.blocks.lay(&[1, 2, 3, 4, 5, 6, 7, 8, 9, 10]);
        let mut lent = Lent { list, image, stash: Vec::new(), work: Vec::new(), result: Vec::new(), patch: Vec::new() };
        if rng.percent(30) {
            lent.list.push(b'\n');
        }
        let state = self.open(&lent.list, lent.rooms())?;
        self.lend(&lent);
        self.call(&mut lent, b"", state).map(|_| ())
    }
}
