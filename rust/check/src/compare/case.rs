//! One seeded case: a list, good or spoiled, opened and called.

use super::{answer_text, Checker, Lent};
use crate::generate::{damage, disturb, line_starts, mark_line, other_header, same_at_the_ends, Pieces, Rng, Sizes, World};
use reference::{model, plain, Answer, Lengths, Outcome, State, BLOCK, MOST_STASHES};
use std::iter::repeat;

impl Checker<'_> {
    /// One list, with its areas and its data.
    pub(super) fn list_case(&mut self, seed: u64, index: u64) -> Result<(), String> {
        let mut rng = Rng::of_case(seed, index);
        self.behind = rng.percent(70);
        self.thrice = rng.one_in(4);
        self.crossing = rng.one_in(3);
        if rng.one_in(20) {
            self.digest(&mut rng)?;
        }
        if rng.one_in(40_000) {
            return self.longest(&mut rng);
        }
        if rng.one_in(60) {
            return self.large_openings(&mut rng);
        }
        let sizes = any_sizes(&mut rng);
        let world = World::good(&mut rng, &mut self.blocks, &sizes);
        let (list, patch) = any_list(&mut rng, &world, sizes.stashes);
        let mut lent = Lent {
            list,
            image: self.blocks.lay(&world.image),
            stash: self.blocks.lay(&(0..world.stash).map(|k| 230 + k as u8 % 20).collect::<Vec<_>>()),
            work: self.blocks.lay(&(0..world.work).map(|k| 210 + k as u8 % 20).collect::<Vec<_>>()),
            result: self.blocks.lay(&(0..world.result).map(|k| 190 + k as u8 % 20).collect::<Vec<_>>()),
            patch,
        };
        if rng.one_in(60) {
            other_rooms(&mut rng, &mut lent);
        }
        let rooms = lent.rooms();
        if rng.one_in(30) {
            self.odd_lengths(&mut rng, &lent)?;
        }
        if rng.one_in(4) {
            self.ill_lines(&mut rng, &world, rooms)?;
        }
        let mut state = self.open(&lent.list, rooms)?;
        let (accepted, wrong) = (state.refusal.number == 0, state.refusal.line);
        if sizes.stashes == 0 && sizes.most < 100 && (wrong > 4 || accepted && rng.one_in(3)) {
            self.marked(&mut rng, &lent, wrong)?;
        }
        if !accepted {
            match rng.below(10) {
                0 | 1 => {}
                2..=8 => {
                    // Run it all the same, as if it had been altered after opening.
                    let starts = line_starts(&lent.list);
                    state = plain::open(&world.list(), rooms);
                    state.lengths.list = lent.list.len();
                    if rng.percent(80) {
                        state.at = starts.get(4).copied().unwrap_or(state.at);
                    }
                }
                _ => return Ok(()),
            }
        }
        if sizes.stashes > 0 && state.refusal.number == 0 && rng.percent(95) {
            past_stashes(&world, sizes.stashes, &mut lent, &mut state);
            if rng.percent(25) {
                same_at_the_ends(&mut rng, &mut state);
            }
        }
        let mut data = self.blocks.lay(&world.data);
        match rng.below(10) {
            0..=2 => data.truncate(rng.below(data.len() + 1)),
            3 => data.extend((0..rng.between(1, 5_000)).map(|k| k as u8)),
            _ => {}
        }
        if accepted && sizes.stashes == 0 && rng.one_in(8) {
            self.closed(&lent, &data, state)?;
        }
        let pieces = Pieces::cut(&mut rng, data);
        self.lend(&lent);
        if !accepted && state.refusal.number != 0 && rng.percent(50) {
            return self.run(&lent, &pieces);
        }
        if accepted && rng.one_in(12) {
            // From here on the total passes 2^64, or the run is within some line.
            match rng.below(3) {
                0 => state.total = u64::MAX - rng.below(5_000) as u64,
                _ => disturb(&mut rng, &mut state, &lent.list),
            }
            return self.calls(&mut rng, &world, lent, &pieces, state, false);
        }
        let trouble = rng.percent(if accepted { 30 } else { 20 });
        if accepted && !trouble && rng.percent(40) {
            return self.sequence(&mut rng, lent, &pieces, state);
        }
        self.calls(&mut rng, &world, lent, &pieces, state, trouble)
    }

    /// Single calls from states that stand within a line: the one that is wrong, if there is one, else any.
    fn marked(&mut self, rng: &mut Rng, lent: &Lent, wrong: usize) -> Result<(), String> {
        let opened = State { lengths: Lengths::of(&lent.list, lent.rooms()), ..State::ZERO };
        let lines = line_starts(&lent.list).len();
        for _ in 0..if wrong > 4 { 3 } else { 8 } {
            let mut state = opened;
            let line = if wrong > 4 && rng.percent(80) { wrong } else { 5 + rng.below(lines.saturating_sub(4)) };
            mark_line(rng, &mut state, &lent.list, line);
            self.lend(lent);
            self.call(&mut lent.clone(), b"", state)?;
        }
        Ok(())
    }

    /// All pieces and sometimes a call or two more; with trouble, something is altered before one of the calls, at a stop or not.
    fn calls(&mut self, rng: &mut Rng, world: &World, mut lent: Lent, pieces: &Pieces, mut state: State, trouble: bool) -> Result<(), String> {
        let Pieces { data, cuts } = pieces;
        let steps = cuts.len() + 1 + rng.pick(&[0, 0, 1, 2]);
        let most = rng.pick(&[1, 2, 4, 8, 20]);
        let mut before_trouble = trouble.then(|| rng.below(most));
        let opened = state;
        let mut done = false;
        for (step, mut piece) in pieces.each().chain(repeat(&[][..])).take(steps).enumerate() {
            if step > cuts.len() && rng.percent(50) {
                piece = &data[..data.len().min(100)];
            }
            loop {
                let troubled = before_trouble == Some(0);
                before_trouble = before_trouble.and_then(|calls| calls.checked_sub(1));
                let answer = if troubled { self.troubled(rng, world, &mut lent, piece, state)? } else { self.call(&mut lent, piece, state)? };
                self.coverage.after_done += done as u64;
                done |= answer.outcome == Outcome::Done;
                state = self.kept(rng, &lent, answer)?;
                piece = &piece[answer.taken..];
                if answer.outcome != Outcome::Stop {
                    break;
                }
            }
        }
        if before_trouble.is_some() {
            self.troubled(rng, world, &mut lent, &[], state)?;
        }
        if !trouble && rng.percent(40) {
            self.again(lent, pieces, opened)?;
        }
        Ok(())
    }

    /// A call before which something is altered; where that gives 17, mostly another with everything as it was: 17 is not kept, and the run goes on.
    fn troubled(&mut self, rng: &mut Rng, world: &World, lent: &mut Lent, piece: &[u8], state: State) -> Result<Answer, String> {
        let (before, mut altered) = (lent.clone(), state);
        alter(rng, world, lent, &mut altered);
        let answer = self.call(lent, piece, altered)?;
        if answer.outcome.number() != 17 || rng.percent(40) {
            return Ok(answer);
        }
        *lent = before;
        self.lend(lent);
        self.call(lent, piece, state)
    }

    /// The state that a call left, now and then saved and read back.
    fn kept(&mut self, rng: &mut Rng, lent: &Lent, answer: Answer) -> Result<State, String> {
        if !rng.one_in(if answer.outcome == Outcome::Stop { 6 } else { 20 }) {
            return Ok(answer.state);
        }
        if rng.one_in(3) {
            self.unmarked(rng, lent, &answer.state)?;
        }
        self.coverage.stops.went_on();
        self.restored(rng, answer.state)
    }

    /// The list once more from where it began, over what it left: what is finished by then is passed over.
    fn again(&mut self, mut lent: Lent, pieces: &Pieces, mut state: State) -> Result<(), String> {
        self.coverage.finished.again_begins();
        let mut number = 0;
        for piece in pieces.each() {
            let answer = self.call_on(&mut lent, piece, state)?;
            (number, state) = (answer.outcome.number(), answer.state);
        }
        self.coverage.finished.again_ended(number);
        Ok(())
    }

    /// Calls one after another, then the model over all pieces joined, sometimes the list once more, and a run over the same cuts. After a stop the
    /// next piece begins with the bytes that were not taken, and sometimes goes further than the last one.
    fn sequence(&mut self, rng: &mut Rng, lent: Lent, pieces: &Pieces, opened: State) -> Result<(), String> {
        let mut now = lent.clone();
        let mut state = opened;
        let data = &pieces.data;
        let mut joined = 0usize;
        let mut taken = 0;
        let steps = rng.below(pieces.cuts.len() + 1) + 1;
        let mut last = None;
        for cut in pieces.cuts.iter().copied().chain([usize::MAX]).take(steps) {
            let mut from = joined;
            joined = joined.saturating_add(cut).min(data.len());
            loop {
                let answer = self.call(&mut now, &data[from..joined], state)?;
                from += answer.taken;
                taken += answer.taken;
                state = answer.state;
                last = Some(answer);
                if answer.outcome != Outcome::Stop {
                    break;
                }
                if rng.one_in(4) {
                    joined += rng.below((data.len() - joined).min(5_000) + 1);
                }
            }
        }
        let Some(mut last) = last else { return Ok(()) };
        last.taken = taken;
        let mut fresh = lent.clone();
        let (list, areas) = fresh.areas();
        let whole = model::through(list, areas, &data[..joined], opened);
        self.coverage.sequences += 1;
        // Once refused, the taken bytes and the state agree too: the refusal stands at the same line.
        let areas_differ = fresh.image != now.image || fresh.stash != now.stash || fresh.work != now.work || fresh.result != now.result;
        if whole != last || areas_differ {
            return Err(format!("the calls end otherwise than the model: {} and {}", answer_text(&last), answer_text(&whole)));
        }
        if rng.percent(40) {
            self.again(now, pieces, opened)?;
        }
        if rng.percent(60) {
            self.run(&lent, pieces)?;
        }
        Ok(())
    }
}

/// A byte or a block more or less, or fewer blocks.
fn other_length(rng: &mut Rng, old: usize) -> usize {
    let fewer = rng.below(old / BLOCK + 1) * BLOCK;
    rng.pick(&[old + 1, old.saturating_sub(1), old + BLOCK, old.saturating_sub(BLOCK), 0, fewer, fewer])
}

/// A result area or patch data of another length than the list needs.
fn other_rooms(rng: &mut Rng, lent: &mut Lent) {
    let area = if rng.percent(50) { &mut lent.result } else { &mut lent.patch };
    let new = other_length(rng, area.len());
    area.resize(new, 0x43);
}

/// Alters the state, the list, the patch data or an area's length between two calls.
fn alter(rng: &mut Rng, world: &World, lent: &mut Lent, state: &mut State) {
    let into_new = state.into != 0 && rng.one_in(4);
    match if into_new { 14 } else { rng.below(19) } {
        0..=6 => {
            for _ in 0..rng.pick(&[1, 1, 2, 3]) {
                disturb(rng, state, &lent.list);
            }
        }
        7 => {
            // Another text of the same length.
            for _ in 0..rng.between(1, 3) {
                let at = if rng.percent(70) { state.at.min(lent.list.len()) } else { 0 };
                let room = lent.list.len() - at;
                if room > 0 {
                    let k = at + rng.below(room.min(200));
                    lent.list[k] = rng.pick(b"0123456789abcdef, :-\n\nzx");
                }
            }
        }
        8 | 9 => {
            // A spoiled list, mostly with its length in the state.
            let before = lent.list.len();
            if rng.percent(50) {
                damage(rng, &mut lent.list);
            } else {
                let mut spoiled = world.clone();
                spoiled.spoil(rng);
                lent.list = spoiled.list();
                // Its patch data where the length is the same.
                if spoiled.patch.len() == lent.patch.len() {
                    lent.patch = spoiled.patch;
                }
            }
            if rng.percent(70) && state.lengths.list == before {
                state.lengths.list = lent.list.len();
            }
        }
        10..=12 => {
            // An area of another length, mostly with that length in the state.
            let known = rng.percent(60);
            let (area, length) = match rng.below(8) {
                0 | 1 => (&mut lent.image, &mut state.lengths.image),
                2 => (&mut lent.stash, &mut state.lengths.stash),
                3 => (&mut lent.work, &mut state.lengths.work),
                4 | 5 => (&mut lent.result, &mut state.lengths.result),
                _ => (&mut lent.patch, &mut state.lengths.patch),
            };
            let new = other_length(rng, area.len());
            area.resize(new, 0xaa);
            if known {
                *length = new;
            }
        }
        13 => {
            // Other bytes in the patch data, which no state shows.
            if !lent.patch.is_empty() {
                let k = rng.below(lent.patch.len());
                lent.patch[k] ^= 1 << rng.below(8);
            }
        }
        14 | 15 => {
            // An empty range in the `new` that the run is in, or else in a line that is still to come.
            let mut emptied = world.clone();
            let here = state.line.saturating_sub(5);
            let end = if state.into != 0 { here + 1 } else { world.commands.len() };
            emptied.empty_range(rng, here..end);
            lent.list = emptied.list();
            state.lengths.list = lent.list.len();
        }
        _ => {
            // Another header, mostly with all else in its place.
            let before = lent.list.len();
            other_header(rng, &mut lent.list, lent.stash.len() / BLOCK);
            if rng.percent(85) && state.lengths.list == before {
                state.lengths.list = lent.list.len();
                state.at = state.at.wrapping_add(lent.list.len()).wrapping_sub(before);
            }
        }
    }
}

/// The state behind the first stashes, with their blocks where they would be: hashing them each time would take long.
fn past_stashes(world: &World, count: usize, lent: &mut Lent, state: &mut State) {
    let Some(at) = line_starts(&lent.list).get(4 + count).copied() else { return };
    for (k, hash) in world.first_hashes(count).enumerate() {
        state.hashes[20 * k..20 * k + 20].copy_from_slice(&hash);
        state.sizes[k] = 1;
    }
    lent.stash[..count * BLOCK].copy_from_slice(&lent.image[..count * BLOCK]);
    (state.count, state.at, state.line) = (count, at, 5 + count);
}

/// Mostly a few blocks, now and then many, or many stashes, or areas past 4,096 blocks.
fn any_sizes(rng: &mut Rng) -> Sizes {
    if rng.one_in(80) {
        let stashes = rng.pick(&[MOST_STASHES, MOST_STASHES, MOST_STASHES, MOST_STASHES - 1, 65]);
        // Each stretch is a stop, and at each all areas are compared: mostly few of them.
        let stretches = rng.pick(&[8, 8, 8, 8, MOST_STASHES]);
        return Sizes { stashes, stretches, ..Sizes::small(stashes + rng.below(20), stashes + rng.below(50), rng.between(2, 12)) };
    }
    if rng.one_in(50_000) {
        let area = rng.between(4_097, 4_200);
        return Sizes { most: area, often: 3, stretches: 8, ..Sizes::small(rng.between(20, 60), area, rng.between(2, 5)) };
    }
    match rng.below(400) {
        0 => Sizes::small(rng.between(20, 300), rng.between(8, 80), rng.between(20, 150)),
        1..=3 => Sizes::small(rng.between(8, 40), rng.between(40, 130), rng.between(60, 200)),
        // No command has a block then.
        4..=8 => Sizes::small(0, rng.below(3), rng.below(6)),
        _ => Sizes::small(rng.between(1, 12), rng.between(0, 8), rng.between(0, 12)),
    }
}

/// The world's list and patch data, in a third of all cases as they are, else spoiled.
fn any_list(rng: &mut Rng, world: &World, stashes: usize) -> (Vec<u8>, Vec<u8>) {
    let kind = rng.below(100);
    let mut world = world.clone();
    if stashes > 0 && rng.percent(70) {
        // Mostly one too many, else as it is.
        if rng.percent(75) {
            world.one_stash_too_many(rng);
        }
        return (world.list(), world.patch);
    }
    if !world.refused.is_empty() && rng.one_in(5) {
        world.put_refused(rng);
        return (world.list(), world.patch);
    }
    if world.has_patch() && rng.one_in(3) {
        world.spoil_patch(rng);
        return (world.list(), world.patch);
    }
    match kind {
        0..=28 | 65..=82 => {}
        29..=34 => world.empty_range(rng, 0..world.commands.len()),
        35..=64 => (0..rng.pick(&[1, 1, 1, 2, 3])).for_each(|_| world.spoil(rng)),
        83..=85 => world.spoil(rng),
        _ => world.wrong_hash(rng),
    }
    let mut list = world.list();
    if let 65..=85 = kind {
        damage(rng, &mut list);
    }
    (list, world.patch)
}
