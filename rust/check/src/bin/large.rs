//! Real sizes: an image of 65,536 blocks, thousands of commands, stashes of thousands of blocks and a list of several MiB,
//! the library compared with the plain implementation after every call; then positions at the far end of the largest image and of patch data
//! past 32 bits, as many stashes and blocks of a source as there may be, a line as long as a list may be with a fault anywhere in it, patches of
//! the largest areas, the longest lines that find their work done, and sparse files over large images.
//! usage: large [--seed S] [--commands N] [--self]   (--self takes the slow model in the library's place)

use check::generate::patch::{patch_of, Record};
use check::generate::sparse::{Chunk, SparseFile, DONT_CARE, FILL, RAW};
use check::generate::{Blocks, Rng, Sizes, World};
use check::{hex, Implementation, Library, Model, Plain};
use reference::{digest, Answer, Areas, Outcome, Refusal, Rooms, State, BLOCK, MOST_AREA, MOST_IMAGE, MOST_LIST, MOST_RESULT, MOST_STASHES};
use std::time::{Duration, Instant};

fn main() {
    let mut seed = 1u64;
    let mut commands = 9_000usize;
    let mut itself = false;
    let mut words = std::env::args().skip(1);
    while let Some(word) = words.next() {
        let mut value = || words.next().and_then(|text| text.parse().ok()).unwrap_or_else(|| usage());
        match word.as_str() {
            "--seed" => seed = value(),
            "--commands" => commands = value() as usize,
            "--self" => itself = true,
            _ => usage(),
        }
    }
    let other: &dyn Implementation = if itself { &Model } else { &Library };
    println!("seed {seed}");
    let results = [
        real(other, seed, commands),
        most_stashes(other),
        largest_stash(other),
        far_end(other, !itself),
        longest_line(other, !itself),
        largest_patch(other),
        patch_far_end(other, !itself),
        sparse(other, seed),
        sparse_far_end(other, !itself),
        sparse_claims(other),
    ];
    let failed = results.iter().filter(|result| result.is_err()).count();
    for difference in results.iter().filter_map(|result| result.as_ref().err()) {
        println!("{difference}");
    }
    println!("{} passed, {failed} failed", results.len() - failed);
    std::process::exit((failed > 0) as i32);
}

fn usage() -> ! {
    eprintln!("usage: large [--seed S] [--commands N] [--self]");
    std::process::exit(2)
}

fn real(other: &dyn Implementation, seed: u64, commands: usize) -> Result<(), String> {
    let mut rng = Rng::new(seed);
    let mut blocks = Blocks::new();
    // A run stops some twice a line, and after every stretch of a `free`; each call then goes through the list up to its line to count it. A block
    // freed before 32,767 younger ones would be as many calls over megabytes of list, minutes for one line, so no `free` has more than 40
    // stretches here, and the list is not as long as one may be: the whole stays within a minute of processor time.
    let (bytes, stretches) = (2_800_000, 40);
    let sizes = Sizes { image: 65_536, area: MOST_AREA, commands, most: 8_192, bytes, patch: 48 << 20, often: 30, stashes: 0, stretches, frees: 0 };
    let mut world = World::good(&mut rng, &mut blocks, &sizes);
    (world.stash, world.work, world.result) = (MOST_AREA, MOST_AREA, MOST_RESULT);
    let list = world.list();
    let data = blocks.lay(&world.data);
    println!(
        "image 65,536 blocks, list {} bytes, {} commands, most held {} in {} blocks, new data {} blocks, patch data {} bytes",
        list.len(),
        world.commands.len(),
        world.header[2],
        world.header[3],
        world.data.len(),
        world.patch.len()
    );
    let mut image = blocks.lay(&world.image);
    let mut stash = vec![0x5a; world.stash * BLOCK];
    let mut work = vec![0xa5; world.work * BLOCK];
    let mut result = vec![0x3c; world.result * BLOCK];
    let (mut other_image, mut other_stash, mut other_work, mut other_result) = (image.clone(), stash.clone(), work.clone(), result.clone());
    let mut ours = Areas { image: &mut image, stash: &mut stash, work: &mut work, result: &mut result, patch: &world.patch };
    let patch = &world.patch;
    let mut theirs = Areas { image: &mut other_image, stash: &mut other_stash, work: &mut other_work, result: &mut other_result, patch };
    // A call takes long enough here that the library's states, which are converted for it, do not show in its time.
    let mut times = [Duration::ZERO; 2];
    let mut timed = |which: usize, start: Instant| times[which] += start.elapsed();

    let start = Instant::now();
    let mut state = Plain.open(&list, ours.rooms());
    timed(0, start);
    let start = Instant::now();
    let opened = other.open(&list, ours.rooms());
    timed(1, start);
    if state != opened || state.refusal.number != 0 {
        return Err(format!("open: {:?} and {:?}", state.refusal, opened.refusal));
    }
    let mut rest = &data[..];
    let mut calls = 0;
    loop {
        let (piece, after) = rest.split_at(rest.len().min(rng.between(0, 8 << 20)));
        rest = after;
        calls += 1;
        let start = Instant::now();
        let answer = Plain.call_on(&list, ours.reborrow(), piece, state);
        timed(0, start);
        let start = Instant::now();
        let others = other.call_on(&list, theirs.reborrow(), piece, state);
        timed(1, start);
        if answer != others {
            return Err(format!("call {calls}: {} and {}", said(&answer), said(&others)));
        }
        if ours.image != theirs.image || ours.stash != theirs.stash || ours.work != theirs.work || ours.result != theirs.result {
            return Err(format!("call {calls}: an area differs"));
        }
        state = answer.state;
        match answer.outcome {
            Outcome::Done => break,
            Outcome::More => {}
            Outcome::Stop | Outcome::Refused(_) => return Err(format!("call {calls}: {}", said(&answer))),
        }
    }
    println!("done in {calls} calls; plain {:.2} s, other {:.2} s", times[0].as_secs_f64(), times[1].as_secs_f64());
    Ok(())
}

fn said(answer: &Answer) -> String {
    format!("{:?} taken {}, the state holds {:?}", answer.outcome, answer.taken, answer.state.refusal)
}

/// The largest image, of which only a few pages are ever touched: bytes into a `new` past 32 bits.
fn far_end(other: &dyn Implementation, fast: bool) -> Result<(), String> {
    let whole = MOST_IMAGE * BLOCK;
    for (list, into, most) in [
        (&b"3\n1048576\n0\n0\nnew 2,0,1048576\n"[..], whole - 7, whole),
        (b"3\n2097152\n0\n0\nnew 4,0,1048576,0,1048576\n", 2 * whole - 7, whole),
        (b"3\n2097152\n0\n0\nnew 4,0,1048576,0,1048576\n", whole + 3, whole),
        (b"3\n2\n0\n0\nzero 2,1048575,1048576\nnew 2,1048575,1048576\n", 0, whole),
        (b"3\n0\n0\n0\n", 0, whole + BLOCK),
    ] {
        let mut ends = Vec::new();
        let all: Vec<&dyn Implementation> = if fast { vec![&Plain, other] } else { vec![&Plain] };
        for on in all {
            // Zeroed memory that is mapped only where it is touched.
            let mut image = vec![0u8; most];
            let mut state = on.open(list, Rooms { image: most, ..Rooms::default() });
            if most > whole {
                if state.refusal.number != 1 {
                    return Err(format!("an image of {most} bytes: {:?}", state.refusal));
                }
                state = State { line: 5, at: 8, ..State::ZERO };
                (state.lengths.list, state.lengths.image) = (list.len(), most);
            }
            state.into = into;
            let areas = Areas { image: &mut image, stash: &mut [], work: &mut [], result: &mut [], patch: &[] };
            let answer = on.call(list, areas, b"0123456789", state);
            let touched: Vec<u8> = [&image[..BLOCK], &image[whole - BLOCK..whole]].concat();
            ends.push((answer, touched));
        }
        if ends.windows(2).any(|two| two[0] != two[1]) {
            return Err(format!("{}: {} and {}", String::from_utf8_lossy(list), said(&ends[0].0), said(&ends[1].0)));
        }
        if matches!(ends[0].0.outcome, Outcome::Refused(_)) != (most > whole) {
            return Err(format!("{}: {}", String::from_utf8_lossy(list), said(&ends[0].0)));
        }
    }
    println!("the far end of 1,048,576 blocks is reached");
    Ok(())
}

/// One line that fills the longest list, or with the slow model a shorter one: good, and with a fault far behind its start.
fn longest_line(other: &dyn Implementation, fast: bool) -> Result<(), String> {
    let length = if fast { MOST_LIST } else { 400_000 };
    // Behind header, word and count, before the LF: pairs of four bytes, the first with a longer end for what they leave.
    let pairs = (length - 15 - (length / 2).to_string().len()) / 4;
    let line = |count: usize, more: usize| format!("3\n0\n0\n0\nerase {count},1,2{}{}", "0".repeat(more), ",1,2".repeat(pairs - 1));
    let list = |count: usize| format!("{}\n", line(count, length - 1 - line(2 * pairs, 0).len())).into_bytes();
    let good = list(2 * pairs);
    let changed = |at: usize, byte: u8| {
        let mut list = good.clone();
        list[at] = byte;
        list
    };
    let rooms = Rooms { image: MOST_IMAGE * BLOCK, ..Rooms::default() };
    for (name, list, byte) in [
        ("all good", good.clone(), None),
        ("without its LF", good[..length - 1].to_vec(), Some(length - 1)),
        ("with a byte more", changed(length - 1, b'0'), Some(length)),
        ("with a last end that is too low", changed(length - 2, b'0'), Some(length - 2)),
        ("with a last range that is empty", changed(length - 2, b'1'), Some(length - 1)),
        ("with two numbers too few", list(2 * pairs + 2), Some(length - 1)),
        ("with two numbers too many", list(2 * pairs - 2), Some(length - 5)),
        ("with another byte in its midst", changed(length / 2, b'\r'), Some(length / 2)),
        ("with another byte near its end", changed(length - 4, b'\xff'), Some(length - 4)),
    ] {
        let want = byte.map_or(Refusal { number: 0, line: 0, byte: 0 }, |byte| Refusal { number: 6, line: 5, byte });
        for on in [&Plain, other] {
            let start = Instant::now();
            let refusal = on.open(&list, rooms).refusal;
            if refusal != want || start.elapsed() > Duration::from_secs(10) {
                return Err(format!("a line of {length} bytes {name}: {refusal:?}, not {want:?}, after {:?}", start.elapsed()));
            }
        }
    }
    println!("a list of {length} bytes that is one line, and its first fault");
    Ok(())
}

/// What stands in the areas after a run.
struct Stands {
    image: Vec<u8>,
    stash: Vec<u8>,
    work: Vec<u8>,
    result: Vec<u8>,
}

/// Runs a list over this image and the largest areas, on both. The answers are the same, and what stands after them is what is expected.
fn over_largest(other: &dyn Implementation, name: &str, list: &str, image: &[u8], patch: &[u8], expected: &Stands) -> Result<State, String> {
    let mut answers = Vec::new();
    for on in [&Plain, other] {
        let mut after = Stands {
            image: image.to_vec(),
            stash: vec![1; MOST_AREA * BLOCK],
            work: vec![2; MOST_AREA * BLOCK],
            result: vec![3; MOST_RESULT * BLOCK],
        };
        let Stands { image, stash, work, result } = &mut after;
        let answer = on.run(list.as_bytes(), Areas { image, stash, work, result, patch }, b"", &[]);
        let same = [after.image == expected.image, after.stash == expected.stash, after.work == expected.work, after.result == expected.result];
        if answer.outcome != Outcome::Done || same.contains(&false) {
            return Err(format!("{name}: {}; image, stash, work, result as they should be: {same:?}", said(&answer)));
        }
        answers.push(answer);
    }
    if answers[0] != answers[1] {
        return Err(format!("{name}: {} and {}", said(&answers[0]), said(&answers[1])));
    }
    Ok(answers[0].state)
}

/// An image twice as large as an area, no two blocks of which are the same.
fn twice_an_area() -> Vec<u8> {
    (0..(2 * MOST_AREA * BLOCK / 8) as u64).flat_map(|k| (k * 0x9e37_79b9_7f4a_7c15).to_le_bytes()).collect()
}

/// 256 stashes fill the largest stash area; a move of as many blocks takes every second row of its source from one of them and the others from the
/// image, over its own source; the oldest is freed, and held again as the youngest.
fn most_stashes(other: &dyn Implementation) -> Result<(), String> {
    let n = MOST_AREA / MOST_STASHES;
    let image = twice_an_area();
    let row = |k: usize| &image[k * n * BLOCK..(k + 1) * n * BLOCK];
    let names: Vec<String> = (0..MOST_STASHES).map(|k| hex(&digest(row(k)))).collect();
    let stash = |k: usize| format!("stash {} 2,{},{}\n", names[k], k * n, (k + 1) * n);
    let stashes: String = (0..MOST_STASHES).map(stash).collect();
    let (half, from, to) = (MOST_STASHES / 2, MOST_STASHES + 60, MOST_STASHES);
    let whole: Vec<u8> = (0..half).flat_map(|j| [row(MOST_STASHES - 1 - j), row(from + j)].concat()).collect();
    let odd: String = (0..half).map(|j| format!(",{},{}", (2 * j + 1) * n, (2 * j + 2) * n)).collect();
    let parts: String = (0..half).map(|j| format!(" {}:2,{},{}", names[MOST_STASHES - 1 - j], 2 * j * n, (2 * j + 1) * n)).collect();
    let source = format!("2,{},{} {}{odd}{parts}", from * n, (from + half) * n, 2 * half);
    let moved = format!("move {} 2,{},{} {MOST_AREA} {source}\n", hex(&digest(&whole)), to * n, 2 * to * n);
    let header = format!("3\n{MOST_AREA}\n{MOST_STASHES}\n{MOST_AREA}\n");
    let list = format!("{header}{stashes}{moved}free {}\n{}", names[0], stash(0));

    let area = MOST_AREA * BLOCK;
    let expected = Stands {
        image: [&image[..area], &whole].concat(),
        stash: [&image[n * BLOCK..area], row(0)].concat(),
        work: [row(0), &whole[n * BLOCK..]].concat(),
        result: vec![3; MOST_RESULT * BLOCK],
    };
    let start = Instant::now();
    let state = over_largest(other, "the most stashes", &list, &image, b"", &expected)?;
    if state.count != MOST_STASHES || state.sizes.iter().any(|blocks| *blocks != n) {
        return Err(format!("the most stashes: {} held", state.count));
    }
    // Over its own result, which has a part of the move's source no more, that line is finished, and stashes alone go through the work area.
    let after = expected.image.clone();
    let again = Stands { work: [row(0), &vec![2; area - n * BLOCK]].concat(), ..expected };
    over_largest(other, "the most stashes again", &list, &after, b"", &again)?;
    // One more, though there is room for its block.
    let shorter = format!("{list}free {}\nstash {} 2,0,{}\n", names[1], hex(&digest(b"shorter")), n - 1);
    let more = format!("{shorter}stash {} 2,0,1\n", hex(&digest(b"more")));
    let rooms = Rooms { image: image.len(), stash: area, work: area, ..Rooms::default() };
    for (list, want) in [(shorter, (0, 0)), (more, (14, MOST_STASHES + 10))] {
        for on in [&Plain, other] {
            let refusal = on.open(list.as_bytes(), rooms).refusal;
            if (refusal.number, refusal.line) != want {
                return Err(format!("a stash more than the most: {refusal:?}, not {want:?}"));
            }
        }
    }
    println!(
        "256 stashes of 128 blocks each, and a move of 32,768 blocks of half of them and of the image, run and finished; {:.2} s",
        start.elapsed().as_secs_f64()
    );
    Ok(())
}

/// One stash of the largest area, moved back one block further, and patched: of its last blocks a result of the largest result area is made.
fn largest_stash(other: &dyn Implementation) -> Result<(), String> {
    let image = twice_an_area();
    let (area, most) = (MOST_AREA * BLOCK, MOST_RESULT * BLOCK);
    let held = hex(&digest(&image[..area]));
    let turned = [&image[area - BLOCK..area], &image[..area - BLOCK]].concat();
    let target: Vec<u8> = turned[area - most..].iter().map(|byte| byte.wrapping_add(1)).collect();
    let far = Record { add: Vec::new(), extra: Vec::new(), seek: (area - most) as i64 };
    let patch = patch_of(&[far, Record { add: vec![1; most], extra: Vec::new(), seek: 0 }]);
    let source = format!("{MOST_AREA} - {held}:4,1,{MOST_AREA},0,1\n");
    let stash = format!("stash {held} 2,0,{MOST_AREA}\n");
    let moved = format!("move {} 2,{MOST_AREA},{} {source}", hex(&digest(&turned)), 2 * MOST_AREA);
    let patched = |target_blocks: usize| {
        let hashes = format!("{} {}", hex(&digest(&turned)), hex(&digest(&target)));
        format!("bsdiff 0 {} {hashes} 2,7,{} {source}", patch.len(), 7 + target_blocks)
    };
    let list = format!("3\n{}\n1\n{MOST_AREA}\n{stash}{moved}{}free {held}\n", MOST_AREA + MOST_RESULT, patched(MOST_RESULT));
    let mut after = [&image[..area], &turned[..]].concat();
    after[7 * BLOCK..7 * BLOCK + most].copy_from_slice(&target);
    let expected = Stands { image: after, stash: image[..area].to_vec(), work: turned.clone(), result: target.clone() };
    let start = Instant::now();
    let state = over_largest(other, "the largest stash", &list, &image, &patch, &expected)?;
    if state.count != 0 {
        return Err(format!("the largest stash: {} held", state.count));
    }
    // A target of one block more than any result area.
    let more = format!("3\n{}\n1\n{MOST_AREA}\n{stash}{}", MOST_RESULT + 1, patched(MOST_RESULT + 1));
    let rooms = Rooms { image: image.len(), stash: area, work: area, result: most, patch: patch.len() };
    for on in [&Plain, other] {
        let refusal = on.open(more.as_bytes(), rooms).refusal;
        if (refusal.number, refusal.line) != (9, 6) {
            return Err(format!("a target of 4,097 blocks: {refusal:?}"));
        }
    }
    println!("a stash of 32,768 blocks, moved, and patched to 4,096; {:.2} s", start.elapsed().as_secs_f64());
    Ok(())
}

/// A patch of one stretch over the largest result area and as large a source, one of records of a byte, and one of a result that is a byte too long.
fn largest_patch(other: &dyn Implementation) -> Result<(), String> {
    let (work, result) = (MOST_RESULT * BLOCK, MOST_RESULT * BLOCK);
    let image: Vec<u8> = (0..work).map(|k| (k % 253) as u8).collect();
    let target: Vec<u8> = (0..result).map(|k| (k * 7 % 255) as u8).collect();
    let add: Vec<u8> = target.iter().zip(&image).map(|(new, old)| new.wrapping_sub(*old)).collect();
    let whole = Record { add: add.clone(), extra: Vec::new(), seek: 0 };
    let rest = Record { add: add[9_000..].to_vec(), extra: Vec::new(), seek: 0 };
    let single = |k: usize| Record { add: vec![add[k]], extra: Vec::new(), seek: 0 };
    let longer = Record { extra: vec![9], ..whole.clone() };
    for (name, records, want) in
        [("one record", vec![whole], 0), ("9,001 records", (0..9_000).map(single).chain([rest]).collect(), 0), ("a byte too long", vec![longer], 19)]
    {
        let patch = patch_of(&records);
        let list = format!("3\n4096\n0\n0\nbsdiff 0 {} {} {} 2,0,4096 4096 2,0,4096\n", patch.len(), hex(&digest(&image)), hex(&digest(&target)));
        let mut ends = Vec::new();
        for on in [&Plain, other] {
            let (mut now, mut work, mut result) = (image.clone(), vec![1; work], vec![2; result]);
            let areas = Areas { image: &mut now, stash: &mut [], work: &mut work, result: &mut result, patch: &patch };
            let answer = on.run(list.as_bytes(), areas, b"", &[]);
            let good = match want {
                0 => now == target && result == target && work == image,
                _ => now == image && result.iter().all(|byte| *byte == 2) && work == image,
            };
            if answer.outcome.number() != want || !good {
                return Err(format!("a patch of {name}: {}, areas as they should be: {good}", said(&answer)));
            }
            if want == 0 {
                // The target has its hash by now, and the areas stay.
                let (mut work, mut result) = (vec![3; work.len()], vec![4; result.len()]);
                let areas = Areas { image: &mut now, stash: &mut [], work: &mut work, result: &mut result, patch: &patch };
                let again = on.run(list.as_bytes(), areas, b"", &[]);
                if again != answer || now != target || work.iter().any(|byte| *byte != 3) || result.iter().any(|byte| *byte != 4) {
                    return Err(format!("a patch of {name} again: {}", said(&again)));
                }
            }
            ends.push(answer);
        }
        if ends[0] != ends[1] {
            return Err(format!("a patch of {name}: {} and {}", said(&ends[0]), said(&ends[1])));
        }
    }
    println!("patches over 4,096 blocks of source and of target, run and finished");
    Ok(())
}

/// Patches at O and O plus B past 32 bits, of patch data that is zeros elsewhere, and mapped only where it is touched.
fn patch_far_end(other: &dyn Implementation, fast: bool) -> Result<(), String> {
    let most = u32::MAX as usize;
    let records = patch_of(&[Record { add: vec![1; BLOCK], extra: Vec::new(), seek: 7 }]);
    let mut patch = vec![0u8; most + records.len()];
    patch[most..].copy_from_slice(&records);
    let (before, after) = (vec![b'A'; BLOCK], vec![b'B'; BLOCK]);
    let hashes = format!("{} {}", hex(&digest(&before)), hex(&digest(&after)));
    for (from, bytes, want) in [
        (most, records.len(), 0),
        (most, records.len() + 1, 18),
        (most, most, 18),
        // The same modulo 2^32.
        (most, 0, 19),
        (most - 1, records.len() + 1, 19),
        (records.len(), most, 19),
        (records.len() + 1, most, 18),
    ] {
        let list = format!("3\n1\n0\n0\nbsdiff {from} {bytes} {hashes} 2,0,1 1 2,0,1\n");
        let all: Vec<&dyn Implementation> = if fast { vec![&Plain, other] } else { vec![&Plain] };
        for on in all {
            let (mut image, mut work, mut result) = (before.clone(), vec![1; BLOCK], vec![2; BLOCK]);
            let areas = Areas { image: &mut image, stash: &mut [], work: &mut work, result: &mut result, patch: &patch };
            let answer = on.run(list.as_bytes(), areas, b"", &[]);
            if answer.outcome.number() != want || image != if want == 0 { &after[..] } else { &before[..] } {
                return Err(format!("a patch at {from}, {bytes} bytes: {}", said(&answer)));
            }
        }
    }
    println!("patches past the 4,294,967,295th byte");
    Ok(())
}

/// Sparse files over 65,536 blocks, in many chunks and in few.
fn sparse(other: &dyn Implementation, seed: u64) -> Result<(), String> {
    let mut rng = Rng::new(seed);
    let from = Blocks::new();
    for most in [3, 20_000] {
        let file = SparseFile::good(&mut rng, &from, 65_536, most);
        let bytes = file.bytes();
        let before: Vec<u8> = (0..65_536 * BLOCK).map(|k| (k % 255) as u8 + 1).collect();
        let (mut ours, mut theirs) = (before.clone(), before);
        let start = Instant::now();
        let number = Plain.load_sparse(&bytes, &mut ours);
        let between = Instant::now();
        let other_number = other.load_sparse(&bytes, &mut theirs);
        let end = Instant::now();
        if number != Ok(()) || other_number != Ok(()) || ours != theirs {
            return Err(format!("a sparse file of {} chunks: {number:?} and {other_number:?}, images equal: {}", file.count, ours == theirs));
        }
        println!(
            "sparse file of {} bytes, {} chunks; plain {:.2} s, other {:.2} s",
            bytes.len(),
            file.count,
            (between - start).as_secs_f64(),
            (end - between).as_secs_f64()
        );
    }
    Ok(())
}

/// The largest image, of which only the last two blocks are written, and one of a block more.
fn sparse_far_end(other: &dyn Implementation, fast: bool) -> Result<(), String> {
    let raw: Vec<u8> = (0..BLOCK).map(|k| (k % 251) as u8).collect();
    for (blocks, want) in [(MOST_IMAGE, Ok(())), (MOST_IMAGE + 1, Err(32))] {
        let skipped = Chunk::new(DONT_CARE, blocks - 2, Vec::new());
        let file = SparseFile::new(vec![skipped, Chunk::new(RAW, 1, raw.clone()), Chunk::new(FILL, 1, b"fill".to_vec())]).bytes();
        let all: Vec<&dyn Implementation> = if fast { vec![&Plain, other] } else { vec![&Plain] };
        for on in all {
            // Zeroed memory that is mapped only where it is touched.
            let mut image = vec![0u8; blocks * BLOCK];
            let number = on.load_sparse(&file, &mut image);
            let touched = &image[(blocks - 3) * BLOCK..];
            let expected = match want {
                Ok(()) => [vec![0; BLOCK], raw.clone(), b"fill".repeat(BLOCK / 4)].concat(),
                Err(_) => vec![0; 3 * BLOCK],
            };
            if number != want || touched != expected {
                return Err(format!("a sparse file over {blocks} blocks: {number:?}"));
            }
        }
    }
    println!("a sparse file reaches the far end of 1,048,576 blocks");
    Ok(())
}

/// Small files that claim much are answered at once.
fn sparse_claims(other: &dyn Implementation) -> Result<(), String> {
    let all = [&Plain, other];
    let chunk = |kind: u16, blocks: u32| Chunk { blocks, ..Chunk::new(kind, 0, if kind == FILL { b"fill".to_vec() } else { Vec::new() }) };
    for (name, chunks, blocks, count, want) in [
        ("4,294,967,295 chunks of none", vec![], 1, u32::MAX, 33),
        ("4,294,967,295 chunks of two", vec![chunk(FILL, 1), chunk(DONT_CARE, 1)], 2, u32::MAX, 33),
        ("4,294,967,295 blocks of the image", vec![chunk(FILL, 1)], u32::MAX, 1, 32),
        ("4,294,967,295 blocks of a fill", vec![chunk(FILL, u32::MAX)], 1, 1, 34),
        ("4,294,967,295 blocks of a second don't-care", vec![chunk(FILL, 1), chunk(DONT_CARE, u32::MAX)], 2, 2, 34),
        ("4,294,967,295 blocks of a raw", vec![chunk(RAW, u32::MAX)], 1, 1, 33),
    ] {
        let mut file = SparseFile::new(vec![]);
        (file.chunks, file.blocks, file.count) = (chunks, blocks, count);
        let bytes = file.bytes();
        for on in all {
            let mut image = vec![7; (blocks % 8) as usize * BLOCK];
            let start = Instant::now();
            let number = on.load_sparse(&bytes, &mut image);
            if number != Err(want) || image.iter().any(|byte| *byte != 7) || start.elapsed() > Duration::from_secs(1) {
                return Err(format!("{name}: {number:?}, not {want}, after {:?}", start.elapsed()));
            }
        }
    }
    println!("sparse files that claim 4,294,967,295 chunks or blocks are answered at once");
    Ok(())
}
