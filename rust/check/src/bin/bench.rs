//! Times of the library beside the same work in plain Rust. The two sides take turns, and which is first changes from run to run, so
//! that a slow phase of the machine meets both. Times are processor time, medians of nine runs; the ratio is the median of the nine runs'
//! ratios, with the least and the greatest beside it.
//! usage: bench [--self] [digest] [moves] [patches] [open] [calls] [new] [sparse]
//! (--self times plain Rust in the library's place; no words: all)

use check::generate::patch::{patch_of, Record};
use check::generate::sparse::{Chunk, SparseFile, DONT_CARE, FILL, RAW};
use check::generate::Rng;
use check::library::{library_state, outcome_of};
use check::{hex, raw, Form, Implementation, Library, Plain};
use muongrabi::{Areas, Lengths};
use reference::saved::{self, SAVED};
use reference::{digest, plain, Hash, Outcome, Rooms, BLOCK, MOST_AREA, MOST_LIST, MOST_RESULT, MOST_STASHES};
use std::hint::black_box;
use std::time::Duration;

const RUNS: usize = 9;

fn main() {
    let words: Vec<String> = std::env::args().skip(1).collect();
    let itself = words.iter().any(|word| word == "--self");
    let chosen: Vec<&str> = words.iter().map(|word| word.as_str()).filter(|word| *word != "--self").collect();
    println!("{:<48} {:>12} {:>12} {:>7}", "medians of nine runs", "library", "plain Rust", "ratio");
    let wanted = |name: &str| chosen.is_empty() || chosen.contains(&name);
    if itself {
        measure::<Plain>(wanted);
    } else {
        measure::<Library>(wanted);
    }
}

fn measure<S: Side>(wanted: impl Fn(&str) -> bool) {
    if wanted("digest") {
        digests::<S>();
    }
    if wanted("moves") {
        moves::<S>();
    }
    if wanted("patches") {
        patches::<S>();
    }
    if wanted("open") {
        openings::<S>();
    }
    if wanted("calls") {
        calls::<S>();
        stops::<S>();
        saved_forms::<S>();
    }
    if wanted("new") {
        new_data::<S>();
    }
    if wanted("sparse") {
        sparse_files::<S>();
    }
}

/// One side of the times. Its state stays in its own form from call to call, the library's as its saved form, plain Rust's as a struct:
/// `Implementation` would convert it, and that costs.
trait Side {
    type State;
    /// A state opened up.
    type Fields;
    fn digest(bytes: &[u8]) -> Hash;
    /// This state in the side's own form.
    fn state(state: &reference::State) -> Self::State;
    /// The first state, or the refusal's number.
    fn open(list: &[u8], lengths: Lengths) -> Result<Self::State, usize>;
    /// How the call ended, and the bytes it took.
    fn call(list: &[u8], areas: Areas, piece: &[u8], state: &mut Self::State) -> (Outcome, usize);
    fn fields() -> Self::Fields;
    /// Opens a state up, and makes its saved form again.
    fn read_and_write(form: &Form, fields: &mut Self::Fields, out: &mut Form);
    /// Nothing, or the refusal's number.
    fn load_sparse(file: &[u8], image: &mut [u8]) -> Result<(), usize>;
}

impl Side for Library {
    type State = muongrabi::State;
    type Fields = ([u8; raw::TABLE_BYTES], [usize; MOST_STASHES], [usize; raw::NUMBERS]);
    fn digest(bytes: &[u8]) -> Hash {
        muongrabi::digest(bytes)
    }
    fn state(state: &reference::State) -> muongrabi::State {
        library_state(state)
    }
    fn open(list: &[u8], lengths: Lengths) -> Result<muongrabi::State, usize> {
        muongrabi::open(list, lengths).map_err(|refusal| refusal.number())
    }
    fn call(list: &[u8], areas: Areas, piece: &[u8], state: &mut muongrabi::State) -> (Outcome, usize) {
        let called = muongrabi::call(list, areas, piece, state);
        (outcome_of(called.outcome), called.taken)
    }
    fn fields() -> Self::Fields {
        ([0; raw::TABLE_BYTES], [0; MOST_STASHES], [0; raw::NUMBERS])
    }
    fn read_and_write(form: &Form, (hashes, sizes, numbers): &mut Self::Fields, out: &mut Form) {
        assert_eq!(raw::restore(form, hashes, sizes, numbers), 0);
        raw::save(hashes, sizes, numbers, out);
    }
    fn load_sparse(file: &[u8], image: &mut [u8]) -> Result<(), usize> {
        muongrabi::load_sparse(file, image).map_err(|refusal| refusal.number())
    }
}

impl Side for Plain {
    type State = reference::State;
    type Fields = reference::State;
    fn digest(bytes: &[u8]) -> Hash {
        digest(bytes)
    }
    fn state(state: &reference::State) -> reference::State {
        *state
    }
    fn open(list: &[u8], lengths: Lengths) -> Result<reference::State, usize> {
        let state = plain::open(list, rooms(lengths));
        match state.refusal.number {
            0 => Ok(state),
            number => Err(number),
        }
    }
    fn call(list: &[u8], areas: Areas, piece: &[u8], state: &mut reference::State) -> (Outcome, usize) {
        let Areas { image, stash, work, result, patch } = areas;
        let called = plain::call(list, reference::Areas { image, stash, work, result, patch }, piece, state);
        (called.outcome, called.taken)
    }
    fn fields() -> reference::State {
        reference::State::ZERO
    }
    fn read_and_write(form: &Form, fields: &mut reference::State, out: &mut Form) {
        *fields = saved::restore(form).expect("a saved form");
        out.copy_from_slice(&saved::save(fields));
    }
    fn load_sparse(file: &[u8], image: &mut [u8]) -> Result<(), usize> {
        plain::load_sparse(file, image)
    }
}

/// Lengths as the reference has them.
fn rooms(lengths: Lengths) -> Rooms {
    let Lengths { image, stash, work, result, patch } = lengths;
    Rooms { image, stash, work, result, patch }
}

/// The times of one side and of the other, run by run.
type Times = Vec<(Duration, Duration)>;

/// Nine runs of each of the two, after one that is not counted.
fn turns(mut ours: impl FnMut() -> Duration, mut plain: impl FnMut() -> Duration) -> Times {
    ours();
    plain();
    (0..RUNS)
        .map(|k| {
            if k % 2 == 0 {
                let first = ours();
                (first, plain())
            } else {
                let first = plain();
                (ours(), first)
            }
        })
        .collect()
}

fn sorted<T: PartialOrd>(values: impl Iterator<Item = T>) -> Vec<T> {
    let mut all: Vec<T> = values.collect();
    all.sort_by(|a, b| a.partial_cmp(b).unwrap_or(std::cmp::Ordering::Equal));
    all
}

#[repr(C)]
struct Timespec {
    seconds: i64,
    nanoseconds: i64,
}

extern "C" {
    fn clock_gettime(clock: i32, time: *mut Timespec) -> i32;
}

/// The processor time of this thread: what other programs take does not count.
fn processor_time() -> Duration {
    const THREAD: i32 = 3;
    let mut now = Timespec { seconds: 0, nanoseconds: 0 };
    // SAFETY: one struct is lent to be written.
    assert!(unsafe { clock_gettime(THREAD, &mut now) } == 0);
    Duration::new(now.seconds as u64, now.nanoseconds as u32)
}

fn timed(f: impl FnOnce()) -> Duration {
    let start = processor_time();
    f();
    processor_time() - start
}

/// A value that is used, for all the compiler knows.
fn keep<T>(value: T) {
    black_box(value);
}

fn text(time: Duration) -> String {
    let ns = time.as_nanos() as f64;
    match ns {
        _ if ns < 1e4 => format!("{ns:.0} ns"),
        _ if ns < 1e7 => format!("{:.1} us", ns / 1e3),
        _ => format!("{:.1} ms", ns / 1e6),
    }
}

/// One line: both times, their ratio, and the speed of each over so many bytes.
fn line(name: &str, times: Times, bytes: usize) {
    let ours = sorted(times.iter().map(|t| t.0))[RUNS / 2];
    let plain = sorted(times.iter().map(|t| t.1))[RUNS / 2];
    let ratios = sorted(times.iter().map(|t| t.0.as_secs_f64() / t.1.as_secs_f64().max(1e-12)));
    let speed = |time: Duration| bytes as f64 / 1e6 / time.as_secs_f64().max(1e-12);
    print!("{name:<48} {:>12} {:>12} {:>7.2} ({:.2} to {:.2})", text(ours), text(plain), ratios[RUNS / 2], ratios[0], ratios[RUNS - 1]);
    if bytes > 0 {
        print!("   {:.1} and {:.1} MB/s", speed(ours), speed(plain));
    }
    println!();
}

fn some_bytes(n: usize) -> Vec<u8> {
    let mut rng = Rng::new(9);
    (0..n.div_ceil(8)).flat_map(|_| rng.next_u64().to_le_bytes()).take(n).collect()
}

fn digests<S: Side>() {
    for (name, size) in [("64 bytes", 64), ("4 KiB", 4_096), ("64 KiB", 65_536), ("1 MiB", 1 << 20)] {
        let bytes = some_bytes(size);
        assert_eq!(S::digest(&bytes), digest(&bytes));
        let repeats = ((4 << 20) / size) as u32;
        let times = turns(|| digest_times::<S>(&bytes, repeats), || digest_times::<Plain>(&bytes, repeats));
        line(&format!("digest, {name}"), times, size);
    }
}

fn digest_times<S: Side>(bytes: &[u8], repeats: u32) -> Duration {
    timed(|| (0..repeats).for_each(|_| keep(S::digest(black_box(bytes))))) / repeats
}

const MOVES: usize = 2_000;
const PART: usize = 16;

/// Whether these blocks of an image, in one row, have this hash.
fn has(image: &[u8], start: usize, hash: &Hash) -> bool {
    digest(&image[start * BLOCK..(start + PART) * BLOCK]) == *hash
}

/// No two targets share a block, and no source is written, so that the list has everything to do over the first image and nothing over its own
/// result.
fn moves<S: Side>() {
    let sources = 4_096;
    let start = some_bytes((sources + MOVES * PART) * BLOCK);
    let mut rng = Rng::new(3);
    let mut targets: Vec<usize> = (0..MOVES).map(|k| sources + k * PART).collect();
    rng.shuffle(&mut targets);
    let mut image = start.clone();
    let mut hashes = Vec::new();
    let mut list = format!("3\n{}\n0\n0\n", MOVES * PART);
    for to in &targets {
        let from = rng.below(sources - PART);
        let hash = digest(&image[from * BLOCK..(from + PART) * BLOCK]);
        assert!(!has(&image, *to, &hash), "a line is finished before it runs");
        image.copy_within(from * BLOCK..(from + PART) * BLOCK, to * BLOCK);
        list += &format!("move {} 2,{to},{} {PART} 2,{from},{}\n", hex(&hash), to + PART, from + PART);
        hashes.push(hash);
    }
    assert!(targets.iter().zip(&hashes).all(|(to, hash)| has(&image, *to, hash)), "a line is not finished after it ran");
    // Each side on an image and a work area of its own.
    let (mut ours_image, mut plain_image) = (start.clone(), start.clone());
    let (mut ours_work, mut plain_work) = (vec![0; PART * BLOCK], vec![0; PART * BLOCK]);
    let list = list.as_bytes();
    for (name, from) in [("2,000 moves of 16 blocks, none skipped", &start), ("the same list again, all skipped", &image)] {
        let untouched = vec![0x5a; PART * BLOCK];
        ours_work.copy_from_slice(&untouched);
        plain_work.copy_from_slice(&untouched);
        let times = turns(
            || run_times::<S>(list, from, Areas { image: &mut ours_image, stash: &mut [], work: &mut ours_work, result: &mut [], patch: &[] }),
            || {
                let areas = Areas { image: &mut plain_image, stash: &mut [], work: &mut plain_work, result: &mut [], patch: &[] };
                run_times::<Plain>(list, from, areas)
            },
        );
        assert!(ours_image == plain_image && ours_image == image, "the images differ");
        let finished = *from == image;
        assert!(ours_work == plain_work && (ours_work == untouched) == finished, "the work areas differ");
        line(name, times, MOVES * PART * BLOCK);
    }
}

/// Opens the list and runs it to its end, from this image, past every stop.
fn run_times<S: Side>(list: &[u8], start: &[u8], areas: Areas) -> Duration {
    run_to::<S>(0, list, start, areas)
}

/// Opens the list and runs it until it is refused with this number, or to its end for 0.
fn run_to<S: Side>(number: usize, list: &[u8], start: &[u8], mut areas: Areas) -> Duration {
    areas.image.copy_from_slice(start);
    timed(|| {
        let Ok(mut state) = S::open(list, areas.lengths()) else { panic!("the list does not open") };
        loop {
            let (outcome, _) = S::call(list, areas.reborrow(), &[], &mut state);
            if outcome != Outcome::Stop {
                assert!(outcome.number() == number && outcome != Outcome::More);
                break;
            }
        }
    })
}

const PATCHES: usize = 500;

/// A patch in records of so many add and extra bytes each, the last one shorter; positions keep step with the target.
fn patch_in(source: &[u8], target: &[u8], add: usize, extra: usize) -> Vec<u8> {
    let mut records = Vec::new();
    for (k, part) in target.chunks(add + extra).enumerate() {
        let at = k * (add + extra);
        let (added, copied) = part.split_at(add.min(part.len()));
        let add = added.iter().zip(&source[at..]).map(|(new, old)| new.wrapping_sub(*old)).collect();
        records.push(Record { add, extra: copied.to_vec(), seek: copied.len() as i64 });
    }
    patch_of(&records)
}

/// Three hashes are in these times, as in every run of such a line: of the target as it was, which is another, of the source and of the result. The
/// last one is of reading records, and of the first two for one block.
fn patches<S: Side>() {
    let blocks = 4_096;
    let start = some_bytes(blocks * BLOCK);
    let (mut ours_image, mut plain_image) = (start.clone(), start.clone());
    let areas = || (vec![0; PART * BLOCK], vec![0; PART * BLOCK]);
    let ((mut ours_work, mut ours_result), (mut plain_work, mut plain_result)) = (areas(), areas());
    for (name, add, extra) in [("4,096 add bytes", 4_096, 0), ("64 add and 16 extra", 64, 16), ("4,096 extra bytes", 0, 4_096), ("1 add byte", 1, 0)]
    {
        let mut rng = Rng::new(6);
        let mut image = start.clone();
        let mut patch = Vec::new();
        // Records of a byte take 27 times the target.
        let lines = if add + extra == 1 { PATCHES / 10 } else { PATCHES };
        let mut list = format!("3\n{}\n0\n0\n", lines * PART);
        for _ in 0..lines {
            let [from, like, to] = [(); 3].map(|()| rng.below(blocks - PART));
            let [source, mut target] = [from, like].map(|at| image[at * BLOCK..(at + PART) * BLOCK].to_vec());
            if has(&image, to, &digest(&target)) {
                target[0] ^= 1;
            }
            let records = patch_in(&source, &target, add, extra);
            let hashes = format!("{} {}", hex(&digest(&source)), hex(&digest(&target)));
            list += &format!("bsdiff {} {} {hashes} 2,{to},{} {PART} 2,{from},{}\n", patch.len(), records.len(), to + PART, from + PART);
            patch.extend_from_slice(&records);
            image[to * BLOCK..(to + PART) * BLOCK].copy_from_slice(&target);
        }
        let list = list.as_bytes();
        let times = turns(
            || {
                let (work, result) = (&mut ours_work, &mut ours_result);
                run_times::<S>(list, &start, Areas { image: &mut ours_image, stash: &mut [], work, result, patch: &patch })
            },
            || {
                let (work, result) = (&mut plain_work, &mut plain_result);
                run_times::<Plain>(list, &start, Areas { image: &mut plain_image, stash: &mut [], work, result, patch: &patch })
            },
        );
        assert!(ours_image == plain_image && ours_image == image, "the images differ");
        line(&format!("{lines} patches of 16 blocks, {name}"), times, lines * PART * BLOCK);
    }

    let (h, t) = (hex(&digest(&start[..BLOCK])), hex(&digest(&start[BLOCK..2 * BLOCK])));
    let patch = patch_of(&vec![Record { add: Vec::new(), extra: Vec::new(), seek: 1 }; 1_000_000]);
    let list = format!("3\n1\n0\n0\nbsdiff 0 {} {h} {t} 2,0,1 1 2,0,1\n", patch.len());
    let list = list.as_bytes();
    let times = turns(
        || {
            let areas = Areas { image: &mut ours_image, stash: &mut [], work: &mut ours_work, result: &mut ours_result, patch: &patch };
            run_to::<S>(19, list, &start, areas)
        },
        || {
            let areas = Areas { image: &mut plain_image, stash: &mut [], work: &mut plain_work, result: &mut plain_result, patch: &patch };
            run_to::<Plain>(19, list, &start, areas)
        },
    );
    line("a patch of 1,000,000 records, refused", times, patch.len());
}

/// The bytes of the longest header: the version, and three numbers of ten digits.
const LONGEST_HEADER: usize = 2 + 3 * 11;

/// A list of nearly the greatest length, with these numbers on lines 3 and 4 and these first lines; each of the others comes with the blocks
/// that line 2 counts of it.
fn fill_list(stashes: usize, held: usize, first: &str, mut next: impl FnMut(usize) -> (usize, String)) -> Vec<u8> {
    let mut lines = first.to_string();
    let mut total = 0;
    for k in 0.. {
        let (blocks, line) = next(k);
        if LONGEST_HEADER + lines.len() + line.len() > MOST_LIST {
            break;
        }
        lines += &line;
        total += blocks;
    }
    format!("3\n{total}\n{stashes}\n{held}\n{lines}").into_bytes()
}

/// An opening that is short is repeated, so that a run takes a millisecond at least.
fn opening<S: Side>(name: &str, list: &[u8], lengths: Lengths, wanted: usize) {
    let state = Plain.open(list, rooms(lengths));
    assert_eq!(Library.open(list, rooms(lengths)), state);
    assert_eq!(state.refusal.number, wanted, "{name} at line {}", state.refusal.line);
    let repeats = (1_000_000 / open_times::<Plain>(list, lengths, 1).as_nanos().max(1) as u32).max(1);
    let times = turns(|| open_times::<S>(list, lengths, repeats), || open_times::<Plain>(list, lengths, repeats));
    line(&format!("open, {name}"), times, if wanted == 0 { list.len() } else { 0 });
}

fn open_times<S: Side>(list: &[u8], lengths: Lengths, repeats: u32) -> Duration {
    timed(|| (0..repeats).for_each(|_| keep(S::open(black_box(list), lengths)))) / repeats
}

fn openings<S: Side>() {
    let mut rng = Rng::new(4);
    let image = 524_288;
    let areas = Lengths { image: image * BLOCK, stash: MOST_AREA * BLOCK, work: MOST_AREA * BLOCK, result: MOST_RESULT * BLOCK, patch: 1 << 30 };
    let name = |k: usize| hex(&digest(&k.to_le_bytes()));

    // What builders write: moves, some stashes with the moves that use them, erased and zeroed ranges.
    let ordinary = fill_list(64, 4_096, "", |k| {
        let n = rng.between(2, 60);
        let (to, from) = (rng.below(image - n), rng.below(image - n));
        let h = name(k);
        match k % 10 {
            0 => {
                let stash = format!("stash {h} 4,{from},{},{},{}", from + 1, from + 1, from + n);
                (n, format!("{stash}\nmove {h} 2,{to},{} {n} - {h}:2,0,{n}\nfree {h}\n", to + n))
            }
            1 => {
                let more = n + 1;
                let both = format!("move {h} 2,{to},{} {more} 2,{to},{} 2,0,1 {h}:2,1,{more}", to + more, to + 1);
                (more, format!("stash {h} 2,{from},{}\n{both}\nfree {h}\n", from + n))
            }
            2 => {
                let pairs: Vec<String> = (0..20).map(|j| format!("{},{}", j * 25_000 + k % 100, j * 25_000 + 200)).collect();
                (0, format!("erase 40,{}\n", pairs.join(",")))
            }
            3 => (n, format!("zero 2,{to},{}\n", to + n)),
            _ => (n, format!("move {h} 2,{to},{} {n} 2,{from},{}\n", to + n, from + n)),
        }
    });
    opening::<S>("4 MiB of ordinary lines", &ordinary, areas, 0);

    let ranges = format!("3\n1000000\n0\n0\nzero 2000000{}\n", ",0,1".repeat(1_000_000));
    opening::<S>("one line of a million ranges", ranges.as_bytes(), areas, 0);
    let empty = format!("3\n1000000\n0\n0\nzero 2000000{},8,8\n", ",0,1".repeat(999_999));
    opening::<S>("the same, the last of them empty", empty.as_bytes(), areas, 6);
    let lines = format!("3\n400000\n0\n0\n{}", "new 2,0,1\n".repeat(400_000));
    opening::<S>("400,000 lines of ten bytes", lines.as_bytes(), areas, 0);
    let names: Vec<String> = (0..1_000).map(name).collect();
    let hashes = fill_list(1, 1, "", |k| {
        let h = &names[k % names.len()];
        (0, format!("stash {h} 2,0,1\nfree {h}\n"))
    });
    opening::<S>("a list full of hashes", &hashes, areas, 0);

    let patched = fill_list(0, 0, "", |k| {
        let n = rng.between(1, 60);
        let (to, from) = (rng.below(image - n), rng.below(image - n));
        let (h, t) = (&names[k % names.len()], &names[(k + 1) % names.len()]);
        (n, format!("bsdiff {} {} {h} {t} 2,{to},{} {n} 2,{from},{}\n", k * 5_000, n * 4_000, to + n, from + n))
    });
    opening::<S>("4 MiB of bsdiff lines", &patched, areas, 0);

    // Stashes of one to eight blocks, and moves of as many that name one of them, alone or behind blocks of the image.
    let few: String = (1..=8).map(|n| format!("stash {} 2,0,{n}\n", names[n])).collect();
    let small = fill_list(8, 36, &few, |k| {
        let n = rng.between(1, 8);
        let (to, from, held) = (rng.below(image - n), rng.below(image - n), rng.between(1, n));
        let (h, stash) = (&names[100 + k % 900], &names[held]);
        let source = match n - held {
            0 => format!("- {stash}:2,0,{n}"),
            m => format!("2,{from},{} 2,0,{m} {stash}:2,{m},{n}", from + m),
        };
        (n, format!("move {h} 2,{to},{} {n} {source}\n", to + n))
    });
    opening::<S>("4 MiB of small moves", &small, areas, 0);

    let h = name(0);
    let one = format!("stash {h} 2,0,1\n");
    let wide = fill_list(1, 1, &one, |_| (2, format!("move {h} 2,0,2 2 2,0,1 2,0,4294967295 {h}:2,0,4294967295\n")));
    opening::<S>("L of 2,0,4294967295 in every line", &wide, areas, 11);

    let most = MOST_STASHES;
    let stashes: String = (0..most).map(|k| format!("stash {} 2,{k},{}\n", name(k), k + 1)).collect();
    let parts: String = (0..most).map(|k| format!(" {}:2,{k},{}", name(most - 1 - k), k + 1)).collect();
    let all = fill_list(most, most, &stashes, |_| (most, format!("move {h} 2,0,{most} {most} -{parts}\n")));
    opening::<S>(&format!("{most} stashes, every move naming all"), &all, areas, 0);
    for (n, many) in [(4_096, "4,096"), (MOST_AREA, "32,768")] {
        let large = format!("stash {h} 2,0,{n}\n");
        let places = fill_list(1, n, &large, |_| (n, format!("move {h} 2,0,{n} {n} - {h}:2,0,{n}\n")));
        opening::<S>(&format!("{many} places in every line"), &places, areas, 0);
        let single: String = (0..n).map(|k| format!(",{k},{}", k + 1)).collect();
        let ragged = fill_list(1, n, &large, |_| (n, format!("move {h} 2,0,{n} {n} - {h}:{}{single}\n", 2 * n)));
        opening::<S>(&format!("{many} places, each a range of its own"), &ragged, areas, 0);
    }
}

/// Calls that take nothing and write nothing, at a `new` that waits for its first byte: what a call costs by itself. The stashes are made by the
/// list, or come with the state alone, over a list of one line.
fn calls<S: Side>() {
    let block = |k: usize| [k as u8; BLOCK];
    for held in [0, 1, MOST_STASHES] {
        let stashes: String = (0..held).map(|k| format!("stash {} 2,{k},{}\n", hex(&digest(&block(k))), k + 1)).collect();
        let [list, short] = [&stashes[..], ""].map(|lines| format!("3\n1\n{held}\n{held}\n{lines}new 2,0,1\n").into_bytes());
        let mut image: Vec<u8> = (0..MOST_STASHES).flat_map(block).collect();
        let (mut stash, mut work) = (vec![0; held * BLOCK], vec![0; BLOCK]);
        let areas = reference::Areas { image: &mut image, stash: &mut stash, work: &mut work, result: &mut [], patch: &[] };
        let rooms = areas.rooms();
        let state = Plain.run(&list, areas, &[], &[]).state;
        assert_eq!(state.count, held);
        let first = reference::State { hashes: state.hashes, sizes: state.sizes, count: held, ..Plain.open(&short, rooms) };
        for (name, list, state) in [("", &list, state), (", a short list", &short, first)] {
            let times = turns(|| call_times::<S>(list, &state), || call_times::<Plain>(list, &state));
            line(&format!("a call with nothing, {held} stashes{name}"), times, 0);
        }
    }
}

/// Calls that each move a stretch of one block, and stop: what a stop costs beside the block. A long list before it is gone through at every call.
fn stops<S: Side>() {
    const STRETCHES: u32 = 1_000;
    let held = 1 + STRETCHES as usize;
    for (name, before) in [("", 0), (", a 1 MiB list before it", 1 << 20)] {
        let lines = "erase 2,0,1\n".repeat(before / 12);
        let hash = digest(b"oldest");
        let list = format!("3\n0\n2\n{held}\n{lines}free {}\n", hex(&hash)).into_bytes();
        let mut state = Plain.open(b"3\n0\n0\n0\n", Rooms { image: BLOCK, stash: held * BLOCK, ..Rooms::default() });
        state.lengths.list = list.len();
        (state.at, state.line) = (list.len() - 46, 5 + before / 12);
        state.hashes[..20].copy_from_slice(&hash);
        (state.sizes[0], state.sizes[1], state.count) = (1, STRETCHES as usize, 2);
        let times = turns(|| stop_times::<S>(&list, &state, STRETCHES), || stop_times::<Plain>(&list, &state, STRETCHES));
        line(&format!("a stop after one block{name}"), times, 0);
    }
}

/// One of so many calls from this state, each of which stops.
fn stop_times<S: Side>(list: &[u8], state: &reference::State, calls: u32) -> Duration {
    let (mut image, mut stash) = (vec![0; state.lengths.image], some_bytes(state.lengths.stash));
    let after = stash[BLOCK..].to_vec();
    let mut areas = Areas { image: &mut image, stash: &mut stash, work: &mut [], result: &mut [], patch: &[] };
    let mut state = S::state(state);
    let time = timed(|| (0..calls).for_each(|_| assert_eq!(S::call(black_box(list), areas.reborrow(), &[], &mut state), (Outcome::Stop, 0))));
    assert_eq!(S::call(list, areas.reborrow(), &[], &mut state), (Outcome::Done, 0));
    assert!(stash[..after.len()] == after, "the stretches differ");
    time / calls
}

/// One of a thousand calls with no data from this state, which they leave as it is.
fn call_times<S: Side>(list: &[u8], state: &reference::State) -> Duration {
    const CALLS: u32 = 1_000;
    let area = |bytes: usize| vec![0; bytes];
    let reference::Lengths { image, stash, work, .. } = state.lengths;
    let mut areas = Areas { image: &mut area(image), stash: &mut area(stash), work: &mut area(work), result: &mut [], patch: &[] };
    let mut state = S::state(state);
    timed(|| (0..CALLS).for_each(|_| assert_eq!(S::call(black_box(list), areas.reborrow(), &[], &mut state), (Outcome::More, 0)))) / CALLS
}

/// A saved form read and written, as each call of the library does with its state. Of plain Rust's times above it is no part.
fn saved_forms<S: Side>() {
    let mut state = reference::State { count: MOST_STASHES, line: 5, at: 8, ..reference::State::ZERO };
    state.hashes.copy_from_slice(&some_bytes(20 * MOST_STASHES));
    state.sizes = std::array::from_fn(|k| k + 1);
    let form = saved::save(&state).try_into().expect("as many bytes as a saved form has");
    let times = turns(|| form_times::<S>(&form), || form_times::<Plain>(&form));
    line(&format!("a saved form read and written, {MOST_STASHES} stashes"), times, 0);
}

/// One of a thousand times.
fn form_times<S: Side>(form: &Form) -> Duration {
    const TIMES: u32 = 1_000;
    let (mut fields, mut out) = (S::fields(), [0; SAVED]);
    let time = timed(|| (0..TIMES).for_each(|_| S::read_and_write(black_box(form), black_box(&mut fields), black_box(&mut out))));
    assert!(out == *form, "the saved forms differ");
    time / TIMES
}

fn new_data<S: Side>() {
    for (name, before) in [("", 0), (", a 1 MiB list before it", 1 << 20)] {
        for (size, bytes) in [(1usize, 16usize << 10), (64, 1 << 20), (4_096, 16 << 20), (65_536, 16 << 20)] {
            let bytes = if before > 0 { (size * 64).min(bytes) } else { bytes };
            let blocks = bytes.div_ceil(BLOCK);
            let mut list = format!("3\n{blocks}\n0\n0\n");
            while list.len() < before {
                list += "erase 2,0,1\n";
            }
            list += &format!("new 2,0,{blocks}\n");
            let data = some_bytes(bytes);
            let list = list.as_bytes();
            let mut image = vec![0u8; blocks * BLOCK];
            let mut plain_image = image.clone();
            let times =
                turns(|| new_times::<S>(list, &mut image, data.chunks(size)), || new_times::<Plain>(list, &mut plain_image, data.chunks(size)));
            assert!(image == plain_image && image[..bytes] == data[..]);
            line(&format!("new, pieces of {size}{name}"), times, bytes);
        }
    }
}

/// A call for each piece. The opening is not timed, nor a call that brings it to the `new`.
fn new_times<'a, S: Side>(list: &[u8], image: &mut [u8], pieces: impl Iterator<Item = &'a [u8]>) -> Duration {
    let mut areas = Areas { image, stash: &mut [], work: &mut [], result: &mut [], patch: &[] };
    let Ok(mut state) = S::open(list, areas.lengths()) else { panic!("the list does not open") };
    assert_eq!(S::call(list, areas.reborrow(), &[], &mut state), (Outcome::More, 0));
    timed(|| {
        for piece in pieces {
            let (outcome, taken) = S::call(list, areas.reborrow(), piece, &mut state);
            assert!(!matches!(outcome, Outcome::Refused(_)) && taken == piece.len());
        }
    })
}

/// Blocks of the image that sparse files are loaded into: 256 MiB.
const LOADED: usize = 65_536;

fn sparse_files<S: Side>() {
    let data = some_bytes(LOADED * BLOCK);
    let start: Vec<u8> = data.iter().map(|byte| !byte).collect();
    // Each side into an image of its own.
    let (mut image, mut plain_image) = (start.clone(), start.clone());
    for (name, kind, blocks) in [
        ("one raw chunk", RAW, LOADED),
        // Long, and below the length from which memcpy was seen to go another way.
        ("raw chunks of 64 MiB", RAW, 16_384),
        ("raw chunks of one block", RAW, 1),
        ("one fill", FILL, LOADED),
        ("fills of one block", FILL, 1),
        ("don't-care chunks of one block", DONT_CARE, 1),
    ] {
        let body = |k: usize| match kind {
            RAW => data[k * BLOCK..(k + blocks) * BLOCK].to_vec(),
            FILL => (0x0123_4567 + k as u32).to_le_bytes().to_vec(),
            _ => Vec::new(),
        };
        let file = SparseFile::new((0..LOADED).step_by(blocks).map(|k| Chunk::new(kind, blocks, body(k))).collect()).bytes();
        image.copy_from_slice(&start);
        plain_image.copy_from_slice(&start);
        let times = turns(|| sparse_times::<S>(&file, &mut image), || sparse_times::<Plain>(&file, &mut plain_image));
        assert!(image == plain_image, "the images differ");
        match kind {
            RAW => assert!(image == data),
            FILL => assert!(image[..4] == body(0) && image != start),
            _ => assert!(image == start),
        }
        line(&format!("sparse, 256 MiB, {name}"), times, if kind == DONT_CARE { 0 } else { image.len() });
    }
}

fn sparse_times<S: Side>(file: &[u8], image: &mut [u8]) -> Duration {
    timed(|| assert_eq!(S::load_sparse(black_box(file), image), Ok(())))
}
