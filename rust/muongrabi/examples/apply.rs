//! Applies an update, and finishes it after a power cut: apply LIST IMAGE NEW [PATCH]
//!
//! LIST is the transfer list, IMAGE the image that is updated in its place, NEW the new data, read in pieces, so it may be larger than
//! memory, and PATCH the patch data, where the list has `bsdiff` lines. The stash, work and result areas are kept in files beside the image, as
//! large as the list needs them, and the state in IMAGE.saved: after opening and at every stop. Where that file is found, the run goes on from
//! there, with the new data from the byte on that it names. When the list is finished these files are removed; a refusal leaves them, and a
//! refused opening makes none. Prints `done T`, `more T` (T: bytes of new data taken in all) or `refused: ` and why; where a line is ill formed,
//! then the line, and a mark under the first byte that is wrong. Exit status: 0 done, 1 more or refused, 2 for a file that cannot be read or
//! written.

use muongrabi::{open, Areas, Called, Lengths, Outcome, Refusal, State, Updater, BLOCK, MOST_AREA, MOST_RESULT};
use std::fs::{self, File, OpenOptions};
use std::io::{self, Read, Seek, SeekFrom, Write};
use std::os::unix::fs::FileExt;
use std::path::Path;
use std::process::ExitCode;

/// A file's name before what went wrong with it.
fn named<T>(name: &str, result: io::Result<T>) -> Result<T, String> {
    result.map_err(|error| format!("{name}: {error}"))
}

/// A file, and the bytes that it has.
struct Stored {
    name: String,
    file: File,
    bytes: Vec<u8>,
}

impl Stored {
    fn image(name: &str) -> Result<Stored, String> {
        let bytes = named(name, fs::read(name))?;
        let file = named(name, OpenOptions::new().write(true).open(name))?;
        Ok(Stored { name: name.to_string(), file, bytes })
    }

    /// An area of that length: a new one, or the one that a run left.
    fn area(name: String, length: usize, found: bool) -> Result<Stored, String> {
        let file = OpenOptions::new().read(true).write(true).create(!found).truncate(!found).open(&name);
        let mut file = named(&name, file)?;
        if !found {
            named(&name, file.set_len(length as u64))?;
        }
        let mut bytes = Vec::new();
        named(&name, file.read_to_end(&mut bytes))?;
        if bytes.len() != length {
            return Err(format!("{name}: not the area that the saved state was made with"));
        }
        Ok(Stored { name, file, bytes })
    }

    /// These bytes from now on, in storage when this is over. Blocks that are the same are not written.
    fn put(&mut self, bytes: &[u8]) -> Result<(), String> {
        for (k, (old, new)) in self.bytes.chunks_mut(BLOCK).zip(bytes.chunks(BLOCK)).enumerate() {
            if old != new {
                named(&self.name, self.file.write_all_at(new, (k * BLOCK) as u64))?;
                old.copy_from_slice(new);
            }
        }
        named(&self.name, self.file.sync_all())
    }
}

/// What is new, renamed or removed in the file's folder is so in storage when this is over.
fn sync_folder(name: &str) -> Result<(), String> {
    let folder = Path::new(name).parent().filter(|folder| !folder.as_os_str().is_empty()).unwrap_or(Path::new("."));
    named(name, File::open(folder).and_then(|folder| folder.sync_all()))
}

/// Replaces the saved form, whole or not at all.
fn save(name: &str, state: &State) -> Result<(), String> {
    let fresh = format!("{name}.new");
    let mut file = named(&fresh, File::create(&fresh))?;
    named(&fresh, file.write_all(state.as_bytes()).and_then(|()| file.sync_all()))?;
    named(&fresh, fs::rename(&fresh, name))?;
    sync_folder(name)
}

/// The state that a run left, if there is one.
fn restore(name: &str) -> Result<Option<State>, String> {
    match fs::read(name) {
        Ok(bytes) => State::restore(&bytes).map(Some).map_err(|refusal| format!("{name}: {refusal}")),
        Err(error) if error.kind() == io::ErrorKind::NotFound => Ok(None),
        Err(error) => Err(format!("{name}: {error}")),
    }
}

/// The fewest blocks with which the list opens; with `most` it does. An opening takes lengths alone, so nothing is lent yet.
fn least(most: usize, opens: impl Fn(usize) -> bool) -> usize {
    let (mut low, mut high) = (0, most);
    while low < high {
        let middle = low + (high - low) / 2;
        if opens(middle) {
            high = middle;
        } else {
            low = middle + 1;
        }
    }
    high
}

/// A state of the list's first line, with areas as large as the list needs them.
fn open_least(text: &[u8], image: usize, patch: usize) -> Result<State, Refusal> {
    // The largest areas at first, so that no list is refused for want of room.
    let largest = Lengths { image, stash: MOST_AREA * BLOCK, work: MOST_AREA * BLOCK, result: MOST_RESULT * BLOCK, patch };
    open(text, largest)?;
    let stash = BLOCK * least(MOST_AREA, |n| open(text, Lengths { stash: n * BLOCK, ..largest }).is_ok());
    let work = BLOCK * least(MOST_AREA, |n| open(text, Lengths { work: n * BLOCK, ..largest }).is_ok());
    let result = BLOCK * least(MOST_RESULT, |n| open(text, Lengths { result: n * BLOCK, ..largest }).is_ok());
    open(text, Lengths { image, stash, work, result, patch })
}

/// How the run ended, and the bytes taken since the opening. A refused opening is the inner error.
fn apply(text: &[u8], image: &str, new: &str, patch: Option<&str>) -> Result<Result<(Outcome, u64), Refusal>, String> {
    let mut data = named(new, File::open(new))?;
    let patch = patch.map_or(Ok(Vec::new()), |name| named(name, fs::read(name)))?;
    let mut image_file = Stored::image(image)?;
    let saved = format!("{image}.saved");
    let left = restore(&saved)?;
    let found = left.is_some();
    let state = match left.map_or_else(|| open_least(text, image_file.bytes.len(), patch.len()), Ok) {
        Ok(state) => state,
        Err(refusal) => return Ok(Err(refusal)),
    };
    let Lengths { stash, work, result, .. } = state.fields().lengths;
    let mut stash_file = Stored::area(format!("{image}.stash"), stash, found)?;
    let mut work_file = Stored::area(format!("{image}.work"), work, found)?;
    let mut result_file = Stored::area(format!("{image}.result"), result, found)?;
    if !found {
        sync_folder(image)?;
        save(&saved, &state)?;
    }
    named(new, data.seek(SeekFrom::Start(state.total())))?;

    let [mut lent, mut stash, mut work, mut result] = [&image_file, &stash_file, &work_file, &result_file].map(|file| file.bytes.clone());
    let areas = Areas { image: &mut lent, stash: &mut stash, work: &mut work, result: &mut result, patch: &patch };
    let mut updater = Updater::resume(text, areas, state);
    let mut piece = vec![0; 1 << 16];
    let outcome = 'run: loop {
        let got = named(new, data.read(&mut piece))?;
        let mut used = 0;
        loop {
            let Called { outcome, taken } = updater.call(&piece[used..got]);
            used += taken;
            match outcome {
                Outcome::Done | Outcome::Refused(_) => break 'run outcome,
                Outcome::More if got == 0 => break 'run outcome,
                Outcome::More => break,
                Outcome::Stop => {}
            }
            // Storage gets the bytes before the state that speaks of them, and the state before the next call writes.
            image_file.put(updater.image())?;
            stash_file.put(updater.stash())?;
            work_file.put(updater.work())?;
            result_file.put(updater.result())?;
            save(&saved, updater.state())?;
        }
    };
    image_file.put(updater.image())?;
    Ok(Ok((outcome, updater.state().total())))
}

/// Removes what a run that is done has left beside the image. The saved form goes first: without it the next run begins anew.
fn clean(image: &str) -> Result<(), String> {
    for ending in ["saved", "stash", "work", "result"] {
        let name = format!("{image}.{ending}");
        named(&name, fs::remove_file(&name))?;
        sync_folder(image)?;
    }
    Ok(())
}

/// Bytes of a line that are shown at most.
const SHOWN: usize = 64;

/// The line that has this byte, with a mark under it. The byte may be the line's LF or the list's end: the mark then stands behind the line.
/// One past the list, which a state that was kept elsewhere may hold, is in no line.
fn shown(list: &[u8], byte: usize) -> Option<String> {
    let (before, behind) = (list.get(..byte)?, list.get(byte..)?);
    let start = before.iter().rposition(|byte| *byte == b'\n').map_or(0, |at| at + 1);
    let end = behind.iter().position(|byte| *byte == b'\n').map_or(list.len(), |at| byte + at);
    // Of a long line the part around the byte.
    let from = if end - start > SHOWN { byte.saturating_sub(SHOWN / 2).max(start).min(end - SHOWN) } else { start };
    let to = end.min(from + SHOWN);
    // A terminal would obey some bytes, and take others for part of a character.
    let part: String = list[from..to].iter().map(|byte| if matches!(byte, b' '..=b'~') { char::from(*byte) } else { '?' }).collect();
    let [cut, rest] = [from > start, to < end].map(|is_cut| if is_cut { ".." } else { "" });
    Some(format!("    {cut}{part}{rest}\n    {:width$}^", "", width = cut.len() + byte - from))
}

/// A file cannot be read or written.
fn failed(error: &str) -> ExitCode {
    eprintln!("{error}");
    ExitCode::from(2)
}

fn main() -> ExitCode {
    let words: Vec<String> = std::env::args().skip(1).collect();
    let ([list, image, new], patch) = match &words[..] {
        [list, image, new] => ([list, image, new], None),
        [list, image, new, patch] => ([list, image, new], Some(patch.as_str())),
        _ => {
            eprintln!("usage: apply LIST IMAGE NEW [PATCH]");
            return ExitCode::from(2);
        }
    };
    match named(list, fs::read(list)).and_then(|text| apply(&text, image, new, patch).map(|ended| (text, ended))) {
        Ok((_, Ok((Outcome::Done, taken)))) => {
            println!("done {taken}");
            return clean(image).map_or_else(|error| failed(&error), |()| ExitCode::SUCCESS);
        }
        Ok((_, Ok((Outcome::More | Outcome::Stop, taken)))) => println!("more {taken}"),
        Ok((text, Ok((Outcome::Refused(refusal), _)) | Err(refusal))) => {
            println!("refused: {refusal}");
            if let Some(lines) = refusal.byte().and_then(|byte| shown(&text, byte)) {
                println!("{lines}");
            }
            if refusal.number() == Refusal::STATE_IMPOSSIBLE {
                println!("    {image}.saved is of another update");
            }
        }
        Err(error) => return failed(&error),
    }
    ExitCode::from(1)
}
