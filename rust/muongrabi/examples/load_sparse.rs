//! Loads a sparse file into an image: load_sparse FILE IMAGE
//!
//! FILE is an Android sparse file. Where it leaves blocks out, IMAGE keeps its own; where there is no IMAGE, it is made, of zeros as far as FILE
//! leaves blocks out. Prints `loaded B` (B: blocks of the image) or `refused: ` and why; a refused file leaves IMAGE alone. Exit status: 0
//! loaded, 1 refused, 2 for a file that cannot be read or written.

use muongrabi::{load_sparse, Refusal, BLOCK, MOST_IMAGE};
use std::fs::{self, OpenOptions};
use std::io::{self, ErrorKind, Write};
use std::process::ExitCode;

/// A file's name before what went wrong with it.
fn named<T>(name: &str, result: io::Result<T>) -> Result<T, String> {
    result.map_err(|error| format!("{name}: {error}"))
}

/// As many zeros as the header has blocks. Where it has too many, or is none, the file is refused whatever the image is.
fn zeros(file: &[u8]) -> Vec<u8> {
    let total = file.get(16..20).and_then(|bytes| bytes.try_into().ok()).map_or(0, u32::from_le_bytes) as usize;
    vec![0; if total > MOST_IMAGE { 0 } else { total * BLOCK }]
}

/// The image's blocks. A refused file is the inner error.
fn load(file: &str, image: &str) -> Result<Result<usize, Refusal>, String> {
    let sparse = named(file, fs::read(file))?;
    let mut bytes = match fs::read(image) {
        Err(error) if error.kind() == ErrorKind::NotFound => zeros(&sparse),
        read => named(image, read)?,
    };
    if let Err(refusal) = load_sparse(&sparse, &mut bytes) {
        return Ok(Err(refusal));
    }
    let mut to = named(image, OpenOptions::new().write(true).create(true).truncate(false).open(image))?;
    named(image, to.write_all(&bytes))?;
    Ok(Ok(bytes.len() / BLOCK))
}

fn main() -> ExitCode {
    let words: Vec<String> = std::env::args().skip(1).collect();
    let [file, image] = &words[..] else {
        eprintln!("usage: load_sparse FILE IMAGE");
        return ExitCode::from(2);
    };
    match load(file, image) {
        Ok(Ok(blocks)) => {
            println!("loaded {blocks}");
            ExitCode::SUCCESS
        }
        Ok(Err(refusal)) => {
            println!("refused: {refusal}");
            ExitCode::from(1)
        }
        Err(error) => {
            eprintln!("{error}");
            ExitCode::from(2)
        }
    }
}
