//! Loads a sparse file: load plain|model FILE IMAGE
//!
//! Where there is no IMAGE it starts from zeros, as many as FILE's header says. Prints `loaded B` (its blocks) or `refused N`; a refused file leaves IMAGE as it
//! was. Exit status: 0 loaded, 1 refused, 2 for a file that cannot be read or written.

use reference::{model, plain, BLOCK, MOST_IMAGE};
use std::fs;
use std::io::ErrorKind;

type Load = fn(&[u8], &mut [u8]) -> Result<(), usize>;

fn fail(name: &str, error: impl std::fmt::Display) -> ! {
    eprintln!("{name}: {error}");
    std::process::exit(2)
}

fn main() {
    let words: Vec<String> = std::env::args().skip(1).collect();
    let words: Vec<&str> = words.iter().map(String::as_str).collect();
    let (load, file, image): (Load, &str, &str) = match words[..] {
        ["plain", file, image] => (plain::load_sparse, file, image),
        ["model", file, image] => (model::load_sparse, file, image),
        _ => fail("usage", "load plain|model FILE IMAGE"),
    };
    let sparse = fs::read(file).unwrap_or_else(|error| fail(file, error));
    let mut bytes = match fs::read(image) {
        Ok(bytes) => bytes,
        Err(error) if error.kind() == ErrorKind::NotFound => {
            let blocks = sparse.get(16..20).map_or(0, |total| total.iter().rev().fold(0, |n, byte| 256 * n + *byte as usize));
            vec![0; if blocks > MOST_IMAGE { 0 } else { blocks * BLOCK }]
        }
        Err(error) => fail(image, error),
    };
    if let Err(number) = load(&sparse, &mut bytes) {
        println!("refused {number}");
        std::process::exit(1);
    }
    fs::write(image, &bytes).unwrap_or_else(|error| fail(image, error));
    println!("loaded {}", bytes.len() / BLOCK);
}
