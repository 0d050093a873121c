//! The small program of document 01, with the patch file of document 02.

use reference::plain::{call_on, open};
use reference::{Areas, Outcome, Refusal, BLOCK};
use std::fs;

const LIST: &str = "system.transfer.list";
const IMAGE: &str = "system.img";
const NEW: &str = "system.new.dat";
const PATCH: &str = "system.patch.dat";

fn read(name: &str) -> Vec<u8> {
    fs::read(name).unwrap_or_default()
}

/// 3 and 6 with their byte.
fn refused(refusal: Refusal) -> String {
    match refusal {
        Refusal { number: number @ (3 | 6), line, byte } => format!("refused {number} {line} {byte}"),
        Refusal { number, line, .. } => format!("refused {number} {line}"),
    }
}

fn main() {
    let list = read(LIST);
    let mut image = read(IMAGE);
    let new = read(NEW);
    let mut patch = read(PATCH);
    patch.truncate(BLOCK);
    if image.len() > 8 * BLOCK {
        println!("refused 1 0");
        return;
    }
    if list.len() > BLOCK && image.len() % BLOCK == 0 {
        println!("refused 2 0");
        return;
    }
    let mut stash = vec![0; 3 * BLOCK];
    let mut work = vec![0; 3 * BLOCK];
    let mut result = vec![0; 3 * BLOCK];
    let mut areas = Areas { image: &mut image, stash: &mut stash, work: &mut work, result: &mut result, patch: &patch };
    let mut state = open(&list, areas.rooms());
    if state.refusal.number != 0 {
        println!("{}", refused(state.refusal));
        return;
    }
    let mut total = 0;
    let mut rest = &new[..];
    loop {
        let (piece, after) = rest.split_at(rest.len().min(BLOCK));
        let called = call_on(&list, areas.reborrow(), piece, &mut state);
        total += called.taken;
        rest = after;
        if called.outcome == Outcome::More && !rest.is_empty() {
            continue;
        }
        fs::write(IMAGE, &*areas.image).expect("the image cannot be written");
        match called.outcome {
            Outcome::Done => println!("done {total}"),
            Outcome::More => println!("more {total}"),
            Outcome::Stop => unreachable!("calling on goes past every stop"),
            Outcome::Refused(refusal) => println!("{}", refused(refusal)),
        }
        return;
    }
}
