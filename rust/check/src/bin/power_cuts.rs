//! Runs lists of all commands on the proved library, cuts them between stops and takes them up again from their saved forms: each ends as it does
//! uncut.
//! usage: power_cuts [--cases N] [--seed S] [--first K] [--long] [--self]
//! A case is a list, cut some times in each of its segments; a few segments are cut behind every byte. With --long millions of cuts. --self takes
//! the plain implementation in the library's place. In a run of 500 cases or more it is a failure too when a kind of segment was never cut.

use check::cuts::{Cuts, Effort};
use check::{Implementation, Library, Plain};
use std::time::{Instant, SystemTime, UNIX_EPOCH};

/// So many lists have every kind of segment, whatever the seed.
const ENOUGH: u64 = 500;

fn main() {
    let (mut cases, mut first, mut long, mut itself) = (None, 0u64, false, false);
    let mut seed = SystemTime::now().duration_since(UNIX_EPOCH).map_or(1, |d| d.as_nanos() as u64);
    let mut words = std::env::args().skip(1);
    while let Some(word) = words.next() {
        let mut value = || words.next().and_then(|text| text.parse().ok()).unwrap_or_else(|| usage());
        match word.as_str() {
            "--cases" => cases = Some(value()),
            "--seed" => seed = value(),
            "--first" => first = value(),
            "--long" => long = true,
            "--self" => itself = true,
            _ => usage(),
        }
    }
    let on: &dyn Implementation = if itself { &Plain } else { &Library };
    let effort = if long { Effort { cuts: 12, every: (200, 6 * 4_096) } } else { Effort { cuts: 4, every: (250, 2 * 4_096) } };
    let cases = cases.unwrap_or(if long { 8_000 } else { 600 });
    println!("seed {seed}");
    let mut cuts = Cuts::new(on, effort);
    let start = Instant::now();
    for index in first..first + cases {
        if let Err(difference) = cuts.case(seed, index) {
            println!("case {index}, {difference}");
            let long = if long { " --long" } else { "" };
            println!("again: power_cuts --seed {seed} --first {index} --cases 1{long}");
            std::process::exit(1);
        }
    }
    println!("{}", cuts.report());
    println!("{:.1} s", start.elapsed().as_secs_f64());
    let missing = if cases >= ENOUGH { cuts.missing() } else { Vec::new() };
    if !missing.is_empty() {
        println!("never occurred: {}", missing.join("; "));
        std::process::exit(1);
    }
    println!("{} lists, {} cuts, {} second cuts, no difference", cuts.lists, cuts.cuts, cuts.second);
}

fn usage() -> ! {
    eprintln!("usage: power_cuts [--cases N] [--seed S] [--first K] [--long] [--self]");
    std::process::exit(2)
}
