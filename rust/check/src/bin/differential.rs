//! Compares the proved library with the plain implementation on seeded cases.
//! usage: differential [--sparse | --lines] [--cases N] [--seed S] [--first K] [--self] [--out FOLDER]
//! Lists are run; with --sparse, sparse files are loaded, by the slow model too; with --lines, ill-formed lines are opened, by the slow model too,
//! and number, line and byte compared. Openings by the plain implementation are held to what they were when ranges might be empty, too.
//! --self takes the slow model in the library's place. A failing case is written whole to FOLDER (default: here). In a run of 5,000 cases or more
//! it is a failure too when something of the coverage never occurred.

use check::compare::{Checker, LineChecker, Series, SparseChecker};
use check::{Implementation, Library, Model};
use std::time::{Instant, SystemTime, UNIX_EPOCH};

/// So many cases have everything, whatever the seed: what is rarest occurs some ten times.
const ENOUGH: u64 = 5_000;

fn main() {
    let mut cases = 10_000u64;
    let mut first = 0u64;
    let mut seed = SystemTime::now().duration_since(UNIX_EPOCH).map_or(1, |d| d.as_nanos() as u64);
    let mut itself = false;
    let (mut sparse, mut lines) = (false, false);
    let mut out = ".".to_string();
    let mut words = std::env::args().skip(1);
    while let Some(word) = words.next() {
        let mut value = || words.next().unwrap_or_else(|| usage());
        match word.as_str() {
            "--cases" => cases = value().parse().unwrap_or_else(|_| usage()),
            "--seed" => seed = value().parse().unwrap_or_else(|_| usage()),
            "--first" => first = value().parse().unwrap_or_else(|_| usage()),
            "--out" => out = value(),
            "--self" => itself = true,
            "--sparse" => sparse = true,
            "--lines" => lines = true,
            _ => usage(),
        }
    }
    let other: &dyn Implementation = if itself { &Model } else { &Library };
    println!("seed {seed}");
    let others: &[(&str, &dyn Implementation)] = if itself { &[("model", &Model)] } else { &[("library", &Library), ("model", &Model)] };
    let checker: &mut dyn Series = match (sparse, lines) {
        (false, false) => &mut Checker::new(other),
        (true, false) => &mut SparseChecker::new(others),
        (false, true) => &mut LineChecker::new(others),
        (true, true) => usage(),
    };
    let mut failed = 0u64;
    let start = Instant::now();
    for index in first..first + cases {
        if let Err(difference) = checker.case(seed, index) {
            failed += 1;
            if failed <= 5 {
                let name = format!("{out}/failed-{seed}-{index}.txt");
                let text = checker.written(seed, index);
                match std::fs::write(&name, text) {
                    Ok(()) => println!("case {index}: {difference}; written to {name}"),
                    Err(e) => println!("case {index}: {difference}; {name}: {e}"),
                }
            }
        }
    }
    print!("{}", checker.report());
    println!("{:.1} s", start.elapsed().as_secs_f64());
    let missing = if cases >= ENOUGH { checker.missing() } else { Vec::new() };
    if !missing.is_empty() {
        println!("never occurred: {}", missing.join("; "));
    }
    println!("{} passed, {failed} failed", cases - failed);
    std::process::exit((failed > 0 || !missing.is_empty()) as i32);
}

fn usage() -> ! {
    eprintln!("usage: differential [--sparse | --lines] [--cases N] [--seed S] [--first K] [--self] [--out FOLDER]");
    std::process::exit(2)
}
