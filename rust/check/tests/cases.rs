//! A few thousand seeded cases with overflow checks on, and bytes and states of no shape at all.

use check::compare::{Checker, LineChecker, Series, SparseChecker};
use check::generate::{disturb, Rng};
use check::{Library, Model};
use reference::{plain, Areas, Rooms, State, BLOCK, MOST_STASHES};

fn seeded_cases(checker: &mut dyn Series) {
    for index in 0..5_000 {
        if let Err(difference) = checker.case(20_240_601, index) {
            panic!("case {index}: {difference}");
        }
    }
    assert_eq!(checker.missing(), Vec::<String>::new(), "never occurred");
}

#[test]
fn seeded_cases_on_the_library() {
    seeded_cases(&mut Checker::new(&Library));
}

#[test]
fn seeded_cases_on_the_model() {
    seeded_cases(&mut Checker::new(&Model));
}

#[test]
fn seeded_ill_formed_lines() {
    seeded_cases(&mut LineChecker::new(&[("library", &Library), ("model", &Model)]));
}

#[test]
fn seeded_sparse_files() {
    seeded_cases(&mut SparseChecker::new(&[("library", &Library), ("model", &Model)]));
}

#[test]
fn shapeless_bytes() {
    let mut rng = Rng::new(5);
    let mut image = vec![1; 2 * BLOCK];
    let mut stash = vec![2; BLOCK];
    let mut work = vec![3; BLOCK];
    let mut result = vec![4; BLOCK];
    let patch = vec![5; 100];
    let mut areas = Areas { image: &mut image, stash: &mut stash, work: &mut work, result: &mut result, patch: &patch };
    for _ in 0..20_000 {
        let mut list = if rng.percent(80) { b"3\n0\n1\n1\n".to_vec() } else { Vec::new() };
        let alphabet: &[u8] = rng.pick(&[&b"0123456789,\n"[..], b"zero newmvstahfi 0123,:-\n", b"bsdif 02,a\n", b"\0\xff\n 2,"]);
        for _ in 0..rng.below(60) {
            list.push(rng.pick(alphabet));
        }
        let mut state = plain::open(&list, areas.rooms());
        for _ in 0..rng.below(4) {
            disturb(&mut rng, &mut state, &list);
        }
        plain::call(&list, areas.reborrow(), b"abc", &mut state);
    }
}

#[test]
fn lengths_that_do_not_fit_the_state() {
    // Every combination of border values in position, line, count and bytes.
    let list = b"3\n1\n1\n1\nnew 2,0,1\n";
    let borders = [0, 1, 4, 5, 6, 7, 8, 18, 19, 64, 65, MOST_STASHES, MOST_STASHES + 1, 4_096, 1 << 32, 1 << 63, usize::MAX];
    let opened = plain::open(list, Rooms { image: BLOCK, stash: BLOCK, work: BLOCK, result: 0, patch: 0 });
    let (mut image, mut stash, mut work) = (vec![1; BLOCK], vec![2; BLOCK], vec![3; BLOCK]);
    let mut areas = Areas { image: &mut image, stash: &mut stash, work: &mut work, result: &mut [], patch: &[] };
    for at in borders {
        for line in borders {
            for count in borders {
                for into in borders {
                    let mut state = State { at, line, count, into, ..opened };
                    state.sizes = [count; MOST_STASHES];
                    let called = plain::call(list, areas.reborrow(), b"", &mut state);
                    let fits = (at, line) == (8, 5) || (at, line) == (18, 6);
                    let held = count == 0 || count == 1;
                    let inside = into == 0 || (at == 8 && into < BLOCK);
                    assert_eq!(called.outcome.number() != 17, fits && held && inside, "{at} {line} {count} {into}");
                }
            }
        }
    }
}
