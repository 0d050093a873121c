//! Range sets.

use super::Rng;

/// The pairs of a range set, as written.
pub type Set = Vec<(u32, u32)>;

/// Its blocks, one named twice counted twice. A range that ends before it starts, as a spoiled set may have it, has none.
pub(super) fn size(set: &Set) -> u64 {
    set.iter().map(|(start, end)| end.saturating_sub(*start) as u64).sum()
}

/// A set of k blocks, in any order and with repeats, within so many blocks. One of none has no range, and is for no line.
pub(super) fn any_set(rng: &mut Rng, mut k: usize, bound: usize) -> Set {
    let mut set = Set::new();
    let whole = rng.percent(50);
    let ragged = k > 16 && rng.percent(50);
    // Long sets have longer ranges, so that a line does not fill the list.
    let short = if k > 4_096 { k / 100 } else { 3 };
    while k > 0 {
        let longest = if ragged { k.min(bound).min(short) } else { k.min(bound) };
        let length = if whole && !ragged { longest } else { rng.between(1, longest) };
        let start = rng.between(0, bound - length);
        set.push((start as u32, (start + length) as u32));
        k -= length;
    }
    set
}

/// These places as a set, in this order.
pub(super) fn place_set(rng: &mut Rng, places: &[usize]) -> Set {
    let mut set = Set::new();
    for place in places {
        let p = *place as u32;
        match set.last_mut() {
            Some(last) if last.1 == p && rng.percent(85) => last.1 = p + 1,
            _ => set.push((p, p + 1)),
        }
    }
    set
}

/// Puts a range without blocks in a set: before the others, behind them, within one, or in its place.
pub(super) fn put_empty(rng: &mut Rng, set: &mut Set, bound: u32) {
    let k = rng.below(set.len());
    let (start, end) = set[k];
    let x = rng.pick(&[0, start, end, bound, bound + 1, 8, 429_496_730, 4_294_967_294, 4_294_967_295]);
    match rng.below(4) {
        0 => set.insert(0, (x, x)),
        1 => set.push((x, x)),
        2 if end > start.saturating_add(1) => {
            set.splice(k..=k, [(start, start + 1), (x, x), (start + 1, end)]);
        }
        _ => set[k] = (x, x),
    }
}

/// Takes a block from a set, where it has another.
pub(super) fn one_block_less(set: &mut Set) -> bool {
    match set.iter().position(|(start, end)| *end > start.saturating_add(1)) {
        Some(k) => {
            set[k].1 -= 1;
            true
        }
        None => set.len() > 1 && set.pop().is_some(),
    }
}

/// The blocks that a set names, in the written order.
pub(super) fn blocks_of(set: &Set) -> impl Iterator<Item = usize> + '_ {
    set.iter().flat_map(|(start, end)| *start as usize..*end as usize)
}
