//! New data and how it is cut.

use super::Rng;
use reference::BLOCK;

/// New data, and the lengths of the pieces that it goes in.
pub struct Pieces {
    pub data: Vec<u8>,
    pub cuts: Vec<usize>,
}

impl Pieces {
    /// Some cuts at and beside block ends, some pieces empty.
    pub fn cut(rng: &mut Rng, data: Vec<u8>) -> Pieces {
        let mut cuts = Vec::new();
        let mut left = data.len();
        for _ in 0..rng.pick(&[0, 0, 1, 2, 3, 5]) {
            let cut = match rng.below(8) {
                0 => 0,
                1 => rng.between(1, 3),
                2 => BLOCK,
                3 => BLOCK - 1,
                4 => BLOCK + 1,
                5 => left,
                _ => rng.below(left + 1),
            };
            cuts.push(cut);
            left = left.saturating_sub(cut);
        }
        Pieces { data, cuts }
    }

    /// A piece for each cut, cut short where the data ends, and one with all that is left.
    pub fn each(&self) -> impl Iterator<Item = &[u8]> {
        let mut rest = &self.data[..];
        self.cuts.iter().copied().chain([usize::MAX]).map(move |cut| {
            let (piece, after) = rest.split_at(cut.min(rest.len()));
            rest = after;
            piece
        })
    }
}
