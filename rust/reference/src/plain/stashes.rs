//! The stashes that a state holds.

use crate::{Hash, State, MOST_STASHES};

impl State {
    fn held(&self) -> usize {
        self.count.min(MOST_STASHES)
    }

    pub(super) fn hash(&self, k: usize) -> &[u8] {
        &self.hashes[20 * k..20 * k + 20]
    }

    /// Which of the held stashes has this hash.
    pub(super) fn find(&self, hash: &Hash) -> Option<usize> {
        (0..self.held()).find(|k| self.hash(*k) == hash)
    }

    /// The blocks of the first n stashes together.
    pub(super) fn blocks(&self, n: usize) -> u64 {
        let mut sum = 0u64;
        for k in 0..n.min(MOST_STASHES) {
            sum = sum.saturating_add(self.sizes[k] as u64);
        }
        sum
    }

    /// In how many stretches a `free` of stash j, which has blocks, moves the younger ones.
    pub(super) fn stretches_of(&self, j: usize) -> usize {
        let younger = (self.blocks(self.count) - self.blocks(j + 1)) as usize;
        younger.div_ceil(self.sizes[j])
    }

    pub(super) fn hold(&mut self, hash: &Hash, size: usize) {
        let k = self.count;
        self.hashes[20 * k..20 * k + 20].copy_from_slice(hash);
        self.sizes[k] = size;
        self.count = k + 1;
    }

    pub(super) fn drop_stash(&mut self, j: usize) {
        let last = self.count - 1;
        self.hashes.copy_within(20 * (j + 1)..20 * (last + 1), 20 * j);
        self.sizes.copy_within(j + 1..last + 1, j);
        self.count = last;
    }
}
