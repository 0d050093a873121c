//! Blocks and their digests.

use super::Rng;
use reference::{digest, Hash, BLOCK};
use std::collections::HashMap;

/// Blocks known by one byte each, 0 being zeros, and the digests of rows of them; or made-up names in the digests' place.
pub struct Blocks {
    bytes: Vec<u8>,
    digests: HashMap<Vec<u8>, Hash>,
    made_up: bool,
}

impl Default for Blocks {
    fn default() -> Blocks {
        Blocks::new()
    }
}

impl Blocks {
    pub fn new() -> Blocks {
        let mut bytes = vec![0u8; 256 * BLOCK];
        for (id, block) in bytes.chunks_mut(BLOCK).enumerate().skip(1) {
            for (j, byte) in block.iter_mut().enumerate() {
                *byte = (id * 31 + j * (2 * (id % 7) + 1) + (j >> 8) * id) as u8;
            }
            block[id % 61] = id as u8;
            block[BLOCK - 1] = !(id as u8);
        }
        Blocks { bytes, digests: HashMap::new(), made_up: false }
    }

    /// For lists that are only opened: what no run compares need not be a digest, which takes long over many blocks.
    pub fn made_up() -> Blocks {
        Blocks { made_up: true, ..Blocks::new() }
    }

    pub fn is_made_up(&self) -> bool {
        self.made_up
    }

    pub fn block(&self, id: u8) -> &[u8] {
        &self.bytes[id as usize * BLOCK..][..BLOCK]
    }

    pub fn lay(&self, ids: &[u8]) -> Vec<u8> {
        let mut bytes = Vec::with_capacity((ids.len() + 1) * BLOCK);
        for id in ids {
            bytes.extend_from_slice(self.block(*id));
        }
        bytes
    }

    pub fn digest(&mut self, ids: &[u8]) -> Hash {
        if self.made_up {
            let sum = ids.iter().fold(ids.len() as u64, |sum, id| sum.wrapping_mul(0x100000001b3).wrapping_add(*id as u64));
            let mut rng = Rng::new(sum);
            return std::array::from_fn(|_| rng.next_u64() as u8);
        }
        if let Some(hash) = self.digests.get(ids) {
            return *hash;
        }
        let hash = digest(&self.lay(ids));
        if ids.len() <= 8 {
            if self.digests.len() > 200_000 {
                self.digests.clear();
            }
            self.digests.insert(ids.to_vec(), hash);
        }
        hash
    }
}
