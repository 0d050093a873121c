//! One seeded sparse file: loaded by the plain implementation and by others, and compared.

use super::{first_difference, Named, Series};
use crate::coverage::SparseCoverage;
use crate::generate::sparse::{damage_sparse, SparseFile};
use crate::generate::{Blocks, Rng};
use crate::guard::Guarded;
use crate::{hex, Implementation, Plain};
use reference::BLOCK;
use std::fmt::Write;

/// The other implementations, with their own copy of everything lent, between guards.
pub struct SparseChecker<'a> {
    others: &'a [Named<'a>],
    file: Guarded,
    image: Guarded,
    blocks: Blocks,
    coverage: SparseCoverage,
}

impl<'a> SparseChecker<'a> {
    pub fn new(others: &'a [Named<'a>]) -> SparseChecker<'a> {
        let room = || Guarded::new(64 * BLOCK);
        SparseChecker { others, file: room(), image: room(), blocks: Blocks::new(), coverage: SparseCoverage::default() }
    }

    /// The file's bytes, and the image's.
    fn make(&self, seed: u64, index: u64) -> (Vec<u8>, Vec<u8>) {
        let mut rng = Rng::of_case(seed, index);
        let (blocks, most) = any_sizes(&mut rng);
        let mut file = SparseFile::good(&mut rng, &self.blocks, blocks, most);
        let kind = rng.below(100);
        if let 30..=84 = kind {
            (0..rng.pick(&[1, 1, 1, 2, 2, 3])).for_each(|_| file.spoil(&mut rng, &self.blocks));
        }
        let mut bytes = file.bytes();
        if let 75..=97 = kind {
            (0..rng.pick(&[1, 1, 1, 2])).for_each(|_| damage_sparse(&mut rng, &mut bytes, &file.starts()));
        }
        // Mostly as long as the header says, where so much can be lent.
        let said = if file.blocks < 1_000 && rng.percent(60) { file.blocks as usize } else { blocks } * BLOCK;
        let length = if rng.percent(88) { said } else { odd_length(&mut rng, said) };
        (bytes, (0..length).map(|k| (k % 255) as u8 + 1).collect())
    }
}

impl Series for SparseChecker<'_> {
    fn case(&mut self, seed: u64, index: u64) -> Result<(), String> {
        let (file, image) = self.make(seed, index);
        let mut ours = image.clone();
        let number = Plain.load_sparse(&file, &mut ours);
        self.coverage.load(&file, image.len(), number);
        if number.is_err() && ours != image {
            return Err("a refused file changed the plain implementation's image".into());
        }
        for (name, other) in self.others {
            // Each end of the file and of the image in turn.
            self.file.set(&file, index & 1 == 0);
            self.image.set(&image, index & 2 == 0);
            let theirs = other.load_sparse(self.file.bytes(), self.image.bytes_mut());
            let mut wrong = Vec::new();
            if theirs != number {
                wrong.push(format!("{number:?} and {theirs:?}"));
            }
            if self.image.bytes() != ours {
                wrong.push(format!("the image at byte {}", first_difference(self.image.bytes(), &ours)));
            }
            if self.file.bytes() != file {
                wrong.push("the file was written".into());
            }
            if !wrong.is_empty() {
                return Err(format!("plain and {name} differ: {}", wrong.join(", ")));
            }
        }
        Ok(())
    }

    fn written(&mut self, seed: u64, index: u64) -> String {
        let (file, image) = self.make(seed, index);
        let mut text = format!("seed {seed} case {index}\nfile, {} bytes, {}\nimage {}\n", file.len(), hex(&file), hex(&image));
        let plain: Named = ("plain", &Plain);
        for (name, on) in [plain].iter().chain(self.others) {
            let mut after = image.clone();
            let number = on.load_sparse(&file, &mut after);
            let _ = writeln!(text, "{name}: {number:?}, image {}", hex(&after));
        }
        text
    }

    fn report(&self) -> String {
        self.coverage.report()
    }

    fn missing(&self) -> Vec<String> {
        self.coverage.missing()
    }
}

/// Blocks of the image, and of the longest chunk: mostly few, now and then many.
fn any_sizes(rng: &mut Rng) -> (usize, usize) {
    match rng.below(100) {
        0 | 1 => (rng.between(100, 250), 1),
        2 => (rng.between(20, 200), rng.between(1, 64)),
        3..=7 => (0, 1),
        8..=20 => (1, 1),
        _ => (rng.between(1, 9), rng.between(1, 5)),
    }
}

/// Near this length, or far from it.
fn odd_length(rng: &mut Rng, said: usize) -> usize {
    let fewer = rng.below(said + 1);
    rng.pick(&[said + 1, said.saturating_sub(1), said + BLOCK, said.saturating_sub(BLOCK), said + 4, said / 2, fewer, 0])
}
