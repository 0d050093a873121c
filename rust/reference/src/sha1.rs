//! SHA-1.

use crate::Hash;

const CHUNK: usize = 64;

/// The SHA-1 digest of the bytes.
pub fn digest(bytes: &[u8]) -> Hash {
    let (whole, rest) = bytes.split_at(bytes.len() - bytes.len() % CHUNK);
    let mut sha1 = Sha1::new();
    sha1.add(whole);
    sha1.end(rest)
}

/// The digest of bytes that lie in several places: parts of whole chunks, as blocks are, and what is left over at the end.
pub(crate) struct Sha1 {
    h: [u32; 5],
    length: u64,
}

impl Sha1 {
    pub(crate) fn new() -> Sha1 {
        Sha1 { h: [0x67452301, 0xefcdab89, 0x98badcfe, 0x10325476, 0xc3d2e1f0], length: 0 }
    }

    pub(crate) fn add(&mut self, part: &[u8]) {
        for chunk in part.chunks_exact(CHUNK) {
            compress(&mut self.h, chunk);
        }
        self.length = self.length.wrapping_add(part.len() as u64);
    }

    pub(crate) fn end(mut self, rest: &[u8]) -> Hash {
        let mut tail = [0u8; 2 * CHUNK];
        tail[..rest.len()].copy_from_slice(rest);
        tail[rest.len()] = 0x80;
        let end = if rest.len() < CHUNK - 8 { CHUNK } else { 2 * CHUNK };
        let bits = self.length.wrapping_add(rest.len() as u64).wrapping_mul(8);
        tail[end - 8..end].copy_from_slice(&bits.to_be_bytes());
        for chunk in tail[..end].chunks_exact(CHUNK) {
            compress(&mut self.h, chunk);
        }
        let mut out = [0u8; 20];
        for (word, four) in self.h.iter().zip(out.chunks_exact_mut(4)) {
            four.copy_from_slice(&word.to_be_bytes());
        }
        out
    }
}

fn compress(h: &mut [u32; 5], chunk: &[u8]) {
    let mut w = [0u32; 80];
    for (word, four) in w.iter_mut().zip(chunk.chunks_exact(4)) {
        *word = u32::from_be_bytes([four[0], four[1], four[2], four[3]]);
    }
    for t in 16..80 {
        w[t] = (w[t - 3] ^ w[t - 8] ^ w[t - 14] ^ w[t - 16]).rotate_left(1);
    }
    let mut v = *h;
    for word in &w[..20] {
        let [_, b, c, d, _] = v;
        v = round(v, (b & c) | (!b & d), 0x5a827999, *word);
    }
    for word in &w[20..40] {
        let [_, b, c, d, _] = v;
        v = round(v, b ^ c ^ d, 0x6ed9eba1, *word);
    }
    for word in &w[40..60] {
        let [_, b, c, d, _] = v;
        v = round(v, (b & c) | (b & d) | (c & d), 0x8f1bbcdc, *word);
    }
    for word in &w[60..] {
        let [_, b, c, d, _] = v;
        v = round(v, b ^ c ^ d, 0xca62c1d6, *word);
    }
    for (old, new) in h.iter_mut().zip(v) {
        *old = old.wrapping_add(new);
    }
}

#[inline(always)]
fn round([a, b, c, d, e]: [u32; 5], f: u32, k: u32, w: u32) -> [u32; 5] {
    let next = a.rotate_left(5).wrapping_add(f).wrapping_add(e).wrapping_add(k).wrapping_add(w);
    [next, a, b.rotate_left(30), c, d]
}
