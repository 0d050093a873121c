//! Sparse files: each rule and its borders, on all three implementations.

use check::generate::sparse::{Chunk, SparseFile, CHECKSUM, DONT_CARE, FILL, RAW};
use check::{Implementation, Library, Model, Plain};
use reference::BLOCK;

fn all() -> [&'static dyn Implementation; 3] {
    [&Plain, &Model, &Library]
}

fn blocks(letters: &str) -> Vec<u8> {
    letters.bytes().flat_map(|letter| [letter; BLOCK]).collect()
}

/// The number that all give, over an image of so many bytes, none of them 0. A refusal leaves the image.
fn number_over(bytes: &[u8], image: usize) -> usize {
    let before: Vec<u8> = (0..image).map(|k| (k % 255) as u8 + 1).collect();
    let mut got: Vec<(usize, Vec<u8>)> = Vec::new();
    for on in all() {
        let mut after = before.clone();
        let number = on.load_sparse(bytes, &mut after).err().unwrap_or(0);
        assert!(number == 0 || after == before, "{number} changed the image");
        got.push((number, after));
    }
    got.dedup();
    assert_eq!(got.len(), 1);
    got[0].0
}

/// Over the image that the header names.
fn number(file: &SparseFile) -> usize {
    number_over(&file.bytes(), file.blocks as usize * BLOCK)
}

/// Up to nine blocks, each of its letter.
fn raw(n: usize) -> Chunk {
    Chunk::new(RAW, n, blocks(&"pqrstuvwx"[..n]))
}

fn fill(blocks: usize) -> Chunk {
    Chunk::new(FILL, blocks, b"fill".to_vec())
}

fn dont_care(blocks: usize) -> Chunk {
    Chunk::new(DONT_CARE, blocks, Vec::new())
}

fn checksum() -> Chunk {
    Chunk::new(CHECKSUM, 0, vec![1, 2, 3, 4])
}

/// Six blocks in four chunks.
fn good() -> SparseFile {
    SparseFile::new(vec![raw(2), dont_care(1), fill(2), raw(1)])
}

fn altered(alter: impl FnOnce(&mut SparseFile)) -> SparseFile {
    let mut file = good();
    alter(&mut file);
    file
}

#[test]
fn what_a_good_file_leaves() {
    for on in all() {
        let mut image = blocks("ABCDEF");
        assert_eq!(on.load_sparse(&good().bytes(), &mut image), Ok(()));
        assert_eq!(image[..3 * BLOCK], blocks("pqC"));
        assert_eq!(image[3 * BLOCK..5 * BLOCK], b"fill".repeat(2 * BLOCK / 4));
        assert_eq!(image[5 * BLOCK..], blocks("p"));
        // All of it don't-care, and nothing at all.
        let mut image = blocks("AB");
        assert_eq!(on.load_sparse(&SparseFile::new(vec![dont_care(1), dont_care(1)]).bytes(), &mut image), Ok(()));
        assert_eq!(image, blocks("AB"));
        assert_eq!(on.load_sparse(&SparseFile::new(vec![]).bytes(), &mut []), Ok(()));
        // Chunks of the longest and the shortest length.
        let mut image = blocks("ABCD");
        assert_eq!(on.load_sparse(&SparseFile::new(vec![raw(4)]).bytes(), &mut image), Ok(()));
        assert_eq!(image, blocks("pqrs"));
        let zeros = SparseFile::new((0..4).map(|_| Chunk::new(FILL, 1, vec![0; 4])).collect());
        assert_eq!(on.load_sparse(&zeros.bytes(), &mut image), Ok(()));
        assert_eq!(image, blocks("\0\0\0\0"));
    }
}

#[test]
fn what_is_ignored() {
    for value in [1, 0xff, 0x100, 0xffff] {
        assert_eq!(number(&altered(|file| file.minor = value)), 0);
        assert_eq!(number(&altered(|file| file.checksum = value as u32 * 0x1_0001)), 0);
        assert_eq!(number(&altered(|file| file.chunks.iter_mut().for_each(|chunk| chunk.reserved = value))), 0);
    }
}

#[test]
fn the_header() {
    assert_eq!(number(&good()), 0);
    for bit in 0..32 {
        assert_eq!(number(&altered(|file| file.mark ^= 1 << bit)), 30);
        assert_eq!(number(&altered(|file| file.block_size ^= 1 << bit)), 31);
    }
    for bit in 0..16 {
        assert_eq!(number(&altered(|file| file.major ^= 1 << bit)), 30);
        assert_eq!(number(&altered(|file| file.header_size ^= 1 << bit)), 31);
        assert_eq!(number(&altered(|file| file.chunk_header_size ^= 1 << bit)), 31);
    }
    for value in [0, 2, 0x0100, 0x0101] {
        assert_eq!(number(&altered(|file| file.major = value)), 30);
    }
    assert_eq!(number(&altered(|file| file.mark = file.mark.swap_bytes())), 30);
    for value in [27, 29, 32, 28 + 256] {
        assert_eq!(number(&altered(|file| file.header_size = value)), 31);
    }
    for value in [11, 13, 16, 12 + 256] {
        assert_eq!(number(&altered(|file| file.chunk_header_size = value)), 31);
    }
    for value in [0, 512, 4_095, 4_097, 8_192, 4_096 + 65_536] {
        assert_eq!(number(&altered(|file| file.block_size = value)), 31);
    }
}

#[test]
fn the_image() {
    let bytes = good().bytes();
    for (image, want) in [(6 * BLOCK, 0), (6 * BLOCK - 1, 32), (6 * BLOCK + 1, 32), (5 * BLOCK, 32), (7 * BLOCK, 32), (0, 32)] {
        assert_eq!(number_over(&bytes, image), want);
    }
    for blocks in [5, 7, 6 + 65_536, 6 + (1 << 20), 6 + (1 << 24), 1 << 20, (1 << 20) + 1, 1 << 31, u32::MAX, 0] {
        assert_eq!(number_over(&altered(|file| file.blocks = blocks).bytes(), 6 * BLOCK), 32, "{blocks}");
    }
    // 1,048,576 blocks are 2^32 bytes, and so are none in 32 bits.
    assert_eq!(number_over(&altered(|file| file.blocks = 1 << 20).bytes(), 0), 32);
}

#[test]
fn cut_anywhere() {
    for file in [good(), SparseFile::new(vec![fill(1)]), SparseFile::new(vec![dont_care(2), raw(1), dont_care(1)])] {
        let (bytes, image) = (file.bytes(), file.blocks as usize * BLOCK);
        for length in (0..bytes.len()).filter(|length| length % 97 < 3 || *length < 200 || bytes.len() - length < 50) {
            assert_eq!(number_over(&bytes[..length], image), if length < 28 { 30 } else { 33 }, "{length}");
        }
    }
}

#[test]
fn a_chunk() {
    for kind in 0..=u16::MAX {
        let want = match kind {
            RAW => 0,
            CHECKSUM => 35,
            _ => 33,
        };
        // Those near a kind that there is, and some of the rest.
        if kind % 251 == 0 || (0xCA00..0xCB00).contains(&kind) || kind & 0xff == 0xc1 {
            assert_eq!(number(&altered(|file| file.chunks[0].kind = kind)), want, "{kind:#x}");
        }
    }
    for k in 0..4 {
        let total = good().chunks[k].total;
        for other in [0, 11, 12, 13, 15, 16, 17, total - 1, total + 1, total - 12, total + 65_536, total + (1 << 24), total + BLOCK as u32, u32::MAX]
        {
            let want = if other == total { 0 } else { 33 };
            assert_eq!(number(&altered(|file| file.chunks[k].total = other)), want, "{k} {other}");
        }
        assert_eq!(number(&altered(|file| file.chunks[k].blocks = 0)), 33);
    }
    // No blocks, and all else in good form.
    for chunk in [Chunk::new(RAW, 0, Vec::new()), Chunk::new(FILL, 0, b"fill".to_vec()), Chunk::new(DONT_CARE, 0, Vec::new())] {
        for k in 0..=4 {
            assert_eq!(
                number(&altered(|file| {
                    file.chunks.insert(k, chunk.clone());
                    file.count += 1;
                })),
                33
            );
        }
    }
    // Bodies of the wrong length, told by their totals.
    for (kind, length) in [(FILL, 0), (FILL, 3), (FILL, 5), (FILL, 8), (FILL, BLOCK), (DONT_CARE, 4), (DONT_CARE, BLOCK), (RAW, 4), (RAW, 2 * BLOCK)]
    {
        assert_eq!(number(&SparseFile::new(vec![Chunk::new(kind, 1, vec![1; length])])), 33, "{kind:#x} {length}");
    }
}

#[test]
fn bytes_past_32_bits() {
    // In 32 bits a raw chunk of 1,048,576 blocks more would need as many bytes.
    for (blocks, more) in [(0, 1 << 20), (1, 1 << 20), (1, 1 << 31), (2, 4_095 << 20), (0, u32::MAX)] {
        let mut chunk = raw(blocks);
        chunk.blocks = chunk.blocks.wrapping_add(more);
        chunk.total = 12u32.wrapping_add(chunk.blocks.wrapping_mul(4_096));
        for k in [0, 4] {
            assert_eq!(
                number(&altered(|file| {
                    file.chunks.insert(k, chunk.clone());
                    file.count += 1;
                })),
                33
            );
        }
    }
    // Blocks so far and a chunk's blocks together.
    for kind in [FILL, DONT_CARE] {
        for blocks in [u32::MAX, u32::MAX - 1, u32::MAX - 5, 1 << 31] {
            let body = if kind == FILL { b"fill".to_vec() } else { Vec::new() };
            let mut chunk = Chunk::new(kind, 1, body);
            chunk.blocks = blocks;
            assert_eq!(number(&altered(|file| file.chunks[3] = chunk)), 34, "{blocks}");
        }
    }
}

#[test]
fn past_the_image() {
    assert_eq!(number(&altered(|file| file.chunks[3] = raw(2))), 34);
    assert_eq!(number(&altered(|file| file.chunks[3] = fill(2))), 34);
    assert_eq!(number(&altered(|file| file.chunks[3] = dont_care(2))), 34);
    assert_eq!(number(&altered(|file| file.chunks[2] = fill(4))), 34);
    // Whatever its length, a chunk after the last block is past the image.
    for chunk in [raw(1), fill(1), dont_care(1)] {
        assert_eq!(
            number(&altered(|file| {
                file.chunks.push(chunk.clone());
                file.count += 1;
            })),
            34
        );
        let mut alone = SparseFile::new(vec![chunk]);
        alone.blocks = 0;
        assert_eq!(number(&alone), 34);
    }
}

#[test]
fn a_checksum() {
    for k in 0..=4 {
        for blocks in [0, 1, 6, 7, u32::MAX] {
            for total in [0, 12, 16, 17, u32::MAX] {
                for body in [0, 4, BLOCK] {
                    let chunk = Chunk { blocks, total, body: vec![9; body], ..checksum() };
                    let counted = |file: &mut SparseFile| {
                        file.chunks.insert(k, chunk.clone());
                        file.count += 1;
                    };
                    assert_eq!(number(&altered(counted)), 35);
                }
            }
        }
    }
    // Not counted, or with part of its header, it is none.
    assert_eq!(number(&altered(|file| file.chunks.push(checksum()))), 36);
    let mut bytes = altered(|file| file.count += 1).bytes();
    for (k, byte) in [0xC4, 0xCA, 0, 0, 0, 0, 0, 0, 16, 0, 0, 0].into_iter().enumerate() {
        assert_eq!(number_over(&bytes, 6 * BLOCK), 33, "{k} bytes of its header");
        bytes.push(byte);
    }
    assert_eq!(number_over(&bytes, 6 * BLOCK), 35);
}

#[test]
fn the_end() {
    assert_eq!(number(&altered(|file| file.left_over = vec![0])), 36);
    assert_eq!(number(&altered(|file| file.left_over = vec![0; 5_000])), 36);
    assert_eq!(number(&altered(|file| file.chunks.push(fill(1)))), 36);
    assert_eq!(number(&altered(|file| file.blocks += 1)), 36);
    assert_eq!(number(&altered(|file| file.count -= 1)), 36);
    assert_eq!(number(&altered(|file| file.count = 0)), 36);
    for count in [5, 6, 4 + 65_536, 1 << 31, u32::MAX] {
        assert_eq!(number(&altered(|file| file.count = count)), 33, "{count}");
    }
    let mut none = SparseFile::new(vec![]);
    none.left_over = vec![0];
    assert_eq!(number(&none), 36);
    none.blocks = 1;
    assert_eq!(number(&none), 36);
}

#[test]
fn which_number_comes_first() {
    let no_blocks = Chunk::new(DONT_CARE, 0, Vec::new());
    // Header: mark before sizes before image before chunks.
    let mut file = altered(|file| file.chunks[0] = checksum());
    file.blocks = 9;
    assert_eq!(number_over(&file.bytes(), 6 * BLOCK), 32);
    file.block_size = 512;
    assert_eq!(number_over(&file.bytes(), 6 * BLOCK), 31);
    file.major = 2;
    assert_eq!(number_over(&file.bytes(), 6 * BLOCK), 30);
    // One chunk: 33 before 34.
    let mut past_and_cut = raw(9);
    past_and_cut.body.pop();
    assert_eq!(number(&altered(|file| file.chunks[3] = past_and_cut)), 33);
    assert_eq!(number(&altered(|file| file.chunks[3] = Chunk { total: 15, ..fill(9) })), 33);
    assert_eq!(number(&altered(|file| file.chunks[3] = Chunk { kind: 0xCAC5, ..fill(9) })), 33);
    // Two chunks: the earlier one's; and any of them before the end's.
    let faulty = [(33, no_blocks), (34, dont_care(9)), (35, checksum())];
    for (want, earlier) in &faulty {
        for (_, later) in &faulty {
            let mut file = altered(|file| file.chunks[1] = earlier.clone());
            file.chunks[2] = later.clone();
            assert_eq!(number(&file), *want);
            file.left_over = vec![0; 3];
            assert_eq!(number(&file), *want);
        }
    }
}
