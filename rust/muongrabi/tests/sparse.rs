//! Sparse files through this crate: what is lent crosses as itself, and a number comes back as a refusal.

use muongrabi::{load_sparse, Refusal, BLOCK};

const RAW: u32 = 0xCAC1;
const FILL: u32 = 0xCAC2;
const DONT_CARE: u32 = 0xCAC3;
const CHECKSUM: u32 = 0xCAC4;

fn words(words: &[u32]) -> Vec<u8> {
    words.iter().flat_map(|word| word.to_le_bytes()).collect()
}

/// A file of these chunks: type, blocks and body.
fn file(blocks: u32, chunks: &[(u32, u32, &[u8])]) -> Vec<u8> {
    let mut bytes = words(&[0xED26_FF3A, 1, 12 << 16 | 28, 4_096, blocks, chunks.len() as u32, 0]);
    for (kind, blocks, body) in chunks {
        bytes.extend(words(&[*kind, *blocks, 12 + body.len() as u32]));
        bytes.extend_from_slice(body);
    }
    bytes
}

/// Bytes that all differ from their neighbours, none of them 0.
fn some_bytes(length: usize) -> Vec<u8> {
    (0..length).map(|k| (k % 251) as u8 + 1).collect()
}

#[test]
fn each_chunk_is_loaded() {
    let raw = some_bytes(2 * BLOCK);
    let before = some_bytes(6 * BLOCK + 5)[5..].to_vec();
    let mut image = before.clone();
    let file = file(6, &[(DONT_CARE, 1, &[]), (RAW, 2, &raw), (FILL, 2, b"abcd"), (DONT_CARE, 1, &[])]);
    assert_eq!(load_sparse(&file, &mut image), Ok(()));
    assert_eq!(image[..BLOCK], before[..BLOCK]);
    assert_eq!(image[BLOCK..3 * BLOCK], raw[..]);
    assert_eq!(image[3 * BLOCK..5 * BLOCK], b"abcd".repeat(2 * BLOCK / 4)[..]);
    assert_eq!(image[5 * BLOCK..], before[5 * BLOCK..]);
}

#[test]
fn nothing_loads_into_nothing() {
    assert_eq!(load_sparse(&file(0, &[]), &mut []), Ok(()));
    assert_eq!(load_sparse(&[], &mut []), Err(Refusal::new(Refusal::SPARSE_HEADER, 0, 0)));
    assert_eq!(load_sparse(&file(1, &[]), &mut []), Err(Refusal::new(Refusal::SPARSE_IMAGE, 0, 0)));
}

#[test]
fn a_refusal_has_its_number_no_line_and_no_byte() {
    let raw = some_bytes(BLOCK);
    let good = file(2, &[(RAW, 1, &raw), (FILL, 1, b"abcd")]);
    let other = |at: usize, byte: u8| {
        let mut bytes = good.clone();
        bytes[at] = byte;
        bytes
    };
    for (bytes, number) in [
        (other(0, 0), Refusal::SPARSE_HEADER),
        (other(8, 29), Refusal::SPARSE_SIZES),
        (other(16, 3), Refusal::SPARSE_IMAGE),
        (other(28, 0), Refusal::SPARSE_CHUNK),
        (file(2, &[(RAW, 1, &raw), (FILL, 2, b"abcd")]), Refusal::SPARSE_PAST_IMAGE),
        (file(2, &[(RAW, 1, &raw), (CHECKSUM, 0, b"abcd")]), Refusal::SPARSE_CHECKSUM),
        (file(2, &[(RAW, 1, &raw)]), Refusal::SPARSE_END),
    ] {
        let before = some_bytes(2 * BLOCK);
        let mut image = before.clone();
        let refusal = load_sparse(&bytes, &mut image).expect_err("a bad file");
        assert_eq!((refusal, refusal.byte()), (Refusal::new(number, 0, 0), None));
        assert_eq!(refusal.to_string(), format!("{} (refusal {number})", refusal.text()));
        assert!(image == before, "{number}");
    }
}
