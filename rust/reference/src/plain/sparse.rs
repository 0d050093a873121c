//! Sparse files: document 02, R-2.

use crate::{BLOCK, MOST_IMAGE};

const MARK: u32 = 0xED26_FF3A;
const MAJOR: u16 = 1;
const HEADER: usize = 28;
const CHUNK_HEADER: usize = 12;

const RAW: u16 = 0xCAC1;
const FILL: u16 = 0xCAC2;
const DONT_CARE: u16 = 0xCAC3;
const CHECKSUM: u16 = 0xCAC4;

/// What a chunk does to its blocks.
enum Body<'a> {
    Raw(&'a [u8]),
    Fill([u8; 4]),
    DontCare,
}

/// Loads a sparse file into the image, or gives the number it is refused with; the image is then as it was.
pub fn load_sparse(file: &[u8], image: &mut [u8]) -> Result<(), usize> {
    let (total, chunks) = header(file)?;
    if total > MOST_IMAGE || image.len() != total * BLOCK {
        return Err(32);
    }
    // The whole file first, since its last byte may refuse it.
    check(&file[HEADER..], total, chunks)?;
    write(&file[HEADER..], image)
}

/// Total blocks and total chunks.
fn header(file: &[u8]) -> Result<(usize, u32), usize> {
    let Some(header) = file.first_chunk::<HEADER>() else { return Err(30) };
    let short = |at: usize| u16::from_le_bytes([header[at], header[at + 1]]);
    let long = |at: usize| u32::from_le_bytes([header[at], header[at + 1], header[at + 2], header[at + 3]]);
    if long(0) != MARK || short(4) != MAJOR {
        return Err(30);
    }
    if short(8) as usize != HEADER || short(10) as usize != CHUNK_HEADER || long(12) as usize != BLOCK {
        return Err(31);
    }
    Ok((long(16) as usize, long(20)))
}

fn check(mut rest: &[u8], total: usize, chunks: u32) -> Result<(), usize> {
    let mut left = total;
    for _ in 0..chunks {
        let (blocks, _) = next(&mut rest)?;
        left = left.checked_sub(blocks).ok_or(34usize)?;
    }
    if left != 0 || !rest.is_empty() {
        return Err(36);
    }
    Ok(())
}

/// The chunks of a file that was checked, which fill the image.
fn write(mut rest: &[u8], mut image: &mut [u8]) -> Result<(), usize> {
    while !image.is_empty() {
        let (blocks, body) = next(&mut rest)?;
        let (target, after) = image.split_at_mut(blocks * BLOCK);
        image = after;
        match body {
            Body::Raw(bytes) => target.copy_from_slice(bytes),
            Body::Fill(word) => target.chunks_exact_mut(4).for_each(|four| four.copy_from_slice(&word)),
            Body::DontCare => {}
        }
    }
    Ok(())
}

/// The next chunk, its blocks and what they get, or 33 or 35.
#[inline]
fn next<'a>(rest: &mut &'a [u8]) -> Result<(usize, Body<'a>), usize> {
    let Some((header, after)) = rest.split_first_chunk::<CHUNK_HEADER>() else { return Err(33) };
    let long = |at: usize| u32::from_le_bytes([header[at], header[at + 1], header[at + 2], header[at + 3]]) as usize;
    let (kind, blocks, total) = (u16::from_le_bytes([header[0], header[1]]), long(4), long(8));
    let length = match kind {
        RAW => blocks * BLOCK,
        FILL => 4,
        DONT_CARE => 0,
        CHECKSUM => return Err(35),
        _ => return Err(33),
    };
    if blocks == 0 || total != CHUNK_HEADER + length || after.len() < length {
        return Err(33);
    }
    let (bytes, after) = after.split_at(length);
    *rest = after;
    let body = match (kind, bytes) {
        (RAW, _) => Body::Raw(bytes),
        (_, &[a, b, c, d]) => Body::Fill([a, b, c, d]),
        _ => Body::DontCare,
    };
    Ok((blocks, body))
}
