//! First images that come as sparse files.

use crate::{exports, Refusal};

/// Loads an Android sparse file into the image, which has as many blocks as the file's header says.
///
/// A raw chunk's blocks get the bytes it carries, a fill's blocks its four bytes over and over, and don't-care blocks keep what the image has.
/// The whole file is checked before the first byte is written: a file that is refused, with [`SPARSE_HEADER`](Refusal::SPARSE_HEADER) to
/// [`SPARSE_END`](Refusal::SPARSE_END), leaves the image as it was. Its refusal has no line and no byte.
///
/// ```
/// use muongrabi::{load_sparse, Refusal, BLOCK};
///
/// // The header: mark, version 1.0, its own size and a chunk header's, block size, total blocks, total chunks, no checksum.
/// let mut file = Vec::new();
/// for field in [0xED26_FF3A_u32, 1, 12 << 16 | 28, 4_096, 4, 3, 0] {
///     file.extend(field.to_le_bytes());
/// }
/// // A chunk: type, blocks and total bytes, then its body.
/// let mut chunk = |kind: u32, blocks: u32, body: &[u8]| {
///     for field in [kind, blocks, 12 + body.len() as u32] {
///         file.extend(field.to_le_bytes());
///     }
///     file.extend(body);
/// };
/// chunk(0xCAC1, 1, &[b'r'; BLOCK]);
/// chunk(0xCAC2, 2, b"fill");
/// chunk(0xCAC3, 1, b"");
///
/// let mut image = vec![b'-'; 4 * BLOCK];
/// load_sparse(&file, &mut image)?;
/// assert!(image[..BLOCK].iter().all(|byte| *byte == b'r'));
/// assert!(image[BLOCK..3 * BLOCK].chunks(4).all(|four| four == b"fill"));
/// assert!(image[3 * BLOCK..].iter().all(|byte| *byte == b'-'));
///
/// // Cut short, it is refused.
/// let refusal = load_sparse(&file[..file.len() - 1], &mut image).unwrap_err();
/// assert_eq!(refusal, Refusal::new(Refusal::SPARSE_CHUNK, 0, 0));
/// # Ok::<(), Refusal>(())
/// ```
pub fn load_sparse(file: &[u8], image: &mut [u8]) -> Result<(), Refusal> {
    match exports::load_sparse(file, image) {
        0 => Ok(()),
        number => Err(Refusal::new(number as usize, 0, 0)),
    }
}
