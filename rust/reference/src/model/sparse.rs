//! Sparse files, sentence by sentence: document 02, R-2. Each chunk is put down with every number that applies to it, and the image is
//! made anew from the chunks.

/// The numbers of the document.
const BLOCK: u128 = 4_096;
const MOST_BLOCKS: u128 = 1_048_576;

/// Bytes that are taken one field after another; a field that the file does not have is none.
struct Fields<'a> {
    bytes: std::slice::Iter<'a, u8>,
}

impl Fields<'_> {
    /// A number of so many bytes, the lowest first.
    fn number(&mut self, length: u32) -> Option<u128> {
        (0..length).map(|k| Some(u128::from(*self.bytes.next()?) << (8 * k))).sum()
    }
}

/// The header's fields in their order.
struct Header {
    mark: u128,
    major: u128,
    header_size: u128,
    chunk_header_size: u128,
    block_size: u128,
    blocks: u128,
    chunks: u128,
}

fn header(fields: &mut Fields) -> Option<Header> {
    let (mark, major, _minor) = (fields.number(4)?, fields.number(2)?, fields.number(2)?);
    let (header_size, chunk_header_size, block_size) = (fields.number(2)?, fields.number(2)?, fields.number(4)?);
    let (blocks, chunks, _checksum) = (fields.number(4)?, fields.number(4)?, fields.number(4)?);
    Some(Header { mark, major, header_size, chunk_header_size, block_size, blocks, chunks })
}

/// Each of 30 to 32 that applies.
fn header_faults(header: &Header, image: usize) -> Vec<usize> {
    let wrong = [
        (30, header.mark != 0xED26FF3A),
        (30, header.major != 1),
        (31, header.header_size != 28),
        (31, header.chunk_header_size != 12),
        (31, header.block_size != BLOCK),
        (32, header.blocks * BLOCK != image as u128),
        (32, header.blocks > MOST_BLOCKS),
    ];
    wrong.iter().filter(|(_, applies)| *applies).map(|(number, _)| *number).collect()
}

/// A chunk as it stands in the file, and the first of its blocks in the image.
struct Chunk {
    kind: u128,
    blocks: u128,
    first: u128,
    body: Vec<u8>,
    faults: Vec<usize>,
}

impl Chunk {
    /// The chunk whose header stands here. The body of a chunk without its whole header is nothing.
    fn read(fields: &mut Fields, first: u128, image: u128) -> Chunk {
        let mut read = || Some([fields.number(2)?, fields.number(2)?, fields.number(4)?, fields.number(4)?]);
        let Some([kind, _reserved, blocks, total]) = read() else {
            return Chunk { kind: 0, blocks: 0, first, body: Vec::new(), faults: vec![33] };
        };
        // A checksum is always 35, whatever else is wrong.
        if kind == 0xCAC4 {
            return Chunk { kind, blocks, first, body: Vec::new(), faults: vec![35] };
        }
        let carries = [(0xCAC1, blocks * BLOCK), (0xCAC2, 4), (0xCAC3, 0)].iter().find(|(known, _)| *known == kind).map(|(_, bytes)| *bytes);
        let body: Vec<u8> = fields.bytes.clone().take(usize::try_from(carries.unwrap_or(0)).unwrap_or(usize::MAX)).copied().collect();
        let wrong = [
            (33, carries.is_none()),
            (33, blocks == 0),
            (33, carries.is_some_and(|bytes| total != 12 + bytes)),
            (33, carries.is_some_and(|bytes| (body.len() as u128) < bytes)),
            (34, first + blocks > image),
        ];
        let faults = wrong.iter().filter(|(_, applies)| *applies).map(|(number, _)| *number).collect();
        body.iter().for_each(|_| {
            fields.bytes.next();
        });
        Chunk { kind, blocks, first, body, faults }
    }

    /// Its blocks' bytes in the new image, from those in the old one.
    fn bytes(&self, image: &[u8]) -> Vec<u8> {
        let (start, length) = ((self.first * BLOCK) as usize, (self.blocks * BLOCK) as usize);
        match self.kind {
            0xCAC1 => self.body.clone(),
            0xCAC2 => self.body.iter().copied().cycle().take(length).collect(),
            _ => image[start..start + length].to_vec(),
        }
    }
}

/// All chunks up to the first that has a fault, and the bytes after them.
fn chunks(mut fields: Fields, header: &Header) -> (Vec<Chunk>, usize) {
    let mut all: Vec<Chunk> = Vec::new();
    while (all.len() as u128) < header.chunks && all.last().map_or(true, |chunk| chunk.faults.is_empty()) {
        let first = all.last().map_or(0, |chunk| chunk.first + chunk.blocks);
        all.push(Chunk::read(&mut fields, first, header.blocks));
    }
    (all, fields.bytes.len())
}

pub fn load_sparse(file: &[u8], image: &mut [u8]) -> Result<(), usize> {
    let mut fields = Fields { bytes: file.iter() };
    let header = header(&mut fields).ok_or(30usize)?;
    let lowest = |faults: Vec<usize>| faults.into_iter().min().map_or(Ok(()), Err);
    lowest(header_faults(&header, image.len()))?;
    let (chunks, left_over) = chunks(fields, &header);
    for chunk in &chunks {
        lowest(chunk.faults.clone())?;
    }
    let covered: u128 = chunks.iter().map(|chunk| chunk.blocks).sum();
    if covered < header.blocks || left_over > 0 {
        return Err(36);
    }
    let made: Vec<u8> = chunks.iter().flat_map(|chunk| chunk.bytes(image)).collect();
    image.copy_from_slice(&made);
    Ok(())
}
