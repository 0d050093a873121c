//! Sparse files: good ones, and the ways to spoil them.

use super::{Blocks, Rng};
use reference::BLOCK;

pub const RAW: u16 = 0xCAC1;
pub const FILL: u16 = 0xCAC2;
pub const DONT_CARE: u16 = 0xCAC3;
pub const CHECKSUM: u16 = 0xCAC4;

/// A chunk's fields, and its body as it is, whatever they say of it.
#[derive(Clone)]
pub struct Chunk {
    pub kind: u16,
    pub reserved: u16,
    pub blocks: u32,
    pub total: u32,
    pub body: Vec<u8>,
}

impl Chunk {
    /// With the total that fits its body.
    pub fn new(kind: u16, blocks: usize, body: Vec<u8>) -> Chunk {
        Chunk { kind, reserved: 0, blocks: blocks as u32, total: 12 + body.len() as u32, body }
    }

    fn bytes(&self) -> Vec<u8> {
        let Chunk { kind, reserved, blocks, total, body } = self;
        let header = [&kind.to_le_bytes()[..], &reserved.to_le_bytes(), &blocks.to_le_bytes(), &total.to_le_bytes()].concat();
        [header, body.clone()].concat()
    }
}

/// A file's fields, its chunks, and what stands after them.
#[derive(Clone)]
pub struct SparseFile {
    pub mark: u32,
    pub major: u16,
    pub minor: u16,
    pub header_size: u16,
    pub chunk_header_size: u16,
    pub block_size: u32,
    pub blocks: u32,
    pub count: u32,
    pub checksum: u32,
    pub chunks: Vec<Chunk>,
    pub left_over: Vec<u8>,
}

impl SparseFile {
    /// With the header that fits these chunks.
    pub fn new(chunks: Vec<Chunk>) -> SparseFile {
        SparseFile {
            mark: 0xED26_FF3A,
            major: 1,
            minor: 0,
            header_size: 28,
            chunk_header_size: 12,
            block_size: 4_096,
            blocks: chunks.iter().map(|chunk| chunk.blocks).sum(),
            count: chunks.len() as u32,
            checksum: 0,
            chunks,
            left_over: Vec::new(),
        }
    }

    /// Over an image of so many blocks, in chunks of at most `most` blocks.
    pub fn good(rng: &mut Rng, from: &Blocks, blocks: usize, most: usize) -> SparseFile {
        let mut chunks = Vec::new();
        let mut left = blocks;
        while left > 0 {
            let n = rng.between(1, most.min(left));
            chunks.push(any_chunk(rng, from, n));
            left -= n;
        }
        let mut file = SparseFile::new(chunks);
        if rng.percent(50) {
            file.ignored_fields(rng);
        }
        file
    }

    pub fn bytes(&self) -> Vec<u8> {
        let mut bytes = Vec::new();
        bytes.extend(self.mark.to_le_bytes());
        for field in [self.major, self.minor, self.header_size, self.chunk_header_size] {
            bytes.extend(field.to_le_bytes());
        }
        for field in [self.block_size, self.blocks, self.count, self.checksum] {
            bytes.extend(field.to_le_bytes());
        }
        self.chunks.iter().for_each(|chunk| bytes.extend(chunk.bytes()));
        bytes.extend(&self.left_over);
        bytes
    }

    /// Where the header, each chunk and what is left over start.
    pub fn starts(&self) -> Vec<usize> {
        let mut starts = vec![0, 28];
        for chunk in &self.chunks {
            starts.push(starts[starts.len() - 1] + 12 + chunk.body.len());
        }
        starts
    }

    /// What a reader does not look at.
    fn ignored_fields(&mut self, rng: &mut Rng) {
        (self.minor, self.checksum) = (rng.next_u64() as u16, rng.next_u64() as u32);
        self.chunks.iter_mut().for_each(|chunk| chunk.reserved = rng.next_u64() as u16);
    }

    /// Alters one thing; now and then the file is good all the same.
    pub fn spoil(&mut self, rng: &mut Rng, from: &Blocks) {
        match rng.below(36) {
            0..=7 => self.spoil_header(rng),
            8..=12 => self.spoil_number(rng),
            13 | 14 => self.other_kind(rng),
            15 => self.no_blocks(rng),
            16 => self.wrap(rng, from),
            17 | 18 => self.other_body(rng),
            19..=23 => self.put_checksum(rng),
            24 => self.put_empty(rng),
            25 => self.take_out(rng),
            26 => self.put_again(rng),
            27..=29 => self.grow(rng, from),
            30..=32 => self.leave_over(rng, from),
            33 => self.cut_last(rng, from),
            34 => rng.shuffle(&mut self.chunks),
            _ => self.ignored_fields(rng),
        }
    }

    fn spoil_header(&mut self, rng: &mut Rng) {
        match rng.below(8) {
            0 => self.mark = other_long(rng, self.mark),
            1 => self.major = other_short(rng, self.major),
            2 => self.header_size = other_short(rng, self.header_size),
            3 => self.chunk_header_size = other_short(rng, self.chunk_header_size),
            4 => self.block_size = other_long(rng, self.block_size),
            5 => self.blocks = other_long(rng, self.blocks),
            _ => self.count = other_long(rng, self.count),
        }
    }

    /// Some chunk, if there is one.
    fn any(&mut self, rng: &mut Rng) -> Option<&mut Chunk> {
        let k = rng.below(self.chunks.len());
        self.chunks.get_mut(k)
    }

    /// A chunk more, at either end or between two, mostly counted.
    fn put(&mut self, rng: &mut Rng, chunk: Chunk) {
        self.chunks.insert(rng.below(self.chunks.len() + 1), chunk);
        if rng.percent(85) {
            self.count = self.count.wrapping_add(1);
        }
    }

    fn spoil_number(&mut self, rng: &mut Rng) {
        let of_total = rng.percent(50);
        let Some(chunk) = self.any(rng) else { return };
        if !of_total {
            chunk.blocks = other_long(rng, chunk.blocks);
            return;
        }
        let total = chunk.total;
        chunk.total = match rng.below(6) {
            0 => total.wrapping_sub(12),
            // That of a chunk with nothing, for a fill; for any other a fill's.
            1 | 2 if total == 16 => 12,
            1 | 2 => 16,
            3 => 12 + chunk.blocks.wrapping_mul(4_096),
            _ => other_long(rng, total),
        };
    }

    fn other_kind(&mut self, rng: &mut Rng) {
        let Some(chunk) = self.any(rng) else { return };
        let bit = 1 << rng.below(16);
        let kind = chunk.kind;
        chunk.kind = rng.pick(&[RAW, FILL, DONT_CARE, CHECKSUM, CHECKSUM, 0xCAC0, 0xCAC5, kind ^ bit, kind ^ bit, kind.swap_bytes(), 0]);
    }

    fn no_blocks(&mut self, rng: &mut Rng) {
        let fitted = rng.percent(50);
        let Some(chunk) = self.any(rng) else { return };
        chunk.blocks = 0;
        if fitted && chunk.kind == RAW {
            (chunk.total, chunk.body) = (12, Vec::new());
        }
    }

    /// A raw chunk whose bytes would fill its blocks if they were counted in 32 bits.
    fn wrap(&mut self, rng: &mut Rng, from: &Blocks) {
        let blocks = rng.below(3);
        let mut chunk = Chunk::new(RAW, blocks, raw_body(rng, from, blocks));
        chunk.blocks += rng.pick(&[1, 1, 2, 3, 2_048, 4_095]) << 20;
        self.put(rng, chunk);
    }

    /// A body of another length; its total says so, or does not.
    fn other_body(&mut self, rng: &mut Rng) {
        let (longer, told) = (rng.percent(50), rng.percent(50));
        let n = rng.pick(&[1, 1, 3, 4, 4, 12, BLOCK - 4, BLOCK]);
        let Some(chunk) = self.any(rng) else { return };
        let length = if longer { chunk.body.len() + n } else { chunk.body.len().saturating_sub(n) };
        chunk.body.resize(length, 0x5c);
        if told {
            chunk.total = 12 + length as u32;
        }
    }

    /// Anywhere, with anything in its fields.
    fn put_checksum(&mut self, rng: &mut Rng) {
        let mut chunk = Chunk::new(CHECKSUM, 0, vec![0xcc; rng.pick(&[0, 4, 4, 4, 5])]);
        if rng.percent(60) {
            chunk.blocks = rng.pick(&[0, 1, 2, self.blocks, self.blocks.wrapping_add(1), 1 << 20, 1 << 31, u32::MAX]);
        }
        if rng.percent(40) {
            chunk.total = rng.pick(&[0, 11, 12, 13, 15, 16, 17, 4_108, u32::MAX]);
        }
        self.put(rng, chunk);
    }

    /// A chunk of no blocks, in good form otherwise.
    fn put_empty(&mut self, rng: &mut Rng) {
        let (kind, body) = rng.pick(&[(RAW, 0), (FILL, 4), (DONT_CARE, 0)]);
        self.put(rng, Chunk::new(kind, 0, vec![0; body]));
    }

    fn take_out(&mut self, rng: &mut Rng) {
        if self.chunks.is_empty() {
            return;
        }
        self.chunks.remove(rng.below(self.chunks.len()));
        if rng.percent(60) {
            self.count = self.count.wrapping_sub(1);
        }
    }

    fn put_again(&mut self, rng: &mut Rng) {
        let Some(chunk) = self.any(rng).cloned() else { return };
        let blocks = chunk.blocks;
        self.put(rng, chunk);
        if rng.percent(40) {
            self.blocks = self.blocks.wrapping_add(blocks);
        }
    }

    /// More blocks than there is room for, in good form otherwise.
    fn grow(&mut self, rng: &mut Rng, from: &Blocks) {
        let more = rng.pick(&[1, 1, 1, 2, 3]);
        let far = rng.pick(&[1 << 16, 1 << 20, (1 << 20) + 1, 1 << 31, u32::MAX - 1, u32::MAX, u32::MAX]);
        let is_far = rng.percent(60);
        let extra = raw_body(rng, from, more);
        let Some(chunk) = self.any(rng) else { return };
        match chunk.kind {
            RAW => {
                chunk.body.extend(extra);
                chunk.blocks = chunk.blocks.wrapping_add(more as u32);
                chunk.total = 12 + chunk.body.len() as u32;
            }
            _ if is_far => chunk.blocks = far,
            _ => chunk.blocks = chunk.blocks.wrapping_add(more as u32),
        }
    }

    /// A chunk more, counted, of whose header some bytes are there.
    fn cut_last(&mut self, rng: &mut Rng, from: &Blocks) {
        let chunk = if rng.percent(50) { Chunk::new(CHECKSUM, 0, Vec::new()) } else { any_chunk(rng, from, 1) };
        self.left_over = chunk.bytes()[..rng.between(1, 11)].to_vec();
        self.count = self.count.wrapping_add(1);
    }

    fn leave_over(&mut self, rng: &mut Rng, from: &Blocks) {
        self.left_over = match rng.below(6) {
            0 | 1 => vec![0],
            2 => any_chunk(rng, from, 1).bytes(),
            3 => Chunk::new(CHECKSUM, 0, vec![0; 4]).bytes(),
            4 => vec![0xff; rng.pick(&[2, 11, 12, 13])],
            _ => vec![7; rng.between(1, 5_000)],
        };
    }
}

fn any_chunk(rng: &mut Rng, from: &Blocks, blocks: usize) -> Chunk {
    match rng.below(3) {
        0 => Chunk::new(RAW, blocks, raw_body(rng, from, blocks)),
        1 => Chunk::new(FILL, blocks, fill_word(rng)),
        _ => Chunk::new(DONT_CARE, blocks, Vec::new()),
    }
}

fn fill_word(rng: &mut Rng) -> Vec<u8> {
    let any = (rng.next_u64() as u32).to_le_bytes();
    rng.pick(&[any, any, any, [0; 4], [any[0]; 4], [any[0], any[1], any[0], any[1]]]).to_vec()
}

/// Blocks that differ; now and then one starts or ends as a chunk would.
fn raw_body(rng: &mut Rng, from: &Blocks, blocks: usize) -> Vec<u8> {
    let ids: Vec<u8> = (0..blocks).map(|_| rng.next_u64() as u8).collect();
    let mut body = from.lay(&ids);
    if blocks > 0 && rng.one_in(4) {
        let chunk = Chunk::new(rng.pick(&[RAW, FILL, DONT_CARE, CHECKSUM]), 1, vec![9; 4]).bytes();
        let at = if rng.percent(50) { 0 } else { body.len() - chunk.len() };
        body[at..at + chunk.len()].copy_from_slice(&chunk);
    }
    body
}

/// Another number, mostly at some border.
fn other_long(rng: &mut Rng, old: u32) -> u32 {
    let more = rng.pick(&[1, 1, 1 << 8, 1 << 16, 1 << 16, 1 << 20, 1 << 24, 1 << 31]);
    match rng.below(12) {
        0..=3 => old.wrapping_add(more),
        4 | 5 => old.wrapping_sub(1),
        6 => old ^ 1 << rng.below(32),
        7 => old.swap_bytes(),
        8 => rng.next_u64() as u32,
        9 => rng.pick(&[1 << 20, (1 << 20) + 1, 1 << 31]),
        10 => u32::MAX,
        _ => 0,
    }
}

fn other_short(rng: &mut Rng, old: u16) -> u16 {
    let more = rng.pick(&[1, 1, 2, 4, 1 << 8, 1 << 8]);
    match rng.below(8) {
        0..=2 => old.wrapping_add(more),
        3 => old.wrapping_sub(1),
        4 => old ^ 1 << rng.below(16),
        5 => old.swap_bytes(),
        6 => rng.next_u64() as u16,
        _ => 0,
    }
}

/// Spoils the bytes themselves; `starts` says where chunks start.
pub fn damage_sparse(rng: &mut Rng, bytes: &mut Vec<u8>, starts: &[usize]) {
    let near = rng.pick(starts) + rng.pick(&[0, 0, 1, 2, 3, 4, 8, 11, 12, 13, 15, 16, 17]);
    let near = near.saturating_sub(rng.pick(&[0, 0, 0, 1])).min(bytes.len());
    match rng.below(8) {
        0..=2 => bytes.truncate(near),
        3 => bytes.truncate(rng.below(bytes.len() + 1)),
        4 if near < bytes.len() => bytes[near] = bytes[near].wrapping_add(rng.pick(&[1, 255, 128])),
        5 if near < bytes.len() => {
            bytes.remove(near);
        }
        6 => bytes.insert(near, rng.next_u64() as u8),
        _ => {
            bytes.pop();
        }
    }
}
