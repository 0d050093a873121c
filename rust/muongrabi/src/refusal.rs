//! Refusals, in numbers and in words.

use core::fmt;

/// Why a list, a line, a call, a saved form or a sparse file is refused, at which line of the list, and where a line is ill formed, at which byte.
///
/// Its `Display` is for people: `line 6: a range of the target or source ends past the image (refusal 8)`.
#[derive(Clone, Copy, PartialEq, Eq, Hash, Debug)]
pub struct Refusal {
    number: usize,
    line: usize,
    byte: usize,
}

/// Each number under its name.
impl Refusal {
    /// An area is not whole blocks, or is over its limit.
    pub const AREA_SIZE: usize = 1;
    /// The list is too long.
    pub const LIST_LENGTH: usize = 2;
    /// A header line is absent, ill formed or without LF; [`byte`](Refusal::byte) says where.
    pub const HEADER_FORM: usize = 3;
    /// The version is not 3.
    pub const OTHER_VERSION: usize = 4;
    /// Line 3 is over the limit of stashes; else line 4 is over the stash area.
    pub const HEADER_LIMIT: usize = 5;
    /// A command line is ill formed, as by a range whose end is not above its start, or its word is unknown; [`byte`](Refusal::byte) says where.
    pub const LINE_FORM: usize = 6;
    /// The line's first word is `imgdiff`.
    pub const UNSUPPORTED: usize = 7;
    /// A range of target or image source ends past the image.
    pub const PAST_IMAGE: usize = 8;
    /// N, or an image source, is larger than the work area; or the target of a `bsdiff` is larger than the result area.
    pub const PAST_AREA: usize = 9;
    /// A stash named in `move`, `bsdiff` or `free` is not held.
    pub const NOT_HELD: usize = 10;
    /// The sizes of target, source and places do not agree; the target of a `bsdiff` may have any.
    pub const SIZES_DIFFER: usize = 11;
    /// A place is at N or above, or taken twice.
    pub const MISPLACED: usize = 12;
    /// The hash to be stashed is held already.
    pub const HELD_ALREADY: usize = 13;
    /// Holding the stash would pass line 3 or line 4.
    pub const NO_ROOM: usize = 14;
    /// All `new`, `zero`, `move` and `bsdiff` targets together differ from line 2.
    pub const TOTAL_DIFFERS: usize = 15;
    /// In a run: the SHA-1 of a source that is read, or of a patch's result, is not the one in the list.
    pub const HASH_DIFFERS: usize = 16;
    /// In a call: the state is impossible, or the length of the list, of an area or of the patch data changed.
    pub const STATE_IMPOSSIBLE: usize = 17;
    /// The offset and length of a `bsdiff`'s patch pass the end of the patch data.
    pub const PAST_PATCH: usize = 18;
    /// In a run: a patch that is read is malformed, or its result is not as long as the target.
    pub const PATCH_MALFORMED: usize = 19;
    /// The bytes are no state's saved form: [`State::restore`](crate::State::restore) alone gives it. A call over such bytes would too, but a
    /// [`State`](crate::State) always is one.
    pub const NO_SAVED_FORM: usize = 20;
    /// A sparse file's header is cut short, or its mark or major version is another.
    pub const SPARSE_HEADER: usize = 30;
    /// A sparse file's header sizes are not 28 and 12, or its block size is not 4,096.
    pub const SPARSE_SIZES: usize = 31;
    /// The image does not have the blocks that a sparse file's header says, or those are over the limit.
    pub const SPARSE_IMAGE: usize = 32;
    /// A chunk of a sparse file is cut short, of unknown type, of no blocks, or has a wrong total of bytes.
    pub const SPARSE_CHUNK: usize = 33;
    /// A chunk of a sparse file ends past the image.
    pub const SPARSE_PAST_IMAGE: usize = 34;
    /// A chunk of a sparse file is a checksum, 0xCAC4.
    pub const SPARSE_CHECKSUM: usize = 35;
    /// After a sparse file's last chunk blocks are missing, or bytes are left over.
    pub const SPARSE_END: usize = 36;
}

impl Refusal {
    /// A refusal with any number, line and byte, as a state may hold it. Number 0 is none.
    pub const fn new(number: usize, line: usize, byte: usize) -> Refusal {
        Refusal { number, line, byte }
    }

    /// The refusal's number; the constants name them.
    pub const fn number(&self) -> usize {
        self.number
    }

    /// The line of the list, counted from 1; 0 where the refusal is of no line.
    pub const fn line(&self) -> usize {
        self.line
    }

    /// The byte of the list, counted from 0, at which its line is wrong, where one is given: with [`HEADER_FORM`](Refusal::HEADER_FORM) and
    /// [`LINE_FORM`](Refusal::LINE_FORM), and with no other number.
    ///
    /// It is the first at which no good line could go on. What could still have followed decides, so it is not always where the mistake was made.
    /// It may be the line's LF; where the list ends too soon, or a header line is absent, it is the list's length.
    ///
    /// ```
    /// use muongrabi::{open, Lengths};
    ///
    /// let lengths = Lengths { image: 8 * 4_096, stash: 0, work: 0, result: 0, patch: 0 };
    /// let byte = |list: &str| open(list.as_bytes(), lengths).unwrap_err().byte();
    /// // An odd count is wrong at the comma behind it: a digit more could have made it even.
    /// assert_eq!(byte("3\n0\n0\n0\nzero 3,1,2,3\n"), Some(14));
    /// // An end below its start, at the LF: 3 could have become 30.
    /// assert_eq!(byte("3\n0\n0\n0\nzero 2,5,3\n"), Some(18));
    /// // An empty range likewise; but no digit may follow an end of 0.
    /// assert_eq!(byte("3\n0\n0\n0\nzero 2,8,8\n"), Some(18));
    /// assert_eq!(byte("3\n0\n0\n0\nzero 2,0,0\n"), Some(17));
    /// // An end past the image is no fault of form.
    /// assert_eq!(byte("3\n0\n0\n0\nzero 2,5,30\n"), None);
    /// ```
    pub const fn byte(&self) -> Option<usize> {
        match self.number {
            Refusal::HEADER_FORM | Refusal::LINE_FORM => Some(self.byte),
            _ => None,
        }
    }

    /// The byte as it is held, whatever the number is: what [`new`](Refusal::new) was given, and 0 where the rules give none. For those who keep
    /// refusals; [`byte`](Refusal::byte) is for those who read them.
    pub const fn raw_byte(&self) -> usize {
        self.byte
    }

    /// What the number means, in words. The header's `muongrabi_refusal_text` says the same.
    pub const fn text(&self) -> &'static str {
        match self.number {
            0 => "nothing is refused",
            Refusal::AREA_SIZE => "the image, stash, work or result area is not whole blocks of 4096 bytes, or is over its limit",
            Refusal::LIST_LENGTH => "the list is longer than 4194304 bytes",
            Refusal::HEADER_FORM => "a header line is missing, is no number from 0 to 4294967295 in plain digits, or has no line feed",
            Refusal::OTHER_VERSION => "the list's version is not 3",
            Refusal::HEADER_LIMIT => "the list asks for more than 256 stashes, or for more blocks than the stash area has",
            Refusal::LINE_FORM => "the line is not a command: its word is unknown, or its form is wrong",
            Refusal::UNSUPPORTED => "the command imgdiff is not supported",
            Refusal::PAST_IMAGE => "a range of the target or source ends past the image",
            Refusal::PAST_AREA => "the source is larger than the work area, or the target than the result area",
            Refusal::NOT_HELD => "the line names a stash that is not held",
            Refusal::SIZES_DIFFER => "the sizes of target, source and places do not agree",
            Refusal::MISPLACED => "a place lies past the end of the source, or is taken twice",
            Refusal::HELD_ALREADY => "a stash of this hash is held already",
            Refusal::NO_ROOM => "the stash would pass the number of stashes (line 3) or of blocks (line 4)",
            Refusal::TOTAL_DIFFERS => "the targets of all new, zero, move and bsdiff lines together do not have as many blocks as line 2 says",
            Refusal::HASH_DIFFERS => "the source, or what a patch makes of it, does not have the hash that the list gives",
            Refusal::STATE_IMPOSSIBLE => "the state does not fit the list, the areas and the patch data of this call",
            Refusal::PAST_PATCH => "the line's patch ends past the patch data",
            Refusal::PATCH_MALFORMED => "the patch is malformed, or what it makes is not as long as the target",
            Refusal::NO_SAVED_FORM => "the bytes are not the saved form of a state",
            Refusal::SPARSE_HEADER => {
                "the file is no sparse file of major version 1: its header is cut short, or the mark or the version in it is another"
            }
            Refusal::SPARSE_SIZES => "the sparse file's header sizes are not 28 and 12, or its block size is not 4096",
            Refusal::SPARSE_IMAGE => "the image does not have as many blocks as the sparse file says, or the file says more than 1048576 of them",
            Refusal::SPARSE_CHUNK => {
                "a chunk of the sparse file is cut short, of an unknown type, of no blocks, or says another length than it must have"
            }
            Refusal::SPARSE_PAST_IMAGE => "a chunk of the sparse file ends past the image",
            Refusal::SPARSE_CHECKSUM => "the sparse file has a checksum chunk (0xCAC4), which is not supported",
            Refusal::SPARSE_END => "the sparse file's chunks end before the image does, or there are bytes after the last of them",
            _ => "a number that no rule gives",
        }
    }
}

impl fmt::Display for Refusal {
    fn fmt(&self, to: &mut fmt::Formatter<'_>) -> fmt::Result {
        match (self.line, self.byte()) {
            (line, Some(byte)) => write!(to, "line {line}, byte {byte} of the list: ")?,
            (0, None) => {}
            (line, None) => write!(to, "line {line}: ")?,
        }
        write!(to, "{} (refusal {})", self.text(), self.number)
    }
}

impl core::error::Error for Refusal {}
