//! What a call is lent.

use core::fmt;

/// The lengths of the lent areas and of the patch data, in bytes.
#[derive(Clone, Copy, PartialEq, Eq, Hash, Debug)]
pub struct Lengths {
    /// Of the image.
    pub image: usize,
    /// Of the stash area.
    pub stash: usize,
    /// Of the work area.
    pub work: usize,
    /// Of the result area.
    pub result: usize,
    /// Of the patch data; it has no limit, and need not be whole blocks.
    pub patch: usize,
}

/// What is lent beside the list: the areas that a run writes, and the patch data, which it reads.
///
/// A list without `bsdiff` needs neither result area nor patch data: both may be empty. A `bsdiff` whose target does not have its result yet makes
/// it of a source by a patch: not a file that bsdiff wrote, but its control triples and bytes unpacked, as records to the patch's end. Each is the
/// bytes 0x43 0x50; add length, extra length and seek, eight bytes each as bsdiff has them; the bytes to add to the source's; the extra bytes.
///
/// ```
/// use muongrabi::{digest, Areas, Outcome, Updater, BLOCK};
///
/// // A patch of one record: its mark, 4,096 bytes to add, none extra, no seek, and the bytes to add, which are ones.
/// let numbers = [4_096u64, 0, 0].map(u64::to_le_bytes).concat();
/// let patch = [b"CP", &numbers[..], &[1; BLOCK]].concat();
/// let hash = |block| digest(&[block; BLOCK]).iter().map(|byte| format!("{byte:02x}")).collect::<String>();
/// let list = format!("3\n1\n0\n0\nbsdiff 0 {} {} {} 2,1,2 1 2,0,1\n", patch.len(), hash(b'a'), hash(b'b'));
///
/// let mut image = [[b'a'; BLOCK], [0; BLOCK]].concat();
/// let areas = Areas { image: &mut image, stash: &mut [], work: &mut [0; BLOCK], result: &mut [0; BLOCK], patch: &patch };
/// assert_eq!(Updater::open(list.as_bytes(), areas)?.write(&[]), Outcome::Done);
/// assert_eq!(image[BLOCK..], [b'b'; BLOCK]);
/// # Ok::<(), muongrabi::Refusal>(())
/// ```
pub struct Areas<'a> {
    /// The image that is updated.
    pub image: &'a mut [u8],
    /// Where stashes are kept from line to line.
    pub stash: &'a mut [u8],
    /// Where a source is put together before it is hashed and written.
    pub work: &'a mut [u8],
    /// Where a `bsdiff` puts its result before it is hashed and written.
    pub result: &'a mut [u8],
    /// The patch data that `bsdiff` lines name by offset and length.
    pub patch: &'a [u8],
}

impl Areas<'_> {
    /// Their lengths, as [`open`](crate::open) takes them.
    pub fn lengths(&self) -> Lengths {
        Lengths { image: self.image.len(), stash: self.stash.len(), work: self.work.len(), result: self.result.len(), patch: self.patch.len() }
    }

    /// The same areas, lent on for one call.
    pub fn reborrow(&mut self) -> Areas<'_> {
        Areas { image: self.image, stash: self.stash, work: self.work, result: self.result, patch: self.patch }
    }
}

/// Their lengths; the bytes would be megabytes.
impl fmt::Debug for Areas<'_> {
    fn fmt(&self, to: &mut fmt::Formatter<'_>) -> fmt::Result {
        write!(to, "Areas of {:?}", self.lengths())
    }
}
