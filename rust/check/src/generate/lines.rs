//! Where lines stand in a text.

/// Where each line starts, in order; the end of the text too where it follows an LF.
pub fn line_starts(list: &[u8]) -> Vec<usize> {
    std::iter::once(0).chain((0..list.len()).filter(|k| list[*k] == b'\n').map(|k| k + 1)).collect()
}

/// Where the line around this byte starts, and where the next one does.
pub(super) fn line_around(list: &[u8], at: usize) -> (usize, usize) {
    let at = at.min(list.len());
    let start = list[..at].iter().rposition(|c| *c == b'\n').map_or(0, |k| k + 1);
    let end = list[at..].iter().position(|c| *c == b'\n').map_or(list.len(), |k| at + k + 1);
    (start, end)
}
