//! The move of a card to rooms of other sizes: from an old image and a list of section heads to a
//! new image. Nothing is written before all is tested.

use crate::image::{Head, Layout, SECTION_HEADER};
use crate::Refusal;

/// The length of the new image. The refusals are tested in the order 2, 10, 11, 12, 13.
pub fn move_card(old: &[u8], list: &[u8], target: &mut [u8]) -> Result<usize, Refusal> {
    let before = Layout::read(old).ok_or(Refusal::Image)?;
    let after = new_layout(list).ok_or(Refusal::List)?;
    if before
        .kinds()
        .any(|kind| !after.kinds().any(|new| new == kind))
    {
        return Err(Refusal::Missing);
    }
    if heads(list).any(|head| before.held(head.kind, old).len() > head.length) {
        return Err(Refusal::Room);
    }
    let image = target.get_mut(..after.length).ok_or(Refusal::Target)?;
    write(&before, old, list, image);
    Ok(after.length)
}

/// The image that the list lays out: its sections, with all bodies zero.
fn new_layout(list: &[u8]) -> Option<Layout> {
    let whole = list.len().is_multiple_of(SECTION_HEADER);
    Layout::of_empty(heads(list)).filter(|_| whole)
}

/// The whole rows of the list.
fn heads(list: &[u8]) -> impl Iterator<Item = Head> + '_ {
    list.chunks_exact(SECTION_HEADER)
        .filter_map(|row| Head::read(row.first_chunk()?))
}

/// Writes each section of the list: its head, what the old image holds of its kind, then zeros.
/// All zeros are an empty file, and a biometrics file that is Deactivated. The rooms are large
/// enough and make up the new image.
fn write(before: &Layout, old: &[u8], list: &[u8], image: &mut [u8]) {
    let mut rest = image;
    for (row, head) in list.chunks(SECTION_HEADER).zip(heads(list)) {
        let (section, behind) = rest.split_at_mut(SECTION_HEADER + head.length);
        let (header, body) = section.split_at_mut(SECTION_HEADER);
        let content = before.held(head.kind, old);
        let (kept, free) = body.split_at_mut(content.len());
        header.copy_from_slice(row);
        kept.copy_from_slice(content);
        free.fill(0);
        rest = behind;
    }
}
