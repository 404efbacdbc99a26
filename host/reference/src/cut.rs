//! What a cut amid a command leaves of the image.

use crate::{commands, read_card, stores, Refusal};

/// Makes the first so many stores of a command. Gives how many it has in all.
pub fn cut(
    image: &mut [u8],
    session: &[u8],
    command: &[u8],
    count: usize,
) -> Result<usize, Refusal> {
    let (layout, session) = read_card(image, session)?;
    let list = commands::stores(&layout, &session, command);
    stores::make_first(count, &list, image);
    Ok(list.len())
}
