//! Single byte stores. APPEND RECORD and ACTIVATE write the image through [`make_first`] alone.

/// One byte, and where in the image it is put.
#[derive(Clone, Copy, Debug, PartialEq, Eq)]
pub struct Store {
    pub place: usize,
    pub byte: u8,
}

/// Makes the first so many stores of a list, all where it has fewer.
pub fn make_first(count: usize, stores: &[Store], image: &mut [u8]) {
    for store in stores.iter().take(count) {
        image[store.place] = store.byte;
    }
}
