//! Whether a string occurs in the window of a record.

/// The part of a record that is searched, no further than the record goes. Number 0 is all from
/// the offset on.
pub fn window(record: &[u8], offset: usize, number: usize) -> &[u8] {
    let rest = record.get(offset..).unwrap_or(&[]);
    match number {
        0 => rest,
        _ => &rest[..number.min(rest.len())],
    }
}

/// Whether the string stands anywhere in the window, not only at its start.
pub fn occurs(string: &[u8], window: &[u8]) -> bool {
    let Some((&first, tail)) = string.split_first() else {
        return true;
    };
    let Some(starts) = (window.len() + 1).checked_sub(string.len()) else {
        return false;
    };
    let mut at = 0;
    while let Some(skipped) = find_byte(first, &window[at..starts]) {
        at += skipped + 1;
        if window[at..].starts_with(tail) {
            return true;
        }
    }
    false
}

/// The place of the first such byte. Looks at whole blocks first, in a form the compiler turns
/// into vector compares.
fn find_byte(byte: u8, bytes: &[u8]) -> Option<usize> {
    const BLOCK: usize = 16;
    let without = bytes
        .chunks_exact(BLOCK)
        .take_while(|block| !block.iter().fold(false, |hit, b| hit | (*b == byte)))
        .count();
    let from = without * BLOCK;
    let found = bytes[from..].iter().position(|b| *b == byte)?;
    Some(from + found)
}

#[cfg(test)]
mod tests {
    use super::*;

    #[test]
    fn occurs_agrees_with_plain_windows() {
        let mut seed = 0x9E37_79B9_u32;
        let mut next = |below: u32| {
            seed ^= seed << 13;
            seed ^= seed >> 17;
            seed ^= seed << 5;
            seed % below
        };
        for _ in 0..20_000 {
            let letters = 1 + next(3);
            let text: Vec<u8> = (0..next(60)).map(|_| next(letters) as u8).collect();
            let string: Vec<u8> = (0..1 + next(6)).map(|_| next(letters) as u8).collect();
            let plain = text.windows(string.len()).any(|part| part == string);
            assert_eq!(occurs(&string, &text), plain, "{string:?} in {text:?}");
        }
    }

    #[test]
    fn windows_are_cut_at_the_end() {
        let record = [1, 2, 3, 4];
        assert_eq!(window(&record, 1, 2), [2, 3]);
        assert_eq!(window(&record, 1, 0), [2, 3, 4]);
        assert_eq!(window(&record, 3, 65_535), [4]);
        assert!(window(&record, 4, 1).is_empty());
        assert!(window(&record, 65_535, 0).is_empty());
    }
}
