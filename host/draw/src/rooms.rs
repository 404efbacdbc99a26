//! The list of a move in words, as the terminal takes it: `KIND LENGTH KIND LENGTH …`, each kind in
//! hexadecimal, each length in decimal.

/// The rooms of a list, or what is wrong with it.
pub fn read(list: &str) -> Result<Vec<(u16, u32)>, String> {
    let words: Vec<&str> = list.split_whitespace().collect();
    words.chunks(2).map(room).collect()
}

fn room(words: &[&str]) -> Result<(u16, u32), String> {
    let [kind, length] = words else {
        return Err(format!(
            "the list cannot be read: {} has no length",
            words[0]
        ));
    };
    let wrong = |word| format!("the list cannot be read: {word}");
    Ok((
        digits(kind, 16)
            .and_then(|number| u16::try_from(number).ok())
            .ok_or_else(|| wrong(kind))?,
        digits(length, 10).ok_or_else(|| wrong(length))?,
    ))
}

/// A number of digits alone: Rust's own reader takes a sign too.
fn digits(word: &str, radix: u32) -> Option<u32> {
    let only_digits = word.chars().all(|c| c.is_digit(radix));
    u32::from_str_radix(word, radix)
        .ok()
        .filter(|_| only_digits)
}

#[cfg(test)]
mod tests {
    use super::*;

    #[test]
    fn lists() {
        assert_eq!(read(""), Ok(vec![]));
        assert_eq!(
            read(" 0101 100  11a 4294967295 "),
            Ok(vec![(0x0101, 100), (0x011A, u32::MAX)])
        );
        for wrong in [
            "0101",
            "0101 forty",
            "10000 2",
            "0101 +2",
            "0101 4294967296",
            "x 2",
        ] {
            assert!(read(wrong).is_err(), "{wrong}");
        }
    }
}
