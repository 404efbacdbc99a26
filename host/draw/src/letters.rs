//! How wide a text is, and how a number is written.
//!
//! The widths are those of DejaVu Sans, the first font that a picture asks for, in thousandths of
//! its size. Verdana, the second, is as wide, and what a viewer takes instead is mostly narrower.

/// From the space to `~`.
const PLAIN: [u16; 95] = [
    318, 401, 460, 838, 636, 950, 780, 275, 390, 390, 500, 838, 318, 361, 318, 337, 636, 636, 636,
    636, 636, 636, 636, 636, 636, 636, 337, 337, 838, 838, 838, 531, 1000, 684, 686, 698, 770, 632,
    575, 775, 752, 295, 295, 656, 557, 863, 748, 787, 603, 787, 695, 635, 611, 732, 684, 989, 685,
    611, 685, 390, 337, 390, 838, 500, 500, 613, 635, 550, 635, 615, 352, 635, 634, 278, 278, 579,
    278, 974, 634, 612, 635, 635, 411, 521, 392, 634, 592, 818, 592, 592, 525, 636, 337, 636, 838,
];
/// The same of the bold font.
const BOLD: [u16; 95] = [
    348, 456, 521, 838, 696, 1002, 872, 306, 457, 457, 523, 838, 380, 415, 380, 365, 696, 696, 696,
    696, 696, 696, 696, 696, 696, 696, 400, 400, 838, 838, 838, 580, 1000, 774, 762, 734, 830, 683,
    683, 821, 837, 372, 372, 775, 637, 995, 837, 850, 733, 850, 770, 720, 682, 812, 774, 1103, 771,
    724, 725, 457, 365, 457, 838, 500, 500, 675, 716, 593, 716, 678, 435, 716, 712, 343, 343, 665,
    343, 1042, 712, 687, 716, 716, 493, 595, 478, 712, 652, 924, 645, 652, 582, 712, 365, 712, 838,
];
/// Of both fonts.
const EN_DASH: u16 = 500;
/// For any other letter.
const WIDEST: u16 = 1_200;

/// The font size, and whether it is bold.
#[derive(Clone, Copy, Debug, PartialEq)]
pub struct Font {
    pub size: f64,
    pub bold: bool,
}

pub const fn plain(size: f64) -> Font {
    Font { size, bold: false }
}

pub const fn bold(size: f64) -> Font {
    Font { size, bold: true }
}

impl Font {
    pub fn width(self, words: &str) -> f64 {
        let widths = if self.bold { &BOLD } else { &PLAIN };
        let letter = |c: char| match (c as usize).checked_sub(0x20) {
            Some(at) if at < widths.len() => widths[at],
            _ if c == '–' => EN_DASH,
            _ => WIDEST,
        };
        let sum: f64 = words.chars().map(|c| f64::from(letter(c))).sum();
        sum / 1_000.0 * self.size
    }

    /// How far the letters reach above the line that they stand on.
    pub fn above(self) -> f64 {
        0.77 * self.size
    }

    /// How far they reach below it.
    pub fn below(self) -> f64 {
        0.24 * self.size
    }
}

/// A number with a comma between thousands.
pub fn number(value: usize) -> String {
    let digits = value.to_string();
    let mut words = String::new();
    for (i, digit) in digits.chars().enumerate() {
        if i > 0 && (digits.len() - i).is_multiple_of(3) {
            words.push(',');
        }
        words.push(digit);
    }
    words
}

/// So many of a thing: `0 records`, `1 record`, `2 records`.
pub fn many(count: usize, thing: &str) -> String {
    let end = if count == 1 { "" } else { "s" };
    format!("{} {thing}{end}", number(count))
}

#[cfg(test)]
mod tests {
    use super::*;

    #[test]
    fn numbers() {
        assert_eq!(
            [0, 999, 1_000, 262_144].map(number),
            ["0", "999", "1,000", "262,144"]
        );
        assert_eq!(
            [0, 1, 1_334].map(|n| many(n, "record")),
            ["0 records", "1 record", "1,334 records"]
        );
    }

    #[test]
    fn widths() {
        assert!((plain(10.0).width("254") - 19.08).abs() < 0.001);
        assert!(bold(10.0).width("a–b") > plain(10.0).width("a–b"));
    }
}
