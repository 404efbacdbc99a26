//! The answer to reset (ATR): what the card says of itself when it gets power (ISO/IEC 7816-3).

/// The bytes that say what the card can do (ISO/IEC 7816-4, historical bytes).
const HISTORICAL: [u8; 7] = [
    // Category: data objects in compact form follow, and nothing else.
    0x80,
    // Tag 3, one byte: card service data.
    0x31,
    // b8: applications are selected by their full name (AID). b7 is off: a part of it is not enough.
    // b6, b5: there are data objects in EF.DIR and in EF.ATR/INFO.
    // b4 to b2, 100: these two files are read by READ BINARY. b1 is off: the card has a master file.
    0b1011_1000,
    // Tag 7, three bytes: card capabilities. They are those that EF.ATR/INFO has (clause E1 of
    // docs/RULES.md).
    0x73,
    // b8: selection by full name. b3: short file ids. b2: records by number.
    0b1000_0110,
    // b4 to b1: a data unit has 2 to the power of 1 half-bytes, so offsets count bytes.
    0b0000_0001,
    // b8: command chaining. b7: Lc and Le may be extended. b6: EF.ATR/INFO says how long commands and
    // responses may be. b5 to b1 are off: one logical channel.
    0b1110_0000,
];

/// The whole answer to reset.
pub const ATR: [u8; 11] = [
    // TS: direct convention.
    0x3B,
    // T0: TD1 follows (b8), and so many historical bytes (b4 to b1).
    0x80 | HISTORICAL.len() as u8,
    // TD1: the protocol is T=1, and no other; no interface byte follows, so all have their defaults.
    0x01,
    HISTORICAL[0],
    HISTORICAL[1],
    HISTORICAL[2],
    HISTORICAL[3],
    HISTORICAL[4],
    HISTORICAL[5],
    HISTORICAL[6],
    // TCK: must be there where a protocol other than T=0 is offered.
    TCK,
];

/// The check byte: with it, the exclusive or of all bytes behind TS is 0.
const TCK: u8 = {
    let mut sum = (0x80 | HISTORICAL.len() as u8) ^ 0x01;
    let mut at = 0;
    while at < HISTORICAL.len() {
        sum ^= HISTORICAL[at];
        at += 1;
    }
    sum
};

#[cfg(test)]
mod tests {
    use super::*;

    #[test]
    fn the_bytes() {
        assert_eq!(
            ATR,
            [0x3B, 0x87, 0x01, 0x80, 0x31, 0xB8, 0x73, 0x86, 0x01, 0xE0, 0x9B]
        );
    }

    #[test]
    fn the_check_byte_makes_the_sum_0() {
        assert_eq!(ATR[1..].iter().fold(0, |sum, byte| sum ^ byte), 0);
    }

    #[test]
    fn t0_counts_the_historical_bytes() {
        // Around them stand TS, T0, TD1 and TCK.
        assert_eq!(usize::from(ATR[1] & 0x0F), ATR.len() - 4);
    }
}
