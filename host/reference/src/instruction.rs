//! Which commands there are, and which P1 and P2 each of them takes.

/// A command by its INS; READ BINARY has two.
#[derive(Clone, Copy, Debug, PartialEq, Eq)]
pub enum Instruction {
    Select,
    ReadBinaryB0,
    ReadBinaryB1,
    UpdateBinary,
    Activate,
    AppendRecord,
    ReadRecord,
    SearchRecord,
    Fmm,
}

impl Instruction {
    /// The command of an INS, whatever its class is. No INS stands in two classes.
    pub fn of_ins(ins: u8) -> Option<Self> {
        Some(match ins {
            0xA4 => Self::Select,
            0xB0 => Self::ReadBinaryB0,
            0xB1 => Self::ReadBinaryB1,
            0xD7 => Self::UpdateBinary,
            0x44 => Self::Activate,
            0xE2 => Self::AppendRecord,
            0xB2 => Self::ReadRecord,
            0xA2 => Self::SearchRecord,
            0x5E => Self::Fmm,
            _ => return None,
        })
    }

    /// Step 3: the command of a pair. The class is without the bit of chaining.
    pub fn of_pair(class: u8, ins: u8) -> Option<Self> {
        Self::of_ins(ins).filter(|instruction| instruction.class() == class)
    }

    /// FMM alone is not of ISO's class.
    fn class(self) -> u8 {
        match self {
            Self::Fmm => 0x80,
            _ => 0x00,
        }
    }

    /// Step 4: whether the command takes P1 and P2, by themselves.
    pub fn allows(self, p1: u8, p2: u8) -> bool {
        match self {
            Self::Select => matches!((p1, p2), (0x00 | 0x02 | 0x04, 0x0C)),
            // b8 of P1 is for a short id in its five low bits.
            Self::ReadBinaryB0 => p1 & 0x80 == 0 || p1 & 0x60 == 0,
            Self::ReadBinaryB1 | Self::UpdateBinary => true,
            Self::Activate => (p1, p2) == (0x00, 0x00),
            Self::AppendRecord => p1 == 0x00 && p2 & 0x07 == 0,
            Self::ReadRecord => matches!(p2 & 0x07, 0b100 | 0b101),
            Self::SearchRecord => (p1, p2) == (0x00, 0xF8),
            Self::Fmm => p1 <= 0x01 && p2 <= 0x07,
        }
    }
}
