//! The rights of a certificate chain.

use crate::image::{Application, BiometricsFile, File, RecordRule, TransparentFile};

/// Bytes of one certificate's rights: flags, travel, visa, 17 bytes of biometrics.
pub const RIGHTS_LEN: usize = 20;
/// Bytes of the rights of a chain, which has three certificates.
pub const CHAIN_LEN: usize = 3 * RIGHTS_LEN;

/// A flag tells that the certificate has the extension of an application.
pub const TRAVEL_FLAG: u8 = 0x01;
pub const VISA_FLAG: u8 = 0x02;
pub const BIOMETRICS_FLAG: u8 = 0x04;

/// The bits of the travel byte, and of the visa byte.
const READ_RECORDS: u8 = 0x01;
const APPEND_RECORDS: u8 = 0x02;
const READ_CERTIFICATES: u8 = 0x04;
const APPEND_CERTIFICATES: u8 = 0x08;
const RECORD_BITS: u8 = READ_RECORDS | APPEND_RECORDS | READ_CERTIFICATES | APPEND_CERTIFICATES;

/// The bits of the first biometrics byte.
const READ_BIOMETRICS_CERTIFICATES: u8 = 0x01;
const APPEND_BIOMETRICS_CERTIFICATES: u8 = 0x02;
const BIOMETRICS_CERTIFICATE_BITS: u8 =
    READ_BIOMETRICS_CERTIFICATES | APPEND_BIOMETRICS_CERTIFICATES;

/// What a command wants to do with a file. Selecting it, searching it and asking for its numbers
/// count as reading.
#[derive(Clone, Copy, Debug, PartialEq, Eq)]
pub enum Use {
    Read,
    Append,
    /// UPDATE BINARY and ACTIVATE.
    Write,
}

/// The rights of one certificate, or of a chain.
#[derive(Clone, Copy, Debug, PartialEq, Eq)]
pub struct Rights {
    flags: u8,
    travel: u8,
    visa: u8,
    biometrics: [u8; 17],
}

impl Rights {
    /// The rights in 20 bytes, as they stand there.
    pub fn from_bytes(bytes: &[u8; RIGHTS_LEN]) -> Self {
        let [flags, travel, visa, biometrics @ ..] = *bytes;
        Self {
            flags,
            travel,
            visa,
            biometrics,
        }
    }

    /// The 20 bytes of the rights.
    pub fn to_bytes(self) -> [u8; RIGHTS_LEN] {
        let mut bytes = [0; RIGHTS_LEN];
        bytes[0] = self.flags;
        bytes[1] = self.travel;
        bytes[2] = self.visa;
        bytes[3..].copy_from_slice(&self.biometrics);
        bytes
    }

    /// The rights that all three certificates give, in cleared form.
    pub fn effective(chain: &[u8; CHAIN_LEN]) -> Self {
        let joined =
            std::array::from_fn(|i| chain[i] & chain[RIGHTS_LEN + i] & chain[2 * RIGHTS_LEN + i]);
        Self::from_bytes(&joined).cleared()
    }

    /// Without the bits that mean nothing, and without the bytes of an application whose flag is
    /// not set.
    fn cleared(self) -> Self {
        let mut clear = Self {
            flags: 0,
            travel: 0,
            visa: 0,
            biometrics: [0; 17],
        };
        clear.flags = self.flags & (TRAVEL_FLAG | VISA_FLAG | BIOMETRICS_FLAG);
        if self.flags & TRAVEL_FLAG != 0 {
            clear.travel = self.travel & RECORD_BITS;
        }
        if self.flags & VISA_FLAG != 0 {
            clear.visa = self.visa & RECORD_BITS;
        }
        if self.flags & BIOMETRICS_FLAG != 0 {
            clear.biometrics = self.biometrics;
            clear.biometrics[0] &= BIOMETRICS_CERTIFICATE_BITS;
        }
        clear
    }

    /// Whether clearing changes nothing.
    pub fn is_cleared(&self) -> bool {
        *self == self.cleared()
    }

    /// Whether an application may be selected; the master file needs no flag.
    pub fn flag(&self, application: Application) -> bool {
        match application {
            Application::MasterFile => true,
            Application::Travel => self.flags & TRAVEL_FLAG != 0,
            Application::Visa => self.flags & VISA_FLAG != 0,
            Application::Biometrics => self.flags & BIOMETRICS_FLAG != 0,
        }
    }

    /// Whether these rights allow a use of a file. Everyone may read the files of the master file,
    /// and nobody may write them.
    pub fn allow(&self, file: &File, wanted: Use) -> bool {
        match file {
            File::Records(file) => self.allow_records(file.rule, wanted),
            File::Transparent(TransparentFile::Constant(_)) => wanted == Use::Read,
            File::Transparent(TransparentFile::Biometrics(file)) => {
                self.allow_biometrics(file, wanted)
            }
        }
    }

    /// Each record file has a bit for reading and one for appending.
    fn allow_records(&self, rule: &RecordRule, wanted: Use) -> bool {
        let (byte, read, append) = match (rule.application, rule.certificates) {
            (Application::MasterFile, _) => return false,
            (Application::Travel, false) => (self.travel, READ_RECORDS, APPEND_RECORDS),
            (Application::Travel, true) => (self.travel, READ_CERTIFICATES, APPEND_CERTIFICATES),
            (Application::Visa, false) => (self.visa, READ_RECORDS, APPEND_RECORDS),
            (Application::Visa, true) => (self.visa, READ_CERTIFICATES, APPEND_CERTIFICATES),
            (Application::Biometrics, _) => (
                self.biometrics[0],
                READ_BIOMETRICS_CERTIFICATES,
                APPEND_BIOMETRICS_CERTIFICATES,
            ),
        };
        match wanted {
            Use::Read => byte & read != 0,
            Use::Append => byte & append != 0,
            Use::Write => false,
        }
    }

    /// Four files share a byte, behind the first one; each has two bits, the first from the left.
    /// The upper bit is for a file that is Deactivated, the lower for one that is Activated, which
    /// nobody may write.
    fn allow_biometrics(&self, file: &BiometricsFile, wanted: Use) -> bool {
        let byte = self.biometrics[1 + file.index / 4];
        let shift = 2 * (file.index % 4);
        let while_deactivated = byte & (0x80 >> shift) != 0;
        let while_activated = byte & (0x40 >> shift) != 0;
        match (wanted, file.activated) {
            (Use::Read | Use::Write, false) => while_deactivated,
            (Use::Read, true) => while_activated,
            (Use::Write, true) | (Use::Append, _) => false,
        }
    }
}
