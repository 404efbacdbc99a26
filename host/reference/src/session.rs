//! A session, and what commands make of it.

use crate::chain::{Chain, CHAIN_BYTES};
use crate::image::{Application, File, Layout};
use crate::rights::{Rights, RIGHTS_LEN};
use crate::SESSION_LEN;

/// Bytes of a session without its chain.
const STANDING_LEN: usize = SESSION_LEN - CHAIN_BYTES;

/// The current file, if there is one, by its id, and perhaps its current record.
#[derive(Clone, Copy, Debug, PartialEq, Eq)]
pub enum Place {
    None,
    File(u16),
    Record(u16, u8),
}

impl Place {
    /// The id of the current file, if there is one.
    pub fn file(self) -> Option<u16> {
        match self {
            Self::None => None,
            Self::File(id) | Self::Record(id, _) => Some(id),
        }
    }
}

/// All that is kept between two commands, beside the image.
#[derive(Clone, Debug, PartialEq, Eq)]
pub struct Session {
    pub rights: Rights,
    pub application: Application,
    pub place: Place,
    /// The links so far, amid a command that comes in links.
    pub chain: Option<Chain>,
}

impl Session {
    /// The session that an opening makes.
    pub fn opened(rights: Rights) -> Self {
        Self {
            rights,
            application: Application::MasterFile,
            place: Place::None,
            chain: None,
        }
    }

    /// The session in 1,054 bytes, if they are one: application 0 to 3, place 0 to 2, zero in what
    /// the place has no use for, and a chain that links could have left.
    pub fn from_bytes(bytes: &[u8; SESSION_LEN]) -> Option<Self> {
        let (standing, chain) = bytes.split_first_chunk::<STANDING_LEN>()?;
        let chain = Chain::from_bytes(chain.first_chunk()?).ok()?;
        let [rights @ .., application, place, id_low, id_high, record] = standing;
        let application = match application {
            0 => Application::MasterFile,
            1 => Application::Travel,
            2 => Application::Visa,
            3 => Application::Biometrics,
            _ => return None,
        };
        let id = u16::from_le_bytes([*id_low, *id_high]);
        let place = match (place, id, record) {
            (0, 0, 0) => Place::None,
            (1, _, 0) => Place::File(id),
            (2, _, _) => Place::Record(id, *record),
            _ => return None,
        };
        Some(Self {
            rights: Rights::from_bytes(rights),
            application,
            place,
            chain,
        })
    }

    /// The 1,054 bytes of a session.
    pub fn to_bytes(&self) -> [u8; SESSION_LEN] {
        let (place, id, record) = match self.place {
            Place::None => (0, 0, 0),
            Place::File(id) => (1, id, 0),
            Place::Record(id, record) => (2, id, record),
        };
        let [id_low, id_high] = id.to_le_bytes();
        let mut bytes = [0; SESSION_LEN];
        bytes[..RIGHTS_LEN].copy_from_slice(&self.rights.to_bytes());
        bytes[RIGHTS_LEN..STANDING_LEN].copy_from_slice(&[
            self.application as u8,
            place,
            id_low,
            id_high,
            record,
        ]);
        if let Some(chain) = &self.chain {
            chain.write(&mut bytes[STANDING_LEN..]);
        }
        bytes
    }

    /// Whether the card has the selected application, in it the current file, and in this the
    /// current record; and whether the rights are in cleared form.
    pub fn fits(&self, layout: &Layout) -> bool {
        let file = |id| layout.file_by_id(self.application, id);
        let place_fits = match self.place {
            Place::None => true,
            Place::File(id) => file(id).is_some(),
            Place::Record(id, record) => match file(id) {
                Some(File::Records(file)) => (1..=file.count).contains(&usize::from(record)),
                _ => false,
            },
        };
        place_fits && layout.has(self.application) && self.rights.is_cleared()
    }

    /// After a link but the last: the chain alone is new.
    pub fn amid(&self, chain: Chain) -> Self {
        Self {
            chain: Some(chain),
            ..*self
        }
    }

    /// After a status other than 9000, and after a command that changes no more: the chain is over.
    pub fn without_chain(&self) -> Self {
        self.at(self.application, self.place)
    }

    /// After SELECT of an application or the master file: nothing is current.
    pub fn selecting(&self, application: Application) -> Self {
        self.at(application, Place::None)
    }

    /// After a command on a file: it is current. Its current record stays, another file's does
    /// not.
    pub fn setting_file(&self, id: u16) -> Self {
        if self.place.file() == Some(id) {
            self.without_chain()
        } else {
            self.dropping_record(id)
        }
    }

    /// After SELECT of a file: it is current, and no record is.
    pub fn dropping_record(&self, id: u16) -> Self {
        self.at(self.application, Place::File(id))
    }

    /// After an append or a search: file and record are current.
    pub fn setting_record(&self, id: u16, record: u8) -> Self {
        self.at(self.application, Place::Record(id, record))
    }

    /// The session elsewhere. A whole command leaves no chain, so there is none.
    fn at(&self, application: Application, place: Place) -> Self {
        Self {
            rights: self.rights,
            application,
            place,
            chain: None,
        }
    }
}
