//! The card's file, which at any moment is the card as some command left it.
//!
//! A change is not written into the file. The whole image goes into a file beside it, which then
//! takes its place: renaming is one step for the system, so a stop at any moment leaves the old
//! card or the new one, whatever the command changed. To write into the file would do for an
//! append, whose count is one byte and can come last; but UPDATE BINARY replaces many bytes that
//! can be read, and no order of writes makes these one step.

use crate::fault::Fault;
use std::fs::{self, File, OpenOptions};
use std::io::{self, Read, Write};
use std::os::unix::fs::{fchown, MetadataExt};
use std::path::{Path, PathBuf};

/// The longest card image, `MALQUINDO_IMAGE_LEN` in the header.
const IMAGE_LEN: u64 = 262_144;

#[derive(Debug)]
pub struct CardFile {
    path: PathBuf,
    /// The file beside it. A stop may leave it there; the next change writes over it.
    next: PathBuf,
    folder: PathBuf,
}

impl CardFile {
    /// The file of this name and the bytes that it holds.
    pub fn open(name: &Path) -> Result<(Self, Vec<u8>), Fault> {
        let cannot = |error| {
            let name = name.display();
            Fault::Card(format!("the card's file {name} cannot be read: {error}"))
        };
        // A name that is a link stays one: the file that it leads to is replaced.
        let path = name.canonicalize().map_err(cannot)?;
        let image = read(&path).map_err(cannot)?;
        let file = Self {
            next: with_end(&path, ".next"),
            folder: path.parent().unwrap_or(Path::new("/")).to_path_buf(),
            path,
        };
        Ok((file, image))
    }

    /// Makes the file hold this image. When this returns well, it is on the disk.
    pub fn keep(&self, image: &[u8]) -> Result<(), Fault> {
        self.replace(image).map_err(|error| {
            let path = self.path.display();
            Fault::Card(format!("the card's file {path} cannot be written: {error}"))
        })
    }

    fn replace(&self, image: &[u8]) -> io::Result<()> {
        // Renaming asks for no right to write the file. This does.
        let old = OpenOptions::new().write(true).open(&self.path)?;
        let mut next = File::create(&self.next)?;
        take_owner_and_mode(&next, &old)?;
        next.write_all(image)?;
        next.sync_all()?;
        fs::rename(&self.next, &self.path)?;
        // The file's new content is on the disk; now also its name.
        File::open(&self.folder)?.sync_all()
    }
}

/// The bytes of a file, at most one more than a card has: these are enough to be no card.
fn read(path: &Path) -> io::Result<Vec<u8>> {
    let mut bytes = Vec::new();
    File::open(path)?
        .take(IMAGE_LEN + 1)
        .read_to_end(&mut bytes)?;
    Ok(bytes)
}

fn with_end(path: &Path, end: &str) -> PathBuf {
    let mut name = path.as_os_str().to_os_string();
    name.push(end);
    name.into()
}

/// Whoever could read and write the old file can read and write the new one, and nobody else.
fn take_owner_and_mode(new: &File, old: &File) -> io::Result<()> {
    let (had, has) = (old.metadata()?, new.metadata()?);
    if (had.uid(), had.gid()) != (has.uid(), has.gid()) {
        fchown(new, Some(had.uid()), Some(had.gid()))?;
    }
    new.set_permissions(had.permissions())
}
