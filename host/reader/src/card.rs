//! The card: the proved library with an image, a session and the file that keeps the image.

use crate::fault::Fault;
use crate::file::CardFile;
use malquindo::{Refusal, Session, RESPONSE_LEN};
use std::path::Path;

#[derive(Debug)]
pub struct Card {
    image: Vec<u8>,
    session: Session,
    /// The session that the rights open. An opening depends on the rights alone.
    opened: Session,
    file: CardFile,
}

impl Card {
    /// The card in a file, with the rights of three certificates.
    pub fn open(name: &Path, rights: &[u8]) -> Result<Self, Fault> {
        let opened = malquindo::open(rights).map_err(|refusal| Fault::Use(refusal.to_string()))?;
        let (file, image) = CardFile::open(name)?;
        let mut card = Self {
            image,
            session: opened.clone(),
            opened,
            file,
        };
        match card.run(&[]) {
            Ok(_) => Ok(card),
            Err(refusal) => Err(Fault::Card(format!(
                "the file {} is no card: {refusal}",
                name.display()
            ))),
        }
    }

    /// What power and a reset do: a new session begins.
    pub fn restart(&mut self) {
        self.session = self.opened.clone();
    }

    /// The answer to a command: data and status word. What the command changed is in the file
    /// before the answer is known to anybody.
    pub fn answer(&mut self, command: &[u8]) -> Result<Vec<u8>, Fault> {
        let before = self.image.clone();
        let answer = self.run(command).map_err(|refusal| {
            // The image was taken at the start and the session is the library's own.
            Fault::Use(format!("the library refused a command: {refusal}"))
        })?;
        if self.image != before {
            self.file.keep(&self.image)?;
        }
        Ok(answer)
    }

    fn run(&mut self, command: &[u8]) -> Result<Vec<u8>, Refusal> {
        let mut response = [0; RESPONSE_LEN];
        let answer =
            malquindo::command(&mut self.image, &mut self.session, command, &mut response)?;
        Ok([answer.data, &answer.status.to_be_bytes()].concat())
    }
}
