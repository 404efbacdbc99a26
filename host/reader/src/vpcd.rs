//! The messages of vsmartcard's virtual reader, vpcd. The reader listens, the card connects.
//!
//! A message is its length (2 bytes, big-endian) and so many bytes. The reader sends one byte to
//! control the card, and else a command. The card answers a command and a request for its ATR,
//! and nothing else.

use std::io::{self, ErrorKind, Read, Write};

/// The port on which vpcd listens for the card of its first slot.
pub const PORT: u16 = 35_963;

/// What the reader sends.
#[derive(Debug, PartialEq, Eq)]
pub enum Message {
    PowerOff,
    PowerOn,
    Reset,
    GetAtr,
    Command(Vec<u8>),
}

impl Message {
    /// A byte that controls nothing is a command too: the reader waits for an answer to it.
    fn of(bytes: Vec<u8>) -> Self {
        match bytes[..] {
            [0] => Self::PowerOff,
            [1] => Self::PowerOn,
            [2] => Self::Reset,
            [4] => Self::GetAtr,
            _ => Self::Command(bytes),
        }
    }
}

/// The next message; none where the reader has gone.
pub fn receive(reader: &mut impl Read) -> io::Result<Option<Message>> {
    let mut length = [0; 2];
    // Only in front of a message may the reader go. Inside one, it is an error.
    match reader.read_exact(&mut length[..1]) {
        Err(error) if has_gone(&error) => return Ok(None),
        outcome => outcome?,
    }
    reader.read_exact(&mut length[1..])?;
    let mut bytes = vec![0; u16::from_be_bytes(length).into()];
    reader.read_exact(&mut bytes)?;
    Ok(Some(Message::of(bytes)))
}

/// Sends an answer. It is one write, so that it does not lie about until the reader confirms the
/// length.
pub fn send(reader: &mut impl Write, answer: &[u8]) -> io::Result<()> {
    let length = u16::try_from(answer.len()).map_err(|_| ErrorKind::InvalidInput)?;
    reader.write_all(&[&length.to_be_bytes()[..], answer].concat())
}

/// Whether an error says that the reader has closed the connection, or ended.
pub fn has_gone(error: &io::Error) -> bool {
    matches!(
        error.kind(),
        ErrorKind::UnexpectedEof
            | ErrorKind::BrokenPipe
            | ErrorKind::ConnectionReset
            | ErrorKind::ConnectionAborted
    )
}

#[cfg(test)]
mod tests {
    use super::*;

    fn received(mut bytes: &[u8]) -> Vec<Message> {
        std::iter::from_fn(|| receive(&mut bytes).unwrap()).collect()
    }

    #[test]
    fn control_messages() {
        let bytes = [0, 1, 0, 0, 1, 1, 0, 1, 2, 0, 1, 4];
        assert_eq!(
            received(&bytes),
            [
                Message::PowerOff,
                Message::PowerOn,
                Message::Reset,
                Message::GetAtr
            ]
        );
    }

    #[test]
    fn all_else_is_a_command() {
        let bytes = [0, 0, 0, 1, 3, 0, 2, 0, 1];
        let commands: [&[u8]; 3] = [&[], &[3], &[0, 1]];
        assert_eq!(
            received(&bytes),
            commands.map(|command| Message::Command(command.to_vec()))
        );
    }

    #[test]
    fn the_longest_command() {
        let bytes = [vec![0xFF, 0xFF], vec![7; 0xFFFF]].concat();
        assert_eq!(received(&bytes), [Message::Command(vec![7; 0xFFFF])]);
    }

    #[test]
    fn a_message_cut_off_is_an_error() {
        for bytes in [&[0][..], &[0, 1], &[0, 2, 7]] {
            assert!(receive(&mut &*bytes).is_err());
        }
    }

    #[test]
    fn an_answer_has_its_length_in_front() {
        let mut sent = Vec::new();
        send(&mut sent, &[7; 258]).unwrap();
        assert_eq!(sent, [vec![1, 2], vec![7; 258]].concat());
        assert!(send(&mut sent, &[7; 0x1_0000]).is_err());
    }
}
