//! Chains: the data of a command in several links.

use crate::{Session, SESSION_LEN};

/// How many bytes of data a command has at most, whole or in links.
pub const CHAIN_LEN: usize = 1_024;

/// b5 of CLA: more links follow.
const MORE: u8 = 0x10;

/// Where a session holds its chain: the length (two bytes, little-endian), INS, P1 and P2, the data.
const CHAIN_AT: usize = SESSION_LEN - CHAIN_LEN - 5;

/// The chain that is open in a session: what came in the links so far.
#[derive(Clone, Copy, Debug, PartialEq, Eq)]
pub struct Chain<'s> {
    /// INS, P1 and P2, which the next link must have, too.
    pub header: [u8; 3],
    /// The data of the links so far, joined.
    pub data: &'s [u8],
}

impl Session {
    /// The chain that is open; none where no chain is. Bytes that say more than [`CHAIN_LEN`] are
    /// no session, and have none.
    ///
    /// An answer to a link does not show whether a chain is open behind it:
    ///
    /// ```
    /// let mut session = malquindo::open(&[0xFF; 60])?;
    /// let mut response = [0; malquindo::RESPONSE_LEN];
    /// let link = [0x10, 0xE2, 0x00, 0x08, 2, 0xAA, 0xBB];
    /// malquindo::command(&mut [], &mut session, &link, &mut response)?;
    /// let chain = session.chain().expect("the last link has not come");
    /// assert_eq!(chain.header, [0xE2, 0x00, 0x08]);
    /// assert_eq!(chain.data, [0xAA, 0xBB]);
    ///
    /// // Another header gets 6883, and the chain is dropped.
    /// let read = [0x00, 0xB2, 0x01, 0x0C, 0x00, 0x00, 0x00];
    /// let answer = malquindo::command(&mut [], &mut session, &read, &mut response)?;
    /// assert_eq!(answer.status, 0x6883);
    /// assert_eq!(session.chain(), None);
    /// # Ok::<(), malquindo::Refusal>(())
    /// ```
    pub fn chain(&self) -> Option<Chain<'_>> {
        let [low, high, ins, p1, p2, data @ ..] = &self.as_bytes()[CHAIN_AT..] else {
            unreachable!("a session has room for a chain");
        };
        match usize::from(u16::from_le_bytes([*low, *high])) {
            0 => None,
            length => data.get(..length).map(|data| Chain {
                header: [*ins, *p1, *p2],
                data,
            }),
        }
    }
}

/// Splits a command into links, each with at most `most` bytes of data: a long certificate for a
/// reader that cannot send long commands. Send them one after the other, and stop where one is
/// not answered 9000. The answer to the last one is the command's.
///
/// The command is its CLA, INS, P1 and P2, its data and Ne, the most bytes of data that it asks
/// for, where it has an Le. All links but the last have b5 of CLA set, and no Le. A command whose
/// data fits into one link is that one link, the command itself. A link is written in the short
/// form where its data and Ne fit that, 255 and 256 bytes, and else in the extended one. No link has
/// more than [`CHAIN_LEN`] bytes, however large `most` is; where `most` is 0, it counts as 1. More than
/// [`CHAIN_LEN`] bytes in all are split, too, but the machine answers 6700.
///
/// # Panics
///
/// Where Ne is not from 1 to 65,536.
///
/// A certificate of 900 bytes in four links:
///
/// ```
/// let mut image = [0; 1_098];
/// let rooms = [(0x0101, 40), (0x0102, 40), (0x011A, 1_000)];
/// malquindo::move_card(&[], &rooms, &mut image)?;
/// let mut session = malquindo::open(&[0xFF; 60])?;
/// let mut response = [0; malquindo::RESPONSE_LEN];
/// let select = [0x00, 0xA4, 0x04, 0x0C, 7, 0xA0, 0x00, 0x00, 0x02, 0x47, 0x20, 0x01];
/// malquindo::command(&mut image, &mut session, &select, &mut response)?;
///
/// let certificate = [0xC5; 900];
/// let links = malquindo::chained([0x00, 0xE2, 0x00, 0xD0], &certificate, None, 255);
/// assert_eq!(links.len(), 4);
/// for link in &links {
///     let answer = malquindo::command(&mut image, &mut session, link, &mut response)?;
///     assert_eq!(answer.status, 0x9000);
/// }
/// // One record of 0384 bytes.
/// assert_eq!(image[98..102], [1, 0, 0x84, 0x03]);
/// assert_eq!(image[102..1_002], certificate);
/// # Ok::<(), malquindo::Refusal>(())
/// ```
pub fn chained(header: [u8; 4], data: &[u8], ne: Option<u32>, most: usize) -> Vec<Vec<u8>> {
    let most = most.clamp(1, CHAIN_LEN);
    // The last link has what is left behind the others, at least a byte where there is data.
    let (first, last) = data.split_at(data.len().saturating_sub(1) / most * most);
    let [cla, ins, p1, p2] = header;
    let link = |part| framed([cla | MORE, ins, p1, p2], part, None);
    let mut links: Vec<_> = first.chunks(most).map(link).collect();
    links.push(framed([cla & !MORE, ins, p1, p2], last, ne));
    links
}

/// A command in the short form where it fits that, and else in the extended one.
fn framed(header: [u8; 4], data: &[u8], ne: Option<u32>) -> Vec<u8> {
    assert!(ne.is_none_or(|ne| (1..=65_536).contains(&ne)));
    let extended = data.len() > 255 || ne.is_some_and(|ne| ne > 256);
    let number = |n: u32| match extended {
        true => (n as u16).to_be_bytes().to_vec(),
        // 256 is written as 0, as 65,536 is in two bytes.
        false => vec![n as u8],
    };
    let mut command = header.to_vec();
    // The extended form begins with a byte 0, before Lc or before Le alone.
    if extended {
        command.push(0);
    }
    if !data.is_empty() {
        command.extend(number(data.len() as u32));
        command.extend(data);
    }
    command.extend(ne.map(number).unwrap_or_default());
    command
}

#[cfg(test)]
mod tests {
    use super::*;
    use crate::{command, cut, move_card, open, Refusal, RESPONSE_LEN};

    const APPEND: [u8; 4] = [0x00, 0xE2, 0x00, 0xD0];
    const SEARCH: [u8; 4] = [0x00, 0xA2, 0x00, 0xF8];

    /// A card with room for one long certificate, and a session that has selected travel.
    fn travel() -> (Vec<u8>, Session) {
        let mut image = vec![0; 3 * 6 + 40 + 40 + 1_000];
        let rooms = [(0x0101, 40), (0x0102, 40), (0x011A, 1_000)];
        move_card(&[], &rooms, &mut image).unwrap();
        let mut session = open(&[0xFF; 60]).unwrap();
        let select = [0x00, 0xA4, 0x04, 0x0C, 7, 0xA0, 0, 0, 2, 0x47, 0x20, 1];
        assert_eq!(run(&mut image, &mut session, &select), (vec![], 0x9000));
        (image, session)
    }

    fn run(image: &mut [u8], session: &mut Session, link: &[u8]) -> (Vec<u8>, u16) {
        let mut response = [0; RESPONSE_LEN];
        let answer = command(image, session, link, &mut response).unwrap();
        (answer.data.to_vec(), answer.status)
    }

    /// Sends links. All but the last must be taken, and open the chain that they are.
    fn send(image: &mut [u8], session: &mut Session, links: &[Vec<u8>]) -> (Vec<u8>, u16) {
        let (last, first) = links.split_last().unwrap();
        let before = (image.to_vec(), session.as_bytes()[..CHAIN_AT].to_vec());
        let mut joined = Vec::new();
        for link in first {
            assert_eq!(run(image, session, link), (vec![], 0x9000));
            joined.extend(data_of(link));
            let chain = session.chain().unwrap();
            assert_eq!(
                (chain.header, chain.data),
                (last[1..4].try_into().unwrap(), &joined[..])
            );
            assert_eq!(
                (&before.0[..], &before.1[..]),
                (&*image, &session.as_bytes()[..CHAIN_AT])
            );
        }
        let answer = run(image, session, last);
        assert_eq!(session.chain(), None);
        answer
    }

    /// The data of a link without Le.
    fn data_of(link: &[u8]) -> &[u8] {
        match link[4] {
            0 => &link[7..],
            _ => &link[5..],
        }
    }

    fn certificate() -> Vec<u8> {
        (0..900_u32).map(|at| (at * 7 % 251) as u8).collect()
    }

    #[test]
    fn the_links() {
        let header = [0x80, 0x5E, 0x01, 0x07];
        let data = [0x51, 0x02, 0x01, 0x01];
        let whole = vec![0x80, 0x5E, 0x01, 0x07, 4, 0x51, 0x02, 0x01, 0x01, 0];
        assert_eq!(chained(header, &data, Some(256), 4), [whole.clone()]);
        assert_eq!(chained(header, &data, Some(256), usize::MAX), [whole]);
        let links = [
            vec![0x90, 0x5E, 0x01, 0x07, 3, 0x51, 0x02, 0x01],
            vec![0x80, 0x5E, 0x01, 0x07, 1, 0x01, 0],
        ];
        assert_eq!(chained(header, &data, Some(256), 3), links);
        let long = vec![0x80, 0x5E, 0x01, 0x07, 0, 0, 1, 0x01, 0, 0];
        assert_eq!(
            chained(header, &data, Some(65_536), 3),
            [links[0].clone(), long]
        );
        // CLA with b5 is taken for CLA without; 0 bytes in a link for 1.
        assert_eq!(
            chained([0x90, 0x5E, 0x01, 0x07], &data, Some(256), 3),
            links
        );
        assert_eq!(
            chained(header, &data, None, 0),
            chained(header, &data, None, 1)
        );
        assert_eq!(chained(header, &data, None, 1).len(), 4);
    }

    #[test]
    fn commands_without_data() {
        let header = [0x00, 0xB0, 0x81, 0x00];
        for (ne, behind) in [
            (None, &[][..]),
            (Some(1), &[1]),
            (Some(256), &[0]),
            (Some(257), &[0, 1, 1]),
            (Some(65_536), &[0, 0, 0]),
        ] {
            assert_eq!(
                chained(header, &[], ne, 255),
                [[&header[..], behind].concat()]
            );
        }
    }

    #[test]
    fn lengths_at_their_borders() {
        let sizes = |data: usize, most| -> Vec<usize> {
            let links = chained(APPEND, &vec![7; data], None, most);
            links.iter().map(|link| data_of(link).len()).collect()
        };
        assert_eq!(sizes(255, 255), [255]);
        assert_eq!(sizes(256, 255), [255, 1]);
        assert_eq!(sizes(510, 255), [255, 255]);
        assert_eq!(sizes(900, 228), [228, 228, 228, 216]);
        assert_eq!(sizes(1_024, 256), [256; 4]);
        assert_eq!(sizes(1_025, usize::MAX), [1_024, 1]);
    }

    #[test]
    #[should_panic]
    fn an_ne_of_0() {
        chained(SEARCH, &[1], Some(0), 255);
    }

    /// However a certificate is split, card and session are then those of the whole command.
    #[test]
    fn every_split_of_a_certificate() {
        let certificate = certificate();
        let (mut whole, mut after) = travel();
        let links = chained(APPEND, &certificate, None, 900);
        assert_eq!(links.len(), 1);
        assert_eq!(send(&mut whole, &mut after, &links), (vec![], 0x9000));
        for most in [
            1, 2, 3, 100, 127, 128, 224, 225, 228, 255, 256, 299, 300, 450, 899,
        ] {
            let (mut image, mut session) = travel();
            let links = chained(APPEND, &certificate, None, most);
            assert_eq!(links.len(), 900_usize.div_ceil(most));
            assert_eq!(send(&mut image, &mut session, &links), (vec![], 0x9000));
            assert!(image == whole && session == after);
        }
    }

    /// A search of the certificates, split in each way.
    #[test]
    fn every_split_of_a_search() {
        let (mut image, mut session) = travel();
        for record in [&[1, 2, 3][..], &[4, 5, 6], &[0, 4, 5]] {
            let links = chained(APPEND, record, None, 2);
            assert_eq!(send(&mut image, &mut session, &links), (vec![], 0x9000));
        }
        let data = [
            &[0x7F, 0x76, 0x18, 0x51, 1, 0xD0, 0xA1, 0x0B, 0x80, 1, 0][..],
            &[0xB0, 6, 2, 1, 0, 2, 1, 0, 0xA3, 6, 0xB1, 4, 0x81, 2, 4, 5],
        ]
        .concat();
        let found = vec![0x7F, 0x76, 9, 0x51, 1, 0xD0, 2, 1, 2, 2, 1, 3];
        for most in 1..=data.len() {
            for ne in [256, 65_536] {
                let links = chained(SEARCH, &data, Some(ne), most);
                let answer = send(&mut image, &mut session, &links);
                assert_eq!(answer, (found.clone(), 0x9000));
            }
        }
    }

    #[test]
    fn more_than_a_command_may_have() {
        let (mut image, mut session) = travel();
        let before = (image.clone(), session.clone());
        for most in [1_024, 1_000, 256, 255, 100] {
            let links = chained(APPEND, &[7; 1_025], None, most);
            assert_eq!(send(&mut image, &mut session, &links), (vec![], 0x6700));
            assert_eq!((&image, &session), (&before.0, &before.1));
        }
        // At a link before the last, the chain is dropped there.
        let links = chained(APPEND, &[7; 1_300], None, 256);
        for link in &links[..4] {
            assert_eq!(run(&mut image, &mut session, link), (vec![], 0x9000));
        }
        assert_eq!(session.chain().unwrap().data, [7; 1_024]);
        assert_eq!(run(&mut image, &mut session, &links[4]), (vec![], 0x6700));
        assert_eq!((image, session), before);
    }

    /// A cut of the last link makes the stores of all the data. The chain stays open.
    #[test]
    fn a_cut_of_links() {
        let (mut image, mut session) = travel();
        let links = chained(APPEND, &certificate(), None, 228);
        for link in &links[..3] {
            assert_eq!(cut(&mut image, &session, link, 9), Ok(0));
            assert_eq!(run(&mut image, &mut session, link), (vec![], 0x9000));
        }
        let before = session.clone();
        for stores in [0, 3, 903] {
            assert_eq!(cut(&mut image, &session, &links[3], stores), Ok(904));
            assert_eq!(image[98..100], [0, 0]);
        }
        assert_eq!(session, before);
        assert_eq!(run(&mut image, &mut session, &links[3]), (vec![], 0x9000));
        assert_eq!(image[98..102], [1, 0, 0x84, 3]);
    }

    #[test]
    fn sessions_with_chains_that_cannot_be() {
        let (mut image, session) = travel();
        let with = |chain: &[u8]| {
            let mut bytes = *session.as_bytes();
            bytes[CHAIN_AT..][..chain.len()].copy_from_slice(chain);
            Session::from_bytes(bytes)
        };
        let good = with(&[1, 0, 0xE2, 0x00, 0xD0, 7]);
        assert_eq!(good.chain().unwrap().data, [7]);
        assert_eq!(cut(&mut image, &good, &[0x00, 0xE2, 0x00, 0xD0], 0), Ok(5));
        // No byte, a byte behind, 1,025 bytes, an INS that no command has, a P2 that APPEND RECORD has not.
        for (chain, length) in [
            (&[0, 0, 0xE2, 0x00, 0xD0][..], None),
            (&[1, 0, 0xE2, 0x00, 0xD0, 7, 7], Some(1)),
            (&[1, 4, 0xE2, 0x00, 0xD0, 7], None),
            (&[1, 0, 0xE3, 0x00, 0xD0, 7], Some(1)),
            (&[1, 0, 0xE2, 0x00, 0xD1, 7], Some(1)),
        ] {
            let mut bad = with(chain);
            assert_eq!(bad.chain().map(|chain| chain.data.len()), length);
            let mut response = [0; RESPONSE_LEN];
            let refused = command(&mut image, &mut bad, &[0; 4], &mut response);
            assert_eq!(refused, Err(Refusal::BadSession));
            assert_eq!(bad, with(chain));
        }
    }
}
