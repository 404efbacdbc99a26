//! The rights of three certificates.

use crate::RIGHTS_LEN;
use std::fmt;

/// Why the extensions of three certificates give no rights. [`RightsRefusal::number`] is the number
/// that the library answers. It tells of the first extension at fault, those of the first
/// certificate coming first. The third number that the header has, 1 for a buffer that is too
/// short, cannot occur here.
#[derive(Clone, Copy, Debug, PartialEq, Eq)]
pub enum RightsRefusal {
    /// 7: an extension is not well formed, or the rights of a known one have the wrong size.
    BadExtension,
    /// 8: a known extension stands in a certificate for the second time.
    SecondExtension,
    /// Any other number. The library that this crate was written for answers none; one of
    /// another version may.
    Unknown(u32),
}

impl RightsRefusal {
    /// The number that the library answers for this refusal.
    pub fn number(self) -> u32 {
        match self {
            Self::BadExtension => 7,
            Self::SecondExtension => 8,
            Self::Unknown(number) => number,
        }
    }

    /// The refusal of this number, which is not 0.
    fn of_number(number: u32) -> Self {
        match number {
            7 => Self::BadExtension,
            8 => Self::SecondExtension,
            other => Self::Unknown(other),
        }
    }
}

impl fmt::Display for RightsRefusal {
    fn fmt(&self, f: &mut fmt::Formatter<'_>) -> fmt::Result {
        f.write_str(match self {
            Self::BadExtension => {
                "an extension is not well formed, \
                 or the rights of a known one have the wrong size"
            }
            Self::SecondExtension => "a certificate has a known extension twice",
            Self::Unknown(number) => return write!(f, "refusal {number}, which is not known here"),
        })
    }
}

impl std::error::Error for RightsRefusal {}

/// Reads the rights of three certificates, each from the run of its extensions: the bytes that
/// [`open`](crate::open) takes.
///
/// An extension is `73`{`06` identifier, `53` rights}. Those of travel, visa and biometrics are
/// known and stand in any order; any other is passed over, whatever rights it has. What is absent
/// is zero. A certificate without extensions is the empty run.
///
/// Where one of the three is refused there are no rights at all, even if the others are without a
/// fault.
///
/// ```
/// use malquindo::RightsRefusal;
///
/// // Travel, with all its rights (0F).
/// let travel = b"\x73\x0D\x06\x08\x67\x81\x08\x01\x01\x09\x01\x03\x53\x01\x0F";
/// let rights = malquindo::rights(travel, travel, travel)?;
/// assert_eq!(rights[..3], [0x01, 0x0F, 0x00]);
/// let session = malquindo::open(&rights)?;
/// assert_eq!(session.as_bytes()[..3], [0x01, 0x0F, 0x00]);
///
/// // A right that one certificate lacks is lacking: this one has no extension.
/// let session = malquindo::open(&malquindo::rights(travel, &[], travel)?)?;
/// assert_eq!(session.as_bytes(), &[0; malquindo::SESSION_LEN]);
///
/// let cut = malquindo::rights(travel, travel, &travel[..14]);
/// assert_eq!(cut, Err(RightsRefusal::BadExtension));
/// let twice = malquindo::rights(travel, &travel.repeat(2), travel);
/// assert_eq!(twice, Err(RightsRefusal::SecondExtension));
/// # Ok::<(), Box<dyn std::error::Error>>(())
/// ```
pub fn rights(
    first: &[u8],
    second: &[u8],
    third: &[u8],
) -> Result<[u8; RIGHTS_LEN], RightsRefusal> {
    let mut rights = [0; RIGHTS_LEN];
    let result = malquindo_sys::rights(first, second, third, &mut rights);
    accepted(result).map(|()| rights)
}

/// The refusal that a result tells, if any.
fn accepted(result: u64) -> Result<(), RightsRefusal> {
    match (result >> 32) as u32 {
        0 => Ok(()),
        number => Err(RightsRefusal::of_number(number)),
    }
}

#[cfg(test)]
mod tests {
    use super::*;
    use RightsRefusal::{BadExtension, SecondExtension};

    /// An object of fewer than 65,536 bytes.
    fn object(tag: u8, value: &[u8]) -> Vec<u8> {
        let [high, low] = (value.len() as u16).to_be_bytes();
        let length = match value.len() {
            ..=0x7F => vec![low],
            0x80..=0xFF => vec![0x81, low],
            _ => vec![0x82, high, low],
        };
        [&[tag], &length[..], value].concat()
    }

    fn extension(identifier: &[u8], rights: &[u8]) -> Vec<u8> {
        object(
            0x73,
            &[object(0x06, identifier), object(0x53, rights)].concat(),
        )
    }

    /// The extension of an application: 1 travel, 2 visa, 3 biometrics.
    fn known(application: u8, rights: &[u8]) -> Vec<u8> {
        let identifier = [0x67, 0x81, 0x08, 0x01, 0x01, 0x09, application, 0x03];
        extension(&identifier, rights)
    }

    fn travel() -> Vec<u8> {
        known(1, &[0xF1])
    }

    fn visa() -> Vec<u8> {
        known(2, &[0xF2])
    }

    fn biometrics() -> Vec<u8> {
        known(3, &[0xF3; 17])
    }

    /// What a run gives in each of the three places, where the other two runs are empty.
    fn alone(run: &[u8]) -> Result<[u8; 20], RightsRefusal> {
        let in_place = [
            rights(run, &[], &[]),
            rights(&[], run, &[]),
            rights(&[], &[], run),
        ];
        let mut given = in_place.into_iter().enumerate().map(|(place, rights)| {
            rights.map(|rights| {
                let part = 20 * place..20 * place + 20;
                let mut elsewhere = (0..60).filter(|at| !part.contains(at));
                assert!(elsewhere.all(|at| rights[at] == 0));
                rights[part].try_into().expect("20 bytes")
            })
        });
        let first = given.next().expect("three places");
        assert!(given.all(|other| other == first));
        first
    }

    #[test]
    fn every_order_of_every_selection() {
        let all = [travel(), visa(), biometrics()];
        for order in [
            [0, 1, 2],
            [0, 2, 1],
            [1, 0, 2],
            [1, 2, 0],
            [2, 0, 1],
            [2, 1, 0],
        ] {
            for count in 0..=3 {
                let there = &order[..count];
                let run: Vec<u8> = there.iter().flat_map(|which| all[*which].clone()).collect();
                let mut expected = [0; 20];
                for which in there {
                    expected[0] |= 1 << which;
                    let part = [1..2, 2..3, 3..20][*which].clone();
                    expected[part].fill(0xF1 + *which as u8);
                }
                assert_eq!(alone(&run), Ok(expected));
            }
        }
    }

    #[test]
    fn each_run_is_for_its_certificate() {
        let given = rights(&travel(), &visa(), &biometrics()).unwrap();
        assert_eq!(given[..20], alone(&travel()).unwrap());
        assert_eq!(given[20..40], alone(&visa()).unwrap());
        assert_eq!(given[40..], alone(&biometrics()).unwrap());
        assert_eq!(rights(&[], &[], &[]), Ok([0; 60]));
    }

    /// Whatever identifier and rights an unknown one has, also twice.
    #[test]
    fn unknown_ones_are_passed_over() {
        let known = [0x67, 0x81, 0x08, 0x01, 0x01, 0x09, 0x01, 0x03];
        let longer = [&known[..], &[0x00]].concat();
        let mut other = known;
        other[6] = 0x04;
        for identifier in [&[][..], &known[..7], &longer, &other, &[7; 300]] {
            for size in [0, 1, 17, 127, 128, 255, 256, 60_000] {
                let unknown = extension(identifier, &vec![0xFF; size]);
                assert_eq!(alone(&unknown), Ok([0; 20]));
                let run = [&unknown[..], &travel(), &unknown, &visa()].concat();
                assert_eq!(alone(&run), alone(&[travel(), visa()].concat()));
            }
        }
        // The longest inside there is; the run has more than 65,535 bytes.
        let longest = extension(&[], &[0xFF; 65_529]);
        assert_eq!(longest.len(), 65_539);
        assert_eq!(alone(&[longest, travel()].concat()), alone(&travel()));
    }

    #[test]
    fn bad_extensions() {
        let good = travel();
        for length in 1..good.len() {
            assert_eq!(alone(&good[..length]), Err(BadExtension));
        }
        let identifier = &good[2..12];
        let value = &good[12..];
        for inside in [
            &[][..],
            identifier,
            value,
            &[value, identifier].concat(),
            &[identifier, value, &[0x00]].concat(),
            &[identifier, value, value].concat(),
            &[identifier, &[0x53, 0x81, 0x01, 0x0F]].concat(),
            &[identifier, &[0x53, 0x02, 0x0F]].concat(),
        ] {
            assert_eq!(alone(&object(0x73, inside)), Err(BadExtension));
        }
        assert_eq!(alone(&object(0x72, &good[2..])), Err(BadExtension));
        assert_eq!(alone(&[&good[..], &[0x00]].concat()), Err(BadExtension));
        for (application, right) in [(1, 1), (2, 1), (3, 17)] {
            for size in (0..=20).filter(|size| *size != right) {
                let run = known(application, &vec![0xFF; size]);
                assert_eq!(alone(&run), Err(BadExtension));
            }
        }
    }

    #[test]
    fn a_known_one_twice() {
        for known in [travel(), visa(), biometrics()] {
            assert_eq!(alone(&known.repeat(2)), Err(SecondExtension));
            assert!(rights(&known, &known, &known).is_ok());
            let apart = [&known[..], &extension(&[], &[]), &known].concat();
            assert_eq!(alone(&apart), Err(SecondExtension));
        }
        // Of the second one both are true.
        let wrong_size = [travel(), known(1, &[])].concat();
        assert_eq!(alone(&wrong_size), Err(BadExtension));
    }

    #[test]
    fn the_first_fault_is_told() {
        let (bad, twice) = (travel()[1..].to_vec(), travel().repeat(2));
        assert_eq!(rights(&bad, &twice, &[]), Err(BadExtension));
        assert_eq!(rights(&twice, &bad, &[]), Err(SecondExtension));
        assert_eq!(rights(&[], &twice, &bad), Err(SecondExtension));
        assert_eq!(rights(&twice, &[], &bad), Err(SecondExtension));
        let both = [&twice[..], &bad].concat();
        assert_eq!(alone(&both), Err(SecondExtension));
    }

    /// The library's own bytes on a refusal, which the wrapper does not give: opening with them
    /// gives no rights.
    #[test]
    fn what_a_refusal_leaves() {
        let all = [travel(), visa(), biometrics()].concat();
        let mut bytes = [0xFF; 61];
        let result = malquindo_sys::rights(&all, &all, &[0x73], &mut bytes);
        assert_eq!(result, 7 << 32);
        assert_eq!(bytes[..60], [0; 60]);
        assert_eq!(bytes[60], 0xFF);
        let session = crate::open(&bytes[..60]).unwrap();
        assert_eq!(session.as_bytes(), &[0; crate::SESSION_LEN]);
        let short = malquindo_sys::rights(&all, &all, &all, &mut bytes[..59]);
        assert_eq!((short, bytes[60]), (1 << 32, 0xFF));
    }

    #[test]
    fn numbers_and_words() {
        assert_eq!(accepted(0), Ok(()));
        for number in 1..20 {
            let refusal = accepted(u64::from(number) << 32).unwrap_err();
            assert_eq!(refusal.number(), number);
            let known = matches!(number, 7 | 8);
            assert_eq!(refusal == RightsRefusal::Unknown(number), !known);
        }
        let words = "a certificate has a known extension twice";
        assert_eq!(SecondExtension.to_string(), words);
        let header = include_str!("../../../include/malquindo.h");
        let length = format!("#define MALQUINDO_RIGHTS_LEN {RIGHTS_LEN} ");
        assert!(header.contains(&length));
    }

    /// A chain opens the travel application where all three have its extension, and not else.
    #[test]
    fn of_a_card() {
        let mut image = [0; 138];
        let rooms = [(0x0101, 40), (0x0102, 40), (0x011A, 40)];
        crate::move_card(&[], &rooms, &mut image).unwrap();
        let select = [0x00, 0xA4, 0x04, 0x0C, 7, 0xA0, 0, 0, 2, 0x47, 0x20, 1];
        let mut status = |third: &[u8]| {
            let rights = rights(&travel(), &travel(), third).unwrap();
            let mut session = crate::open(&rights).unwrap();
            let mut response = [0; crate::RESPONSE_LEN];
            let answer = crate::command(&mut image, &mut session, &select, &mut response);
            answer.unwrap().status
        };
        assert_eq!(status(&travel()), 0x9000);
        assert_eq!(status(&visa()), 0x6982);
        assert_eq!(status(&[]), 0x6982);
    }
}
