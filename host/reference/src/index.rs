//! An index of a record body: a list of places, one for each record, so that a record is read
//! without a walk over those before it. A place is where the record's length stands in the body.
//!
//! Every refusal is number 6. Nothing is written before all is tested.

use crate::image::{record_at, RecordFile};
use crate::Refusal;

/// Fills the list's first entries with the places of the records. Gives how many there are.
pub fn build(kind: u16, body: &[u8], places: &mut [u32]) -> Result<usize, Refusal> {
    let file = RecordFile::alone(kind, body).ok_or(Refusal::Index)?;
    let list = places.get_mut(..file.count).ok_or(Refusal::Index)?;
    for (entry, place) in list.iter_mut().zip(file.length_places(body)) {
        *entry = place_in_list(place);
    }
    Ok(file.count)
}

/// Puts the place of the last record behind the n places that the list holds. The record must be
/// the one behind those n. Gives how many places the list holds then.
pub fn extend(kind: u16, body: &[u8], places: &mut [u32], n: usize) -> Result<usize, Refusal> {
    let file = RecordFile::alone(kind, body).ok_or(Refusal::Index)?;
    if n.checked_add(1) != Some(file.count) {
        return Err(Refusal::Index);
    }
    let entry = places.get_mut(n).ok_or(Refusal::Index)?;
    let place = file.length_places(body).nth(n).ok_or(Refusal::Index)?;
    *entry = place_in_list(place);
    Ok(file.count)
}

/// The record at the place that the list has for a number, from 1. Neither the body nor the other
/// places are tested: what the length at the place says is the answer.
pub fn read<'a>(body: &'a [u8], places: &[u32], number: usize) -> Result<&'a [u8], Refusal> {
    number
        .checked_sub(1)
        .and_then(|i| places.get(i))
        .and_then(|place| usize::try_from(*place).ok())
        .and_then(|place| record_at(body, place))
        .ok_or(Refusal::Index)
}

/// A place as the list has it. Each is below 2^18, for a file has at most 254 records, each of at
/// most 929 bytes.
fn place_in_list(place: usize) -> u32 {
    place as u32
}
