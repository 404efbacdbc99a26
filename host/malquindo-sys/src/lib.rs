//! The twelve functions of `include/malquindo.h`, declared as they stand there, and the same
//! functions on slices ([`rights`], [`open`], [`command`], [`cut`], [`move_card`],
//! [`file`](fn@file), [`certificate`], [`index_build`], [`index_extend`], [`index_read`] and
//! [`stamp_read`]), which are safe to call.
//!
//! Most callers want the crate `malquindo`, which has types for sessions, answers and refusals.
//!
//! What the caller of a function in C owes, and nothing checks: each pointer is to as many
//! elements as its length says, aligned for them, valid for reading and, where it is `*mut`, for
//! writing; no argument that is written overlaps another; no pointer is null, even where the
//! length is 0. No function keeps a pointer.

#![no_std]

extern "C" {
    /// How many bytes a session has.
    pub fn malquindo_session_len() -> usize;

    /// Reads the rights of three certificates, each from the run of its extensions. The result is
    /// refusal * 2^32.
    pub fn malquindo_rights(
        first: *const u8,
        first_len: usize,
        second: *const u8,
        second_len: usize,
        third: *const u8,
        third_len: usize,
        rights: *mut u8,
        rights_len: usize,
    ) -> u64;

    /// Opens a session with the rights of three certificates. The result is refusal * 2^32.
    pub fn malquindo_open(
        rights: *const u8,
        rights_len: usize,
        session: *mut u8,
        session_len: usize,
    ) -> u64;

    /// One command. The result is refusal * 2^32 + length * 2^16 + status.
    pub fn malquindo_command(
        image: *mut u8,
        image_len: usize,
        session: *mut u8,
        session_len: usize,
        command: *const u8,
        command_len: usize,
        response: *mut u8,
        response_len: usize,
    ) -> u64;

    /// What a cut behind so many stores of a command leaves of the image. The result is
    /// refusal * 2^32 + how many stores the command has in all.
    pub fn malquindo_cut(
        image: *mut u8,
        image_len: usize,
        session: *const u8,
        session_len: usize,
        command: *const u8,
        command_len: usize,
        stores: usize,
    ) -> u64;

    /// Moves a card to rooms of other sizes. The result is refusal * 2^32 + length of the new
    /// image.
    pub fn malquindo_move(
        old: *const u8,
        old_len: usize,
        list: *const u8,
        list_len: usize,
        target: *mut u8,
        target_len: usize,
    ) -> u64;

    /// Where the body of a file stands in an image. The result is place * 2^32 + length; 0 where
    /// there is no such file.
    pub fn malquindo_file(image: *const u8, image_len: usize, kind: u16) -> u64;

    /// The certificate that a stamp names. The result is refusal * 2^32 + which * 2^28 +
    /// place * 2^10 + length.
    pub fn malquindo_certificate(
        card: *const u8,
        card_len: usize,
        desk: *const u8,
        desk_len: usize,
        reference: u8,
    ) -> u64;

    /// Builds an index of a body's records. The result is refusal * 2^32 + places written.
    pub fn malquindo_index_build(
        kind: u16,
        body: *const u8,
        body_len: usize,
        places: *mut u32,
        places_len: usize,
    ) -> u64;

    /// Extends an index of n places by the body's last record. The result is refusal * 2^32 +
    /// n + 1.
    pub fn malquindo_index_extend(
        kind: u16,
        body: *const u8,
        body_len: usize,
        places: *mut u32,
        places_len: usize,
        n: usize,
    ) -> u64;

    /// The record of a number, by its place in a list; `places_len` is the number of places that it
    /// holds. The result is refusal * 2^32 + length of the record.
    pub fn malquindo_index_read(
        body: *const u8,
        body_len: usize,
        places: *const u32,
        places_len: usize,
        number: usize,
    ) -> u64;

    /// Reads a record as a stamp. The result is 0, with the places of its fields in the list; or
    /// reason * 2^32 + offset of the first fault; or 15 * 2^32 for a list that is too short.
    pub fn malquindo_stamp_read(
        record: *const u8,
        record_len: usize,
        places: *mut u32,
        places_len: usize,
    ) -> u64;
}

/// `malquindo_session_len`.
pub fn session_len() -> usize {
    // SAFETY: the function takes nothing.
    unsafe { malquindo_session_len() }
}

/// `malquindo_rights` on slices of any length.
pub fn rights(first: &[u8], second: &[u8], third: &[u8], rights: &mut [u8]) -> u64 {
    // SAFETY: pointers and lengths are those of slices, which are never null; the slice that is
    // written is borrowed by this call alone, and the others are only read, so that those which
    // overlap do no harm.
    unsafe {
        malquindo_rights(
            first.as_ptr(),
            first.len(),
            second.as_ptr(),
            second.len(),
            third.as_ptr(),
            third.len(),
            rights.as_mut_ptr(),
            rights.len(),
        )
    }
}

/// `malquindo_open` on slices of any length.
pub fn open(rights: &[u8], session: &mut [u8]) -> u64 {
    // SAFETY: pointers and lengths are those of slices, which are never null; the slice that is
    // written is borrowed by this call alone.
    unsafe {
        malquindo_open(
            rights.as_ptr(),
            rights.len(),
            session.as_mut_ptr(),
            session.len(),
        )
    }
}

/// `malquindo_command` on slices of any length.
pub fn command(image: &mut [u8], session: &mut [u8], command: &[u8], response: &mut [u8]) -> u64 {
    // SAFETY: pointers and lengths are those of slices, which are never null; the slices that are
    // written are borrowed by this call alone.
    unsafe {
        malquindo_command(
            image.as_mut_ptr(),
            image.len(),
            session.as_mut_ptr(),
            session.len(),
            command.as_ptr(),
            command.len(),
            response.as_mut_ptr(),
            response.len(),
        )
    }
}

/// `malquindo_cut` on slices of any length.
pub fn cut(image: &mut [u8], session: &[u8], command: &[u8], stores: usize) -> u64 {
    // SAFETY: pointers and lengths are those of slices, which are never null; the slice that is
    // written is borrowed by this call alone, and the others are only read, so that those which
    // overlap do no harm.
    unsafe {
        malquindo_cut(
            image.as_mut_ptr(),
            image.len(),
            session.as_ptr(),
            session.len(),
            command.as_ptr(),
            command.len(),
            stores,
        )
    }
}

/// `malquindo_move` on slices of any length.
pub fn move_card(old: &[u8], list: &[u8], target: &mut [u8]) -> u64 {
    // SAFETY: pointers and lengths are those of slices, which are never null; the slice that is
    // written is borrowed by this call alone.
    unsafe {
        malquindo_move(
            old.as_ptr(),
            old.len(),
            list.as_ptr(),
            list.len(),
            target.as_mut_ptr(),
            target.len(),
        )
    }
}

/// `malquindo_file` on a slice of any length.
pub fn file(image: &[u8], kind: u16) -> u64 {
    // SAFETY: pointer and length are those of a slice, which is never null; nothing is written.
    unsafe { malquindo_file(image.as_ptr(), image.len(), kind) }
}

/// `malquindo_certificate` on slices of any length.
pub fn certificate(card: &[u8], desk: &[u8], reference: u8) -> u64 {
    // SAFETY: pointers and lengths are those of slices, which are never null; nothing is written,
    // so slices that overlap do no harm.
    unsafe {
        malquindo_certificate(
            card.as_ptr(),
            card.len(),
            desk.as_ptr(),
            desk.len(),
            reference,
        )
    }
}

/// `malquindo_index_build` on slices of any length.
pub fn index_build(kind: u16, body: &[u8], places: &mut [u32]) -> u64 {
    // SAFETY: pointers and lengths are those of slices, which are never null and are aligned for
    // their elements; the slice that is written is borrowed by this call alone.
    unsafe {
        malquindo_index_build(
            kind,
            body.as_ptr(),
            body.len(),
            places.as_mut_ptr(),
            places.len(),
        )
    }
}

/// `malquindo_index_extend` on slices of any length.
pub fn index_extend(kind: u16, body: &[u8], places: &mut [u32], n: usize) -> u64 {
    // SAFETY: pointers and lengths are those of slices, which are never null and are aligned for
    // their elements; the slice that is written is borrowed by this call alone.
    unsafe {
        malquindo_index_extend(
            kind,
            body.as_ptr(),
            body.len(),
            places.as_mut_ptr(),
            places.len(),
            n,
        )
    }
}

/// `malquindo_index_read` on slices of any length.
// Inlined, since a read takes about as long as a call.
#[inline]
pub fn index_read(body: &[u8], places: &[u32], number: usize) -> u64 {
    // SAFETY: pointers and lengths are those of slices, which are never null and are aligned for
    // their elements; nothing is written, so slices that overlap do no harm.
    unsafe {
        malquindo_index_read(
            body.as_ptr(),
            body.len(),
            places.as_ptr(),
            places.len(),
            number,
        )
    }
}

/// `malquindo_stamp_read` on slices of any length.
pub fn stamp_read(record: &[u8], places: &mut [u32]) -> u64 {
    // SAFETY: pointers and lengths are those of slices, which are never null and are aligned for
    // their elements; the slice that is written is borrowed by this call alone.
    unsafe {
        malquindo_stamp_read(
            record.as_ptr(),
            record.len(),
            places.as_mut_ptr(),
            places.len(),
        )
    }
}
