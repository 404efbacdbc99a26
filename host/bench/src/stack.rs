//! The stack one call uses, measured: the call runs on a painted stack of its own, and the lowest
//! byte that lost its paint tells how deep it went.

use crate::cases::{Case, Move, Rights, Stamp};
use compare::make::RIGHTS_LEN;
use compare::stamp::NUMBERS;
use std::arch::asm;

const STACK_LEN: usize = 1 << 20;
/// Two paints, for a byte written may happen to have one paint's value.
const PAINTS: [u8; 2] = [0xA5, 0x3C];

type Command =
    unsafe extern "C" fn(*mut u8, usize, *mut u8, usize, *const u8, usize, *mut u8, usize) -> u64;
type MoveCard = unsafe extern "C" fn(*const u8, usize, *const u8, usize, *mut u8, usize) -> u64;
type ReadStamp = unsafe extern "C" fn(*const u8, usize, *mut u32, usize) -> u64;
type ReadRights = unsafe extern "C" fn(
    *const u8,
    usize,
    *const u8,
    usize,
    *const u8,
    usize,
    *mut u8,
    usize,
) -> u64;
/// Makes the call that it is given.
type Trampoline<C> = unsafe extern "C" fn(*mut C);

/// What the trampoline of a command hands on.
struct Call {
    function: Command,
    image: Vec<u8>,
    session: Vec<u8>,
    command: Vec<u8>,
    response: Vec<u8>,
    result: u64,
}

/// What the trampoline of a move hands on.
struct MoveCall<'a> {
    function: MoveCard,
    case: &'a Move,
    target: Vec<u8>,
    result: u64,
}

/// What the trampoline of reading a stamp hands on.
struct StampCall<'a> {
    function: ReadStamp,
    case: &'a Stamp,
    places: [u32; NUMBERS],
    result: u64,
}

/// What the trampoline of reading rights hands on.
struct RightsCall<'a> {
    function: ReadRights,
    case: &'a Rights,
    rights: [u8; RIGHTS_LEN],
    result: u64,
}

/// Bytes of stack that the proved library uses in this call, below those of the trampoline and
/// of a function that does nothing.
pub fn of_case(case: &Case) -> usize {
    let used = depth(case, malquindo_sys::malquindo_command, case.status);
    used - depth(case, nothing, 0)
}

/// The deepest of a run with each paint; the status shows that the call ran as meant.
fn depth(case: &Case, function: Command, status: u16) -> usize {
    let deepest = PAINTS.iter().map(|paint| {
        let mut call = Call {
            function,
            image: case.image.clone(),
            session: case.session.clone(),
            command: case.command.clone(),
            response: vec![0; 2_050],
            result: 0,
        };
        let depth = painted_depth(*paint, trampoline, &mut call);
        assert_eq!(call.result as u16, status, "{}", case.name);
        depth
    });
    deepest.max().unwrap_or(0)
}

/// The same of a move to the sizes that the card has.
pub fn of_move(case: &Move) -> usize {
    let used = move_depth(case, malquindo_sys::malquindo_move, case.old.len());
    used - move_depth(case, no_move, 0)
}

fn move_depth(case: &Move, function: MoveCard, length: usize) -> usize {
    let deepest = PAINTS.iter().map(|paint| {
        let mut call = MoveCall {
            function,
            case,
            target: vec![0; case.old.len()],
            result: 0,
        };
        let depth = painted_depth(*paint, move_trampoline, &mut call);
        assert_eq!(call.result, length as u64, "{}", case.name);
        depth
    });
    deepest.max().unwrap_or(0)
}

/// The same of reading a stamp.
pub fn of_stamp(case: &Stamp) -> usize {
    let used = stamp_depth(case, malquindo_sys::malquindo_stamp_read, case.result);
    used - stamp_depth(case, no_stamp, 0)
}

fn stamp_depth(case: &Stamp, function: ReadStamp, result: u64) -> usize {
    let deepest = PAINTS.iter().map(|paint| {
        let mut call = StampCall {
            function,
            case,
            places: [0; NUMBERS],
            result: 0,
        };
        let depth = painted_depth(*paint, stamp_trampoline, &mut call);
        assert_eq!(call.result, result, "{}", case.name);
        depth
    });
    deepest.max().unwrap_or(0)
}

/// The same of reading rights.
pub fn of_rights(case: &Rights) -> usize {
    let used = rights_depth(case, malquindo_sys::malquindo_rights, case.result);
    used - rights_depth(case, no_rights, 0)
}

fn rights_depth(case: &Rights, function: ReadRights, result: u64) -> usize {
    let deepest = PAINTS.iter().map(|paint| {
        let mut call = RightsCall {
            function,
            case,
            rights: [0; RIGHTS_LEN],
            result: 0,
        };
        let depth = painted_depth(*paint, rights_trampoline, &mut call);
        assert_eq!(call.result, result, "{}", case.name);
        depth
    });
    deepest.max().unwrap_or(0)
}

/// Takes what `malquindo_command` takes and does nothing.
unsafe extern "C" fn nothing(
    _: *mut u8,
    _: usize,
    _: *mut u8,
    _: usize,
    _: *const u8,
    _: usize,
    _: *mut u8,
    _: usize,
) -> u64 {
    0
}

/// Takes what `malquindo_move` takes and does nothing.
unsafe extern "C" fn no_move(
    _: *const u8,
    _: usize,
    _: *const u8,
    _: usize,
    _: *mut u8,
    _: usize,
) -> u64 {
    0
}

/// Takes what `malquindo_stamp_read` takes and does nothing.
unsafe extern "C" fn no_stamp(_: *const u8, _: usize, _: *mut u32, _: usize) -> u64 {
    0
}

/// Takes what `malquindo_rights` takes and does nothing.
unsafe extern "C" fn no_rights(
    _: *const u8,
    _: usize,
    _: *const u8,
    _: usize,
    _: *const u8,
    _: usize,
    _: *mut u8,
    _: usize,
) -> u64 {
    0
}

/// Calls the function with the call's buffers.
///
/// # Safety
/// `call` points to a call that nothing else uses meanwhile.
unsafe extern "C" fn trampoline(call: *mut Call) {
    // SAFETY: the caller says so.
    let call = unsafe { &mut *call };
    // SAFETY: pointers and lengths are those of four buffers that do not overlap.
    call.result = unsafe {
        (call.function)(
            call.image.as_mut_ptr(),
            call.image.len(),
            call.session.as_mut_ptr(),
            call.session.len(),
            call.command.as_ptr(),
            call.command.len(),
            call.response.as_mut_ptr(),
            call.response.len(),
        )
    };
}

/// Calls the function with the move's buffers.
///
/// # Safety
/// `call` points to a call that nothing else uses meanwhile.
unsafe extern "C" fn move_trampoline(call: *mut MoveCall<'_>) {
    // SAFETY: the caller says so.
    let call = unsafe { &mut *call };
    // SAFETY: pointers and lengths are those of three buffers that do not overlap.
    call.result = unsafe {
        (call.function)(
            call.case.old.as_ptr(),
            call.case.old.len(),
            call.case.list.as_ptr(),
            call.case.list.len(),
            call.target.as_mut_ptr(),
            call.target.len(),
        )
    };
}

/// Calls the function with the stamp's record and a list for its places.
///
/// # Safety
/// `call` points to a call that nothing else uses meanwhile.
unsafe extern "C" fn stamp_trampoline(call: *mut StampCall<'_>) {
    // SAFETY: the caller says so.
    let call = unsafe { &mut *call };
    // SAFETY: pointers and lengths are those of a record and a list that do not overlap.
    call.result = unsafe {
        (call.function)(
            call.case.record.as_ptr(),
            call.case.record.len(),
            call.places.as_mut_ptr(),
            call.places.len(),
        )
    };
}

/// Calls the function with the runs and a buffer for their rights.
///
/// # Safety
/// `call` points to a call that nothing else uses meanwhile.
unsafe extern "C" fn rights_trampoline(call: *mut RightsCall<'_>) {
    // SAFETY: the caller says so.
    let call = unsafe { &mut *call };
    let [first, second, third] = &call.case.runs;
    // SAFETY: pointers and lengths are those of three runs and a buffer that do not overlap.
    call.result = unsafe {
        (call.function)(
            first.as_ptr(),
            first.len(),
            second.as_ptr(),
            second.len(),
            third.as_ptr(),
            third.len(),
            call.rights.as_mut_ptr(),
            call.rights.len(),
        )
    };
}

/// How many bytes from the top down to the lowest one that lost its paint.
fn painted_depth<C>(paint: u8, trampoline: Trampoline<C>, call: &mut C) -> usize {
    let mut stack = vec![paint; STACK_LEN + 16];
    let start = stack.as_mut_ptr();
    // A stack pointer is a multiple of 16 before a call.
    let top = start.wrapping_add(STACK_LEN + 16 - (start as usize) % 16);
    // SAFETY: `top` is within the buffer, which is far larger than any call needs; r12 keeps the
    // old stack pointer, as the callee gives it back; the callee does not unwind, since neither
    // the trampoline nor the library panics.
    unsafe {
        asm!(
            "mov r12, rsp",
            "mov rsp, {top}",
            "call {trampoline}",
            "mov rsp, r12",
            top = in(reg) top,
            trampoline = in(reg) trampoline,
            inout("rdi") std::ptr::from_mut(call) => _,
            out("r12") _,
            clobber_abi("C"),
        );
    }
    let untouched = stack.iter().take_while(|byte| **byte == paint).count();
    (top as usize - start as usize) - untouched
}
