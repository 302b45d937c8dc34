//! The calls of the C library. All unsafe code of the crate is here.

use std::mem::{align_of, size_of};

use crate::check::Finding;
use crate::digests::Digest;
use crate::error::{Error, Refused, Which};
use crate::Many;

/// Where a field is in the input: `struct cms_canon_row`.
#[repr(C)]
#[derive(Clone, Copy, Debug)]
pub(crate) struct Row {
    pub(crate) start: u64,
    pub(crate) length: u64,
    pub(crate) kind: u32,
    pub(crate) level: u32,
}

/// A digest that a message asks for: `struct cms_canon_digest_asked`.
#[repr(C)]
#[derive(Clone, Copy, Debug)]
pub(crate) struct DigestAsked {
    pub(crate) of: u32,
    pub(crate) algorithm: u32,
}

const _: () = assert!(size_of::<DigestAsked>() == 8 && size_of::<Digest>() == 68 && align_of::<Digest>() == 4); // as in the header

/// What became of a call: `struct cms_canon_outcome`.
#[repr(C)]
#[derive(Clone, Copy, Default)]
struct Outcome {
    status: u32,
    reason: u32,
    at: u64,
    octets: u64,
    name: [u8; 24],
}

/// What became of messages one after another: `struct cms_canon_many`.
#[repr(C)]
#[derive(Clone, Copy, Default)]
struct ManyOutcome {
    outcome: Outcome,
    messages: u64,
    read: u64,
}

const DONE: u32 = 0;
const DIFFERENT: u32 = 1;
const REFUSED: u32 = 3;
const OUT_OF_MEMORY: u32 = 5;
const ROOM_TOO_SMALL: u32 = 6;

const LISTING: usize = 8192; // the room of a first call: for octets, and the most for findings or rows
const RECORDS: usize = 65_536;
const DIGESTS: usize = 8; // rows of digests, for which this always suffices

#[rustfmt::skip]
#[allow(dead_code)] // of a call that no method uses
extern "C" {
    // The calls of the header: scripts/generate writes these.
    fn cms_canon_convert(
        input: *const u8, input_length: usize, limit: u64, output: *mut u8, output_room: usize, outcome: *mut Outcome,
    );
    fn cms_canon_convert_many(
        input: *const u8, input_length: usize, limit: u64, output: *mut u8, output_room: usize, many: *mut ManyOutcome,
    );
    fn cms_canon_extent(
        input: *const u8, input_length: usize, limit: u64, extent: *mut u64,
    );
    fn cms_canon_cover(
        input: *const u8, input_length: usize, path: *const u64, path_length: usize, content: *const u8, content_length: usize,
        has_content: bool, limit: u64, output: *mut u8, output_room: usize, outcome: *mut Outcome,
    );
    fn cms_canon_show(
        input: *const u8, input_length: usize, limit: u64, output: *mut u8, output_room: usize, outcome: *mut Outcome,
    );
    fn cms_canon_check(
        input: *const u8, input_length: usize, content: *const u8, content_length: usize, has_content: bool, data: *const u8,
        data_length: usize, has_data: bool, limit: u64, findings: *mut Finding, findings_room: usize, outcome: *mut Outcome,
    );
    fn cms_canon_digests_asked(
        input: *const u8, input_length: usize, limit: u64, asked: *mut DigestAsked, asked_room: usize, outcome: *mut Outcome,
    );
    fn cms_canon_check_digests(
        input: *const u8, input_length: usize, content: *const Digest, content_count: usize, has_content: bool,
        data: *const Digest, data_count: usize, has_data: bool, limit: u64, findings: *mut Finding, findings_room: usize,
        outcome: *mut Outcome,
    );
    fn cms_canon_same(
        first: *const u8, first_length: usize, second: *const u8, second_length: usize, limit: u64, outcome: *mut Outcome,
    );
    fn cms_canon_fields(
        input: *const u8, input_length: usize, limit: u64, fields: *mut Row, fields_room: usize, outcome: *mut Outcome,
    );
    fn cms_canon_tst_info_fields(
        content: *const u8, content_length: usize, fields: *mut Row, fields_room: usize, outcome: *mut Outcome,
    );
    fn cms_canon_pieces(
        input: *const u8, input_length: usize, limit: u64, pieces: *mut u64, pieces_room: usize, outcome: *mut Outcome,
    );
    fn cms_canon_changes(
        input: *const u8, input_length: usize, limit: u64, changes: *mut u64, changes_room: usize, outcome: *mut Outcome,
    );
    fn cms_canon_list_changes(
        input: *const u8, input_length: usize, json: bool, limit: u64, output: *mut u8, output_room: usize,
        outcome: *mut Outcome,
    );
    // The end of the calls.
}

impl Outcome {
    /// Why the call of a message failed. A status that is none of the header's is a fault of the library.
    fn error(&self, which: Which) -> Error {
        match self.status {
            REFUSED => Error::Refused(Refused::new(self.reason, self.at, self.name, which)),
            OUT_OF_MEMORY => Error::OutOfMemory,
            status => panic!("the library gives the status {status}"),
        }
    }
}

/// A vector with room for so many items. There is always room for one, so that its pointer is that of an allocation.
fn room_for<T>(room: u64) -> Result<Vec<T>, Error> {
    let mut items = Vec::new();
    let room = usize::try_from(room).map_err(|_| Error::OutOfMemory)?;
    items.try_reserve_exact(room.max(1))?;
    Ok(items)
}

/// Calls with room for so many items, and once more if they are too few. `call` is handed the pointer to the items, how many there
/// is room for, and the pointer to the outcome.
///
/// # Safety
///
/// If the status is then `DONE`, `call` has to have written as many items as `octets` says, which there was room for.
unsafe fn written<T>(room: usize, call: impl Fn(*mut T, usize, *mut Outcome)) -> Result<Vec<T>, Error> {
    let mut outcome = Outcome::default();
    let mut items = room_for(room as u64)?;
    call(items.as_mut_ptr(), items.capacity(), &mut outcome);
    if outcome.status == ROOM_TOO_SMALL {
        items = room_for(outcome.octets)?;
        call(items.as_mut_ptr(), items.capacity(), &mut outcome);
    }
    if outcome.status != DONE {
        return Err(outcome.error(Which::Only));
    }
    // SAFETY: the caller promises that so many items were written.
    unsafe { set_len(&mut items, outcome.octets) };
    Ok(items)
}

/// Says how many items were written to a vector.
///
/// # Safety
///
/// So many were written.
unsafe fn set_len<T>(items: &mut Vec<T>, written: u64) {
    assert!(written <= items.capacity() as u64, "the library says that it has written {written} to {}", items.capacity());
    // SAFETY: there is room for them, and the caller promises that they were written.
    unsafe { items.set_len(written as usize) };
}

/// The items, or an empty slice in place of those that are absent: its pointer is not NULL.
fn or_empty<T>(items: Option<&[T]>) -> &[T] {
    items.unwrap_or_default()
}

pub(crate) fn convert(input: &[u8], limit: u64) -> Result<Vec<u8>, Error> {
    // SAFETY: the pointers are those of slices and of a vector with this room, and the outcome says how much was written.
    unsafe {
        written(input.len() + 64, |output, room, outcome| {
            cms_canon_convert(input.as_ptr(), input.len(), limit, output, room, outcome);
        })
    }
}

pub(crate) fn convert_many(input: &[u8], limit: u64) -> Result<Many, Error> {
    let mut many = ManyOutcome::default();
    let mut der = room_for(input.len() as u64 + 64)?;
    let call = |der: &mut Vec<u8>, many: &mut ManyOutcome| {
        // SAFETY: the pointers are those of a slice and of a vector with this room.
        unsafe {
            cms_canon_convert_many(input.as_ptr(), input.len(), limit, der.as_mut_ptr(), der.capacity(), many);
        }
    };
    call(&mut der, &mut many);
    if many.outcome.status == ROOM_TOO_SMALL {
        der = room_for(many.outcome.octets)?;
        call(&mut der, &mut many);
    }
    let refused = match many.outcome.status {
        DONE => None,
        _ => match many.outcome.error(Which::Number(many.messages)) {
            Error::Refused(refused) => Some(refused),
            Error::OutOfMemory => return Err(Error::OutOfMemory),
        },
    };
    // SAFETY: of a call that is done, or that refuses a message, the outcome says how many octets it has written.
    unsafe { set_len(&mut der, many.outcome.octets) };
    Ok(Many { der, messages: many.messages, read: many.read, refused })
}

pub(crate) fn cover(input: &[u8], path: &[u64], content: Option<&[u8]>, limit: u64) -> Result<Vec<u8>, Error> {
    let given = or_empty(content);
    // SAFETY: as in `convert`.
    unsafe {
        written(input.len().max(given.len()), |output, room, outcome| {
            let (path, length) = (path.as_ptr(), path.len());
            let has_content = content.is_some();
            cms_canon_cover(
                input.as_ptr(),
                input.len(),
                path,
                length,
                given.as_ptr(),
                given.len(),
                has_content,
                limit,
                output,
                room,
                outcome,
            );
        })
    }
}

pub(crate) fn show(input: &[u8], limit: u64) -> Result<Vec<u8>, Error> {
    // SAFETY: as in `convert`.
    unsafe {
        written(LISTING, |output, room, outcome| {
            cms_canon_show(input.as_ptr(), input.len(), limit, output, room, outcome);
        })
    }
}

/// A change: `struct cms_canon_change`, as its words.
#[repr(transparent)]
#[derive(Clone, Copy)]
pub(crate) struct ChangeRow(pub(crate) [u64; 8]);

pub(crate) fn changes(input: &[u8], limit: u64) -> Result<Vec<ChangeRow>, Error> {
    // SAFETY: as in `convert`, with changes in place of octets.
    unsafe {
        written(first_records(input), |changes: *mut ChangeRow, room, outcome| {
            cms_canon_changes(input.as_ptr(), input.len(), limit, changes.cast(), room, outcome);
        })
    }
}

pub(crate) fn list_changes(input: &[u8], json: bool, limit: u64) -> Result<Vec<u8>, Error> {
    // SAFETY: as in `convert`.
    unsafe {
        written(LISTING, |output, room, outcome| {
            cms_canon_list_changes(input.as_ptr(), input.len(), json, limit, output, room, outcome);
        })
    }
}

pub(crate) fn check(input: &[u8], content: Option<&[u8]>, data: Option<&[u8]>, limit: u64) -> Result<Vec<Finding>, Error> {
    let (given, stamped) = (or_empty(content), or_empty(data));
    // SAFETY: as in `convert`, with findings in place of octets.
    unsafe {
        written(first_records(input), |findings, room, outcome| {
            let (has_content, has_data) = (content.is_some(), data.is_some());
            cms_canon_check(
                input.as_ptr(),
                input.len(),
                given.as_ptr(),
                given.len(),
                has_content,
                stamped.as_ptr(),
                stamped.len(),
                has_data,
                limit,
                findings,
                room,
                outcome,
            );
        })
    }
}

pub(crate) fn digests_asked(input: &[u8], limit: u64) -> Result<Vec<DigestAsked>, Error> {
    // SAFETY: as in `convert`, with rows in place of octets.
    unsafe {
        written(DIGESTS, |asked, room, outcome| {
            cms_canon_digests_asked(input.as_ptr(), input.len(), limit, asked, room, outcome);
        })
    }
}

pub(crate) fn check_digests(
    input: &[u8],
    content: Option<&[Digest]>,
    data: Option<&[Digest]>,
    limit: u64,
) -> Result<Vec<Finding>, Error> {
    let (given, stamped) = (or_empty(content), or_empty(data));
    // SAFETY: as in `check`.
    unsafe {
        written(first_records(input), |findings, room, outcome| {
            let (has_content, has_data) = (content.is_some(), data.is_some());
            cms_canon_check_digests(
                input.as_ptr(),
                input.len(),
                given.as_ptr(),
                given.len(),
                has_content,
                stamped.as_ptr(),
                stamped.len(),
                has_data,
                limit,
                findings,
                room,
                outcome,
            );
        })
    }
}

pub(crate) fn same(first: &[u8], second: &[u8], limit: u64) -> Result<bool, Error> {
    let mut outcome = Outcome::default();
    // SAFETY: the pointers are those of slices and of an outcome.
    unsafe {
        cms_canon_same(first.as_ptr(), first.len(), second.as_ptr(), second.len(), limit, &mut outcome);
    }
    match outcome.status {
        DONE => Ok(true),
        DIFFERENT => Ok(false),
        _ => Err(outcome.error(if outcome.octets == 1 { Which::First } else { Which::Second })),
    }
}

/// The rows of a message.
pub(crate) fn fields(input: &[u8], limit: u64) -> Result<Vec<Row>, Error> {
    // SAFETY: as in `convert`, with rows in place of octets.
    unsafe {
        written(first_records(input), |fields, room, outcome| {
            cms_canon_fields(input.as_ptr(), input.len(), limit, fields, room, outcome);
        })
    }
}

/// The rows of a TSTInfo.
pub(crate) fn tst_info_fields(content: &[u8]) -> Result<Vec<Row>, Error> {
    // SAFETY: as in `fields`.
    unsafe {
        written(first_records(content), |fields, room, outcome| {
            cms_canon_tst_info_fields(content.as_ptr(), content.len(), fields, room, outcome);
        })
    }
}

/// The room for findings or rows of a first call. A long message that is mostly content or certificates has few of them.
fn first_records(input: &[u8]) -> usize {
    (input.len() / 2 + 1).min(RECORDS)
}
