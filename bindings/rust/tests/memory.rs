//! Each growth of memory by the crate is refused in turn: the call then says that memory ran out.

use std::alloc::{GlobalAlloc, Layout, System};
use std::cell::Cell;

use cms_canon::{Digest, DigestAlgorithm, Error, Verdict};

thread_local! {
    /// How many growths are granted before one is refused; none are counted if it is `usize::MAX`.
    static LEFT: Cell<usize> = const { Cell::new(usize::MAX) };
}

struct Refusing;

/// Returns whether a growth is refused, and counts it.
fn is_refused() -> bool {
    let left = LEFT.get();
    if left != usize::MAX {
        LEFT.set(left.wrapping_sub(1));
    }
    left == 0
}

// SAFETY: it is the allocator of the system, or refuses.
unsafe impl GlobalAlloc for Refusing {
    unsafe fn alloc(&self, layout: Layout) -> *mut u8 {
        match is_refused() {
            true => std::ptr::null_mut(),
            // SAFETY: as the caller promises.
            false => unsafe { System.alloc(layout) },
        }
    }

    unsafe fn realloc(&self, old: *mut u8, layout: Layout, octets: usize) -> *mut u8 {
        match is_refused() {
            true => std::ptr::null_mut(),
            // SAFETY: as the caller promises.
            false => unsafe { System.realloc(old, layout, octets) },
        }
    }

    unsafe fn dealloc(&self, old: *mut u8, layout: Layout) {
        // SAFETY: as the caller promises.
        unsafe { System.dealloc(old, layout) }
    }
}

#[global_allocator]
static ALLOCATOR: Refusing = Refusing;

/// Returns how many growths a call asks for. With any one of them refused, it has to say that memory ran out.
fn growths(call: impl Fn() -> Result<(), Error>) -> usize {
    for granted in 0.. {
        LEFT.set(granted);
        let result = call();
        LEFT.set(usize::MAX);
        match result {
            Ok(()) => return granted,
            Err(fault) => assert_eq!(fault, Error::OutOfMemory, "after {granted} growths"),
        }
    }
    unreachable!()
}

/// A message whose content, whose key identifier and whose signature are in two segments each.
const IN_SEGMENTS: &[u8] = b"\
    \x30\x52\x06\x09\x2a\x86\x48\x86\xf7\x0d\x01\x07\x02\xa0\x45\x30\x43\x02\x01\x03\x31\x00\x30\x17\x06\x09\x2a\x86\
    \x48\x86\xf7\x0d\x01\x07\x01\xa0\x0a\x24\x08\x04\x02\x01\x02\x04\x02\x03\x04\x31\x23\x30\x21\x02\x01\x03\xa0\x06\
    \x04\x01\x01\x04\x01\x02\x30\x05\x06\x03\x2a\x03\x04\x30\x05\x06\x03\x2a\x03\x04\x24\x06\x04\x01\xa1\x04\x01\xa2";

/// A request for a time-stamp by SHA-256.
const REQUEST: &[u8] = b"\
    \x30\x34\x02\x01\x01\x30\x2f\x30\x0b\x06\x09\x60\x86\x48\x01\x65\x03\x04\x02\x01\x04\x20................................";

#[test]
fn refused_growths_are_errors() {
    let message: &[u8] = include_bytes!("../examples/message.ber");
    assert!(growths(|| cms_canon::convert(message).map(drop)) >= 1);
    assert!(growths(|| cms_canon::convert_many(message).map(drop)) >= 1);
    assert!(growths(|| cms_canon::show(message).map(drop)) >= 1);
    assert!(growths(|| cms_canon::cover(message, &[0], None).map(drop)) >= 1);
    assert!(growths(|| cms_canon::read(message).map(drop)) >= 5);
    assert!(growths(|| cms_canon::read(IN_SEGMENTS).map(drop)) >= 8);
    assert!(growths(|| cms_canon::check(message, None, None).map(drop)) >= 1);
    let digest = [Digest::new(DigestAlgorithm::Sha256, &[0; 32]).unwrap()];
    assert!(growths(|| cms_canon::digests_asked(REQUEST).map(drop)) >= 2);
    assert!(growths(|| cms_canon::check_digests(REQUEST, None, Some(&digest)).map(drop)) >= 1);
    assert!(growths(|| cms_canon::check_with(message, None, None, |_| Verdict::Good).map(drop)) >= 6);
}
