//! The stack that one call takes: the call is made by a thread on memory of
//! ours that is filled with a pattern, and before the thread ends it looks how
//! far down the pattern is gone. An empty call is measured alike and taken
//! off. Two patterns, so that a byte which happens to equal one is seen.
//! The report of a call, and the frame of ours that makes it, are part of the
//! figure.

#![allow(unsafe_code)]

use crate::contenders::{Contest, Question};
use std::alloc::{alloc, dealloc, Layout};
use std::ffi::{c_int, c_ulong, c_void};
use std::hint::black_box;
use std::sync::OnceLock;

/// Far more than a call takes.
const PAINTED_BYTES: usize = 256 << 10;
const PAGE_BYTES: usize = 4_096;
const PATTERNS: [u8; 2] = [0xA5, 0x5A];

/// More than an empty call takes, where the thread's start has written nothing
/// further down: that would hide as much of a call.
const EMPTY_BYTES: usize = 64;

/// At least as large as the C library's own.
#[repr(C, align(16))]
struct Attributes([u8; 256]);

unsafe extern "C" {
    fn pthread_attr_init(attributes: *mut Attributes) -> c_int;
    fn pthread_attr_setstack(attributes: *mut Attributes, low: *mut c_void, size: usize) -> c_int;
    fn pthread_attr_destroy(attributes: *mut Attributes) -> c_int;
    fn pthread_create(
        thread: *mut c_ulong,
        attributes: *const Attributes,
        start: extern "C" fn(*mut c_void) -> *mut c_void,
        argument: *mut c_void,
    ) -> c_int;
    fn pthread_join(thread: c_ulong, result: *mut *mut c_void) -> c_int;
}

/// What the thread is given, and gives back.
struct Errand<'a> {
    call: &'a mut (dyn FnMut() + Send),
    low: *const u8,
    pattern: u8,
    /// How far below this frame the pattern is gone.
    depth: usize,
}

extern "C" fn start(argument: *mut c_void) -> *mut c_void {
    // SAFETY: `depth_with` passes its own errand, and waits for this thread
    // before it touches it again.
    let errand = unsafe { &mut *argument.cast::<Errand>() };
    let marker = 0_u8;
    let here = black_box(&marker) as *const u8 as usize;
    (errand.call)();
    let mut place = errand.low;
    // SAFETY: from the lowest byte of this thread's stack up to this frame all
    // is memory of the stack's; reading it is harmless.
    while (place as usize) < here && unsafe { place.read_volatile() } == errand.pattern {
        place = place.wrapping_add(1);
    }
    errand.depth = here - place as usize;
    std::ptr::null_mut()
}

/// How many bytes below the calling frame are overwritten by the call.
fn depth_with(call: &mut (dyn FnMut() + Send), pattern: u8) -> usize {
    let layout = Layout::from_size_align(PAINTED_BYTES, PAGE_BYTES).expect("a whole layout");
    // SAFETY: the layout is not empty; the memory is filled before it is used,
    // and freed after the thread that ran on it has ended. The attributes are
    // set up before they are used, and `errand` outlives the thread.
    unsafe {
        let low = alloc(layout);
        assert!(!low.is_null(), "memory for a stack");
        low.write_bytes(pattern, PAINTED_BYTES);
        let mut errand = Errand { call, low, pattern, depth: 0 };
        let mut attributes = Attributes([0; 256]);
        let mut thread = 0;
        let made = [
            pthread_attr_init(&mut attributes),
            pthread_attr_setstack(&mut attributes, low.cast(), PAINTED_BYTES),
            pthread_create(&mut thread, &attributes, start, (&raw mut errand).cast()),
            pthread_join(thread, std::ptr::null_mut()),
            pthread_attr_destroy(&mut attributes),
        ];
        assert_eq!(made, [0; 5], "a thread on a stack of ours");
        assert_eq!(low.read(), pattern, "the stack of ours is large enough");
        dealloc(low, layout);
        errand.depth
    }
}

fn deepest(call: &mut (dyn FnMut() + Send)) -> usize {
    PATTERNS.map(|pattern| depth_with(call, pattern)).into_iter().max().unwrap_or(0)
}

/// The bytes that the call takes, beyond an empty one.
fn depth(call: &mut (dyn FnMut() + Send)) -> usize {
    static EMPTY: OnceLock<usize> = OnceLock::new();
    let empty = *EMPTY.get_or_init(|| deepest(&mut || {}));
    assert!(empty < EMPTY_BYTES, "nothing is written below the frame before the call");
    deepest(call).saturating_sub(empty)
}

/// What the call takes in today's library, then in the earlier one where it can
/// be asked.
pub fn stacks<C: Contest>(question: &Question) -> Vec<usize> {
    let mut question = question.clone();
    C::asked(&question.clone())
        .map(|function| depth(&mut || _ = black_box(function.library(&mut question))))
        .collect()
}

#[cfg(test)]
mod tests {
    use super::*;
    use crate::classes::classes;
    use crate::libraries::{Check, Clauses, Lookup};

    const FILLED: usize = 5_000;

    /// What the frame around the filled bytes may take.
    const FRAME: usize = 1_000;

    /// What the crate's own frames may take, as it says at its `STACK_BYTES`.
    const CRATE: usize = 512;

    fn filled(byte: u8) -> usize {
        depth(&mut || {
            let mut bytes = [byte; FILLED];
            black_box(&mut bytes);
        })
    }

    #[test]
    fn filled_bytes_are_measured() {
        let measured = filled(0);
        assert!((FILLED..FILLED + FRAME).contains(&measured), "{measured}");
    }

    #[test]
    fn bytes_filled_with_a_pattern_are_measured() {
        for pattern in PATTERNS {
            let measured = filled(pattern);
            assert!((FILLED..FILLED + FRAME).contains(&measured), "{measured}");
        }
    }

    #[test]
    fn an_empty_call_takes_nothing() {
        assert_eq!(depth(&mut || {}), 0);
    }

    #[test]
    fn the_crate_takes_little_more_than_the_library() {
        for class in classes() {
            let (query, question) = (&class.query, Question::about(&class.query));
            let check = depth(&mut || _ = black_box(zunidelo::check(query)));
            let lookup = depth(&mut || _ = black_box(zunidelo::lookup(query, 0, 0)));
            let clauses = depth(&mut || _ = black_box(zunidelo::clauses(query)));
            assert!(check < stacks::<Check>(&question)[0] + CRATE, "{check}");
            assert!(lookup < stacks::<Lookup>(&question)[0] + CRATE, "{lookup}");
            assert!(clauses < stacks::<Clauses>(&question)[0] + CRATE, "{clauses}");
        }
    }
}
