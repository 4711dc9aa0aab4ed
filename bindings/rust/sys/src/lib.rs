#![doc = include_str!("../README.md")]
#![warn(missing_debug_implementations, clippy::undocumented_unsafe_blocks)]

mod calls;
pub use calls::*;

/// Whether this is the version of the header that the declarations were made of. A binding asserts it in a constant, of its own version.
///
/// ```
/// const _: () = assert!(g1heap_sys::is_version(g1heap_sys::G1_VERSION) && !g1heap_sys::is_version("0.1"));
/// ```
pub const fn is_version(text: &str) -> bool {
    let (one, other) = (text.as_bytes(), G1_VERSION.as_bytes());
    let mut at = 0;
    while at < one.len() && at < other.len() && one[at] == other[at] {
        at += 1;
    }
    at == one.len() && at == other.len()
}
const _: () = assert!(is_version(env!("CARGO_PKG_VERSION")), "the declarations were made of a header of another version than the crate");

/// A policy for a new heap of these sizes, as [`g1_policy_start`] writes it.
///
/// # Panics
///
/// Where the archive is of another version ([`g1_version`]), or writes more words than a [`g1_policy`] has, or fewer.
pub fn started_policy(sizes: &g1_sizes) -> g1_policy {
    const VERSION: u32 = G1_VERSION_MAJOR * 65536 + G1_VERSION_MINOR * 256 + G1_VERSION_PATCH;
    // SAFETY: it takes nothing and changes nothing.
    let linked = unsafe { g1_version() };
    assert!(linked == VERSION, "the archive is of another version than the crate: {}, and here {}", linked, VERSION);
    const WORDS: usize = std::mem::size_of::<g1_policy>() / 8;
    let started = |fill: u64| {
        let mut words = [fill; WORDS + 64];
        // SAFETY: there is room for more than a policy, and the numbers of the sizes may be any.
        unsafe { g1_policy_start(words.as_mut_ptr().cast(), sizes) };
        words
    };
    let (words, others) = (started(0), started(u64::MAX));
    let written = words.iter().zip(others).rposition(|(word, other)| *word != 0 || other != u64::MAX).map_or(0, |last| last + 1);
    assert!(written == WORDS, "the archive is of another version than the crate: its policy has {} words, and here {}", written, WORDS);
    // SAFETY: the words begin with a policy, of plain numbers, and are aligned as one.
    unsafe { *words.as_ptr().cast() }
}

#[cfg(feature = "recorded")]
pub use recorded::*;
#[cfg(feature = "recorded")]
mod recorded {
    use super::g1_heap;
    use std::os::raw::{c_char, c_int, c_void};

    /// Takes a line of a record, and answers 0; else no more lines come. It must not call the heap.
    #[allow(non_camel_case_types)]
    pub type g1_line_writer = extern "C" fn(context: *mut c_void, line: *const c_char, bytes: usize) -> c_int;
    extern "C" {
        /// From now on each step is written, as `g1heap_record.h` says; with none for `write` no more.
        pub fn g1_record(heap: *mut g1_heap, write: Option<g1_line_writer>, context: *mut c_void) -> u32;
    }
}
