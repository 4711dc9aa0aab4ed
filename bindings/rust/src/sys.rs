//! A heap as a type, by the calls of `g1heap.h`, which `g1heap-sys` declares. Nearly all `unsafe` of the crate is here: each number that a
//! call may be given is answered, so what is left to its caller are the pointers, and those are in `Raw`.
use g1heap_sys::*;
pub use g1heap_sys::{
    g1_answer, g1_holder, g1_object, g1_sizes, G1_BAD_BUFFER as BAD_BUFFER, G1_BAD_CARD as BAD_CARD, G1_BAD_GLOBALS as BAD_GLOBALS,
    G1_BAD_MUTATORS as BAD_MUTATORS, G1_BAD_REGIONS as BAD_REGIONS, G1_BAD_REGISTERS as BAD_REGISTERS, G1_BAD_ROOTS as BAD_ROOTS,
    G1_BAD_WORDS as BAD_WORDS, G1_DONE as DONE, G1_FULL as FULL, G1_GLOBAL as GLOBAL, G1_NAME as NAME, G1_NAMES_SPENT as NAMES_SPENT,
    G1_NIL as NIL, G1_NIL_REGISTER as NIL_REGISTER, G1_NIL_VALUE as NIL_VALUE, G1_NO_FIELD as NO_FIELD, G1_NO_MEMORY as NO_MEMORY,
    G1_NO_STEP as NO_STEP, G1_POINTER as POINTER, G1_REGISTER as REGISTER, G1_TOO_BIG as TOO_BIG, G1_WORD as WORD,
};
#[cfg(feature = "recorded")]
use std::cell::Cell;
use std::cell::UnsafeCell;

const _: () = assert!(is_version(env!("CARGO_PKG_VERSION")), "g1heap-sys is of another version than the crate");

/// How many bytes a heap of these sizes asks for, 0 where none can have them.
pub fn bytes_of(sizes: &g1_sizes) -> u64 {
    // SAFETY: the pointer leads to sizes, which may be any numbers.
    unsafe { g1_sizes_bytes(sizes) }
}

/// A heap of the library with its policy, or none yet. It isn't `Sync`, so one call is made at a time; and none is made from within
/// another, since the library calls nothing back but the writer of a record, which has no way to a heap that is in use.
#[repr(C)] // the heap first
pub struct Raw {
    heap: UnsafeCell<g1_heap>,
    policy: UnsafeCell<g1_policy>,
    #[cfg(feature = "recorded")]
    writer: Cell<Option<std::ptr::NonNull<Writer>>>,
}

// SAFETY: g1heap.h, THREADS: a heap may pass from one thread to another. The policy is plain numbers, and a writer is Send.
unsafe impl Send for Raw {}
// Each call leaves the heap whole, and none is left by a panic.
impl std::panic::UnwindSafe for Raw {}
impl std::panic::RefUnwindSafe for Raw {}

macro_rules! steps {
    ($($name:ident = $call:ident($($number:ident: $type:ty),*);)*) => {
        #[allow(dead_code)] // the crate doesn't use all
        impl Raw { $(
            #[inline(always)]
            pub fn $name(&self $(, $number: $type)*) -> g1_answer {
                // SAFETY: the heap is none, or as the last call left it, and no other call goes on. Any numbers will do.
                unsafe { $call(self.heap.get() $(, $number)*) }
            }
        )* }
    };
}
each_call_of_numbers!(steps);

impl Raw {
    /// No heap yet.
    pub fn none() -> Raw {
        Raw {
            heap: UnsafeCell::new(G1_HEAP_NONE),
            policy: UnsafeCell::default(),
            #[cfg(feature = "recorded")]
            writer: Cell::new(None),
        }
    }
    /// Makes the heap, and its policy: `DONE`, or why there is none.
    pub fn open(&self, sizes: &g1_sizes) -> u32 {
        // SAFETY: the heap is none, or the call refuses; both pointers lead to what they should, and the numbers may be any.
        let code = unsafe { g1_new(self.heap.get(), sizes) };
        if code == DONE {
            self.set_policy(started_policy(sizes));
        }
        code
    }
    /// Reads data words from number `from` on, as many as `out` takes, all or none.
    #[inline]
    pub fn read_words(&self, mutator: u32, object: u32, from: u32, out: &mut [u64]) -> g1_answer {
        // SAFETY: as for the steps above; `out` has so many words, and nobody else has them.
        unsafe { g1_read_words(self.heap.get(), mutator, object, from, out.as_mut_ptr(), out.len()) }
    }
    /// Writes data words from number `from` on, all or none.
    #[inline]
    pub fn write_words(&self, mutator: u32, object: u32, from: u32, words: &[u64]) -> g1_answer {
        // SAFETY: as for the steps above; `words` has so many, and nobody writes them meanwhile.
        unsafe { g1_write_words(self.heap.get(), mutator, object, from, words.as_ptr(), words.len()) }
    }
    /// What is told of the objects that the heap keeps, from a cursor on, which goes on: how many.
    pub fn walk(&self, cursor: &mut u64, objects: &mut [g1_object]) -> usize {
        // SAFETY: as for the steps above; `objects` has so many, and nobody else has them or the cursor.
        unsafe { g1_walk(self.heap.get(), cursor, objects.as_mut_ptr(), objects.len()) }.first as usize
    }
    /// The same of who names the object of a name.
    pub fn who(&self, name: u64, cursor: &mut u64, holders: &mut [g1_holder]) -> usize {
        // SAFETY: as for `walk`.
        unsafe { g1_who(self.heap.get(), name, cursor, holders.as_mut_ptr(), holders.len()) }.first as usize
    }
    /// A shortest way to the object of a name: how many entries, `None` where there is no room for the search.
    pub fn path(&self, name: u64, way: &mut [g1_holder]) -> Option<usize> {
        // SAFETY: as for `walk`.
        let told = unsafe { g1_path(self.heap.get(), name, way.as_mut_ptr(), way.len()) };
        (told.code != FULL).then_some(told.first as usize)
    }
    /// A new object by the policy.
    #[inline(always)]
    pub fn make(&self, mutator: u32, to: u32, pointers: u32, weaks: u32, values: u32) -> g1_answer {
        // SAFETY: as for the steps above; no reference into the policy lives on.
        unsafe { g1_make(self.heap.get(), self.policy.get(), mutator, to, pointers, weaks, values) }
    }
    /// The same with its fields: what registers hold, or nil, and data words.
    #[inline(always)]
    pub fn make_filled(&self, mutator: u32, to: u32, from: &[u32], words: &[u64]) -> g1_answer {
        let (heap, policy) = (self.heap.get(), self.policy.get());
        // SAFETY: as for `make`; there are so many of both, and nobody writes them meanwhile.
        unsafe { g1_make_filled(heap, policy, mutator, to, from.as_ptr(), from.len(), words.as_ptr(), words.len()) }
    }
    /// Whether the policy will look at the heap before it makes an object of so many words; always before it made one.
    #[inline(always)]
    pub fn is_due(&self, words: u64) -> bool {
        // SAFETY: no call goes on, and the number is copied.
        words >= u64::from(unsafe { (*self.policy.get()).left })
    }
    pub fn collect(&self) {
        // SAFETY: as for `make`.
        unsafe { g1_collect(self.heap.get(), self.policy.get()) };
    }
    pub fn collect_all(&self) {
        // SAFETY: as for `make`.
        unsafe { g1_collect_all(self.heap.get(), self.policy.get()) };
    }
    pub fn shrink(&self) -> g1_answer {
        // SAFETY: as for `make`.
        unsafe { g1_shrink(self.heap.get(), self.policy.get()) }
    }
    /// The policy's numbers as they are.
    pub fn policy(&self) -> g1_policy {
        // SAFETY: no call goes on, and the numbers are copied.
        unsafe { *self.policy.get() }
    }
    /// Sets the policy's numbers, which may be any.
    pub fn set_policy(&self, policy: g1_policy) {
        // SAFETY: no call goes on, and no reference into the policy lives on.
        unsafe { *self.policy.get() = policy }
    }
}

impl Drop for Raw {
    fn drop(&mut self) {
        // SAFETY: the heap is none, or as the last call left it, and none comes after this.
        unsafe { g1_free(self.heap.get()) };
        #[cfg(feature = "recorded")]
        drop_writer(self.writer.take());
    }
}

/// Whether this thread is in the writer of a record, and so in the midst of a call.
#[cfg(not(feature = "recorded"))]
pub fn is_writing() -> bool {
    false
}
#[cfg(feature = "recorded")]
pub use recorded::*;
#[cfg(feature = "recorded")]
mod recorded {
    use super::{g1_record, Raw, DONE};
    use std::cell::Cell;
    use std::mem::forget;
    use std::os::raw::{c_char, c_int, c_void};
    use std::panic::{catch_unwind, AssertUnwindSafe};
    use std::ptr::NonNull;

    /// What takes the lines of a record.
    pub struct Writer(Box<Lines>);
    type Lines = dyn FnMut(&[u8]) -> std::io::Result<()> + Send;

    thread_local!(static IS_WRITING: Cell<bool> = const { Cell::new(false) });

    extern "C" fn write(context: *mut c_void, line: *const c_char, bytes: usize) -> c_int {
        // SAFETY: `Raw::record` gave a Writer as context, which lives until the heap is freed, and the library calls this once at a time;
        // the line has so many bytes.
        let (writer, line) = unsafe { (&mut *context.cast::<Writer>(), std::slice::from_raw_parts(line.cast::<u8>(), bytes)) };
        let outer = IS_WRITING.with(|it| it.replace(true));
        // No panic may pass through the library: the writer's, or that of a Drop of its error or of what it threw.
        let is_taken = catch_unwind(AssertUnwindSafe(|| (writer.0)(line).is_ok())).unwrap_or_else(|thrown| {
            catch_unwind(AssertUnwindSafe(|| drop(thrown))).unwrap_or_else(forget);
            false
        });
        IS_WRITING.with(|it| it.set(outer));
        c_int::from(!is_taken)
    }

    /// Whether this thread is in the writer of a record, and so in the midst of a call.
    pub fn is_writing() -> bool {
        IS_WRITING.with(Cell::get)
    }

    pub fn drop_writer(writer: Option<NonNull<Writer>>) {
        if let Some(it) = writer {
            // SAFETY: `Raw::record` made it of a box, and the library has it no more.
            drop(unsafe { Box::from_raw(it.as_ptr()) });
        }
    }

    impl Raw {
        /// Hands each line to `writer`, where no step was taken yet; else answers false.
        pub fn record(&self, writer: impl FnMut(&[u8]) -> std::io::Result<()> + Send + 'static) -> bool {
            let writer = NonNull::from(Box::leak(Box::new(Writer(Box::new(writer)))));
            // SAFETY: as for the steps above; the context stays where it is until the heap is freed, or another one has taken its place.
            let is_done = unsafe { g1_record(self.heap.get(), Some(write), writer.as_ptr().cast()) } == DONE;
            drop_writer(if is_done { self.writer.replace(Some(writer)) } else { Some(writer) });
            is_done
        }
    }
}
