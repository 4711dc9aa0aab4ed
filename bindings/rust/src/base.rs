//! What frames are made on: a heap of the library with its policy, and its globals.
use crate::heap::Error;
use crate::sys::{g1_sizes, Raw, DONE, NIL_VALUE};
use crate::threads::Lock;
use std::sync::atomic::{AtomicUsize, Ordering};
use std::sync::{Arc, Mutex, MutexGuard};

/// A heap. One thread at a time comes here: `Heap` is lent mutably, and `Shared` is locked.
#[repr(C)] // the heap first, so that its place is that of the Core
pub(crate) struct Core {
    pub raw: Raw,
    /// Whether objects are made by the policy.
    pub collects: bool,
    pub mutators: u32,
    /// How many registers each mutator has.
    pub registers: u32,
    pub globals: Arc<Globals>,
    /// What a thread holds that comes here, where several share the heap.
    pub lock: Option<Lock>,
}

impl Core {
    pub fn new(sizes: &g1_sizes, collects: bool, lock: Option<Lock>) -> Result<Box<Core>, u32> {
        let g1_sizes { mutators, registers, .. } = *sizes;
        let core = Box::new(Core { raw: Raw::none(), collects, mutators, registers, globals: Arc::new(Globals::new(sizes.globals)), lock });
        match core.raw.open(sizes) {
            DONE => Ok(core),
            code => Err(code),
        }
    }
    /// Makes those globals nil whose `Kept` is gone. `nil` is a register that is nil.
    pub fn empty_left(&self, mutator: u32, nil: u32) {
        let left = std::mem::take(&mut self.globals.state().left);
        // The lock isn't held here: a record's writer may drop a Kept.
        for global in &left {
            self.raw.save(mutator, *global, nil);
        }
        self.globals.state().spare.extend(left);
    }
    /// A global that is nil. Where none is, those become so whose `Kept` is gone, for which some register has to be nil.
    pub fn take_nil(&self) -> Result<u32, Error> {
        self.globals.take_nil().or_else(|error| {
            if self.globals.state().left.is_empty() {
                return Err(error);
            }
            let (mutator, nil) = self.nil_register().ok_or(Error::NoRegisters)?;
            self.empty_left(mutator, nil);
            self.globals.take_nil()
        })
    }
    /// A register that is nil, of any mutator. The last ones are rarely in use.
    fn nil_register(&self) -> Option<(u32, u32)> {
        let mut all = (0..self.mutators).flat_map(|mutator| (0..self.registers).rev().map(move |register| (mutator, register)));
        all.find(|(mutator, register)| self.raw.name(*mutator, *register).code == NIL_VALUE)
    }
}

/// Which globals of a heap are in use. Threads without the heap's lock come here too.
pub(crate) struct Globals {
    /// Another one for each heap.
    pub serial: usize,
    most: u32,
    state: Mutex<State>,
}
#[derive(Default)]
struct State {
    next: u32,
    spare: Vec<u32>, // in use no more, and nil
    left: Vec<u32>,  // in use no more, and not nil yet
}

impl Globals {
    fn new(most: u32) -> Globals {
        static SERIAL: AtomicUsize = AtomicUsize::new(0);
        Globals { serial: SERIAL.fetch_add(1, Ordering::Relaxed), most, state: Mutex::default() }
    }
    fn state(&self) -> MutexGuard<'_, State> {
        self.state.lock().unwrap_or_else(|poisoned| poisoned.into_inner())
    }
    /// A global that is nil.
    pub fn take_nil(&self) -> Result<u32, Error> {
        let state = &mut *self.state();
        match state.spare.pop() {
            Some(global) => Ok(global),
            None if state.next < self.most => {
                state.next += 1;
                Ok(state.next - 1)
            }
            None => Err(Error::NoGlobals),
        }
    }
    /// A global that may hold anything.
    pub fn take(&self) -> Result<u32, Error> {
        let left = self.state().left.pop();
        left.map_or_else(|| self.take_nil(), Ok)
    }
    pub fn leave(&self, global: u32) {
        self.state().left.push(global);
    }
}
