use crate::base::{Core, Globals};
use crate::frame::{Frame, Run};
use crate::layout::Any;
use crate::local::Exactly;
use crate::sys;
use crate::threads::Lock;
use std::fmt;
use std::marker::PhantomData;
use std::sync::Arc;

/// Why a step wasn't done. Nothing changed then.
#[derive(Clone, Copy, Debug, PartialEq, Eq)]
#[repr(u32)] // of the size of a Local: a Result of both is made and taken apart in fewer instructions
#[non_exhaustive]
pub enum Error {
    /// There is no room for the object, after a whole collection. A program that drops most of what it has can go on.
    Full,
    /// The object is larger than the heap, or than 16,777,216 words, two of which aren't fields; or it has more than 255 weak slots.
    TooBig,
    /// No names are left for new objects.
    NamesSpent,
    /// No register is left: there are too many roots, or a recursion is too deep. [`Sizes::registers`] says how many there are.
    NoRegisters,
    /// No global is left. [`Sizes::globals`] says how many there are.
    NoGlobals,
    /// The object has no such field. Calls that take a field by number tell this; one of a layout is there, or
    /// [`assume`](crate::Local::assume) was wrong and the call panics.
    NoField,
}

impl fmt::Display for Error {
    fn fmt(&self, f: &mut fmt::Formatter<'_>) -> fmt::Result {
        f.write_str(match self {
            Error::Full => "the heap is full",
            Error::TooBig => "the object is larger than the heap, or than 16,777,216 words, or has more than 255 weak slots",
            Error::NamesSpent => "no names are left for new objects",
            Error::NoRegisters => "no registers are left for roots",
            Error::NoGlobals => "no globals are left",
            Error::NoField => "the object has no such field",
        })
    }
}
impl std::error::Error for Error {}

/// Which of the sizes no heap has, the first one in this order; or that there is no memory for it.
///
/// ```
/// use g1heap::{BadSizes, Heap, Sizes};
/// let error = Heap::new(&Sizes::default().words(100)).unwrap_err();
/// assert_eq!(error, BadSizes::Words);
/// let said = "no heap has these sizes: words of a region, a power of two up to 4,194,304, or of all, up to 2,147,483,648 (16 GiB)";
/// assert_eq!(error.to_string(), said);
/// ```
#[derive(Clone, Copy, Debug, PartialEq, Eq)]
#[non_exhaustive]
pub enum BadSizes {
    /// The number of regions, 2 to 16,384.
    Regions,
    /// The words of a region, a power of two of 16 to 4,194,304; or those of all regions, at most 2,147,483,648, which are 16 GiB.
    Words,
    /// The words of an allocation buffer, 4 to half of a region's.
    Buffer,
    /// The number of mutators, 1 to 64, see [`Shared::new`](crate::Shared::new).
    Mutators,
    /// There is no memory for a heap of these sizes.
    Memory,
    /// The words of a card, a power of two of 8 to 512, and at most a region's.
    Card,
    /// The number of globals, at most 65,536.
    Globals,
    /// The number of registers of a mutator, 1 to 65,536.
    Registers,
    /// The number of globals and of all registers, at most 1,048,576.
    Roots,
    /// Another one, by the code of `g1_new`.
    Other(u32),
}
impl BadSizes {
    fn of(code: u32) -> BadSizes {
        match code {
            sys::BAD_REGIONS => BadSizes::Regions,
            sys::BAD_WORDS => BadSizes::Words,
            sys::BAD_BUFFER => BadSizes::Buffer,
            sys::BAD_MUTATORS => BadSizes::Mutators,
            sys::NO_MEMORY => BadSizes::Memory,
            sys::BAD_CARD => BadSizes::Card,
            sys::BAD_GLOBALS => BadSizes::Globals,
            sys::BAD_REGISTERS => BadSizes::Registers,
            sys::BAD_ROOTS => BadSizes::Roots,
            code => BadSizes::Other(code),
        }
    }
}
impl fmt::Display for BadSizes {
    fn fmt(&self, f: &mut fmt::Formatter<'_>) -> fmt::Result {
        f.write_str("no heap has these sizes: ")?;
        f.write_str(match self {
            BadSizes::Regions => "regions, 2 to 16,384",
            BadSizes::Words => "words of a region, a power of two up to 4,194,304, or of all, up to 2,147,483,648 (16 GiB)",
            BadSizes::Buffer => "words of a buffer, 4 to half of a region's",
            BadSizes::Mutators => "mutators, 1 to 64",
            BadSizes::Memory => return f.write_str("there is no memory for it"),
            BadSizes::Card => "words of a card, a power of two of 8 to 512, and at most a region's",
            BadSizes::Globals => "globals, at most 65,536",
            BadSizes::Registers => "registers, 1 to 65,536",
            BadSizes::Roots => "globals and registers of all mutators, at most 1,048,576",
            BadSizes::Other(code) => return write!(f, "code {code}"),
        })
    }
}
impl std::error::Error for BadSizes {}

/// For each field a method that answers the same with another value of it.
macro_rules! with {
    ($type:ident { $($field:ident: $of:ty),* }) => {
        impl $type { $(
            #[doc = concat!("The same with another `", stringify!($field), "`.")]
            #[must_use]
            pub const fn $field(mut self, $field: $of) -> $type {
                self.$field = $field;
                self
            }
        )* }
    };
}

/// The sizes of a heap, which are fixed when it is made. A word is 64 bits. Each is set by the method of its name; later versions may have
/// more of them.
///
/// ```
/// use g1heap::{Heap, Sizes};
/// let mut heap = Heap::new(&Sizes::mebibytes(8).registers(16).globals(2))?;
/// heap.run(|f| assert_eq!(f.room(), 16));
/// # Ok::<_, g1heap::BadSizes>(())
/// ```
///
/// ```compile_fail,E0639
/// let sizes = g1heap::Sizes { registers: 16, ..g1heap::Sizes::default() };
/// ```
#[derive(Clone, Copy, Debug, PartialEq, Eq)]
#[non_exhaustive]
pub struct Sizes {
    /// Regions: 4 or more, better 64, at most 16,384.
    pub regions: u32,
    /// Words of a region: a power of two, 16 to 4,194,304, and at most 2,147,483,648 in all regions, which are 16 GiB.
    pub words: u32,
    /// Words of an allocation buffer: 4 to half of a region's; an eighth of them less 1 is a good one.
    pub buffer: u32,
    /// Words of a card: a power of two, 8 to 512, and at most a region's; 64 are the usual ones.
    pub card: u32,
    /// Globals, for [`Global`] and [`Kept`]: 0 to 65,536.
    pub globals: u32,
    /// Registers of each thread, which are the roots that it can have at once: 1 to 65,536, at 12 bytes each.
    pub registers: u32,
    /// Whether [`Frame::alloc`] and its like take the steps of the collector that are due, by the library's policy. Else the program takes
    /// them, by [`Frame::steps`].
    pub policy: bool,
}
with! { Sizes { regions: u32, words: u32, buffer: u32, card: u32, globals: u32, registers: u32, policy: bool } }
impl Default for Sizes {
    /// 2 MiB in regions of 1,024 words, cards of 64 words, 64 globals, 4,096 registers, and the policy.
    fn default() -> Self {
        Sizes { regions: 256, words: 1024, buffer: 127, card: 64, globals: 64, registers: 4096, policy: true }
    }
}
impl Sizes {
    /// A heap of so many mebibytes, which are all taken when it is made: from 64 MiB on it has 512 to 1,024 regions, below regions of 1,024
    /// words, and the rest is as [`Sizes::default`] has it.
    ///
    /// ```
    /// # use g1heap::Sizes;
    /// let sizes = Sizes::mebibytes(64);
    /// assert_eq!((sizes.regions, sizes.words, sizes.buffer), (1024, 8192, 511));
    /// assert_eq!(Sizes::mebibytes(2), Sizes::default());
    /// ```
    pub fn mebibytes(mebibytes: u32) -> Sizes {
        let all = u64::from(mebibytes) << 17; // words
        let words = (all.max(1) / 1024).next_power_of_two().clamp(1024, 1 << 31);
        let regions = u32::try_from(all / words).unwrap_or(u32::MAX);
        Sizes { regions, words: words as u32, buffer: ((words / 8 - 1) as u32).min(511), ..Sizes::default() }
    }

    /// How many bytes of memory a heap of these sizes with so many seats asks for when it is made; a [`Heap`] has one seat. None where no heap
    /// can have the sizes.
    ///
    /// ```
    /// # use g1heap::Sizes;
    /// assert!((64 << 20..80 << 20).contains(&Sizes::mebibytes(64).bytes(1).unwrap()));
    /// assert_eq!(Sizes::default().card(9).bytes(1), None);
    /// ```
    pub fn bytes(&self, seats: u32) -> Option<u64> {
        match sys::bytes_of(&self.numbers(seats)) {
            0 => None,
            bytes => Some(bytes),
        }
    }

    fn numbers(&self, mutators: u32) -> sys::g1_sizes {
        let Sizes { regions, words, buffer, card, globals, registers, policy: _ } = *self;
        sys::g1_sizes { regions, words, buffer, mutators, first_name: 1, card, globals, registers }
    }
}

/// What the policy did so far; all 0 where [`Sizes::policy`] is false. Later versions may count more.
///
/// ```
/// # use g1heap::*;
/// # let mut heap = Heap::new(&Sizes::default())?;
/// heap.run(|f| f.collect());
/// assert_eq!(heap.counts().cycles, 1);
/// # Ok::<_, BadSizes>(())
/// ```
#[derive(Clone, Copy, Debug, Default, PartialEq, Eq)]
#[non_exhaustive]
pub struct Counts {
    /// Whole cycles of marking.
    pub cycles: u64,
    /// Objects that these marked.
    pub scanned: u64,
    /// Pauses, those of whole collections too.
    pub pauses: u64,
    /// Words that these copied.
    pub copied: u64,
    /// Compactions, by [`Heap::shrink`] and for objects of more than half a region that found no room.
    pub compactions: u64,
    /// Words that these copied.
    pub compacted: u64,
}
impl Counts {
    pub(crate) fn of(core: &Core) -> Counts {
        let it = core.raw.policy();
        let (compactions, compacted) = (it.compactions, it.compacted);
        Counts { cycles: it.cycles, scanned: it.scanned, pauses: it.pauses, copied: it.copied, compactions, compacted }
    }
}

/// What of the policy may be set at any time: how much it does at once. Any numbers will do. [`Heap::pace`] tells it, and each number is
/// set by the method of its name; later versions may have more of them.
///
/// ```
/// # use g1heap::*;
/// # let mut heap = Heap::new(&Sizes::default())?;
/// let pace = heap.pace();
/// heap.set_pace(pace.pause_words(4096));
/// assert_eq!(heap.pace().pause_words, 4096);
/// # Ok::<_, BadSizes>(())
/// ```
#[derive(Clone, Copy, Debug, PartialEq, Eq)]
#[non_exhaustive]
pub struct Pace {
    /// Regions: a cycle of marking ends before fewer are free.
    pub reserve: u32,
    /// Words: the budget of a pause, but for those of a whole collection.
    pub pause_words: u32,
    /// Words: as many are looked at by marking at a look, at most, and up to 16 times as many where few regions are free.
    pub mark_words: u32,
    /// Words: where so many were asked for since the last cycle began, another one begins.
    pub cycle_words: u32,
    /// Words: new regions of so many are evacuated first, and no fewer later.
    pub young_words: u32,
    /// Cards: where more are queued at a look, it refines all but half as many.
    pub cards_left: u32,
    /// Cards: as many may lead into the regions of a pause, and more only after one that gained little for them.
    pub visit_cards: u32,
    /// Objects with weak slots: so many are cleared at a look after marking, up to 16 times as many where few regions are free.
    pub clear_objects: u32,
    /// Regions: so many are in play at least. More are while more live; the others are held back, and take no memory.
    pub least: u32,
}

with! { Pace {
    reserve: u32, pause_words: u32, mark_words: u32, cycle_words: u32, young_words: u32, cards_left: u32, visit_cards: u32,
    clear_objects: u32, least: u32
} }

/// A heap. It may go to another thread. Threads that are in it at once share a [`Shared`](crate::Shared), or a `Mutex<Heap>`.
///
/// ```
/// use g1heap::{layout, Error, Heap, Sizes};
/// layout! { struct Cell { pointers { next: Cell } words { number: u64 } } }
///
/// let mut heap = Heap::new(&Sizes::default())?;
/// let number = heap.run(|f| {
///     let cell = f.alloc::<Cell>()?;
///     f.write(cell, Cell::number, 42);
///     f.put(cell, Cell::next, cell);
///     let next = f.get(cell, Cell::next)?.expect("it isn't nil");
///     Ok::<_, Error>(f.read(next, Cell::number))
/// })?;
/// assert_eq!(number, 42);
/// # Ok::<_, Box<dyn std::error::Error>>(())
/// ```
pub struct Heap {
    core: Box<Core>,
}

impl Heap {
    /// A heap of these sizes. All of its memory is taken now, and freed when it is dropped.
    ///
    /// ```
    /// # use g1heap::*;
    /// assert!(Heap::new(&Sizes::default()).is_ok());
    /// assert_eq!(Heap::new(&Sizes::default().card(9)).unwrap_err(), BadSizes::Card);
    /// ```
    pub fn new(sizes: &Sizes) -> Result<Heap, BadSizes> {
        Ok(Heap { core: new_core(sizes, 1, None)? })
    }

    /// Lends a frame to `body`. What this roots can't leave the run: what is to stay is put into a [`Global`] or a [`Kept`].
    ///
    /// ```
    /// # use g1heap::*;
    /// # layout! { struct Cell { pointers { next: Cell } words { number: u64 } } }
    /// # let mut heap = Heap::new(&Sizes::default())?;
    /// let kept = heap.run(|f| {
    ///     let cell = f.alloc::<Cell>()?;
    ///     f.write(cell, Cell::number, 7);
    ///     f.keep(cell)
    /// })?;
    /// heap.run(|f| {
    ///     let cell = f.kept(&kept)?;
    ///     assert_eq!(f.read(cell, Cell::number), 7);
    ///     Ok::<_, Error>(())
    /// })?;
    /// # Ok::<_, Box<dyn std::error::Error>>(())
    /// ```
    #[inline]
    pub fn run<R>(&mut self, body: impl for<'h> FnOnce(&mut Frame<'h, 'h>) -> R) -> R {
        let run = Run::new(&self.core, 0);
        body(&mut run.frame())
    }

    /// A global, nil at first; it lives as long as the heap. [`Frame::new_global`] does the same within a run.
    ///
    /// ```
    /// # use g1heap::*;
    /// # layout! { struct Cell { pointers { next: Cell } } }
    /// # let mut heap = Heap::new(&Sizes::default())?;
    /// let list = heap.new_global::<Cell>()?;
    /// heap.run(|f| f.save(list, f.alloc()?))?;
    /// assert!(heap.run(|f| f.load(list).map(|it| it.is_some()))?);
    /// # Ok::<_, Box<dyn std::error::Error>>(())
    /// ```
    pub fn new_global<T>(&mut self) -> Result<Global<T>, Error> {
        self.core.take_nil().map(|number| Global::new(&self.core.globals, number))
    }

    /// Gives memory back to the system: that of all words above the highest region in use, and what marks and cards took beyond what they
    /// hold now. Its room in the heap stays, so nothing else changes. False where the system refuses what this asks for meanwhile, as much
    /// as the words may take; then less goes back or nothing. Within a run there is [`Steps::give_back`](crate::Steps::give_back), and
    /// [`shrink`](Heap::shrink) gives back as much as can be.
    ///
    /// ```
    /// # use g1heap::*;
    /// let mut heap = Heap::new(&Sizes::mebibytes(64))?;
    /// assert!(heap.give_back());
    /// # Ok::<_, BadSizes>(())
    /// ```
    pub fn give_back(&mut self) -> bool {
        self.core.raw.give_back().code == sys::DONE
    }

    /// Gives back as much memory as can be, for a moment at which the program is idle: a whole collection, which moves what lives down
    /// into the lowest regions, and then [`give_back`](Heap::give_back). False where the system refuses what that asks for; the collection
    /// is done then. [`is_idle`](Heap::is_idle) tells when it pays.
    ///
    /// ```
    /// # use g1heap::*;
    /// let mut heap = Heap::new(&Sizes::mebibytes(64))?;
    /// heap.run(|f| {
    ///     for _ in 0..5000 {
    ///         f.scope(|g| g.alloc_any(0, 0, 1000).map(drop))?;
    ///     }
    ///     Ok::<_, Error>(())
    /// })?;
    /// assert!(heap.shrink());
    /// heap.run(|f| assert_eq!(f.steps().used_words(), 0));
    /// # Ok::<_, Box<dyn std::error::Error>>(())
    /// ```
    pub fn shrink(&mut self) -> bool {
        self.core.raw.shrink().code == sys::DONE
    }

    /// Whether the policy has held back, since the last [`shrink`](Heap::shrink), at least half of the regions that were in play before: so
    /// that half of the memory could go back.
    ///
    /// ```
    /// # use g1heap::*;
    /// let heap = Heap::new(&Sizes::mebibytes(64))?;
    /// assert!(!heap.is_idle());
    /// # Ok::<_, BadSizes>(())
    /// ```
    pub fn is_idle(&self) -> bool {
        self.core.raw.policy().idle != 0
    }

    pub(crate) fn raw(&self) -> &sys::Raw {
        &self.core.raw
    }

    /// What the policy did so far.
    ///
    /// ```
    /// # use g1heap::*;
    /// let heap = Heap::new(&Sizes::default())?;
    /// assert_eq!(heap.counts(), Counts::default());
    /// # Ok::<_, BadSizes>(())
    /// ```
    pub fn counts(&self) -> Counts {
        Counts::of(&self.core)
    }

    /// How many markings of the heap have ended, by the policy or by [`Steps::remark`](crate::Steps::remark), as
    /// [`Frame::markings`](crate::Frame::markings) tells within a run.
    ///
    /// ```
    /// # use g1heap::*;
    /// let mut heap = Heap::new(&Sizes::default())?;
    /// heap.run(|f| f.collect());
    /// assert_eq!(heap.markings(), 1);
    /// # Ok::<_, BadSizes>(())
    /// ```
    pub fn markings(&self) -> u64 {
        self.core.raw.markings().first
    }

    /// How much the policy does at once.
    ///
    /// ```
    /// # use g1heap::*;
    /// let heap = Heap::new(&Sizes::default())?;
    /// assert_eq!(heap.pace().reserve, 10);
    /// # Ok::<_, BadSizes>(())
    /// ```
    pub fn pace(&self) -> Pace {
        let it = self.core.raw.policy();
        let (reserve, pause_words, mark_words) = (it.reserve, it.pause_words, it.mark_words);
        let (cycle_words, young_words, cards_left) = (it.cycle_words, it.young_words, it.cards_left);
        let (visit_cards, clear_objects, least) = (it.visit_cards, it.clear_objects, it.least);
        Pace { reserve, pause_words, mark_words, cycle_words, young_words, cards_left, visit_cards, clear_objects, least }
    }

    /// Sets how much the policy does at once.
    ///
    /// ```
    /// # use g1heap::*;
    /// let mut heap = Heap::new(&Sizes::default())?;
    /// heap.set_pace(heap.pace().mark_words(100));
    /// # Ok::<_, BadSizes>(())
    /// ```
    pub fn set_pace(&mut self, pace: Pace) {
        let mut it = self.core.raw.policy();
        (it.reserve, it.pause_words, it.mark_words) = (pace.reserve, pace.pause_words, pace.mark_words);
        (it.cycle_words, it.young_words, it.cards_left) = (pace.cycle_words, pace.young_words, pace.cards_left);
        (it.visit_cards, it.clear_objects, it.least) = (pace.visit_cards, pace.clear_objects, pace.least);
        self.core.raw.set_policy(it);
    }

    /// From now on each step is handed to `write` as a line with its line feed, until that answers an error or panics. To be called before
    /// the first step; later it answers false, and nothing changes. `g1heap check` judges the lines.
    ///
    /// ```
    /// # use g1heap::*;
    /// # use std::io::Write;
    /// # let mut heap = Heap::new(&Sizes::default())?;
    /// let mut lines = std::io::sink(); // or a file
    /// assert!(heap.record(move |line| lines.write_all(line)));
    /// heap.run(|f| f.alloc_any(1, 0, 1).map(drop))?;
    /// # Ok::<_, Box<dyn std::error::Error>>(())
    /// ```
    #[cfg(feature = "recorded")]
    pub fn record(&mut self, write: impl FnMut(&[u8]) -> std::io::Result<()> + Send + 'static) -> bool {
        self.core.raw.record(write)
    }
}

pub(crate) fn new_core(sizes: &Sizes, mutators: u32, lock: Option<Lock>) -> Result<Box<Core>, BadSizes> {
    Core::new(&sizes.numbers(mutators), sizes.policy, lock).map_err(BadSizes::of)
}

impl fmt::Debug for Heap {
    fn fmt(&self, f: &mut fmt::Formatter<'_>) -> fmt::Result {
        f.debug_struct("Heap").field("counts", &self.counts()).finish_non_exhaustive()
    }
}

/// A global of a heap: a place that holds nil or an object, and stays as long as the heap. It's `Copy`, and used with another heap it
/// panics.
///
/// ```
/// use g1heap::{layout, Error, Global, Heap, Nil, Sizes};
/// layout! { struct Cell { pointers { next: Cell } } }
/// struct Program {
///     heap: Heap,
///     list: Global<Cell>,
/// }
/// # fn main() -> Result<(), Box<dyn std::error::Error>> {
/// let mut heap = Heap::new(&Sizes::default())?;
/// let list = heap.new_global()?;
/// let mut program = Program { heap, list };
/// program.heap.run(|f| {
///     let cell = f.alloc::<Cell>()?;
///     f.put(cell, Cell::next, f.load(program.list)?);
///     f.save(program.list, cell)
/// })?;
/// # Ok(())
/// # }
/// ```
pub struct Global<T = Any> {
    number: u32,
    serial: usize,
    of: Exactly<T>,
}
impl<T> Global<T> {
    pub(crate) fn new(globals: &Globals, number: u32) -> Global<T> {
        Global { number, serial: globals.serial, of: PhantomData }
    }
    #[track_caller]
    pub(crate) fn number_in(&self, core: &Core) -> u32 {
        assert!(self.serial == core.globals.serial, "a global of another heap");
        self.number
    }
}
impl<T> Clone for Global<T> {
    fn clone(&self) -> Self {
        *self
    }
}
impl<T> Copy for Global<T> {}
impl<T> fmt::Debug for Global<T> {
    fn fmt(&self, f: &mut fmt::Formatter<'_>) -> fmt::Result {
        write!(f, "Global({})", self.number)
    }
}

/// Keeps an object until it is dropped, wherever it lies: in a struct of the program, or in another thread. It takes one of the
/// heap's globals. [`Frame::keep`] makes one. Used with another heap it panics.
///
/// ```
/// # use g1heap::*;
/// # layout! { struct Cell { words { number: u64 } } }
/// # let mut heap = Heap::new(&Sizes::default().globals(1))?;
/// let kept: Kept<Cell> = heap.run(|f| f.keep(f.alloc()?))?;
/// assert_eq!(heap.run(|f| f.keep(f.alloc::<Cell>()?)).unwrap_err(), Error::NoGlobals);
/// std::thread::spawn(move || drop(kept)).join().unwrap();
/// assert!(heap.run(|f| f.keep(f.alloc::<Cell>()?)).is_ok());
/// # Ok::<_, Box<dyn std::error::Error>>(())
/// ```
pub struct Kept<T = Any> {
    number: u32,
    globals: Arc<Globals>,
    of: Exactly<T>,
}
impl<T> Kept<T> {
    pub(crate) fn new(core: &Core, number: u32) -> Kept<T> {
        Kept { number, globals: core.globals.clone(), of: PhantomData }
    }
    #[track_caller]
    pub(crate) fn number_in(&self, core: &Core) -> u32 {
        assert!(Arc::ptr_eq(&self.globals, &core.globals), "kept by another heap");
        self.number
    }
}
impl<T> Drop for Kept<T> {
    fn drop(&mut self) {
        self.globals.leave(self.number);
    }
}
impl<T> fmt::Debug for Kept<T> {
    fn fmt(&self, f: &mut fmt::Formatter<'_>) -> fmt::Result {
        write!(f, "Kept({})", self.number)
    }
}
