use crate::frame::Frame;
use crate::heap::Counts;
use crate::sys::{g1_answer, Raw, DONE, NIL};
use std::fmt;

/// The steps of the collector, and what a policy steers by. [`Frame::steps`](crate::Frame::steps) lends them.
///
/// What is to be right of a policy: marking goes from `begin` by `mark` to `remark`; after that come `cleanup` and `pause`; and two
/// regions are kept free, since live objects are copied into free regions alone. `docs/EMBEDDING.md` has more. Whatever it does, the
/// heap's answers stay right.
///
/// ```
/// # use g1heap::*;
/// # layout! { struct Cell { words { number: u64 } } }
/// /// Collects in small steps.
/// fn collect(f: &Frame<'_, '_>) {
///     let steps = f.steps();
///     assert!(steps.begin());
///     while steps.is_grey() {
///         steps.mark(100); // here others could have their turn
///     }
///     steps.remark();
///     steps.cleanup();
///     while steps.pause(10_000).regions > 0 {}
///     assert!(steps.live_words() == 0 && steps.free_regions() > 250);
/// }
/// let mut heap = Heap::new(&Sizes::default().policy(false))?;
/// heap.run(|f| {
///     while f.steps().free_regions() > 2 {
///         f.scope(|g| g.alloc::<Cell>().map(drop))?;
///     }
///     collect(f);
///     Ok::<_, Error>(())
/// })?;
/// # Ok::<_, Box<dyn std::error::Error>>(())
/// ```
pub struct Steps<'a> {
    raw: &'a Raw,
}
impl fmt::Debug for Steps<'_> {
    fn fmt(&self, f: &mut fmt::Formatter<'_>) -> fmt::Result {
        f.debug_struct("Steps").field("free_regions", &self.free_regions()).finish_non_exhaustive()
    }
}

/// What a pause or a [`compact`](Steps::compact) did.
#[derive(Clone, Copy, Debug, Default, PartialEq, Eq)]
pub struct Moved {
    /// Words that were copied.
    pub words: u64,
    /// Regions that were evacuated, and are free again; or those of an object of more than half a region that moved down.
    pub regions: u32,
}

fn taken(answer: g1_answer) -> Option<u64> {
    (answer.code < NIL).then_some(answer.first)
}

fn moved(answer: g1_answer) -> Moved {
    Moved { words: answer.first, regions: answer.second }
}

impl<'a> Steps<'a> {
    pub(crate) fn new(raw: &'a Raw) -> Self {
        Steps { raw }
    }
    pub(crate) fn raw(&self) -> &'a Raw {
        self.raw
    }
    /// Marking begins; false where it is running.
    pub fn begin(&self) -> bool {
        taken(self.raw.begin()).is_some()
    }
    /// Marks, looking at so many words, of the last object in part if it has more, and answers how many objects' scans ended; `None`
    /// where marking isn't running.
    pub fn mark(&self, words: u32) -> Option<u64> {
        taken(self.raw.mark(words))
    }
    /// Brings marking to its end, and clears weak slots; answers how many objects were marked in this cycle. `None` where marking
    /// isn't running.
    pub fn remark(&self) -> Option<u64> {
        taken(self.raw.remark())
    }
    /// Frees the regions with nothing live, and answers how many; `None` while marking runs.
    pub fn cleanup(&self) -> Option<u64> {
        taken(self.raw.cleanup())
    }
    /// Refines at most so many queued cards, and answers how many.
    pub fn refine(&self, cards: u32) -> u64 {
        self.raw.refine(cards).first
    }
    /// Copies live objects out of some regions, at most so many words, and at most half of those of the free regions.
    pub fn pause(&self, words: u32) -> Moved {
        moved(self.raw.pause(words))
    }
    /// The same of the highest ordinary regions, as many as go down, so that free regions are side by side, for objects of more than half a
    /// region. If none go down, one of these objects does: of those of at most so many words that have a free region directly below their
    /// first, the lowest. While marking runs, nothing moves.
    pub fn compact(&self, words: u32) -> Moved {
        moved(self.raw.compact(words))
    }
    /// The same as [`pause`](Steps::pause), of those of its regions that at most `cards` cards lead into, as long as these are at most so
    /// many together.
    pub fn pause_within(&self, words: u32, cards: u32) -> Moved {
        moved(self.raw.pause_within(words, cards))
    }
    /// The same of the regions that objects were made in since marking began last, full ones too, the oldest first. What was copied is
    /// old.
    pub fn young(&self, words: u32, cards: u32) -> Moved {
        moved(self.raw.young(words, cards))
    }
    /// What the last marking found dead leaves the weak slots of at most so many objects. What is read from weak slots stays the same.
    pub fn clear(&self, objects: u32) {
        self.raw.clear(objects);
    }
    /// The same as [`Heap::give_back`](crate::Heap::give_back), within a run.
    pub fn give_back(&self) -> bool {
        self.raw.give_back().code == DONE
    }
    /// Whether weak slots that read nil wait to be cleared.
    pub fn clearing(&self) -> bool {
        self.raw.clearing().first == 1
    }
    /// How many regions are free.
    pub fn free_regions(&self) -> u32 {
        self.raw.free_regions().first as u32
    }
    /// How many words of the other regions are handed out, to objects and to allocation buffers.
    pub fn used_words(&self) -> u64 {
        self.raw.used_words().first
    }
    /// How many words are live: those of the objects that the last complete marking marked, and all handed out since it began.
    pub fn live_words(&self) -> u64 {
        self.raw.live_words().first
    }
    /// Whether marking is running.
    pub fn is_marking(&self) -> bool {
        self.raw.marking().first == 1
    }
    /// Whether marking is running, and something is left to be marked.
    pub fn is_grey(&self) -> bool {
        self.raw.grey().first == 1
    }
    /// How many cards wait for refinement.
    pub fn queued(&self) -> u64 {
        self.raw.queued().first
    }
}

impl Frame<'_, '_> {
    /// A whole collection: weak slots are cleared whose objects no root reaches, and each region is free again that can be.
    ///
    /// ```
    /// # use g1heap::*;
    /// # let mut heap = Heap::new(&Sizes::default())?;
    /// # heap.run(|f| {
    /// f.scope(|g| g.alloc_any(0, 0, 100).map(drop))?;
    /// f.collect();
    /// assert_eq!(f.steps().live_words(), 0);
    /// # Ok::<_, Error>(())
    /// # })?;
    /// # Ok::<_, Box<dyn std::error::Error>>(())
    /// ```
    pub fn collect(&self) {
        self.ready();
        self.raw().collect_all();
    }
    /// The steps of the collector that are due by the policy, in the midst of work that makes no objects.
    ///
    /// ```
    /// # use g1heap::*;
    /// # let mut heap = Heap::new(&Sizes::default())?;
    /// # heap.run(|f| {
    /// f.collect_due();
    /// assert_eq!(f.counts(), Counts::default()); // nothing is due in a new heap
    /// # });
    /// # Ok::<_, BadSizes>(())
    /// ```
    pub fn collect_due(&self) {
        self.ready();
        self.raw().collect();
    }
    /// The steps of the collector, one by one, for a policy of the program's own, and what it steers by.
    ///
    /// ```
    /// # use g1heap::*;
    /// # let mut heap = Heap::new(&Sizes::default().policy(false))?;
    /// # heap.run(|f| {
    /// let steps = f.steps();
    /// assert!(steps.begin() && steps.is_marking());
    /// # });
    /// # Ok::<_, BadSizes>(())
    /// ```
    pub fn steps(&self) -> Steps<'_> {
        self.ready();
        Steps::new(self.raw())
    }
    /// How many markings of the heap have ended, by the policy or by [`Steps::remark`]. Weak slots are cleared then and never else: where
    /// this number is what it was, none was.
    ///
    /// ```
    /// # use g1heap::*;
    /// # layout! { struct Entry { weaks { key: Any } } }
    /// # let mut heap = Heap::new(&Sizes::default())?;
    /// # heap.run(|f| {
    /// let (entry, seen) = (f.alloc::<Entry>()?, f.markings());
    /// f.scope(|g| g.alloc_any(0, 0, 1).map(|key| g.put_weak(entry, Entry::key, key)))?;
    /// assert_eq!(f.markings(), seen); // so the key is there still
    /// f.collect();
    /// assert!(f.markings() > seen && f.get_weak(entry, Entry::key)?.is_none());
    /// # Ok::<_, Error>(())
    /// # })?;
    /// # Ok::<_, Box<dyn std::error::Error>>(())
    /// ```
    #[inline]
    pub fn markings(&self) -> u64 {
        self.raw().markings().first
    }
    /// What the policy did so far.
    ///
    /// ```
    /// # use g1heap::*;
    /// # let mut heap = Heap::new(&Sizes::default())?;
    /// # heap.run(|f| {
    /// f.collect();
    /// assert_eq!(f.counts().cycles, 1);
    /// # });
    /// # Ok::<_, BadSizes>(())
    /// ```
    pub fn counts(&self) -> Counts {
        Counts::of(self.core())
    }
}
