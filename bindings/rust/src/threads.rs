use crate::base::{Core, Globals};
use crate::frame::{Frame, Run};
use crate::heap::{new_core, BadSizes, Counts, Error, Global, Sizes};
use crate::sys::is_writing;
use std::collections::VecDeque;
use std::fmt;
use std::sync::atomic::{AtomicUsize, Ordering};
use std::sync::{Arc, Condvar, Mutex, MutexGuard};

/// A heap that threads share under one lock. Each takes a [`Seat`], which is a mutator of its own.
///
/// ```
/// use g1heap::{layout, Error, Shared, Sizes};
/// layout! { struct Cell { pointers { next: Cell } words { number: u64 } } }
///
/// let shared = Shared::new(&Sizes::default(), 4)?;
/// let list = shared.new_global::<Cell>()?;
/// std::thread::scope(|threads| {
///     for number in 0..4 {
///         let mut seat = shared.seat().expect("there are 4");
///         threads.spawn(move || {
///             seat.run(|f| {
///                 let cell = f.alloc::<Cell>()?;
///                 f.write(cell, Cell::number, number);
///                 f.put(cell, Cell::next, f.load(list)?);
///                 f.save(list, cell)
///             })
///         });
///     }
/// });
/// let mut seat = shared.seat().expect("all are free again");
/// let sum = seat.run(|f| {
///     let (mut at, mut sum) = (f.var(f.load(list)?)?, 0);
///     while let Some(cell) = at.local() {
///         sum += f.read(cell, Cell::number);
///         at.follow(f, Cell::next);
///     }
///     Ok::<_, Error>(sum)
/// })?;
/// assert_eq!(sum, 6);
/// # Ok::<_, Box<dyn std::error::Error>>(())
/// ```
#[derive(Clone)]
pub struct Shared(Arc<Inner>);
struct Inner {
    locked: Locked,
    free: Mutex<Vec<u32>>,
}

/// What only a thread that holds its lock makes calls of.
struct Locked(Box<Core>);
// SAFETY: of a `Core` only the heap isn't Sync, and none of this module's calls gets to that but through `hold` and `reach`, in the thread
// that holds the lock.
unsafe impl Sync for Locked {}
impl Locked {
    /// Waits for the lock, and has it for as long as what is answered lives.
    #[track_caller]
    fn hold(&self) -> Held<'_> {
        let lock = self.0.lock.as_ref().expect("a shared heap has one");
        lock.take();
        Held { core: &self.0, lock }
    }
    /// Lends the heap to `body` under the lock, which this thread may have in a run of its own; not in the midst of a call.
    fn reach<R>(&self, body: impl FnOnce(&Core) -> R) -> Option<R> {
        let is_mine = self.0.lock.as_ref().map_or(false, Lock::is_mine);
        match (is_mine, is_writing()) {
            (false, _) => Some(body(self.hold().core)),
            (true, false) => Some(body(&self.0)),
            (true, true) => None,
        }
    }
    /// What needs no lock.
    fn globals(&self) -> &Globals {
        &self.0.globals
    }
}
struct Held<'a> {
    core: &'a Core,
    lock: &'a Lock,
}
impl Drop for Held<'_> {
    fn drop(&mut self) {
        self.lock.give(false);
    }
}

impl Shared {
    /// A heap for so many threads at once, 1 to 64.
    ///
    /// ```
    /// # use g1heap::*;
    /// assert_eq!(Shared::new(&Sizes::default(), 65).unwrap_err(), BadSizes::Mutators);
    /// ```
    pub fn new(sizes: &Sizes, seats: u32) -> Result<Shared, BadSizes> {
        let locked = Locked(new_core(sizes, seats, Some(Lock::default()))?);
        Ok(Shared(Arc::new(Inner { locked, free: Mutex::new((0..seats).rev().collect()) })))
    }
    /// A seat, where one is free.
    ///
    /// ```
    /// # use g1heap::*;
    /// let shared = Shared::new(&Sizes::default(), 1)?;
    /// let seat = shared.seat();
    /// assert!(seat.is_some() && shared.seat().is_none());
    /// drop(seat);
    /// assert!(shared.seat().is_some());
    /// # Ok::<_, BadSizes>(())
    /// ```
    pub fn seat(&self) -> Option<Seat> {
        let mutator = locked(&self.0.free).pop()?;
        Some(Seat { inner: self.0.clone(), mutator })
    }
    /// A global, nil at first. It may be called in a [`Seat::run`] too, and needs no lock of the heap, but where the only globals left are
    /// those whose [`Kept`](crate::Kept) was dropped. These it takes back, for which a register of some thread has to be nil; where none is,
    /// it answers [`Error::NoRegisters`].
    ///
    /// ```
    /// # use g1heap::*;
    /// # layout! { struct Cell { words { number: u64 } } }
    /// let shared = Shared::new(&Sizes::default(), 1)?;
    /// let global = shared.seat().unwrap().run(|f| {
    ///     let global = shared.new_global::<Cell>()?;
    ///     f.save(global, f.alloc()?)?;
    ///     Ok::<_, Error>(global)
    /// })?;
    /// # Ok::<_, Box<dyn std::error::Error>>(())
    /// ```
    pub fn new_global<T>(&self) -> Result<Global<T>, Error> {
        let locked = &self.0.locked;
        let number = locked.globals().take_nil().or_else(|error| locked.reach(Core::take_nil).unwrap_or(Err(error)))?;
        Ok(Global::new(locked.globals(), number))
    }
    /// What the policy did so far. It takes the lock; within a run there is [`Frame::counts`].
    ///
    /// ```
    /// # use g1heap::*;
    /// let shared = Shared::new(&Sizes::default(), 1)?;
    /// shared.seat().unwrap().run(|f| f.collect());
    /// assert_eq!(shared.counts().cycles, 1);
    /// # Ok::<_, BadSizes>(())
    /// ```
    #[track_caller]
    pub fn counts(&self) -> Counts {
        Counts::of(self.0.locked.hold().core)
    }
}
impl Shared {
    /// Hands each step's line to `write`, as [`Heap::record`](crate::Heap::record) does. It takes the lock.
    ///
    /// ```
    /// # use g1heap::*;
    /// let shared = Shared::new(&Sizes::default(), 2)?;
    /// assert!(shared.record(|line| std::io::Write::write_all(&mut std::io::sink(), line)));
    /// # Ok::<_, BadSizes>(())
    /// ```
    #[cfg(feature = "recorded")]
    #[track_caller]
    pub fn record(&self, write: impl FnMut(&[u8]) -> std::io::Result<()> + Send + 'static) -> bool {
        self.0.locked.hold().core.raw.record(write)
    }
}
impl fmt::Debug for Shared {
    fn fmt(&self, f: &mut fmt::Formatter<'_>) -> fmt::Result {
        f.debug_struct("Shared").field("free_seats", &locked(&self.0.free).len()).finish_non_exhaustive()
    }
}

/// A thread's place at a [`Shared`] heap. It may go to another thread; dropped it is free again.
pub struct Seat {
    inner: Arc<Inner>,
    mutator: u32,
}
impl Seat {
    /// Waits for the lock, takes it, and lends a frame to `body`. [`Frame::unlocked`] gives the lock to others meanwhile; roots stay.
    /// The thread that waits longest for the lock gets it at another's next `unlocked`, or after some runs of others at the latest.
    ///
    /// Within a run of this heap, on the same thread, there is no other: it would wait for itself, and panics.
    ///
    /// ```
    /// # use g1heap::*;
    /// # layout! { struct Cell { words { number: u64 } } }
    /// let shared = Shared::new(&Sizes::default(), 1)?;
    /// let mut seat = shared.seat().unwrap();
    /// let number = seat.run(|f| f.alloc::<Cell>().map(|cell| f.read(cell, Cell::number)))?;
    /// assert_eq!(number, 0);
    /// # Ok::<_, Box<dyn std::error::Error>>(())
    /// ```
    #[track_caller]
    pub fn run<R>(&mut self, body: impl for<'h> FnOnce(&mut Frame<'h, 'h>) -> R) -> R {
        let held = self.inner.locked.hold();
        let run = Run::new(held.core, self.mutator);
        body(&mut run.frame())
    }
}
impl Drop for Seat {
    fn drop(&mut self) {
        locked(&self.inner.free).push(self.mutator);
    }
}
impl fmt::Debug for Seat {
    fn fmt(&self, f: &mut fmt::Formatter<'_>) -> fmt::Result {
        write!(f, "Seat({})", self.mutator)
    }
}

/// A panic changes nothing of what is locked here: each change is one call.
fn locked<T>(it: &Mutex<T>) -> MutexGuard<'_, T> {
    it.lock().unwrap_or_else(|poisoned| poisoned.into_inner())
}

/// How often the lock is given and then taken by another thread than the one that waits longest, before it is handed to that one.
const PASSES: u32 = 10;

/// A lock that can be given back and taken again in the midst of what it is held for, and knows who holds it.
#[derive(Default)]
pub(crate) struct Lock {
    queue: Mutex<Queue>,
    /// The thread that holds it, or 0. A thread asks this of itself alone, and only it writes its own number.
    holder: AtomicUsize,
}
#[derive(Default)]
struct Queue {
    taken: bool,
    /// Who waits, the longest first. Whom the lock is handed to isn't in here any more, and it stays taken.
    waiting: VecDeque<Arc<Condvar>>,
    /// How often the lock was given since the first one waits, or since one that waited has got it.
    passes: u32,
}
impl Lock {
    #[track_caller]
    fn take(&self) {
        assert!(!self.is_mine(), "this thread is in a run of this heap already: Frame::unlocked gives the lock to others");
        let mut queue = locked(&self.queue);
        if queue.taken {
            let turn = Arc::new(Condvar::new());
            queue.waiting.push_back(turn.clone());
            while queue.taken && queue.waiting.iter().any(|it| Arc::ptr_eq(it, &turn)) {
                queue = turn.wait(queue).unwrap_or_else(|poisoned| poisoned.into_inner());
            }
            queue.waiting.retain(|it| !Arc::ptr_eq(it, &turn));
            queue.passes = 0;
        }
        queue.taken = true;
        self.holder.store(this_thread(), Ordering::Relaxed);
    }
    /// Whether this thread holds it.
    fn is_mine(&self) -> bool {
        self.holder.load(Ordering::Relaxed) == this_thread()
    }
    /// Gives it to the thread that waits longest, now or after some times; where none waits, to any.
    fn give(&self, now: bool) {
        self.holder.store(0, Ordering::Relaxed);
        let mut queue = locked(&self.queue);
        queue.taken = false;
        let first = match queue.waiting.front() {
            Some(first) => first.clone(),
            None => return,
        };
        queue.passes += 1;
        if now || queue.passes > PASSES {
            queue.waiting.pop_front();
            queue.taken = true;
        }
        drop(queue);
        first.notify_one();
    }
    /// Gives it to others while `body` runs.
    pub fn without<R>(&self, body: impl FnOnce() -> R) -> R {
        struct Again<'a>(&'a Lock);
        impl Drop for Again<'_> {
            fn drop(&mut self) {
                self.0.take();
            }
        }
        self.give(true);
        let _again = Again(self);
        body()
    }
}

/// A number that no other thread has that lives now, and that isn't 0.
fn this_thread() -> usize {
    thread_local!(static HERE: u8 = const { 0 });
    HERE.with(|it| it as *const u8 as usize)
}

#[cfg(test)]
mod tests {
    use super::*;
    use std::sync::atomic::AtomicBool;

    /// How often `pass` gives the lock and takes it again until a thread has got it that waited from the first time on.
    fn passes(pass: impl Fn(&Lock)) -> u32 {
        let (lock, entered) = (Lock::default(), AtomicBool::new(false));
        std::thread::scope(|threads| {
            lock.take();
            threads.spawn(|| {
                lock.take();
                entered.store(true, Ordering::Relaxed);
                lock.give(false);
            });
            while locked(&lock.queue).waiting.is_empty() {
                std::thread::yield_now();
            }
            let mut passes = 0;
            while !entered.load(Ordering::Relaxed) {
                pass(&lock);
                passes += 1;
            }
            lock.give(false);
            passes
        })
    }
    #[test]
    fn who_waits_gets_the_lock() {
        for _ in 0..100 {
            assert_eq!(passes(|lock| lock.without(|| ())), 1);
            let passes = passes(|lock| {
                lock.give(false);
                lock.take();
            });
            assert!(passes <= PASSES + 1, "{passes}");
        }
    }
}
