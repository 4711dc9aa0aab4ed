use crate::base::Core;
use crate::heap::{Error, Global, Kept};
use crate::layout::{Any, Bits, Layout, Pointer, Weak, Word};
use crate::local::{Brand, Local, Name, Nil, Source, Value, Var};
use crate::sys::*;
use std::cell::Cell;
use std::fmt;
use std::marker::PhantomData;

/// The registers of a mutator while it runs, which are emptied where that ends, by a panic too.
pub(crate) struct Run<'h> {
    core: &'h Core,
    mutator: u32,
}
impl<'h> Run<'h> {
    #[inline]
    pub fn new(core: &'h Core, mutator: u32) -> Run<'h> {
        Run { core, mutator }
    }
    #[inline]
    pub fn frame(&self) -> Frame<'h, 'h> {
        Frame { core: self.core, mutator: self.mutator, top: Cell::new(0), of: PhantomData, brand: PhantomData }
    }
}
impl Drop for Run<'_> {
    fn drop(&mut self) {
        self.core.raw.scope(self.mutator, 0);
    }
}

/// A frame of roots, lent to a closure by [`Heap::run`](crate::Heap::run), [`Seat::run`](crate::Seat::run), or a frame's
/// [`scope`](Frame::scope). Its roots are [`Local`]s and [`Var`]s, which end with it.
///
/// Calls that make a root take the frame's next register, or answer [`Error::NoRegisters`]. So a loop that makes roots does it in a
/// `scope`.
pub struct Frame<'f, 'h> {
    core: &'h Core,
    mutator: u32,
    /// The first register that is free. Those from there on may hold what roots of frames that were left held.
    top: Cell<u32>,
    of: PhantomData<Cell<&'f ()>>,
    brand: Brand<'h>,
}
impl fmt::Debug for Frame<'_, '_> {
    fn fmt(&self, f: &mut fmt::Formatter<'_>) -> fmt::Result {
        f.debug_struct("Frame").field("room", &self.room()).finish_non_exhaustive()
    }
}

#[cold]
#[inline(never)]
#[track_caller]
fn refused(code: u32) -> ! {
    match code {
        NO_FIELD => panic!("the object isn't of the layout that it was assumed to be"),
        _ => unreachable!("the heap answered {}", code),
    }
}
#[cold]
#[inline(never)]
#[track_caller]
fn nil_field<T: Layout>(index: u32) -> ! {
    let name = T::NAMES.get(index as usize).map_or_else(String::new, |name| format!(" `{}`,", name));
    panic!("pointer {},{} of {} is nil", index, name, std::any::type_name::<T>())
}
/// An answer that is no refusal, where no number that was given can lead to one, but for a wrong layout.
#[inline(always)]
#[track_caller]
pub(crate) fn done(answer: g1_answer) -> g1_answer {
    if answer.code >= NIL {
        refused(answer.code)
    }
    answer
}
/// The same where the number of the field was any.
#[inline(always)]
#[track_caller]
pub(crate) fn of_field(answer: g1_answer) -> Result<g1_answer, Error> {
    match answer.code {
        NO_FIELD => Err(Error::NoField),
        _ => Ok(done(answer)),
    }
}

/// Whether a new object was made, and else why not.
pub(crate) fn made(code: u32, weaks: u32) -> Result<(), Error> {
    match code {
        NAME => Ok(()),
        FULL => Err(Error::Full),
        TOO_BIG => Err(Error::TooBig),
        NAMES_SPENT => Err(Error::NamesSpent),
        NO_STEP if weaks > 255 => Err(Error::TooBig),
        NO_STEP => Err(Error::NoRegisters),
        code => refused(code),
    }
}

impl<'f, 'h> Frame<'f, 'h> {
    #[inline(always)]
    pub(crate) fn raw(&self) -> &'h Raw {
        &self.core.raw
    }
    #[inline(always)]
    pub(crate) fn core(&self) -> &'h Core {
        self.core
    }
    #[inline(always)]
    pub(crate) fn mutator(&self) -> u32 {
        self.mutator
    }
    #[inline(always)]
    pub(crate) fn top(&self) -> u32 {
        self.top.get()
    }
    #[inline(always)]
    pub(crate) fn set_top(&self, top: u32) {
        self.top.set(top);
    }
    /// A call has just put an object into the register at the top: now it's a root.
    #[inline(always)]
    pub(crate) fn push<T>(&self) -> Local<'f, 'h, T> {
        let top = self.top.get();
        self.top.set(top + 1);
        Local::at(top)
    }
    /// The same where the call may have found nil, or no register.
    #[inline(always)]
    #[track_caller]
    pub(crate) fn pushed<T>(&self, answer: g1_answer) -> Result<Option<Local<'f, 'h, T>>, Error> {
        match answer.code {
            NAME => Ok(Some(self.push())),
            NIL_VALUE => Ok(None),
            NO_STEP => Err(Error::NoRegisters),
            code => refused(code),
        }
    }
    /// Makes a register take what another one holds, where they aren't the same.
    #[inline(always)]
    pub(crate) fn place(&self, register: u32, from: u32) -> Result<(), Error> {
        let answer = match from {
            NIL_REGISTER => self.raw().drop(self.mutator, register),
            from if from != register => self.raw().copy(self.mutator, register, from),
            _ => return Ok(()),
        };
        match answer.code {
            DONE => Ok(()),
            NO_STEP => Err(Error::NoRegisters),
            code => refused(code),
        }
    }

    #[inline(always)]
    pub(crate) fn inner<'g>(&self, top: u32) -> Frame<'g, 'h> {
        let top = Cell::new(top);
        Frame { core: self.core, mutator: self.mutator, top, of: PhantomData, brand: PhantomData }
    }
    /// Lends an inner frame to `body`, whose roots end with it. Leaving it is no call of the heap, nor is a panic of `body`.
    ///
    /// ```
    /// # use g1heap::*;
    /// # layout! { struct Cell { words { number: u64 } } }
    /// # let mut heap = Heap::new(&Sizes::default())?;
    /// # heap.run(|f| {
    /// for _ in 0..1_000_000 {
    ///     f.scope(|g| g.alloc::<Cell>().map(drop))?; // a root, for as long as the scope
    /// }
    /// assert_eq!(f.room(), 4096);
    /// # Ok::<_, Error>(())
    /// # })?;
    /// # Ok::<_, Box<dyn std::error::Error>>(())
    /// ```
    #[inline]
    pub fn scope<R>(&mut self, body: impl for<'g> FnOnce(&mut Frame<'g, 'h>) -> R) -> R {
        body(&mut self.inner(self.top()))
    }
    /// The same, and the root that `body` answers becomes one of this frame. It's one step at most.
    ///
    /// ```
    /// # use g1heap::*;
    /// layout! { struct Pair { pointers { left: Pair, right: Pair } } }
    /// fn tree<'f, 'h>(f: &mut Frame<'f, 'h>, depth: u32) -> Result<Local<'f, 'h, Pair>, Error> {
    ///     f.lift(|g| {
    ///         let node = g.alloc::<Pair>()?;
    ///         if depth > 0 {
    ///             let (left, right) = (tree(g, depth - 1)?, tree(g, depth - 1)?);
    ///             g.put(node, Pair::left, left);
    ///             g.put(node, Pair::right, right);
    ///         }
    ///         Ok(node)
    ///     })
    /// }
    /// # let mut heap = Heap::new(&Sizes::default())?;
    /// # heap.run(|f| {
    /// tree(f, 9)?;
    /// assert_eq!(f.room(), 4095); // of 1,023 roots there is one now
    /// # Ok::<_, Error>(())
    /// # })?;
    /// # Ok::<_, Box<dyn std::error::Error>>(())
    /// ```
    #[inline]
    pub fn lift<T, E>(
        &mut self,
        body: impl for<'g> FnOnce(&mut Frame<'g, 'h>) -> Result<Local<'g, 'h, T>, E>,
    ) -> Result<Local<'f, 'h, T>, E> {
        let from = body(&mut self.inner(self.top()))?.register();
        Ok(self.lifted(from))
    }
    /// The same where `body` may answer nil.
    ///
    /// ```
    /// # use g1heap::*;
    /// # layout! { struct Cell { pointers { next: Cell } } }
    /// # let mut heap = Heap::new(&Sizes::default())?;
    /// # heap.run(|f| {
    /// let cell = f.alloc::<Cell>()?;
    /// assert!(f.lift_option(|g| g.get(cell, Cell::next))?.is_none());
    /// # Ok::<_, Error>(())
    /// # })?;
    /// # Ok::<_, Box<dyn std::error::Error>>(())
    /// ```
    #[inline]
    pub fn lift_option<T, E>(
        &mut self,
        body: impl for<'g> FnOnce(&mut Frame<'g, 'h>) -> Result<Option<Local<'g, 'h, T>>, E>,
    ) -> Result<Option<Local<'f, 'h, T>>, E> {
        let found = body(&mut self.inner(self.top()))?.map(Local::register);
        Ok(found.map(|from| self.lifted(from)))
    }
    /// The same where `body` also answers a value that is no root: a number, a text of the program's own.
    ///
    /// ```
    /// # use g1heap::*;
    /// # layout! { struct Cell { pointers { next: Cell } } }
    /// /// The last cell of a list, and how many cells there are.
    /// fn last<'f, 'h>(f: &mut Frame<'f, 'h>, list: Local<'_, 'h, Cell>) -> Result<(Local<'f, 'h, Cell>, u64), Error> {
    ///     f.lift_with(|g| {
    ///         let (mut at, mut next, mut count) = (g.var(list)?, g.var(list)?, 1);
    ///         while next.follow(g, Cell::next) {
    ///             at.set(g, &next);
    ///             count += 1;
    ///         }
    ///         Ok((at.into_local().expect("a cell"), count))
    ///     })
    /// }
    /// # let mut heap = Heap::new(&Sizes::default())?;
    /// # heap.run(|f| {
    /// #     let cell = f.alloc()?;
    /// #     let (end, count) = last(f, cell)?;
    /// #     assert!(f.same(end, cell) && count == 1);
    /// #     Ok::<_, Error>(())
    /// # })?;
    /// # Ok::<_, Box<dyn std::error::Error>>(())
    /// ```
    #[inline]
    pub fn lift_with<T, V, E>(
        &mut self,
        body: impl for<'g> FnOnce(&mut Frame<'g, 'h>) -> Result<(Local<'g, 'h, T>, V), E>,
    ) -> Result<(Local<'f, 'h, T>, V), E> {
        let (from, value) = body(&mut self.inner(self.top())).map(|(root, value)| (root.register(), value))?;
        Ok((self.lifted(from), value))
    }
    #[inline]
    fn lifted<T>(&self, from: u32) -> Local<'f, 'h, T> {
        let top = self.top.get();
        // The inner frame had a root, so there is a register for this one. A root of this frame isn't answered by it.
        if from != top {
            done(self.raw().copy(self.mutator, top, from));
        }
        self.push()
    }
    /// How many registers are left, which is how many roots can be made.
    ///
    /// ```
    /// # use g1heap::*;
    /// # let mut heap = Heap::new(&Sizes::default().registers(2))?;
    /// # heap.run(|f| {
    /// f.alloc_any(1, 0, 0)?;
    /// assert_eq!(f.room(), 1);
    /// f.alloc_any(1, 0, 0)?;
    /// assert_eq!(f.alloc_any(1, 0, 0).unwrap_err(), Error::NoRegisters);
    /// # Ok::<_, Error>(())
    /// # })?;
    /// # Ok::<_, Box<dyn std::error::Error>>(())
    /// ```
    #[inline]
    pub fn room(&self) -> u32 {
        self.core.registers - self.top.get()
    }
    /// A new root of this frame for an object of an outer one.
    ///
    /// ```
    /// # use g1heap::*;
    /// # layout! { struct Cell { pointers { next: Cell } } }
    /// /// The last cell of a list.
    /// fn last<'f, 'h>(f: &mut Frame<'f, 'h>, list: Local<'_, 'h, Cell>) -> Result<Local<'f, 'h, Cell>, Error> {
    ///     f.lift(|g| match g.get(list, Cell::next)? {
    ///         Some(next) => last(g, next),
    ///         None => g.copy(list),
    ///     })
    /// }
    /// # let mut heap = Heap::new(&Sizes::default())?;
    /// # heap.run(|f| { let cell = f.alloc()?; let end = last(f, cell)?; assert!(f.same(end, cell)); Ok::<_, Error>(()) })?;
    /// # Ok::<_, Box<dyn std::error::Error>>(())
    /// ```
    #[inline]
    pub fn copy<T>(&self, from: Local<'_, 'h, T>) -> Result<Local<'f, 'h, T>, Error> {
        self.place(self.top.get(), from.register())?;
        Ok(self.push())
    }
    /// A place of this frame that holds `value`, and can be set again.
    ///
    /// ```
    /// # use g1heap::*;
    /// # layout! { struct Cell { pointers { next: Cell } } }
    /// # let mut heap = Heap::new(&Sizes::default())?;
    /// # heap.run(|f| {
    /// let mut at = f.var(f.alloc::<Cell>()?)?;
    /// let mut next = f.var(f.get(at.local().unwrap(), Cell::next)?)?;
    /// assert!(!at.is_nil() && next.is_nil());
    /// # Ok::<_, Error>(())
    /// # })?;
    /// # Ok::<_, Box<dyn std::error::Error>>(())
    /// ```
    #[inline]
    pub fn var<V: Value<'h>>(&self, value: V) -> Result<Var<'f, 'h, V::Object>, Error> {
        let mut var = self.new_var()?;
        var.set(self, value);
        Ok(var)
    }
    /// A place of this frame that holds nil, and can be set.
    ///
    /// ```
    /// # use g1heap::*;
    /// # layout! { struct Cell { pointers { next: Cell } } }
    /// # let mut heap = Heap::new(&Sizes::default())?;
    /// # heap.run(|f| {
    /// let mut list = f.nil_var::<Cell>()?;
    /// list.set(f, f.alloc()?);
    /// # Ok::<_, Error>(())
    /// # })?;
    /// # Ok::<_, Box<dyn std::error::Error>>(())
    /// ```
    #[inline]
    pub fn nil_var<T>(&self) -> Result<Var<'f, 'h, T>, Error> {
        let mut var = self.new_var()?;
        var.set(self, Nil); // an older root may be in its register
        Ok(var)
    }
    #[inline]
    fn new_var<T>(&self) -> Result<Var<'f, 'h, T>, Error> {
        if self.room() == 0 {
            return Err(Error::NoRegisters);
        }
        let register = self.top.get();
        self.top.set(register + 1);
        Ok(Var::at(register))
    }

    /// A new object: its pointers and weak slots are nil, and its words are 0. Where it is due, the collector takes some steps
    /// before. Answers [`Error::Full`], [`TooBig`](Error::TooBig), [`NamesSpent`](Error::NamesSpent) or
    /// [`NoRegisters`](Error::NoRegisters).
    ///
    /// ```
    /// # use g1heap::*;
    /// # layout! { struct Cell { pointers { next: Cell } words { number: u64 } } }
    /// # let mut heap = Heap::new(&Sizes::default())?;
    /// # heap.run(|f| {
    /// let cell = f.alloc::<Cell>()?;
    /// assert!(f.get(cell, Cell::next)?.is_none() && f.read(cell, Cell::number) == 0);
    /// # Ok::<_, Error>(())
    /// # })?;
    /// # Ok::<_, Box<dyn std::error::Error>>(())
    /// ```
    #[inline]
    pub fn alloc<T: Layout>(&self) -> Result<Local<'f, 'h, T>, Error> {
        self.make(T::POINTERS, T::WEAKS, T::WORDS)
    }
    /// A new object of so many pointers, weak slots and words; [`get_at`](Frame::get_at) and its like reach its fields.
    ///
    /// ```
    /// # use g1heap::*;
    /// # let mut heap = Heap::new(&Sizes::default())?;
    /// # heap.run(|f| {
    /// let object = f.alloc_any(2, 1, 3)?;
    /// assert_eq!((f.shape(object), f.weaks(object)), ((2, 3), 1));
    /// # Ok::<_, Error>(())
    /// # })?;
    /// # Ok::<_, Box<dyn std::error::Error>>(())
    /// ```
    #[inline]
    pub fn alloc_any(&self, pointers: u32, weaks: u32, words: u32) -> Result<Local<'f, 'h, Any>, Error> {
        self.make(pointers, weaks, words)
    }
    #[inline(always)]
    pub(crate) fn make<T>(&self, pointers: u32, weaks: u32, words: u32) -> Result<Local<'f, 'h, T>, Error> {
        // Without the policy that is always so.
        if self.raw().is_due(2 + u64::from(pointers) + u64::from(weaks) + u64::from(words)) {
            if !self.core.collects {
                self.make_alone(pointers, weaks, words)?;
                return Ok(self.push());
            }
            self.ready();
        }
        let answer = self.raw().make(self.mutator, self.top.get(), pointers, weaks, words);
        if answer.code != NAME {
            self.make_again(answer.code, pointers, weaks, words)?;
        }
        Ok(self.push())
    }
    /// A new object by the step alone.
    fn make_alone(&self, pointers: u32, weaks: u32, words: u32) -> Result<(), Error> {
        let (raw, mutator, to) = (self.raw(), self.mutator, self.top.get());
        let answer = match weaks {
            0 => raw.new_object(mutator, to, pointers, words),
            _ => raw.new_weak(mutator, to, pointers, weaks, words),
        };
        made(answer.code, weaks)
    }
    /// A heap that seems to be full may be so for what left frames and dropped `Kept`s held.
    #[cold]
    #[inline(never)]
    fn make_again(&self, mut code: u32, pointers: u32, weaks: u32, words: u32) -> Result<(), Error> {
        if code == FULL {
            self.ready();
            code = self.raw().make(self.mutator, self.top.get(), pointers, weaks, words).code;
        }
        made(code, weaks)
    }

    /// What a pointer holds, in a new root.
    ///
    /// ```
    /// # use g1heap::*;
    /// # layout! { struct Cell { pointers { next: Cell } } }
    /// # let mut heap = Heap::new(&Sizes::default())?;
    /// # heap.run(|f| {
    /// let cell = f.alloc::<Cell>()?;
    /// assert!(f.get(cell, Cell::next)?.is_none());
    /// # Ok::<_, Error>(())
    /// # })?;
    /// # Ok::<_, Box<dyn std::error::Error>>(())
    /// ```
    #[inline]
    #[track_caller]
    pub fn get<T, U>(&self, object: Local<'_, 'h, T>, field: Pointer<T, U>) -> Result<Option<Local<'f, 'h, U>>, Error> {
        self.pushed(self.raw().get(self.mutator, self.top.get(), object.register(), field.index))
    }
    /// What a pointer holds, in a new root, with a data word of the object: in one call, where [`get`](Frame::get) and
    /// [`read`](Frame::read) are two.
    ///
    /// ```
    /// # use g1heap::*;
    /// # layout! { struct Tagged { words { tag: u8 } } struct Pair { pointers { first: Tagged, rest: Pair } } }
    /// # let mut heap = Heap::new(&Sizes::default())?;
    /// # heap.run(|f| {
    /// let pair = f.alloc::<Pair>()?;
    /// assert!(f.get_word(pair, Pair::first, Tagged::tag)?.is_none());
    /// f.put(pair, Pair::first, f.new(|p| p.write(Tagged::tag, 7))?);
    /// let (first, tag) = f.get_word(pair, Pair::first, Tagged::tag)?.unwrap();
    /// assert_eq!((tag, f.read(first, Tagged::tag)), (7, 7));
    /// # Ok::<_, Error>(())
    /// # })?;
    /// # Ok::<_, Box<dyn std::error::Error>>(())
    /// ```
    #[inline]
    #[track_caller]
    pub fn get_word<T, U, V: Bits>(
        &self,
        object: Local<'_, 'h, T>,
        field: Pointer<T, U>,
        word: Word<U, V>,
    ) -> Result<Option<(Local<'f, 'h, U>, V)>, Error> {
        let answer = self.raw().get_word(self.mutator, self.top.get(), object.register(), field.index, word.index);
        match answer.code {
            WORD => Ok(Some((self.push(), V::from_word(answer.first)))),
            NIL_VALUE => Ok(None),
            NO_STEP => Err(Error::NoRegisters),
            NAME => refused(NO_FIELD),
            code => refused(code),
        }
    }
    /// What a pointer holds that is never nil, in a new root: as indexing does, it panics where it is nil, and says which one that is.
    ///
    /// ```
    /// # use g1heap::*;
    /// # layout! { struct Class { words { number: u64 } } struct Instance { pointers { class: Class } } }
    /// # let mut heap = Heap::new(&Sizes::default())?;
    /// # heap.run(|f| {
    /// let instance = f.alloc::<Instance>()?;
    /// f.put(instance, Instance::class, f.alloc()?);
    /// let class = f.field(instance, Instance::class)?; // no Option
    /// f.write(class, Class::number, 1);
    /// # Ok::<_, Error>(())
    /// # })?;
    /// # Ok::<_, Box<dyn std::error::Error>>(())
    /// ```
    ///
    /// ```should_panic
    /// # use g1heap::*;
    /// # layout! { struct Instance { pointers { class: Any } } }
    /// # let mut heap = Heap::new(&Sizes::default()).unwrap();
    /// heap.run(|f| f.field(f.alloc::<Instance>()?, Instance::class).map(drop)); // pointer 0, `class`, of Instance is nil
    /// ```
    #[inline]
    #[track_caller]
    pub fn field<T: Layout, U>(&self, object: Local<'_, 'h, T>, field: Pointer<T, U>) -> Result<Local<'f, 'h, U>, Error> {
        match self.get(object, field)? {
            Some(found) => Ok(found),
            None => nil_field::<T>(field.index),
        }
    }
    /// Sets a pointer.
    ///
    /// ```
    /// # use g1heap::*;
    /// # layout! { struct Cell { pointers { next: Cell } } }
    /// # let mut heap = Heap::new(&Sizes::default())?;
    /// # heap.run(|f| {
    /// let (one, other) = (f.alloc::<Cell>()?, f.alloc::<Cell>()?);
    /// f.put(one, Cell::next, other);
    /// f.put(other, Cell::next, f.get(one, Cell::next)?); // an Option of a root
    /// f.put(one, Cell::next, Nil);
    /// # Ok::<_, Error>(())
    /// # })?;
    /// # Ok::<_, Box<dyn std::error::Error>>(())
    /// ```
    #[inline]
    #[track_caller]
    pub fn put<T, U>(&self, object: Local<'_, 'h, T>, field: Pointer<T, U>, value: impl Source<'h, U>) {
        done(self.raw().put(self.mutator, object.register(), field.index, value.code()));
    }
    /// What a data word holds.
    ///
    /// ```
    /// # use g1heap::*;
    /// # layout! { struct Cell { words { number: i64 } } }
    /// # let mut heap = Heap::new(&Sizes::default())?;
    /// # heap.run(|f| {
    /// let cell = f.alloc::<Cell>()?;
    /// f.write(cell, Cell::number, -1);
    /// assert_eq!(f.read(cell, Cell::number), -1);
    /// # Ok::<_, Error>(())
    /// # })?;
    /// # Ok::<_, Box<dyn std::error::Error>>(())
    /// ```
    #[inline]
    #[track_caller]
    pub fn read<T, V: Bits>(&self, object: Local<'_, 'h, T>, field: Word<T, V>) -> V {
        V::from_word(done(self.raw().read(self.mutator, object.register(), field.index)).first)
    }
    /// Sets a data word.
    ///
    /// ```
    /// # use g1heap::*;
    /// # layout! { struct Point { words { x: f64, y: f64 } } }
    /// # let mut heap = Heap::new(&Sizes::default())?;
    /// # heap.run(|f| {
    /// let point = f.alloc::<Point>()?;
    /// f.write(point, Point::x, 0.5);
    /// assert_eq!((f.read(point, Point::x), f.read(point, Point::y)), (0.5, 0.0));
    /// # Ok::<_, Error>(())
    /// # })?;
    /// # Ok::<_, Box<dyn std::error::Error>>(())
    /// ```
    #[inline]
    #[track_caller]
    pub fn write<T, V: Bits>(&self, object: Local<'_, 'h, T>, field: Word<T, V>, value: V) {
        done(self.raw().write(self.mutator, object.register(), field.index, value.to_word()));
    }
    /// What a weak slot holds, in a new root. A slot is made nil at the end of a marking that found its object unreachable.
    ///
    /// ```
    /// # use g1heap::*;
    /// # layout! { struct Cell { words { number: u64 } } struct Observer { weaks { seen: Cell } } }
    /// # let mut heap = Heap::new(&Sizes::default())?;
    /// # heap.run(|f| {
    /// let observer = f.alloc::<Observer>()?;
    /// f.scope(|g| {
    ///     g.put_weak(observer, Observer::seen, g.alloc()?);
    ///     assert!(g.get_weak(observer, Observer::seen)?.is_some());
    ///     Ok::<_, Error>(())
    /// })?;
    /// f.collect();
    /// assert!(f.get_weak(observer, Observer::seen)?.is_none());
    /// # Ok::<_, Error>(())
    /// # })?;
    /// # Ok::<_, Box<dyn std::error::Error>>(())
    /// ```
    #[inline]
    #[track_caller]
    pub fn get_weak<T, U>(&self, object: Local<'_, 'h, T>, slot: Weak<T, U>) -> Result<Option<Local<'f, 'h, U>>, Error> {
        self.pushed(self.raw().get_weak(self.mutator, self.top.get(), object.register(), slot.index))
    }
    /// Sets a weak slot.
    ///
    /// ```
    /// # use g1heap::*;
    /// # layout! { struct Observer { weaks { seen: Any } } }
    /// # let mut heap = Heap::new(&Sizes::default())?;
    /// # heap.run(|f| {
    /// let observer = f.alloc::<Observer>()?;
    /// f.put_weak(observer, Observer::seen, observer);
    /// f.put_weak(observer, Observer::seen, Nil);
    /// # Ok::<_, Error>(())
    /// # })?;
    /// # Ok::<_, Box<dyn std::error::Error>>(())
    /// ```
    #[inline]
    #[track_caller]
    pub fn put_weak<T, U>(&self, object: Local<'_, 'h, T>, slot: Weak<T, U>, value: impl Source<'h, U>) {
        done(self.raw().put_weak(self.mutator, object.register(), slot.index, value.code()));
    }
    /// The object's name, which never changes and is no other object's: a hash code by identity too.
    ///
    /// ```
    /// # use g1heap::*;
    /// # let mut heap = Heap::new(&Sizes::default())?;
    /// # heap.run(|f| {
    /// let object = f.alloc_any(0, 0, 1)?;
    /// let name = f.name(object);
    /// f.collect();
    /// assert_eq!(f.name(object), name);
    /// # Ok::<_, Error>(())
    /// # })?;
    /// # Ok::<_, Box<dyn std::error::Error>>(())
    /// ```
    #[inline]
    pub fn name<T>(&self, object: Local<'_, 'h, T>) -> Name {
        Name(done(self.raw().name(self.mutator, object.register())).first)
    }
    /// Whether two roots are of the same object.
    ///
    /// ```
    /// # use g1heap::*;
    /// # let mut heap = Heap::new(&Sizes::default())?;
    /// # heap.run(|f| {
    /// let object = f.alloc_any(0, 0, 1)?;
    /// assert!(f.same(object, f.copy(object)?) && !f.same(object, f.alloc_any(0, 0, 1)?));
    /// # Ok::<_, Error>(())
    /// # })?;
    /// # Ok::<_, Box<dyn std::error::Error>>(())
    /// ```
    #[inline]
    pub fn same<T, U>(&self, one: Local<'_, 'h, T>, other: Local<'_, 'h, U>) -> bool {
        self.name(one) == self.name(other)
    }

    /// A global, nil at first; it lives as long as the heap. Where the only ones left are those whose [`Kept`] was dropped, it takes them
    /// back, which needs a register that is left, and else answers [`Error::NoRegisters`].
    ///
    /// ```
    /// # use g1heap::*;
    /// # layout! { struct Cell { words { number: u64 } } }
    /// # let mut heap = Heap::new(&Sizes::default())?;
    /// # heap.run(|f| {
    /// let global = f.new_global::<Cell>()?;
    /// assert!(f.load(global)?.is_none());
    /// # Ok::<_, Error>(())
    /// # })?;
    /// # Ok::<_, Box<dyn std::error::Error>>(())
    /// ```
    pub fn new_global<T>(&self) -> Result<Global<T>, Error> {
        let globals = &self.core.globals;
        let number = globals.take_nil().or_else(|_| {
            self.clear();
            self.core.take_nil()
        })?;
        Ok(Global::new(globals, number))
    }
    /// What a global holds, in a new root.
    ///
    /// ```
    /// # use g1heap::*;
    /// # layout! { struct Cell { words { number: u64 } } }
    /// # let mut heap = Heap::new(&Sizes::default())?;
    /// # let global = heap.new_global::<Cell>()?;
    /// # heap.run(|f| {
    /// f.save(global, f.alloc()?)?;
    /// assert!(f.load(global)?.is_some());
    /// # Ok::<_, Error>(())
    /// # })?;
    /// # Ok::<_, Box<dyn std::error::Error>>(())
    /// ```
    #[inline]
    #[track_caller]
    pub fn load<T>(&self, global: Global<T>) -> Result<Option<Local<'f, 'h, T>>, Error> {
        let number = global.number_in(self.core);
        self.pushed(self.raw().load(self.mutator, self.top.get(), number))
    }
    /// Sets a global. Nil needs a register that is left, and else answers [`Error::NoRegisters`].
    ///
    /// ```
    /// # use g1heap::*;
    /// # layout! { struct Cell { words { number: u64 } } }
    /// # let mut heap = Heap::new(&Sizes::default())?;
    /// # let global = heap.new_global::<Cell>()?;
    /// # heap.run(|f| {
    /// f.save(global, f.alloc()?)?;
    /// f.save(global, Nil)?;
    /// assert!(f.load(global)?.is_none());
    /// # Ok::<_, Error>(())
    /// # })?;
    /// # Ok::<_, Box<dyn std::error::Error>>(())
    /// ```
    #[inline]
    #[track_caller]
    pub fn save<T>(&self, global: Global<T>, value: impl Source<'h, T>) -> Result<(), Error> {
        let (number, mut from) = (global.number_in(self.core), value.code());
        if from == NIL_REGISTER {
            from = self.top.get();
            self.place(from, NIL_REGISTER)?;
        }
        done(self.raw().save(self.mutator, number, from));
        Ok(())
    }
    /// Keeps the object beyond the run, by a global that is free, or else answers [`Error::NoGlobals`].
    ///
    /// ```
    /// # use g1heap::*;
    /// # layout! { struct Cell { words { number: u64 } } }
    /// # let mut heap = Heap::new(&Sizes::default())?;
    /// let kept: Vec<Kept<Cell>> = heap.run(|f| (0..9).map(|_| f.scope(|g| g.keep(g.alloc()?))).collect::<Result<_, Error>>())?;
    /// # Ok::<_, Box<dyn std::error::Error>>(())
    /// ```
    pub fn keep<T>(&self, object: Local<'_, 'h, T>) -> Result<Kept<T>, Error> {
        let number = self.core.globals.take()?;
        done(self.raw().save(self.mutator, number, object.register()));
        Ok(Kept::new(self.core, number))
    }
    /// The kept object, in a new root.
    ///
    /// ```
    /// # use g1heap::*;
    /// # layout! { struct Cell { words { number: u64 } } }
    /// # let mut heap = Heap::new(&Sizes::default())?;
    /// let kept = heap.run(|f| f.keep(f.alloc::<Cell>()?))?;
    /// let number = heap.run(|f| f.kept(&kept).map(|cell| f.read(cell, Cell::number)))?;
    /// # Ok::<_, Box<dyn std::error::Error>>(())
    /// ```
    #[track_caller]
    pub fn kept<T>(&self, kept: &Kept<T>) -> Result<Local<'f, 'h, T>, Error> {
        let number = kept.number_in(self.core);
        let found = self.pushed(self.raw().load(self.mutator, self.top.get(), number))?;
        Ok(found.expect("a kept object"))
    }

    /// Makes the registers nil that no root is in.
    fn clear(&self) {
        if self.room() > 0 {
            done(self.raw().scope(self.mutator, self.top.get()));
        }
    }
    /// Makes all nil that isn't held any more, before steps of the collector.
    #[cold]
    #[inline(never)]
    pub(crate) fn ready(&self) {
        self.clear();
        if self.room() > 0 {
            self.core.empty_left(self.mutator, self.top.get());
        }
    }
    /// Gives the lock of a [`Shared`](crate::Shared) heap to other threads while `body` runs. Where some wait for it, the one that waits
    /// longest gets it, even where `body` does nothing. All roots of this thread stay. In a run of a [`Heap`](crate::Heap) there is no
    /// lock, and `body` just runs.
    ///
    /// ```
    /// # use g1heap::*;
    /// let shared = Shared::new(&Sizes::default(), 2)?;
    /// let (mut one, mut other) = (shared.seat().unwrap(), shared.seat().unwrap());
    /// one.run(|f| {
    ///     let object = f.alloc_any(0, 0, 1)?;
    ///     f.unlocked(|| other.run(|g| g.collect())); // or what takes time, without the heap
    ///     f.read_at(object, 0)
    /// })?;
    /// # Ok::<_, Box<dyn std::error::Error>>(())
    /// ```
    pub fn unlocked<R>(&mut self, body: impl FnOnce() -> R) -> R {
        match &self.core.lock {
            Some(lock) => {
                self.clear(); // others may collect meanwhile
                lock.without(body)
            }
            None => body(),
        }
    }
}
