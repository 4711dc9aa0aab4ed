use crate::frame::{done, Frame};
use crate::layout::{Any, Layout, Pointer};
use crate::sys::{NAME, NIL_REGISTER, NO_FIELD};
use crate::Error;
use std::fmt;
use std::marker::PhantomData;
use std::num::NonZeroU32;

/// Makes `'h` invariant: each run has a lifetime of its own, so its roots fit no other run, and no other heap.
pub(crate) type Brand<'h> = PhantomData<fn(&'h ()) -> &'h ()>;
/// Makes `T` invariant: what is of one layout is of no other, not even of one whose type is a more general one. So none of these compiles:
///
/// ```compile_fail,E0308
/// # use g1heap::*; type One = fn(&'static u8); type More = for<'a> fn(&'a u8);
/// fn other<'f, 'h>(it: Local<'f, 'h, More>) -> Local<'f, 'h, One> { it }
/// ```
/// ```compile_fail,E0308
/// # use g1heap::*; type One = fn(&'static u8); type More = for<'a> fn(&'a u8);
/// fn other<'f, 'h>(it: Var<'f, 'h, More>) -> Var<'f, 'h, One> { it }
/// ```
/// ```compile_fail,E0308
/// # use g1heap::*; type One = fn(&'static u8); type More = for<'a> fn(&'a u8);
/// fn other(it: Global<More>) -> Global<One> { it }
/// ```
/// ```compile_fail,E0308
/// # use g1heap::*; type One = fn(&'static u8); type More = for<'a> fn(&'a u8);
/// fn other(it: Kept<More>) -> Kept<One> { it }
/// ```
/// ```compile_fail,E0308
/// # use g1heap::*; type One = fn(&'static u8); type More = for<'a> fn(&'a u8);
/// fn other(it: Word<One, u64>) -> Word<More, u64> { it } // a field of the one layout
/// ```
/// ```compile_fail,E0308
/// # use g1heap::*; type One = fn(&'static u8); type More = for<'a> fn(&'a u8);
/// fn other(it: Pointer<Any, More>) -> Pointer<Any, One> { it } // to the one layout
/// ```
pub(crate) type Exactly<T> = PhantomData<fn(T) -> T>;
/// A root of a frame, which may be taken for one of an inner frame.
type Rooted<'f, T> = PhantomData<(&'f (), Exactly<T>)>;

/// A root: an object of layout `T`, never nil, for as long as the frame `'f` of the run `'h`. It's the number of a register, 4 bytes,
/// and `Copy`; an `Option` of one is 4 bytes too.
///
/// ```
/// # use g1heap::*;
/// # layout! { struct Cell { pointers { next: Cell } } }
/// # let mut heap = Heap::new(&Sizes::default())?;
/// heap.run(|f| {
///     let cell: Local<Cell> = f.alloc()?;
///     f.collect(); // the object may move, and the root leads to it still
///     f.put(cell, Cell::next, cell);
///     assert_eq!(std::mem::size_of_val(&Some(cell)), 4);
///     Ok::<_, Error>(())
/// })?;
/// # Ok::<_, Box<dyn std::error::Error>>(())
/// ```
pub struct Local<'f, 'h, T = Any> {
    not: NonZeroU32, // the register's complement, so that None is the complement of NIL_REGISTER
    of: Rooted<'f, T>,
    brand: Brand<'h>,
}
impl<T> Clone for Local<'_, '_, T> {
    #[inline]
    fn clone(&self) -> Self {
        *self
    }
}
impl<T> Copy for Local<'_, '_, T> {}
impl<T> fmt::Debug for Local<'_, '_, T> {
    fn fmt(&self, f: &mut fmt::Formatter<'_>) -> fmt::Result {
        write!(f, "Local({})", self.register())
    }
}

impl<'f, 'h, T> Local<'f, 'h, T> {
    /// The object in a register that a call of the library has just found to be there, and not nil.
    #[inline(always)]
    pub(crate) fn at(register: u32) -> Self {
        debug_assert!(register != NIL_REGISTER);
        // SAFETY: a mutator has at most 65,536 registers, so the complement isn't 0.
        Local { not: unsafe { NonZeroU32::new_unchecked(!register) }, of: PhantomData, brand: PhantomData }
    }
    #[inline(always)]
    pub(crate) fn register(self) -> u32 {
        !self.not.get()
    }
    /// The same root, as one of any object.
    ///
    /// ```
    /// # use g1heap::*;
    /// # layout! { struct Cell { words { number: u64 } } }
    /// # let mut heap = Heap::new(&Sizes::default())?;
    /// # heap.run(|f| {
    /// let any: Local<Any> = f.alloc::<Cell>()?.any();
    /// assert_eq!(f.read_at(any, 0)?, 0);
    /// # Ok::<_, Error>(())
    /// # })?;
    /// # Ok::<_, Box<dyn std::error::Error>>(())
    /// ```
    #[inline]
    pub fn any(self) -> Local<'f, 'h, Any> {
        Local::at(self.register())
    }
}
impl<'f, 'h> Local<'f, 'h, Any> {
    /// The same root, as one of layout `U`, which the program knows from elsewhere, such as from a word that tells the type.
    /// Where it is wrong, a call finds another field, or panics where the object has none of this number; there is no undefined
    /// behaviour.
    ///
    /// ```
    /// # use g1heap::*;
    /// layout! {
    ///     struct Tagged { words { tag: u8 } }
    ///     struct Int { words { tag: u8, value: i64 } }
    /// }
    /// # let mut heap = Heap::new(&Sizes::default())?;
    /// # heap.run(|f| {
    /// let any = f.alloc::<Int>()?.any();
    /// if f.read(any.assume(), Tagged::tag) == 0 {
    ///     assert_eq!(f.read(any.assume(), Int::value), 0);
    /// }
    /// # Ok::<_, Error>(())
    /// # })?;
    /// # Ok::<_, Box<dyn std::error::Error>>(())
    /// ```
    #[inline]
    pub fn assume<U>(self) -> Local<'f, 'h, U> {
        Local::at(self.register())
    }
}

/// A place in a frame that holds nil or an object, and can be set again. [`Frame::var`] and [`Frame::nil_var`] make one.
///
/// ```
/// # use g1heap::*;
/// # layout! { struct Cell { pointers { next: Cell } words { number: u64 } } }
/// # let mut heap = Heap::new(&Sizes::default())?;
/// heap.run(|f| {
///     let mut list = f.nil_var::<Cell>()?;
///     for number in 1..=10 {
///         f.scope(|g| {
///             let cell = g.alloc::<Cell>()?;
///             g.write(cell, Cell::number, number);
///             g.put(cell, Cell::next, &list);
///             list.set(g, cell);
///             Ok::<_, Error>(())
///         })?;
///     }
///     let mut sum = 0;
///     while let Some(cell) = list.local() {
///         sum += f.read(cell, Cell::number);
///         list.follow(f, Cell::next);
///     }
///     assert_eq!(sum, 55);
///     Ok::<_, Error>(())
/// })?;
/// # Ok::<_, Box<dyn std::error::Error>>(())
/// ```
#[derive(Debug)]
pub struct Var<'f, 'h, T = Any> {
    register: u32,
    holds: bool,
    of: Rooted<'f, T>,
    brand: Brand<'h>,
}
impl<'f, 'h, T> Var<'f, 'h, T> {
    #[inline(always)]
    pub(crate) fn at(register: u32) -> Self {
        Var { register, holds: false, of: PhantomData, brand: PhantomData }
    }
    /// What it holds, for as long as it isn't set again.
    ///
    /// ```
    /// # use g1heap::*;
    /// # layout! { struct Cell { words { number: u64 } } }
    /// # let mut heap = Heap::new(&Sizes::default())?;
    /// # heap.run(|f| {
    /// let place = f.var(f.alloc::<Cell>()?)?;
    /// let cell = place.local().expect("it isn't nil");
    /// f.write(cell, Cell::number, 1);
    /// # Ok::<_, Error>(())
    /// # })?;
    /// # Ok::<_, Box<dyn std::error::Error>>(())
    /// ```
    #[inline]
    pub fn local(&self) -> Option<Local<'_, 'h, T>> {
        self.holds.then(|| Local::at(self.register))
    }
    /// What it holds, as a root of the frame: it is never set again. This costs nothing.
    ///
    /// ```
    /// # use g1heap::*;
    /// # layout! { struct Cell { pointers { next: Cell } } }
    /// fn last<'f, 'h>(f: &Frame<'f, 'h>, list: Local<'_, 'h, Cell>) -> Result<Local<'f, 'h, Cell>, Error> {
    ///     let (mut at, mut next) = (f.var(list)?, f.var(list)?);
    ///     while next.follow(f, Cell::next) {
    ///         at.set(f, &next);
    ///     }
    ///     Ok(at.into_local().expect("a cell"))
    /// }
    /// # let mut heap = Heap::new(&Sizes::default())?;
    /// # heap.run(|f| { let cell = f.alloc()?; let end = last(f, cell)?; assert!(f.same(end, cell)); Ok::<_, Error>(()) })?;
    /// # Ok::<_, Box<dyn std::error::Error>>(())
    /// ```
    #[inline]
    pub fn into_local(self) -> Option<Local<'f, 'h, T>> {
        self.holds.then(|| Local::at(self.register))
    }
    /// Sets it.
    ///
    /// ```
    /// # use g1heap::*;
    /// # layout! { struct Cell { words { number: u64 } } }
    /// # let mut heap = Heap::new(&Sizes::default())?;
    /// # heap.run(|f| {
    /// let mut place = f.nil_var::<Cell>()?;
    /// place.set(f, f.alloc()?);
    /// assert!(!place.is_nil());
    /// place.set(f, Nil);
    /// assert!(place.is_nil());
    /// # Ok::<_, Error>(())
    /// # })?;
    /// # Ok::<_, Box<dyn std::error::Error>>(())
    /// ```
    #[inline]
    pub fn set(&mut self, f: &Frame<'_, 'h>, value: impl Source<'h, T>) {
        let from = value.code();
        done(match from {
            NIL_REGISTER => f.raw().drop(f.mutator(), self.register),
            _ => f.raw().copy(f.mutator(), self.register, from),
        });
        self.holds = from != NIL_REGISTER;
    }
    /// Sets it to a new object, whose pointer `field` takes what it held: so a list gets a new first cell.
    ///
    /// ```
    /// # use g1heap::*;
    /// # layout! { struct Cell { pointers { next: Cell } words { number: u64 } } }
    /// # let mut heap = Heap::new(&Sizes::default())?;
    /// # heap.run(|f| {
    /// let mut list = f.nil_var::<Cell>()?;
    /// for number in 1..=3 {
    ///     let cell = list.push(f, Cell::next)?;
    ///     f.write(cell, Cell::number, number);
    /// }
    /// assert_eq!(f.read(list.local().unwrap(), Cell::number), 3);
    /// # Ok::<_, Error>(())
    /// # })?;
    /// # Ok::<_, Box<dyn std::error::Error>>(())
    /// ```
    #[inline]
    pub fn push(&mut self, f: &Frame<'_, 'h>, field: Pointer<T, T>) -> Result<Local<'_, 'h, T>, Error>
    where
        T: Layout,
    {
        let top = f.top();
        let object = f.alloc::<T>()?;
        f.put(object, field, &*self);
        self.set(f, object);
        f.set_top(top);
        Ok(Local::at(self.register))
    }
    /// Sets it to what a pointer of `object` holds. Answers whether that is an object.
    ///
    /// ```
    /// # use g1heap::*;
    /// # layout! { struct Pair { pointers { left: Pair, right: Pair } } }
    /// # let mut heap = Heap::new(&Sizes::default())?;
    /// # heap.run(|f| {
    /// let pair = f.alloc::<Pair>()?;
    /// f.put(pair, Pair::left, pair);
    /// let mut place = f.nil_var::<Pair>()?;
    /// assert!(place.get(f, pair, Pair::left) && !place.get(f, pair, Pair::right));
    /// # Ok::<_, Error>(())
    /// # })?;
    /// # Ok::<_, Box<dyn std::error::Error>>(())
    /// ```
    #[inline]
    #[track_caller]
    pub fn get<U>(&mut self, f: &Frame<'_, 'h>, object: Local<'_, 'h, U>, field: Pointer<U, T>) -> bool {
        self.holds = done(f.raw().get(f.mutator(), self.register, object.register(), field.index)).code == NAME;
        self.holds
    }
    /// Sets it to what a pointer holds of the object that it holds; nil stays nil. Answers whether that is an object.
    ///
    /// ```
    /// # use g1heap::*;
    /// # layout! { struct Cell { pointers { next: Cell } } }
    /// # let mut heap = Heap::new(&Sizes::default())?;
    /// # heap.run(|f| {
    /// let (first, second) = (f.alloc::<Cell>()?, f.alloc::<Cell>()?);
    /// f.put(first, Cell::next, second);
    /// let mut at = f.var(first)?;
    /// assert!(at.follow(f, Cell::next)); // the second one
    /// assert!(!at.follow(f, Cell::next) && !at.follow(f, Cell::next)); // nil
    /// # Ok::<_, Error>(())
    /// # })?;
    /// # Ok::<_, Box<dyn std::error::Error>>(())
    /// ```
    #[inline]
    #[track_caller]
    pub fn follow(&mut self, f: &Frame<'_, 'h>, field: Pointer<T, T>) -> bool {
        if self.holds {
            self.holds = done(f.raw().get(f.mutator(), self.register, self.register, field.index)).code == NAME;
        }
        self.holds
    }
    /// Sets it to what the pointer of a number holds, or answers false where there is none.
    #[inline]
    pub(crate) fn take_pointer(&mut self, f: &Frame<'_, 'h>, object: u32, field: u32) -> bool {
        let answer = f.raw().get(f.mutator(), self.register, object, field);
        if answer.code == NO_FIELD {
            return false;
        }
        self.holds = done(answer).code == NAME;
        true
    }
    /// Whether it holds nil.
    ///
    /// ```
    /// # use g1heap::*;
    /// # let mut heap = Heap::new(&Sizes::default())?;
    /// # heap.run(|f| {
    /// assert!(f.nil_var::<Any>()?.is_nil());
    /// # Ok::<_, Error>(())
    /// # })?;
    /// # Ok::<_, Box<dyn std::error::Error>>(())
    /// ```
    #[inline]
    pub fn is_nil(&self) -> bool {
        !self.holds
    }
}

/// No object.
///
/// ```
/// # use g1heap::*;
/// # layout! { struct Cell { pointers { next: Cell } } }
/// # let mut heap = Heap::new(&Sizes::default())?;
/// # heap.run(|f| {
/// let cell = f.alloc::<Cell>()?;
/// f.put(cell, Cell::next, cell);
/// f.put(cell, Cell::next, Nil);
/// assert!(f.get(cell, Cell::next)?.is_none());
/// # Ok::<_, Error>(())
/// # })?;
/// # Ok::<_, Box<dyn std::error::Error>>(())
/// ```
#[derive(Clone, Copy, Debug)]
pub struct Nil;

/// What a pointer to objects of layout `U` can be set to: a [`Local`], an `Option` of one, a `&`[`Var`], or [`Nil`]. Where `U` is
/// [`Any`], objects of each layout will do.
///
/// ```
/// # use g1heap::*;
/// layout! { struct Pair { pointers { car: Any, cdr: Any } } }
/// fn cons<'f, 'h>(f: &Frame<'f, 'h>, car: impl Source<'h, Any>, cdr: impl Source<'h, Any>) -> Result<Local<'f, 'h, Pair>, Error> {
///     let pair = f.alloc::<Pair>()?;
///     f.put(pair, Pair::car, car);
///     f.put(pair, Pair::cdr, cdr);
///     Ok(pair)
/// }
/// # let mut heap = Heap::new(&Sizes::default())?;
/// # heap.run(|f| {
/// let one = cons(f, Nil, Nil)?;
/// let two = cons(f, one, f.get(one, Pair::cdr)?)?;
/// # Ok::<_, Error>(())
/// # })?;
/// # Ok::<_, Box<dyn std::error::Error>>(())
/// ```
pub trait Source<'h, U>: sealed::Source {}

/// What a place can be made of by [`Frame::var`]: a [`Local`], an `Option` of one, or a `&`[`Var`], and the layout of its objects.
///
/// ```
/// # use g1heap::*;
/// # layout! { struct Cell { words { number: u64 } } }
/// # let mut heap = Heap::new(&Sizes::default())?;
/// # heap.run(|f| {
/// let one = f.var(f.alloc::<Cell>()?)?;
/// let other = f.var(&one)?;
/// assert!(f.same(one.local().unwrap(), other.local().unwrap()));
/// # Ok::<_, Error>(())
/// # })?;
/// # Ok::<_, Box<dyn std::error::Error>>(())
/// ```
pub trait Value<'h>: Source<'h, Self::Object> {
    /// The layout.
    type Object;
}
impl<'h, T> Value<'h> for Local<'_, 'h, T> {
    type Object = T;
}
impl<'h, T> Value<'h> for Option<Local<'_, 'h, T>> {
    type Object = T;
}
impl<'h, T> Value<'h> for &Var<'_, 'h, T> {
    type Object = T;
}

pub(crate) mod sealed {
    pub trait Source {
        /// The register that holds it, or NIL_REGISTER.
        fn code(&self) -> u32;
    }
}
pub(crate) use sealed::Source as Code;

impl Code for Nil {
    #[inline(always)]
    fn code(&self) -> u32 {
        NIL_REGISTER
    }
}
impl<T> Code for Local<'_, '_, T> {
    #[inline(always)]
    fn code(&self) -> u32 {
        self.register()
    }
}
impl<T> Code for Option<Local<'_, '_, T>> {
    #[inline(always)]
    fn code(&self) -> u32 {
        self.map_or(NIL_REGISTER, Local::register)
    }
}
impl<T> Code for &Var<'_, '_, T> {
    #[inline(always)]
    fn code(&self) -> u32 {
        if self.holds {
            self.register
        } else {
            NIL_REGISTER
        }
    }
}
impl<U> Source<'_, U> for Nil {}
impl<'h, U> Source<'h, U> for Local<'_, 'h, U> {}
impl<'h, U> Source<'h, U> for Option<Local<'_, 'h, U>> {}
impl<'h, U> Source<'h, U> for &Var<'_, 'h, U> {}
impl<'h, T: Typed> Source<'h, Any> for Local<'_, 'h, T> {}
impl<'h, T: Typed> Source<'h, Any> for Option<Local<'_, 'h, T>> {}
impl<'h, T: Typed> Source<'h, Any> for &Var<'_, 'h, T> {}

/// All types of objects but `Any`.
pub trait Typed {}
impl<T: Layout> Typed for T {}

/// An object's name, a number: it stays the same for the object's life, and no other object of the heap has it or had it.
/// [`Frame::name`] tells it.
///
/// ```
/// # use g1heap::*;
/// # let mut heap = Heap::new(&Sizes::default())?;
/// # heap.run(|f| {
/// let (one, other) = (f.alloc_any(0, 0, 1)?, f.alloc_any(0, 0, 1)?);
/// assert!(f.name(one) < f.name(other) && f.name(other).number() == 2);
/// # Ok::<_, Error>(())
/// # })?;
/// # Ok::<_, Box<dyn std::error::Error>>(())
/// ```
#[derive(Clone, Copy, Debug, PartialEq, Eq, PartialOrd, Ord, Hash)]
pub struct Name(pub(crate) u64);
impl Name {
    /// The number. That of a later object is higher.
    #[inline]
    pub fn number(self) -> u64 {
        self.0
    }
}
