//! Layouts with a tail: a last field that there is as often as is said when the object is made.
use crate::frame::{of_field, Frame};
use crate::layout::{Bits, Layout};
use crate::local::{Exactly, Local, Source};
use crate::Error;
use std::fmt;
use std::marker::PhantomData;

/// Of what a tail is.
#[derive(Clone, Copy, Debug, PartialEq, Eq)]
pub enum Tail {
    /// Its fields are pointers.
    Pointers,
    /// Its fields are data words.
    Words,
}

/// A layout with a tail: its last pointer, or its last data word, is there as often as is said when the object is made by
/// [`Frame::alloc_with`]. [`layout!`](crate::layout!) declares one by two dots. [`Layout::POINTERS`] and [`Layout::WORDS`] count the fields
/// before the tail, so [`Frame::alloc`] makes an object whose tail is empty.
///
/// ```
/// # use g1heap::*;
/// layout! {
///     struct Code { words { first: u64 } }
///     struct Closure { pointers { code: Code, upvalues: Any.. } words { line: u32 } }
///     struct Samples { words { rate: u32, samples: f64.. } }
/// }
/// # let mut heap = Heap::new(&Sizes::default())?;
/// # heap.run(|f| {
/// let closure = f.alloc_with::<Closure>(3)?;
/// f.put_nth(closure, Closure::upvalues, 2, closure)?;
/// assert!(f.get_nth(closure, Closure::upvalues, 0)?.is_none() && f.get_nth(closure, Closure::upvalues, 2)?.is_some());
/// assert_eq!(f.get_nth(closure, Closure::upvalues, 3).unwrap_err(), Error::NoField);
/// let samples = f.alloc_with::<Samples>(1000)?;
/// f.write_nth(samples, Samples::samples, 999, 0.5)?;
/// assert_eq!((f.read_nth(samples, Samples::samples, 999)?, f.tail_len(samples)), (0.5, 1000));
/// # Ok::<_, Error>(())
/// # })?;
/// # Ok::<_, Box<dyn std::error::Error>>(())
/// ```
pub trait Tailed: Layout {
    /// Of what the tail is.
    const TAIL: Tail;
}

macro_rules! tail {
    ($(#[$doc:meta])* $name:ident, $count:ident) => {
        $(#[$doc])*
        pub struct $name<T, V> {
            first: u32,
            of: Exactly<(T, V)>,
        }
        impl<T, V> Clone for $name<T, V> {
            fn clone(&self) -> Self {
                *self
            }
        }
        impl<T, V> Copy for $name<T, V> {}
        impl<T, V> fmt::Debug for $name<T, V> {
            fn fmt(&self, f: &mut fmt::Formatter<'_>) -> fmt::Result {
                write!(f, "{}({}..)", stringify!($name), self.first)
            }
        }
        impl<T: Tailed, V> $name<T, V> {
            /// The tail of the layout. Where that is of something else, the compiler refuses it in a `const`, and else it panics.
            pub const fn tail() -> Self {
                assert!(matches!(T::TAIL, Tail::$name), "the layout has no such tail");
                $name { first: T::$count, of: PhantomData }
            }
        }
        impl<T, V> $name<T, V> {
            #[inline(always)]
            fn field(self, index: u32) -> Result<u32, Error> {
                self.first.checked_add(index).ok_or(Error::NoField)
            }
        }
    };
}
tail! {
    /// The tail of objects of layout `T`: pointers to objects of layout `V`.
    ///
    /// ```
    /// # use g1heap::*;
    /// layout! { struct Node { pointers { parent: Node, children: Node.. } } }
    /// assert_eq!(format!("{:?}", Node::children), "Pointers(1..)");
    /// ```
    Pointers, POINTERS
}
tail! {
    /// The tail of objects of layout `T`: data words, which hold a `V` each.
    ///
    /// ```
    /// # use g1heap::*;
    /// layout! { struct Matrix { words { rows: u32, items: f64.. } } }
    /// const BITS: Words<Matrix, u64> = Words::tail(); // the same words, as their bits
    /// assert_eq!(format!("{:?}", BITS), "Words(1..)");
    /// ```
    Words, WORDS
}

impl<'f, 'h> Frame<'f, 'h> {
    /// A new object whose tail has so many fields: all is nil and 0, as [`alloc`](Frame::alloc) makes it.
    ///
    /// ```
    /// # use g1heap::*;
    /// # layout! { struct Node { pointers { parent: Node, children: Node.. } words { number: u64 } } }
    /// # let mut heap = Heap::new(&Sizes::default())?;
    /// # heap.run(|f| {
    /// assert_eq!(f.shape(f.alloc_with::<Node>(4)?), (5, 1));
    /// assert_eq!(f.alloc_with::<Node>(u32::MAX).unwrap_err(), Error::TooBig);
    /// # Ok::<_, Error>(())
    /// # })?;
    /// # Ok::<_, Box<dyn std::error::Error>>(())
    /// ```
    #[inline]
    pub fn alloc_with<T: Tailed>(&self, count: u32) -> Result<Local<'f, 'h, T>, Error> {
        match T::TAIL {
            Tail::Pointers => self.make(T::POINTERS.saturating_add(count), T::WEAKS, T::WORDS),
            Tail::Words => self.make(T::POINTERS, T::WEAKS, T::WORDS.saturating_add(count)),
        }
    }
    /// How many fields the object's tail has.
    ///
    /// ```
    /// # use g1heap::*;
    /// # layout! { struct Node { pointers { parent: Node, children: Node.. } } }
    /// # let mut heap = Heap::new(&Sizes::default())?;
    /// # heap.run(|f| {
    /// assert_eq!(f.tail_len(f.alloc_with::<Node>(4)?), 4);
    /// assert_eq!(f.tail_len(f.alloc::<Node>()?), 0);
    /// # Ok::<_, Error>(())
    /// # })?;
    /// # Ok::<_, Box<dyn std::error::Error>>(())
    /// ```
    #[inline]
    #[track_caller]
    pub fn tail_len<T: Tailed>(&self, object: Local<'_, 'h, T>) -> u32 {
        let (pointers, words) = self.shape(object);
        let len = match T::TAIL {
            Tail::Pointers => pointers.checked_sub(T::POINTERS),
            Tail::Words => words.checked_sub(T::WORDS),
        };
        len.expect("the object isn't of the layout that it was assumed to be")
    }
    /// What a pointer of the tail holds, in a new root. [`Error::NoField`] where there is none of this index.
    ///
    /// ```
    /// # use g1heap::*;
    /// # layout! { struct Node { pointers { parent: Node, children: Node.. } } }
    /// # let mut heap = Heap::new(&Sizes::default())?;
    /// # heap.run(|f| {
    /// let node = f.alloc_with::<Node>(2)?;
    /// assert!(f.get_nth(node, Node::children, 1)?.is_none());
    /// assert_eq!(f.get_nth(node, Node::children, 2).unwrap_err(), Error::NoField);
    /// # Ok::<_, Error>(())
    /// # })?;
    /// # Ok::<_, Box<dyn std::error::Error>>(())
    /// ```
    #[inline]
    pub fn get_nth<T, U>(&self, object: Local<'_, 'h, T>, tail: Pointers<T, U>, index: u32) -> Result<Option<Local<'f, 'h, U>>, Error> {
        self.pushed_at(self.raw().get(self.mutator(), self.top(), object.register(), tail.field(index)?))
    }
    /// Sets a pointer of the tail. [`Error::NoField`] where there is none of this index.
    ///
    /// ```
    /// # use g1heap::*;
    /// # layout! { struct Node { pointers { parent: Node, children: Node.. } } }
    /// # let mut heap = Heap::new(&Sizes::default())?;
    /// # heap.run(|f| {
    /// let node = f.alloc_with::<Node>(2)?;
    /// f.put_nth(node, Node::children, 1, f.alloc()?)?;
    /// assert_eq!(f.put_nth(node, Node::children, 2, Nil), Err(Error::NoField));
    /// # Ok::<_, Error>(())
    /// # })?;
    /// # Ok::<_, Box<dyn std::error::Error>>(())
    /// ```
    #[inline]
    pub fn put_nth<T, U>(
        &self,
        object: Local<'_, 'h, T>,
        tail: Pointers<T, U>,
        index: u32,
        value: impl Source<'h, U>,
    ) -> Result<(), Error> {
        of_field(self.raw().put(self.mutator(), object.register(), tail.field(index)?, value.code())).map(drop)
    }
    /// What a data word of the tail holds. [`Error::NoField`] where there is none of this index.
    ///
    /// ```
    /// # use g1heap::*;
    /// # layout! { struct Samples { words { samples: f64.. } } }
    /// # let mut heap = Heap::new(&Sizes::default())?;
    /// # heap.run(|f| {
    /// let samples = f.alloc_with::<Samples>(2)?;
    /// assert_eq!(f.read_nth(samples, Samples::samples, 1), Ok(0.0));
    /// assert_eq!(f.read_nth(samples, Samples::samples, 2), Err(Error::NoField));
    /// # Ok::<_, Error>(())
    /// # })?;
    /// # Ok::<_, Box<dyn std::error::Error>>(())
    /// ```
    #[inline]
    pub fn read_nth<T, V: Bits>(&self, object: Local<'_, 'h, T>, tail: Words<T, V>, index: u32) -> Result<V, Error> {
        let answer = self.raw().read(self.mutator(), object.register(), tail.field(index)?);
        of_field(answer).map(|it| V::from_word(it.first))
    }
    /// Sets a data word of the tail. [`Error::NoField`] where there is none of this index.
    ///
    /// ```
    /// # use g1heap::*;
    /// # layout! { struct Samples { words { samples: f64.. } } }
    /// # let mut heap = Heap::new(&Sizes::default())?;
    /// # heap.run(|f| {
    /// let samples = f.alloc_with::<Samples>(2)?;
    /// f.write_nth(samples, Samples::samples, 1, 0.5)?;
    /// assert_eq!(f.write_nth(samples, Samples::samples, 2, 0.5), Err(Error::NoField));
    /// # Ok::<_, Error>(())
    /// # })?;
    /// # Ok::<_, Box<dyn std::error::Error>>(())
    /// ```
    #[inline]
    pub fn write_nth<T, V: Bits>(&self, object: Local<'_, 'h, T>, tail: Words<T, V>, index: u32, value: V) -> Result<(), Error> {
        of_field(self.raw().write(self.mutator(), object.register(), tail.field(index)?, value.to_word())).map(drop)
    }
}
