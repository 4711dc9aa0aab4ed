//! Layouts: how many pointers, weak slots and data words an object of a type has, and the names of its fields.
use crate::local::Exactly;
use crate::Name;
use std::fmt;
use std::marker::PhantomData;

/// A type of objects. [`layout!`](crate::layout!) declares one with its fields.
///
/// ```
/// use g1heap::{layout, Layout};
/// layout! { struct Cell { pointers { next: Cell } words { number: u64 } } }
/// assert_eq!((Cell::POINTERS, Cell::WEAKS, Cell::WORDS), (1, 0, 1));
/// ```
pub trait Layout: 'static {
    /// How many pointers an object has.
    const POINTERS: u32;
    /// How many weak slots an object has, at most 255.
    const WEAKS: u32;
    /// How many data words of 64 bits an object has.
    const WORDS: u32;
    /// The names of its pointers, as far as they are known, for what a panic says.
    const NAMES: &'static [&'static str] = &[];
}

/// Any object, of whichever layout. It's what [`Frame::alloc_any`](crate::Frame::alloc_any) makes, and what a field holds whose
/// objects have no common layout.
#[derive(Debug)]
pub enum Any {}

macro_rules! field {
    ($(#[$doc:meta])* $name:ident, $count:ident) => {
        $(#[$doc])*
        pub struct $name<T, V> {
            pub(crate) index: u32,
            of: Exactly<(T, V)>,
        }
        impl<T, V> Clone for $name<T, V> {
            fn clone(&self) -> Self {
                *self
            }
        }
        impl<T, V> Copy for $name<T, V> {}
        impl<T, V> fmt::Debug for $name<T, V> {
            fn fmt(&self, f: &mut fmt::Formatter<'_>) -> fmt::Result {
                f.debug_tuple(stringify!($name)).field(&self.index).finish()
            }
        }
        impl<T: Layout, V> $name<T, V> {
            /// The field of this number, counted from 0. Where there is none, the compiler refuses it in a `const`, and else it panics.
            pub const fn at(index: u32) -> Self {
                assert!(index < T::$count, "the layout has no such field");
                $name::number(index)
            }
        }
        impl<T, V> $name<T, V> {
            pub(crate) const fn number(index: u32) -> Self {
                $name { index, of: PhantomData }
            }
        }
    };
}
field! {
    /// A pointer of objects of layout `T`, to one of layout `V`.
    ///
    /// ```
    /// # use g1heap::*;
    /// layout! { struct Pair { pointers { left: Pair, right: Pair } } }
    /// const SECOND: Pointer<Pair, Pair> = Pointer::at(1); // the same as Pair::right
    /// # let mut heap = Heap::new(&Sizes::default())?;
    /// # heap.run(|f| {
    /// let pair = f.alloc::<Pair>()?;
    /// f.put(pair, SECOND, pair);
    /// assert!(f.get(pair, Pair::right)?.is_some());
    /// # Ok::<_, Error>(())
    /// # })?;
    /// # Ok::<_, Box<dyn std::error::Error>>(())
    /// ```
    Pointer, POINTERS
}
field! {
    /// A weak slot of objects of layout `T`, for one of layout `V`.
    ///
    /// ```
    /// # use g1heap::*;
    /// layout! { struct Entry { weaks { key: Any, value: Any } } }
    /// assert_eq!(format!("{:?}", Entry::value), "Weak(1)");
    /// const KEY: Weak<Entry, Any> = Weak::at(0);
    /// ```
    Weak, WEAKS
}
field! {
    /// A data word of objects of layout `T`, which holds a `V`.
    ///
    /// ```
    /// # use g1heap::*;
    /// layout! { struct Point { words { x: f64, y: f64 } } }
    /// const Y: Word<Point, u64> = Word::at(1); // the same word as Point::y, as its bits
    /// # let mut heap = Heap::new(&Sizes::default())?;
    /// # heap.run(|f| {
    /// let point = f.alloc::<Point>()?;
    /// f.write(point, Point::y, 1.5);
    /// assert_eq!(f.read(point, Y), 1.5f64.to_bits());
    /// # Ok::<_, Error>(())
    /// # })?;
    /// # Ok::<_, Box<dyn std::error::Error>>(())
    /// ```
    Word, WORDS
}

/// What a data word can hold: numbers, `bool`, `char`, [`Name`], and what a program gives this trait.
///
/// ```
/// # use g1heap::*;
/// #[derive(Clone, Copy, Debug, PartialEq)]
/// enum Color {
///     Red,
///     Black,
/// }
/// impl Bits for Color {
///     fn to_word(self) -> u64 {
///         self as u64
///     }
///     fn from_word(word: u64) -> Self {
///         if word == 0 { Color::Red } else { Color::Black } // a new object's words are 0
///     }
/// }
/// layout! { struct Node { pointers { left: Node, right: Node } words { color: Color } } }
/// # let mut heap = Heap::new(&Sizes::default())?;
/// # heap.run(|f| {
/// let node = f.alloc::<Node>()?;
/// assert_eq!(f.read(node, Node::color), Color::Red);
/// f.write(node, Node::color, Color::Black);
/// assert_eq!(f.read(node, Node::color), Color::Black);
/// # Ok::<_, Error>(())
/// # })?;
/// # Ok::<_, Box<dyn std::error::Error>>(())
/// ```
pub trait Bits: Copy {
    /// As a word.
    fn to_word(self) -> u64;
    /// From a word, which [`to_word`](Bits::to_word) made, or which is 0, or any other where the program wrote it by another field.
    fn from_word(word: u64) -> Self;
}
macro_rules! bits {
    ($($type:ty: $to:expr, $from:expr;)*) => { $(impl Bits for $type {
        #[inline]
        fn to_word(self) -> u64 {
            let to: fn($type) -> u64 = $to;
            to(self)
        }
        #[inline]
        fn from_word(word: u64) -> Self {
            let from: fn(u64) -> $type = $from;
            from(word)
        }
    })* };
}
bits! {
    u64: |it| it, |word| word;
    i64: |it| it as u64, |word| word as i64;
    u32: u64::from, |word| word as u32;
    i32: |it| it as u32 as u64, |word| word as i32;
    u16: u64::from, |word| word as u16;
    i16: |it| it as u16 as u64, |word| word as i16;
    u8: u64::from, |word| word as u8;
    i8: |it| it as u8 as u64, |word| word as i8;
    usize: |it| it as u64, |word| word as usize;
    bool: u64::from, |word| word != 0;
    f64: f64::to_bits, f64::from_bits;
    f32: |it| u64::from(it.to_bits()), |word| f32::from_bits(word as u32);
    char: |it| u64::from(u32::from(it)), |word| char::from_u32(word as u32).unwrap_or(char::REPLACEMENT_CHARACTER);
    Name: Name::number, Name;
}

/// Declares types of objects, and a constant for each of their fields. Pointers, weak slots and words come in this order, and each
/// may be left out.
///
/// ```
/// use g1heap::{layout, Any, Layout};
/// layout! {
///     /// A pair of Lisp.
///     pub struct Pair {
///         pointers { car: Any, cdr: Any }
///         words {
///             /// Where it was read.
///             line: u64,
///         }
///     }
///     struct Entry {
///         pointers { next: Entry }
///         weaks { key: Pair }
///         words { hash: u64, weight: f64 }
///     }
/// }
/// assert_eq!((Pair::POINTERS, Pair::WEAKS, Pair::WORDS), (2, 0, 1));
/// assert_eq!((Entry::POINTERS, Entry::WEAKS, Entry::WORDS), (1, 1, 2));
/// assert_eq!(Pair::NAMES, ["car", "cdr"]);
/// ```
///
/// Two dots after the last pointer, or after the last word, make it a tail: a field that there is as often as is said when the object is
/// made, see [`Tailed`](crate::Tailed).
///
/// ```
/// use g1heap::{layout, Any, Layout, Tail, Tailed};
/// layout! { struct Closure { pointers { name: Any, upvalues: Any.. } words { code: u64 } } }
/// assert_eq!((Closure::POINTERS, Closure::TAIL), (1, Tail::Pointers));
/// ```
///
/// A field that isn't there is refused by the compiler:
///
/// ```compile_fail,E0080
/// # g1heap::layout! { pub struct Pair { pointers { car: g1heap::Any, cdr: g1heap::Any } } }
/// const THIRD: g1heap::Pointer<Pair, g1heap::Any> = g1heap::Pointer::at(2);
/// # fn main() { let _ = THIRD; }
/// ```
///
/// ```compile_fail,E0599
/// # g1heap::layout! { pub struct Pair { pointers { car: g1heap::Any, cdr: g1heap::Any } } }
/// # fn main() {
/// let _ = Pair::caddr;
/// # }
/// ```
///
/// And so are two tails:
///
/// ```compile_fail,E0119
/// g1heap::layout! { struct Both { pointers { all: g1heap::Any.. } words { more: u64.. } } }
/// # fn main() {}
/// ```
#[macro_export]
macro_rules! layout {
    // How many fields there are before the tail, and their names.
    (@count $(#[$doc:meta])* $field:ident: $type:ty, $($rest:tt)*) => { 1 + $crate::layout!(@count $($rest)*) };
    (@count $(#[$doc:meta])* $field:ident: $type:ty) => { 1 };
    (@count $($tail:tt)*) => { 0 };
    (@names [$($names:tt)*] $(#[$doc:meta])* $field:ident: $type:ty, $($rest:tt)*) => {
        $crate::layout!(@names [$($names)* stringify!($field),] $($rest)*)
    };
    (@names [$($names:tt)*] $(#[$doc:meta])* $field:ident: $type:ty) => { &[$($names)* stringify!($field)] };
    (@names [$($names:tt)*] $($tail:tt)*) => { &[$($names)*] };
    // That there is a tail.
    (@tail $name:ident $kind:ident;) => {};
    (@tail $name:ident $kind:ident; $(#[$doc:meta])* $field:ident: $type:ty, $($rest:tt)*) => {
        $crate::layout!(@tail $name $kind; $($rest)*);
    };
    (@tail $name:ident $kind:ident; $(#[$doc:meta])* $field:ident: $type:ty) => {};
    (@tail $name:ident $kind:ident; $($tail:tt)*) => {
        impl $crate::Tailed for $name {
            const TAIL: $crate::Tail = $crate::Tail::$kind;
        }
    };
    // A constant for each field, and for the tail.
    (@ $name:ident $kind:ident $at:expr;) => {};
    (@ $name:ident $kind:ident $at:expr; $(#[$doc:meta])* $field:ident: $type:ty, $($rest:tt)*) => {
        #[doc = concat!(stringify!($kind), " `", stringify!($field), "`.")]
        $(#[$doc])*
        pub const $field: $crate::$kind<$name, $type> = $crate::$kind::at($at);
        $crate::layout!(@ $name $kind $at + 1; $($rest)*);
    };
    (@ $name:ident $kind:ident $at:expr; $(#[$doc:meta])* $field:ident: $type:ty) => {
        $crate::layout!(@ $name $kind $at; $(#[$doc])* $field: $type,);
    };
    (@ $name:ident Pointer $at:expr; $(#[$doc:meta])* $field:ident: $($path:ident)::+ $(<$($of:ty),+>)? .. $(,)?) => {
        #[doc = concat!("Pointers `", stringify!($field), "`.")]
        $(#[$doc])*
        pub const $field: $crate::Pointers<$name, $($path)::+ $(<$($of),+>)?> = $crate::Pointers::tail();
    };
    (@ $name:ident Word $at:expr; $(#[$doc:meta])* $field:ident: $($path:ident)::+ $(<$($of:ty),+>)? .. $(,)?) => {
        #[doc = concat!("Words `", stringify!($field), "`.")]
        $(#[$doc])*
        pub const $field: $crate::Words<$name, $($path)::+ $(<$($of),+>)?> = $crate::Words::tail();
    };
    ($($(#[$doc:meta])* $vis:vis struct $name:ident {
        $(pointers { $($pointers:tt)* })?
        $(weaks { $($weaks:tt)* })?
        $(words { $($words:tt)* })?
    })*) => { $(
        $(#[$doc])*
        #[derive(Debug)]
        #[allow(dead_code)]
        $vis enum $name {}
        impl $crate::Layout for $name {
            const POINTERS: u32 = $crate::layout!(@count $($($pointers)*)?);
            const WEAKS: u32 = $crate::layout!(@count $($($weaks)*)?);
            const WORDS: u32 = $crate::layout!(@count $($($words)*)?);
            const NAMES: &'static [&'static str] = $crate::layout!(@names [] $($($pointers)*)?);
        }
        $crate::layout!(@tail $name Pointers; $($($pointers)*)?);
        $crate::layout!(@tail $name Words; $($($words)*)?);
        #[allow(non_upper_case_globals, dead_code)]
        impl $name {
            $($crate::layout!(@ $name Pointer 0; $($pointers)*);)?
            $($crate::layout!(@ $name Weak 0; $($weaks)*);)?
            $($crate::layout!(@ $name Word 0; $($words)*);)?
        }
    )* };
}
