//! New objects that are filled by one call.
use crate::frame::{done, made, Frame};
use crate::layout::{Bits, Layout, Pointer, Word};
use crate::local::{Brand, Exactly, Local, Source};
use crate::sys::{FULL, NAME, NIL_REGISTER};
use crate::Error;
use std::fmt;
use std::marker::PhantomData;

/// So many fields of a kind need no memory of the system.
const FEW: usize = 8;

/// The fields of an object that [`Frame::new`] is about to make: pointers are nil, and words are 0, where they aren't set.
pub struct Fields<'a, 'h, T> {
    pointers: [u32; FEW], // registers
    words: [u64; FEW],
    many: (Vec<u32>, Vec<u64>), // in place of these, where there are more
    of: PhantomData<(&'a (), Exactly<T>)>,
    brand: Brand<'h>,
}
impl<T> fmt::Debug for Fields<'_, '_, T> {
    fn fmt(&self, f: &mut fmt::Formatter<'_>) -> fmt::Result {
        f.debug_struct("Fields").finish_non_exhaustive()
    }
}

impl<'a, 'h, T: Layout> Fields<'a, 'h, T> {
    #[inline(always)]
    fn new() -> Self {
        let (pointers, words) = (T::POINTERS as usize, T::WORDS as usize);
        let many_pointers = if pointers > FEW { vec![NIL_REGISTER; pointers] } else { Vec::new() };
        let many_words = if words > FEW { vec![0; words] } else { Vec::new() };
        Fields { pointers: [NIL_REGISTER; FEW], words: [0; FEW], many: (many_pointers, many_words), of: PhantomData, brand: PhantomData }
    }
    #[inline(always)]
    fn pointers(&self) -> &[u32] {
        match T::POINTERS as usize {
            count if count <= FEW => &self.pointers[..count],
            _ => &self.many.0,
        }
    }
    #[inline(always)]
    fn words(&self) -> &[u64] {
        match T::WORDS as usize {
            count if count <= FEW => &self.words[..count],
            _ => &self.many.1,
        }
    }
    /// Sets a pointer, to what `value` holds now: it stays borrowed until the object is made.
    ///
    /// ```
    /// # use g1heap::*;
    /// # layout! { struct Pair { pointers { left: Pair, right: Pair } } }
    /// # let mut heap = Heap::new(&Sizes::default())?;
    /// # heap.run(|f| {
    /// let leaf = f.new::<Pair>(|_| ())?;
    /// let pair = f.new::<Pair>(|p| p.put(Pair::right, leaf))?;
    /// assert!(f.get(pair, Pair::left)?.is_none() && f.same(f.field(pair, Pair::right)?, leaf));
    /// # Ok::<_, Error>(())
    /// # })?;
    /// # Ok::<_, Box<dyn std::error::Error>>(())
    /// ```
    ///
    /// ```compile_fail,E0502
    /// # use g1heap::*; layout! { struct Cell { pointers { next: Cell } } }
    /// # let mut heap = Heap::new(&Sizes::default()).unwrap();
    /// heap.run(|f| {
    ///     let mut list = f.nil_var::<Cell>().unwrap();
    ///     f.new::<Cell>(|p| {
    ///         p.put(Cell::next, &list);
    ///         list.set(f, Nil);
    ///     });
    /// });
    /// ```
    #[inline(always)]
    pub fn put<U>(&mut self, field: Pointer<T, U>, value: impl Source<'h, U> + 'a) {
        let pointers = if T::POINTERS as usize <= FEW { &mut self.pointers[..] } else { &mut self.many.0 };
        pointers[field.index as usize] = value.code();
    }
    /// Sets a data word.
    ///
    /// ```
    /// # use g1heap::*;
    /// # layout! { struct Point { words { x: f64, y: f64 } } }
    /// # let mut heap = Heap::new(&Sizes::default())?;
    /// # heap.run(|f| {
    /// let point = f.new::<Point>(|p| p.write(Point::y, 0.5))?;
    /// assert_eq!((f.read(point, Point::x), f.read(point, Point::y)), (0.0, 0.5));
    /// # Ok::<_, Error>(())
    /// # })?;
    /// # Ok::<_, Box<dyn std::error::Error>>(())
    /// ```
    #[inline(always)]
    pub fn write<V: Bits>(&mut self, field: Word<T, V>, value: V) {
        let words = if T::WORDS as usize <= FEW { &mut self.words[..] } else { &mut self.many.1 };
        words[field.index as usize] = value.to_word();
    }
}

impl<'f, 'h> Frame<'f, 'h> {
    /// A new object whose fields `fill` sets, by one call of the heap: nobody sees it with fields that aren't set. It takes about as many
    /// instructions as [`alloc`](Frame::alloc) and a call for each field. Answers the same errors as `alloc`.
    ///
    /// ```
    /// # use g1heap::*;
    /// layout! { struct Pair { pointers { car: Any, cdr: Any } words { line: u32 } } }
    /// # let mut heap = Heap::new(&Sizes::default())?;
    /// # heap.run(|f| {
    /// let end = f.new::<Pair>(|p| p.write(Pair::line, 1))?;
    /// let pair = f.new::<Pair>(|p| {
    ///     p.put(Pair::car, Nil);
    ///     p.put(Pair::cdr, end);
    ///     p.write(Pair::line, 2);
    /// })?;
    /// assert!(f.same(f.field(pair, Pair::cdr)?, end) && f.read(pair, Pair::line) == 2);
    /// # Ok::<_, Error>(())
    /// # })?;
    /// # Ok::<_, Box<dyn std::error::Error>>(())
    /// ```
    #[inline]
    #[allow(clippy::new_ret_no_self)] // it's the frame that makes it
    pub fn new<'a, T: Layout>(&'a self, fill: impl FnOnce(&mut Fields<'a, 'h, T>)) -> Result<Local<'f, 'h, T>, Error> {
        let mut fields = Fields::new();
        fill(&mut fields);
        let due = self.raw().is_due(2 + u64::from(T::POINTERS) + u64::from(T::WORDS));
        if T::WEAKS > 0 || due && !self.core().collects {
            return self.new_by_steps(&fields);
        }
        if due {
            self.ready();
        }
        let code = self.make_filled(&fields);
        if code != NAME {
            self.make_filled_again(code, &fields)?;
        }
        Ok(self.push())
    }
    #[inline(always)]
    fn make_filled<T: Layout>(&self, fields: &Fields<'_, 'h, T>) -> u32 {
        self.raw().make_filled(self.mutator(), self.top(), fields.pointers(), fields.words()).code
    }
    /// A heap that seems to be full may be so for what left frames and dropped `Kept`s held.
    #[cold]
    #[inline(never)]
    fn make_filled_again<T: Layout>(&self, mut code: u32, fields: &Fields<'_, 'h, T>) -> Result<(), Error> {
        if code == FULL {
            self.ready();
            code = self.make_filled(fields);
        }
        made(code, 0)
    }
    /// The same, step by step: where there are weak slots, or the program collects by itself.
    #[inline(never)]
    fn new_by_steps<T: Layout>(&self, fields: &Fields<'_, 'h, T>) -> Result<Local<'f, 'h, T>, Error> {
        let object = self.make::<T>(T::POINTERS, T::WEAKS, T::WORDS)?;
        let (raw, mutator, register) = (self.raw(), self.mutator(), object.register());
        for (field, from) in (0..).zip(fields.pointers()) {
            done(raw.put(mutator, register, field, *from));
        }
        done(raw.write_words(mutator, register, 0, fields.words()));
        Ok(object)
    }
}
