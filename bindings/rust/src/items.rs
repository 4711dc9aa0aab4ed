//! The items of arrays, one after another.
use crate::bulk::Array;
use crate::frame::{done, of_field, Frame};
use crate::local::{Local, Source, Var};
use crate::Error;
use std::ops::Range;

/// The items of an [`Array`], one after another, in one root: [`Frame::items`] makes it.
///
/// ```
/// # use g1heap::*;
/// # layout! { struct Cell { words { number: u64 } } }
/// # let mut heap = Heap::new(&Sizes::default())?;
/// # heap.run(|f| {
/// let array = f.alloc_array::<Cell>(5000)?; // more than there are registers
/// f.scope(|g| g.set_item(array, 4999, g.new(|p| p.write(Cell::number, 7))?))?;
/// let (mut items, mut sum, mut nils) = (f.items(array)?, 0, 0);
/// while let Some(item) = items.next(f) {
///     match item {
///         Some(cell) => sum += f.read(cell, Cell::number),
///         None => nils += 1,
///     }
/// }
/// assert_eq!((sum, nils), (7, 4999));
/// # Ok::<_, Error>(())
/// # })?;
/// # Ok::<_, Box<dyn std::error::Error>>(())
/// ```
#[derive(Debug)]
pub struct Items<'f, 'h, T> {
    array: Local<'f, 'h, Array<T>>,
    place: Var<'f, 'h, T>,
    next: u32,
}

impl<'h, T> Items<'_, 'h, T> {
    /// The next item, nil or an object, for as long as no later one is asked for; `None` where there is no more.
    ///
    /// ```
    /// # use g1heap::*;
    /// # let mut heap = Heap::new(&Sizes::default())?;
    /// # heap.run(|f| {
    /// let mut items = f.items(f.alloc_array::<Any>(1)?)?;
    /// assert!(matches!(items.next(f), Some(None)));
    /// assert!(items.next(f).is_none() && items.next(f).is_none());
    /// # Ok::<_, Error>(())
    /// # })?;
    /// # Ok::<_, Box<dyn std::error::Error>>(())
    /// ```
    #[inline]
    pub fn next(&mut self, f: &Frame<'_, 'h>) -> Option<Option<Local<'_, 'h, T>>> {
        if !self.place.take_pointer(f, self.array.register(), self.next) {
            return None;
        }
        self.next += 1;
        Some(self.place.local())
    }
    /// How many items were told.
    ///
    /// ```
    /// # use g1heap::*;
    /// # let mut heap = Heap::new(&Sizes::default())?;
    /// # heap.run(|f| {
    /// let mut items = f.items(f.alloc_array::<Any>(3)?)?;
    /// while items.next(f).is_some() {}
    /// assert_eq!(items.told(), 3);
    /// # Ok::<_, Error>(())
    /// # })?;
    /// # Ok::<_, Box<dyn std::error::Error>>(())
    /// ```
    #[inline]
    pub fn told(&self) -> u32 {
        self.next
    }
}

impl<'f, 'h> Frame<'f, 'h> {
    /// The items of an array, one after another, in one new root for all. The frame isn't borrowed meanwhile, so a
    /// [`scope`](Frame::scope) may be opened for each.
    ///
    /// ```
    /// # use g1heap::*;
    /// # let mut heap = Heap::new(&Sizes::default())?;
    /// # heap.run(|f| {
    /// let array = f.alloc_array::<Any>(10)?;
    /// let mut items = f.items(array)?;
    /// while let Some(item) = items.next(f) {
    ///     f.scope(|g| g.alloc_filled(&[item], &[]).map(drop))?;
    /// }
    /// assert_eq!(f.room(), 4094);
    /// # Ok::<_, Error>(())
    /// # })?;
    /// # Ok::<_, Box<dyn std::error::Error>>(())
    /// ```
    #[inline]
    pub fn items<'a, T>(&self, array: Local<'a, 'h, Array<T>>) -> Result<Items<'a, 'h, T>, Error>
    where
        'f: 'a,
    {
        Ok(Items { array, place: self.nil_var()?, next: 0 })
    }
    /// Sets items of an array to one value: all of them, or none where some index isn't there, which is answered by [`Error::NoField`].
    ///
    /// ```
    /// # use g1heap::*;
    /// # layout! { struct Cell { words { number: u64 } } }
    /// # let mut heap = Heap::new(&Sizes::default())?;
    /// # heap.run(|f| {
    /// let array = f.alloc_array::<Cell>(4)?;
    /// let cell = f.alloc()?;
    /// f.fill_items(array, 1..4, cell)?;
    /// f.fill_items(array, 2..3, Nil)?;
    /// assert!(f.item(array, 0)?.is_none() && f.item(array, 2)?.is_none() && f.same(f.item(array, 3)?.unwrap(), cell));
    /// assert_eq!(f.fill_items(array, 3..5, cell), Err(Error::NoField));
    /// # Ok::<_, Error>(())
    /// # })?;
    /// # Ok::<_, Box<dyn std::error::Error>>(())
    /// ```
    pub fn fill_items<T>(&self, array: Local<'_, 'h, Array<T>>, items: Range<u32>, value: impl Source<'h, T>) -> Result<(), Error> {
        let count = items.end.checked_sub(items.start).ok_or(Error::NoField)?;
        of_field(self.raw().fill(self.mutator(), array.register(), items.start, value.code(), count)).map(drop)
    }
    /// Sets data words of an object, from number `from` on, to one word: so many of them. [`Error::NoField`] where one of them isn't there,
    /// and nothing is written.
    ///
    /// ```
    /// # use g1heap::*;
    /// # let mut heap = Heap::new(&Sizes::default())?;
    /// # heap.run(|f| {
    /// let object = f.alloc_any(0, 0, 4)?;
    /// f.fill_words(object, 1, 7, 2)?;
    /// assert_eq!(f.words(object), [0, 7, 7, 0]);
    /// assert_eq!(f.fill_words(object, 3, 7, 2), Err(Error::NoField));
    /// # Ok::<_, Error>(())
    /// # })?;
    /// # Ok::<_, Box<dyn std::error::Error>>(())
    /// ```
    pub fn fill_words<T>(&self, object: Local<'_, 'h, T>, from: u32, word: u64, count: u32) -> Result<(), Error> {
        of_field(self.raw().fill_words(self.mutator(), object.register(), from, word, count)).map(drop)
    }
    /// Copies items of an array to another one, or to another place of the same one, from index `to` on: all of them, or none where some
    /// index isn't there, which is answered by [`Error::NoField`]. Items that both places have are right too. It needs a register that is
    /// left, or else answers [`Error::NoRegisters`].
    ///
    /// ```
    /// # use g1heap::*;
    /// # layout! { struct Cell { words { number: u64 } } }
    /// # let mut heap = Heap::new(&Sizes::default())?;
    /// # heap.run(|f| {
    /// let small = f.alloc_array::<Cell>(4)?;
    /// f.set_item(small, 3, f.alloc()?)?;
    /// let large = f.alloc_array(8)?;
    /// f.copy_items(small, 0..4, large, 0)?; // a table that grows
    /// assert!(f.item(large, 3)?.is_some());
    /// assert_eq!(f.copy_items(large, 4..8, small, 1), Err(Error::NoField));
    /// # Ok::<_, Error>(())
    /// # })?;
    /// # Ok::<_, Box<dyn std::error::Error>>(())
    /// ```
    pub fn copy_items<T>(
        &self,
        from: Local<'_, 'h, Array<T>>,
        items: Range<u32>,
        into: Local<'_, 'h, Array<T>>,
        to: u32,
    ) -> Result<(), Error> {
        let count = items.end.checked_sub(items.start).ok_or(Error::NoField)?;
        let end = to.checked_add(count).ok_or(Error::NoField)?;
        if items.end > self.array_len(from) || end > self.array_len(into) {
            return Err(Error::NoField);
        }
        if count > 0 && self.room() == 0 {
            return Err(Error::NoRegisters);
        }
        let copy = |index: u32| {
            done(self.raw().get(self.mutator(), self.top(), from.register(), items.start + index));
            done(self.raw().put(self.mutator(), into.register(), to + index, self.top()));
        };
        if to > items.start {
            (0..count).rev().for_each(copy);
        } else {
            (0..count).for_each(copy);
        }
        Ok(())
    }
}
