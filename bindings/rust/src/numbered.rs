//! Fields by number, and how many there are.
use crate::frame::{done, of_field, Frame};
use crate::layout::Any;
use crate::local::{Local, Source};
use crate::sys::{g1_answer, NO_FIELD};
use crate::Error;

impl<'f, 'h> Frame<'f, 'h> {
    /// How many pointers and data words the object has.
    ///
    /// ```
    /// # use g1heap::*;
    /// # layout! { struct Cell { pointers { next: Cell } words { number: u64 } } }
    /// # let mut heap = Heap::new(&Sizes::default())?;
    /// # heap.run(|f| {
    /// assert_eq!(f.shape(f.alloc::<Cell>()?), (1, 1));
    /// # Ok::<_, Error>(())
    /// # })?;
    /// # Ok::<_, Box<dyn std::error::Error>>(())
    /// ```
    #[inline]
    pub fn shape<T>(&self, object: Local<'_, 'h, T>) -> (u32, u32) {
        let answer = done(self.raw().shape(self.mutator(), object.register()));
        (answer.first as u32, answer.second)
    }
    /// How many weak slots the object has.
    ///
    /// ```
    /// # use g1heap::*;
    /// # let mut heap = Heap::new(&Sizes::default())?;
    /// # heap.run(|f| {
    /// assert_eq!(f.weaks(f.alloc_any(0, 9, 0)?), 9);
    /// # Ok::<_, Error>(())
    /// # })?;
    /// # Ok::<_, Box<dyn std::error::Error>>(())
    /// ```
    #[inline]
    pub fn weaks<T>(&self, object: Local<'_, 'h, T>) -> u32 {
        done(self.raw().weaks(self.mutator(), object.register())).first as u32
    }
    /// What the pointer of a number holds, in a new root. [`Error::NoField`] where there is none.
    ///
    /// ```
    /// # use g1heap::*;
    /// # let mut heap = Heap::new(&Sizes::default())?;
    /// # heap.run(|f| {
    /// let table = f.alloc_any(100, 0, 0)?;
    /// assert!(f.get_at(table, 99)?.is_none());
    /// assert_eq!(f.get_at(table, 100).unwrap_err(), Error::NoField);
    /// # Ok::<_, Error>(())
    /// # })?;
    /// # Ok::<_, Box<dyn std::error::Error>>(())
    /// ```
    #[inline]
    pub fn get_at<T>(&self, object: Local<'_, 'h, T>, field: u32) -> Result<Option<Local<'f, 'h, Any>>, Error> {
        self.pushed_at(self.raw().get(self.mutator(), self.top(), object.register(), field))
    }
    #[inline(always)]
    pub(crate) fn pushed_at<T>(&self, answer: g1_answer) -> Result<Option<Local<'f, 'h, T>>, Error> {
        match answer.code {
            NO_FIELD => Err(Error::NoField),
            _ => self.pushed(answer),
        }
    }
    /// Sets the pointer of a number. [`Error::NoField`] where there is none.
    ///
    /// ```
    /// # use g1heap::*;
    /// # let mut heap = Heap::new(&Sizes::default())?;
    /// # heap.run(|f| {
    /// let table = f.alloc_any(100, 0, 0)?;
    /// f.put_at(table, 99, table)?;
    /// assert_eq!(f.put_at(table, 100, Nil), Err(Error::NoField));
    /// # Ok::<_, Error>(())
    /// # })?;
    /// # Ok::<_, Box<dyn std::error::Error>>(())
    /// ```
    #[inline]
    pub fn put_at<T>(&self, object: Local<'_, 'h, T>, field: u32, value: impl Source<'h, Any>) -> Result<(), Error> {
        of_field(self.raw().put(self.mutator(), object.register(), field, value.code())).map(drop)
    }
    /// What the data word of a number holds. [`Error::NoField`] where there is none.
    ///
    /// ```
    /// # use g1heap::*;
    /// # let mut heap = Heap::new(&Sizes::default())?;
    /// # heap.run(|f| {
    /// let object = f.alloc_any(0, 0, 2)?;
    /// assert_eq!((f.read_at(object, 1), f.read_at(object, 2)), (Ok(0), Err(Error::NoField)));
    /// # Ok::<_, Error>(())
    /// # })?;
    /// # Ok::<_, Box<dyn std::error::Error>>(())
    /// ```
    #[inline]
    pub fn read_at<T>(&self, object: Local<'_, 'h, T>, field: u32) -> Result<u64, Error> {
        of_field(self.raw().read(self.mutator(), object.register(), field)).map(|it| it.first)
    }
    /// Sets the data word of a number. [`Error::NoField`] where there is none.
    ///
    /// ```
    /// # use g1heap::*;
    /// # let mut heap = Heap::new(&Sizes::default())?;
    /// # heap.run(|f| {
    /// let object = f.alloc_any(0, 0, 2)?;
    /// assert_eq!((f.write_at(object, 1, 5), f.write_at(object, 2, 5)), (Ok(()), Err(Error::NoField)));
    /// # Ok::<_, Error>(())
    /// # })?;
    /// # Ok::<_, Box<dyn std::error::Error>>(())
    /// ```
    #[inline]
    pub fn write_at<T>(&self, object: Local<'_, 'h, T>, field: u32, value: u64) -> Result<(), Error> {
        of_field(self.raw().write(self.mutator(), object.register(), field, value)).map(drop)
    }
    /// What the weak slot of a number holds, in a new root. [`Error::NoField`] where there is none.
    ///
    /// ```
    /// # use g1heap::*;
    /// # let mut heap = Heap::new(&Sizes::default())?;
    /// # heap.run(|f| {
    /// let object = f.alloc_any(0, 2, 0)?;
    /// assert!(f.get_weak_at(object, 1)?.is_none() && f.get_weak_at(object, 2).is_err());
    /// # Ok::<_, Error>(())
    /// # })?;
    /// # Ok::<_, Box<dyn std::error::Error>>(())
    /// ```
    #[inline]
    pub fn get_weak_at<T>(&self, object: Local<'_, 'h, T>, slot: u32) -> Result<Option<Local<'f, 'h, Any>>, Error> {
        self.pushed_at(self.raw().get_weak(self.mutator(), self.top(), object.register(), slot))
    }
    /// Sets the weak slot of a number. [`Error::NoField`] where there is none.
    ///
    /// ```
    /// # use g1heap::*;
    /// # let mut heap = Heap::new(&Sizes::default())?;
    /// # heap.run(|f| {
    /// let object = f.alloc_any(0, 2, 0)?;
    /// f.put_weak_at(object, 1, object)?;
    /// assert_eq!(f.put_weak_at(object, 2, Nil), Err(Error::NoField));
    /// # Ok::<_, Error>(())
    /// # })?;
    /// # Ok::<_, Box<dyn std::error::Error>>(())
    /// ```
    #[inline]
    pub fn put_weak_at<T>(&self, object: Local<'_, 'h, T>, slot: u32, value: impl Source<'h, Any>) -> Result<(), Error> {
        of_field(self.raw().put_weak(self.mutator(), object.register(), slot, value.code())).map(drop)
    }
}
