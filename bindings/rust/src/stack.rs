use crate::frame::{done, Frame};
use crate::layout::{Any, Bits, Pointer, Word};
use crate::local::{Code, Local, Source};
use crate::sys::{DONE, NAME, NIL_REGISTER};
use crate::Error;
use std::fmt;

/// A stack of values, an interpreter's, lent by [`Frame::stack`]. A place of it holds nil or an object.
///
/// ```
/// # use g1heap::*;
/// layout! { struct Pair { pointers { car: Any, cdr: Any } } }
/// # let mut heap = Heap::new(&Sizes::default())?;
/// heap.run(|f| {
///     f.stack(|stack| {
///         stack.push(Nil)?;
///         for _ in 0..9 {
///             stack.pick(0)?; // a value that lies deeper, once more
///             stack.reduce(2, |g, args| {
///                 // two values go, and the one comes that is answered
///                 let pair = g.alloc::<Pair>()?;
///                 g.put(pair, Pair::car, args.top(1));
///                 g.put(pair, Pair::cdr, args.top(0));
///                 Ok::<_, Error>(Some(pair.any()))
///             })?;
///         }
///         assert_eq!(stack.len(), 1);
///         Ok::<_, Error>(())
///     })
/// })?;
/// # Ok::<_, Box<dyn std::error::Error>>(())
/// ```
pub struct Stack<'f, 'h> {
    frame: Frame<'f, 'h>, // its top is the register of the first value
    holds: Vec<bool>,     // whether a value is an object
}
impl fmt::Debug for Stack<'_, '_> {
    fn fmt(&self, f: &mut fmt::Formatter<'_>) -> fmt::Result {
        f.debug_struct("Stack").field("len", &self.len()).finish_non_exhaustive()
    }
}

impl<'f, 'h> Frame<'f, 'h> {
    /// Lends a stack to `body`, in the registers that this frame has left.
    ///
    /// ```
    /// # use g1heap::*;
    /// # let mut heap = Heap::new(&Sizes::default())?;
    /// # heap.run(|f| {
    /// let object = f.alloc_any(0, 0, 1)?;
    /// f.stack(|stack| stack.push(object))?;
    /// # Ok::<_, Error>(())
    /// # })?;
    /// # Ok::<_, Box<dyn std::error::Error>>(())
    /// ```
    pub fn stack<R>(&mut self, body: impl for<'g> FnOnce(&mut Stack<'g, 'h>) -> R) -> R {
        body(&mut Stack { frame: self.inner(self.top()), holds: Vec::new() })
    }
}

impl<'h> Stack<'_, 'h> {
    /// The register of a value, or the first one above the stack.
    #[inline(always)]
    fn register(&self, index: usize) -> u32 {
        self.frame.top() + index as u32
    }
    /// How many values there are.
    ///
    /// ```
    /// # use g1heap::*;
    /// # let mut heap = Heap::new(&Sizes::default())?;
    /// # heap.run(|f| f.stack(|stack| {
    /// assert_eq!(stack.len(), 0);
    /// # }));
    /// # Ok::<_, BadSizes>(())
    /// ```
    #[inline]
    pub fn len(&self) -> usize {
        self.holds.len()
    }
    /// Whether there is none.
    ///
    /// ```
    /// # use g1heap::*;
    /// # let mut heap = Heap::new(&Sizes::default())?;
    /// # heap.run(|f| f.stack(|stack| {
    /// assert!(stack.is_empty());
    /// # }));
    /// # Ok::<_, BadSizes>(())
    /// ```
    #[inline]
    pub fn is_empty(&self) -> bool {
        self.holds.is_empty()
    }
    /// A value: 0 is the first one that was pushed. Panics where there is none.
    ///
    /// ```
    /// # use g1heap::*;
    /// # let mut heap = Heap::new(&Sizes::default())?;
    /// # heap.run(|f| f.stack(|stack| {
    /// stack.push(Nil)?;
    /// assert!(stack.at(0).is_none());
    /// # Ok::<_, Error>(())
    /// # }))?;
    /// # Ok::<_, Box<dyn std::error::Error>>(())
    /// ```
    #[inline]
    #[track_caller]
    pub fn at(&self, index: usize) -> Option<Local<'_, 'h>> {
        self.holds[index].then(|| Local::at(self.register(index)))
    }
    /// A value: 0 is the last one that was pushed. Panics where there is none.
    ///
    /// ```
    /// # use g1heap::*;
    /// # let mut heap = Heap::new(&Sizes::default())?;
    /// # heap.run(|f| { let object = f.alloc_any(0, 0, 1)?; f.stack(|stack| {
    /// stack.push(object)?;
    /// stack.push(Nil)?;
    /// assert!(stack.top(0).is_none() && stack.top(1).is_some());
    /// # Ok::<_, Error>(())
    /// # }) })?;
    /// # Ok::<_, Box<dyn std::error::Error>>(())
    /// ```
    #[inline]
    #[track_caller]
    pub fn top(&self, below: usize) -> Option<Local<'_, 'h>> {
        self.at(self.len().wrapping_sub(1).wrapping_sub(below))
    }
    /// The first register above the stack takes what `from` holds, or nil, and belongs to the stack then.
    #[inline(always)]
    fn push_from(&mut self, from: u32, holds: bool) -> Result<(), Error> {
        let (raw, mutator, to) = (self.frame.raw(), self.frame.mutator(), self.register(self.len()));
        let answer = if holds { raw.copy(mutator, to, from) } else { raw.drop(mutator, to) };
        if answer.code != DONE {
            return Err(Error::NoRegisters);
        }
        self.holds.push(holds);
        Ok(())
    }
    /// Pushes a value.
    ///
    /// ```
    /// # use g1heap::*;
    /// # let mut heap = Heap::new(&Sizes::default().registers(1))?;
    /// # heap.run(|f| f.stack(|stack| {
    /// stack.push(Nil)?;
    /// assert_eq!(stack.push(Nil), Err(Error::NoRegisters)); // of one
    /// # Ok::<_, Error>(())
    /// # }))?;
    /// # Ok::<_, Box<dyn std::error::Error>>(())
    /// ```
    #[inline]
    pub fn push(&mut self, value: impl Source<'h, Any>) -> Result<(), Error> {
        let from = value.code();
        self.push_from(from, from != NIL_REGISTER)
    }
    /// Pushes a value of the stack once more: that of [`at`](Stack::at). Panics where there is none.
    ///
    /// ```
    /// # use g1heap::*;
    /// # let mut heap = Heap::new(&Sizes::default())?;
    /// # heap.run(|f| f.stack(|stack| {
    /// stack.push(Nil)?;
    /// stack.pick(0)?;
    /// assert_eq!(stack.len(), 2);
    /// # Ok::<_, Error>(())
    /// # }))?;
    /// # Ok::<_, Box<dyn std::error::Error>>(())
    /// ```
    #[inline]
    #[track_caller]
    pub fn pick(&mut self, index: usize) -> Result<(), Error> {
        let holds = self.holds[index];
        self.push_from(self.register(index), holds)
    }
    /// Pops the last value into a place of the stack, 0 is that of the first one. Panics where there is none.
    ///
    /// ```
    /// # use g1heap::*;
    /// # let mut heap = Heap::new(&Sizes::default())?;
    /// # heap.run(|f| { let object = f.alloc_any(0, 0, 1)?; f.stack(|stack| {
    /// stack.push(Nil)?;
    /// stack.push(object)?;
    /// stack.store(0);
    /// assert!(stack.len() == 1 && stack.at(0).is_some());
    /// # Ok::<_, Error>(())
    /// # }) })?;
    /// # Ok::<_, Box<dyn std::error::Error>>(())
    /// ```
    #[inline]
    #[track_caller]
    pub fn store(&mut self, index: usize) {
        let last = self.len().wrapping_sub(1);
        self.assign(index, last);
        self.truncate(last);
    }
    /// A place takes the value of another place too; 0 is that of the first value. Panics where there is none.
    ///
    /// ```
    /// # use g1heap::*;
    /// # let mut heap = Heap::new(&Sizes::default())?;
    /// # heap.run(|f| { let object = f.alloc_any(0, 0, 1)?; f.stack(|stack| {
    /// stack.push(Nil)?;
    /// stack.push(object)?;
    /// stack.assign(0, 1);
    /// assert!(stack.len() == 2 && stack.at(0).is_some() && stack.at(1).is_some());
    /// stack.push(Nil)?;
    /// stack.assign(1, 2);
    /// assert!(stack.at(0).is_some() && stack.at(1).is_none());
    /// # Ok::<_, Error>(())
    /// # }) })?;
    /// # Ok::<_, Box<dyn std::error::Error>>(())
    /// ```
    #[inline]
    #[track_caller]
    pub fn assign(&mut self, index: usize, from: usize) {
        let (held, holds) = (self.holds[index], self.holds[from]);
        self.holds[index] = holds;
        // Where neither is an object, the register is nil and stays so.
        if index != from && (held || holds) {
            let (raw, mutator, to) = (self.frame.raw(), self.frame.mutator(), self.register(index));
            done(if holds { raw.copy(mutator, to, self.register(from)) } else { raw.drop(mutator, to) });
        }
    }
    /// Pops values until there are so many; where there are no more it does nothing. It needs no call of the heap.
    ///
    /// ```
    /// # use g1heap::*;
    /// # let mut heap = Heap::new(&Sizes::default())?;
    /// # heap.run(|f| f.stack(|stack| {
    /// stack.push(Nil)?;
    /// stack.truncate(0);
    /// assert!(stack.is_empty());
    /// # Ok::<_, Error>(())
    /// # }))?;
    /// # Ok::<_, Box<dyn std::error::Error>>(())
    /// ```
    #[inline]
    pub fn truncate(&mut self, len: usize) {
        self.holds.truncate(len);
    }
    /// Replaces the last value by what a pointer of its object holds; nil stays nil. Answers whether that is an object. Which layout the
    /// object has, the program knows, as for [`assume`](Local::assume). Panics where there is no value.
    ///
    /// ```
    /// # use g1heap::*;
    /// # layout! { struct Pair { pointers { car: Any, cdr: Any } } }
    /// # let mut heap = Heap::new(&Sizes::default())?;
    /// # heap.run(|f| { let pair = f.alloc::<Pair>()?; f.put(pair, Pair::car, pair); f.stack(|stack| {
    /// stack.push(pair)?;
    /// assert!(stack.follow(Pair::car) && !stack.follow(Pair::cdr));
    /// assert!(stack.len() == 1 && stack.top(0).is_none());
    /// # Ok::<_, Error>(())
    /// # }) })?;
    /// # Ok::<_, Box<dyn std::error::Error>>(())
    /// ```
    #[inline]
    #[track_caller]
    pub fn follow<T, U>(&mut self, field: Pointer<T, U>) -> bool {
        let register = self.register(self.len()).wrapping_sub(1);
        let holds = self.holds.last_mut().expect("a value");
        if *holds {
            *holds = done(self.frame.raw().get(self.frame.mutator(), register, register, field.index)).code == NAME;
        }
        *holds
    }
    /// What a data word of a value's object holds: of the last one that was pushed where `below` is 0, as for [`top`](Stack::top). Which
    /// layout the object has, the program knows, as for [`assume`](Local::assume). Panics where there is no object.
    ///
    /// ```
    /// # use g1heap::*;
    /// # layout! { struct Int { words { value: i64 } } }
    /// # let mut heap = Heap::new(&Sizes::default())?;
    /// # heap.run(|f| { let int = f.alloc::<Int>()?; f.stack(|stack| {
    /// stack.push(int)?;
    /// assert_eq!(stack.read(0, Int::value), 0);
    /// # Ok::<_, Error>(())
    /// # }) })?;
    /// # Ok::<_, Box<dyn std::error::Error>>(())
    /// ```
    #[inline]
    #[track_caller]
    pub fn read<T, V: Bits>(&self, below: usize, field: Word<T, V>) -> V {
        let object = self.top(below).expect("an object");
        self.frame.read(object.assume::<T>(), field)
    }
    /// Lends a frame above the stack, and the stack to look at.
    ///
    /// ```
    /// # use g1heap::*;
    /// # layout! { struct Int { words { value: i64 } } }
    /// # let mut heap = Heap::new(&Sizes::default())?;
    /// # heap.run(|f| { let int = f.alloc::<Int>()?; f.stack(|stack| {
    /// stack.push(int)?;
    /// let value = stack.scope(|g, s| g.read(s.top(0).expect("a value").assume(), Int::value));
    /// assert_eq!(value, 0);
    /// # Ok::<_, Error>(())
    /// # }) })?;
    /// # Ok::<_, Box<dyn std::error::Error>>(())
    /// ```
    #[inline]
    pub fn scope<R>(&mut self, body: impl for<'g> FnOnce(&mut Frame<'g, 'h>, &Self) -> R) -> R {
        body(&mut self.frame.inner(self.register(self.len())), self)
    }
    /// The same; then `args` values are popped, and what `body` answers is pushed. Where it answers an error, the stack stays as
    /// it was. Panics where there are fewer values.
    ///
    /// ```
    /// # use g1heap::*;
    /// # layout! { struct Int { words { value: i64 } } }
    /// # let mut heap = Heap::new(&Sizes::default())?;
    /// # heap.run(|f| f.stack(|stack| {
    /// for value in [2, 3] {
    ///     stack.reduce(0, |g, _| {
    ///         let int = g.alloc::<Int>()?;
    ///         g.write(int, Int::value, value);
    ///         Ok::<_, Error>(Some(int.any()))
    ///     })?;
    /// }
    /// stack.reduce(2, |g, s| {
    ///     let value = |below| g.read(s.top(below).expect("an integer").assume(), Int::value);
    ///     let sum = g.alloc::<Int>()?;
    ///     g.write(sum, Int::value, value(1) + value(0));
    ///     Ok::<_, Error>(Some(sum.any()))
    /// })?;
    /// assert_eq!(stack.scope(|g, s| g.read(s.at(0).unwrap().assume(), Int::value)), 5);
    /// # Ok::<_, Error>(())
    /// # }))?;
    /// # Ok::<_, Box<dyn std::error::Error>>(())
    /// ```
    #[inline]
    #[track_caller]
    pub fn reduce<E: From<Error>>(
        &mut self,
        args: usize,
        body: impl for<'g> FnOnce(&mut Frame<'g, 'h>, &Self) -> Result<Option<Local<'g, 'h>>, E>,
    ) -> Result<(), E> {
        let below = self.len().checked_sub(args).expect("so many values");
        let from = body(&mut self.frame.inner(self.register(self.len())), self)?.code();
        self.frame.place(self.register(below), from)?;
        if args == 0 {
            self.holds.push(from != NIL_REGISTER);
        } else {
            self.holds[below] = from != NIL_REGISTER;
            self.holds.truncate(below + 1);
        }
        Ok(())
    }
    /// The same into a place of the stack, 0 is that of the first value: what it held is replaced by what `body` answers, and nothing is
    /// popped. Panics where there is none.
    ///
    /// ```
    /// # use g1heap::*;
    /// # layout! { struct Pair { pointers { car: Any, cdr: Any } } }
    /// # let mut heap = Heap::new(&Sizes::default())?;
    /// # heap.run(|f| { let pair = f.alloc::<Pair>()?; f.stack(|stack| {
    /// stack.push(pair)?;
    /// stack.push(Nil)?;
    /// stack.replace(0, |g, s| g.get(s.at(0).expect("a pair").assume(), Pair::car))?;
    /// assert!(stack.len() == 2 && stack.at(0).is_none());
    /// # Ok::<_, Error>(())
    /// # }) })?;
    /// # Ok::<_, Box<dyn std::error::Error>>(())
    /// ```
    #[inline]
    #[track_caller]
    pub fn replace<E: From<Error>>(
        &mut self,
        index: usize,
        body: impl for<'g> FnOnce(&mut Frame<'g, 'h>, &Self) -> Result<Option<Local<'g, 'h>>, E>,
    ) -> Result<(), E> {
        assert!(index < self.len(), "there is no such value");
        let from = body(&mut self.frame.inner(self.register(self.len())), self)?.code();
        self.frame.place(self.register(index), from)?;
        self.holds[index] = from != NIL_REGISTER;
        Ok(())
    }
}
