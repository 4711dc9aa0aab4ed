use crate::heap::Heap;
use crate::local::Name;
use crate::steps::Steps;
use crate::sys::{g1_holder, g1_object, Raw, GLOBAL, POINTER, REGISTER};
use std::fmt;

const ROOM: usize = 32;

/// An object that the heap keeps, as [`Heap::objects`] tells it.
#[derive(Clone, Copy, Debug, PartialEq, Eq)]
#[non_exhaustive]
pub struct Object {
    /// Its name.
    pub name: Name,
    /// Its first data word, 0 where it has none.
    pub word: u64,
    /// How many pointers it has.
    pub pointers: u32,
    /// How many weak slots it has.
    pub weaks: u32,
    /// How many data words it has.
    pub values: u32,
}

/// What holds an object, as [`Heap::holders`] tells it.
#[derive(Clone, Copy, Debug, PartialEq, Eq)]
#[non_exhaustive]
pub enum Holder {
    /// A global, by its number.
    Global(u32),
    /// A register of a mutator: a root that a frame lent, or one that waits to be used again.
    Register {
        /// The mutator.
        mutator: u32,
        /// The register.
        register: u32,
    },
    /// An object.
    Object {
        /// Its name.
        name: Name,
        /// Its lowest pointer that leads there, or where only weak slots do the lowest of these.
        field: u32,
        /// Whether only weak slots do.
        is_weak: bool,
        /// How many of its pointers and weak slots do.
        fields: u32,
    },
}

fn object(of: &g1_object) -> Object {
    Object { name: Name(of.name), word: of.word, pointers: of.pointers, weaks: of.weaks, values: of.values }
}

fn holder(of: &g1_holder) -> Holder {
    match of.kind {
        GLOBAL => Holder::Global(of.place),
        REGISTER => Holder::Register { mutator: of.mutator, register: of.place },
        kind => Holder::Object { name: Name(of.name), field: of.place, is_weak: kind != POINTER, fields: of.fields },
    }
}

/// The objects that a heap keeps, one after another.
pub struct Objects<'a> {
    raw: &'a Raw,
    cursor: u64,
    room: [g1_object; ROOM],
    at: usize,
    told: usize,
}
impl fmt::Debug for Objects<'_> {
    fn fmt(&self, f: &mut fmt::Formatter<'_>) -> fmt::Result {
        f.debug_struct("Objects").finish_non_exhaustive()
    }
}
impl Iterator for Objects<'_> {
    type Item = Object;
    fn next(&mut self) -> Option<Object> {
        if self.at == self.told {
            self.told = self.raw.walk(&mut self.cursor, &mut self.room);
            self.at = 0;
        }
        let next = self.room[..self.told].get(self.at)?;
        self.at += 1;
        Some(object(next))
    }
}

/// What holds an object, one after another.
pub struct Holders<'a> {
    raw: &'a Raw,
    name: u64,
    cursor: u64,
    room: [g1_holder; ROOM],
    at: usize,
    told: usize,
}
impl fmt::Debug for Holders<'_> {
    fn fmt(&self, f: &mut fmt::Formatter<'_>) -> fmt::Result {
        f.debug_struct("Holders").field("name", &self.name).finish_non_exhaustive()
    }
}
impl Iterator for Holders<'_> {
    type Item = Holder;
    fn next(&mut self) -> Option<Holder> {
        if self.at == self.told {
            self.told = self.raw.who(self.name, &mut self.cursor, &mut self.room);
            self.at = 0;
        }
        let next = self.room[..self.told].get(self.at)?;
        self.at += 1;
        Some(holder(next))
    }
}

pub(crate) fn objects(raw: &Raw) -> Objects<'_> {
    Objects { raw, cursor: 0, room: [g1_object::default(); ROOM], at: 0, told: 0 }
}

pub(crate) fn holders(raw: &Raw, name: Name) -> Holders<'_> {
    Holders { raw, name: name.0, cursor: 0, room: [g1_holder::default(); ROOM], at: 0, told: 0 }
}

pub(crate) fn path(raw: &Raw, name: Name) -> Vec<Holder> {
    let mut way = vec![g1_holder::default(); ROOM];
    loop {
        if let Some(told) = raw.path(name.0, &mut way) {
            return way[..told].iter().map(holder).collect();
        }
        way.resize(2 * way.len(), g1_holder::default());
    }
}

impl Heap {
    /// The objects that the heap keeps, one after another: those that the last marking marked, and all made since it began. After
    /// [`Frame::collect`](crate::Frame::collect) these are the objects that roots reach. It takes no memory, in the heap or beside it.
    ///
    /// ```
    /// # use g1heap::*;
    /// # layout! { struct Cell { pointers { next: Cell } words { number: u64 } } }
    /// let mut heap = Heap::new(&Sizes::default())?;
    /// let list = heap.new_global::<Cell>()?;
    /// heap.run(|f| {
    ///     for number in 1..=3 {
    ///         f.scope(|g| {
    ///             let cell = g.alloc::<Cell>()?;
    ///             g.write(cell, Cell::number, number);
    ///             g.put(cell, Cell::next, g.load(list)?);
    ///             g.save(list, cell)?;
    ///             g.alloc::<Cell>().map(drop) // nobody keeps this one
    ///         })?;
    ///     }
    ///     f.collect();
    ///     Ok::<_, Error>(())
    /// })?;
    /// let mut numbers: Vec<u64> = heap.objects().map(|it| it.word).collect();
    /// numbers.sort();
    /// assert_eq!(numbers, [1, 2, 3]);
    /// # Ok::<_, Box<dyn std::error::Error>>(())
    /// ```
    pub fn objects(&self) -> Objects<'_> {
        objects(self.raw())
    }

    /// What holds the object of a name: globals and registers first, and then objects that the heap keeps, each once. A weak slot that reads
    /// nil holds nothing. It looks at each field on its way.
    ///
    /// ```
    /// # use g1heap::*;
    /// # layout! { struct Cell { pointers { next: Cell } words { number: u64 } } }
    /// let mut heap = Heap::new(&Sizes::default())?;
    /// let list = heap.new_global::<Cell>()?;
    /// let (first, second) = heap.run(|f| {
    ///     let (first, second) = (f.alloc::<Cell>()?, f.alloc::<Cell>()?);
    ///     f.put(first, Cell::next, second);
    ///     f.save(list, first)?;
    ///     Ok::<_, Error>((f.name(first), f.name(second)))
    /// })?;
    /// let by: Vec<Holder> = heap.holders(second).collect();
    /// assert_eq!(by, [Holder::Object { name: first, field: 0, is_weak: false, fields: 1 }]);
    /// assert!(heap.holders(first).all(|it| matches!(it, Holder::Global(_))));
    /// # Ok::<_, Box<dyn std::error::Error>>(())
    /// ```
    pub fn holders(&self, name: Name) -> Holders<'_> {
        holders(self.raw(), name)
    }

    /// A shortest way from a root to the object of a name, by pointers: a root, and then objects, each held by the one before it, of which
    /// the last one holds the object. It is empty where no root leads there. It goes over the heap once for each of them, and takes room for
    /// 32 objects that lead there, twice as many where they are more, and so on.
    ///
    /// ```
    /// # use g1heap::*;
    /// # layout! { struct Cell { pointers { next: Cell } words { number: u64 } } }
    /// let mut heap = Heap::new(&Sizes::default())?;
    /// let list = heap.new_global::<Cell>()?;
    /// let names = heap.run(|f| {
    ///     let (first, second, lost) = (f.alloc::<Cell>()?, f.alloc::<Cell>()?, f.alloc::<Cell>()?);
    ///     f.put(first, Cell::next, second);
    ///     f.put(lost, Cell::next, second);
    ///     f.save(list, first)?;
    ///     Ok::<_, Error>([f.name(first), f.name(second)])
    /// })?;
    /// heap.run(|f| f.collect());
    /// let way = heap.path(names[1]);
    /// assert!(matches!(way[0], Holder::Global(_)));
    /// assert_eq!(way[1..], [Holder::Object { name: names[0], field: 0, is_weak: false, fields: 1 }]);
    /// # Ok::<_, Box<dyn std::error::Error>>(())
    /// ```
    pub fn path(&self, name: Name) -> Vec<Holder> {
        path(self.raw(), name)
    }
}

impl<'a> Steps<'a> {
    /// The same as [`Heap::objects`](crate::Heap::objects), within a run. It is right until the heap changes; after that it may miss an
    /// object, or tell one twice.
    pub fn objects(&self) -> Objects<'a> {
        objects(self.raw())
    }
    /// The same as [`Heap::holders`](crate::Heap::holders), within a run, and right as long.
    pub fn holders(&self, name: Name) -> Holders<'a> {
        holders(self.raw(), name)
    }
    /// The same as [`Heap::path`](crate::Heap::path), within a run.
    pub fn path(&self, name: Name) -> Vec<Holder> {
        path(self.raw(), name)
    }
}
