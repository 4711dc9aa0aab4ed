//! Objects of any length: bytes, texts, arrays, and runs of words.
use crate::frame::{done, of_field, Frame};
use crate::layout::{Any, Bits, Word};
use crate::local::{Local, Source, Typed};
use crate::Error;
use std::convert::Infallible;
use std::marker::PhantomData;

/// Bytes, of any number, which is fixed when they are made by [`Frame::alloc_bytes`]. Data word 0 is [the program's own](Bytes::own). Each
/// further one has 8 of them, the first one lowest, and the last one has 7 at most: its highest byte tells how many of these it lacks.
#[derive(Debug)]
pub enum Bytes {}
/// A text, of any length, made by [`Frame::alloc_text`]: [`Bytes`] that are UTF-8.
#[derive(Debug)]
pub enum Text {}
/// An array of pointers to objects of layout `T`, of any length, which is fixed when it is made by [`Frame::alloc_array`]. Its only data
/// word is [the program's own](Array::own).
#[derive(Debug)]
pub struct Array<T = Any>(PhantomData<fn() -> T>, Infallible);
impl Bytes {
    /// Data word 0, which is the program's own, 0 at first: [`Frame::read`] and [`Frame::write`] reach it, as a field of a layout.
    ///
    /// ```
    /// # use g1heap::*;
    /// # let mut heap = Heap::new(&Sizes::default())?;
    /// # heap.run(|f| {
    /// let bytes = f.alloc_bytes(&[1, 2, 3])?;
    /// f.write(bytes, Bytes::own(), -1i64);
    /// assert_eq!((f.read(bytes, Bytes::own::<i64>()), f.bytes(bytes)), (-1, vec![1, 2, 3]));
    /// # Ok::<_, Error>(())
    /// # })?;
    /// # Ok::<_, Box<dyn std::error::Error>>(())
    /// ```
    pub const fn own<V>() -> Word<Bytes, V> {
        Word::number(0)
    }
}
impl Text {
    /// Data word 0, which is the program's own, 0 at first: [`Frame::read`] and [`Frame::write`] reach it, as a field of a layout. So a
    /// tag may be where other objects of the program have theirs.
    ///
    /// ```
    /// # use g1heap::*;
    /// layout! {
    ///     struct Tagged { words { tag: u8 } }
    ///     struct Int { words { tag: u8, value: i64 } }
    /// }
    /// # let mut heap = Heap::new(&Sizes::default())?;
    /// # heap.run(|f| {
    /// let text = f.alloc_text("name")?;
    /// f.write(text, Text::own(), 7u8);
    /// for (any, tag) in [(text.any(), 7), (f.alloc::<Int>()?.any(), 0)] {
    ///     assert_eq!(f.read(any.assume(), Tagged::tag), tag);
    /// }
    /// # Ok::<_, Error>(())
    /// # })?;
    /// # Ok::<_, Box<dyn std::error::Error>>(())
    /// ```
    pub const fn own<V>() -> Word<Text, V> {
        Word::number(0)
    }
}
impl<T> Array<T> {
    /// Data word 0, which is the program's own, 0 at first: [`Frame::read`] and [`Frame::write`] reach it, as a field of a layout.
    ///
    /// ```
    /// # use g1heap::*;
    /// # let mut heap = Heap::new(&Sizes::default())?;
    /// # heap.run(|f| {
    /// const COUNT: Word<Array, u32> = Array::own(); // how many of its items are in use
    /// let array = f.alloc_array(100)?;
    /// f.write(array, COUNT, 5);
    /// assert_eq!(f.read(array, COUNT), 5);
    /// # Ok::<_, Error>(())
    /// # })?;
    /// # Ok::<_, Box<dyn std::error::Error>>(())
    /// ```
    pub const fn own<V>() -> Word<Array<T>, V> {
        Word::number(0)
    }
}
impl Typed for Bytes {}
impl Typed for Text {}
impl<T> Typed for Array<T> {}

/// Words that bytes are moved by at once.
const RUN: usize = 32;
/// Most texts are shorter than so many words.
const SHORT: usize = 8;
/// How many bytes the last word can have, and where in it is how many it lacks.
const LAST: u64 = 7;
const LACKS: u32 = 56;

/// Some bytes, 8 at most, as a word.
pub(crate) fn word_of(bytes: &[u8]) -> u64 {
    let mut eight = [0; 8];
    eight[..bytes.len()].copy_from_slice(bytes);
    u64::from_le_bytes(eight)
}
pub(crate) fn word_of_eight(bytes: &[u8]) -> u64 {
    u64::from_le_bytes(bytes.try_into().expect("8 bytes"))
}
/// How many bytes of the last word are none of those of the object.
#[track_caller]
fn lacks(last: u64) -> usize {
    let lacks = last >> LACKS;
    assert!(lacks <= LAST, "the object isn't of the layout that it was assumed to be");
    lacks as usize + 1
}
fn count(len: usize) -> Result<u32, Error> {
    u32::try_from(len).map_err(|_| Error::TooBig)
}

impl<'f, 'h> Frame<'f, 'h> {
    /// Reads data words, from number `from` on, as many as `out` takes. [`Error::NoField`] where one of them isn't there, and
    /// nothing is read.
    ///
    /// ```
    /// # use g1heap::*;
    /// # let mut heap = Heap::new(&Sizes::default())?;
    /// # heap.run(|f| {
    /// let object = f.alloc_filled(&[], &[1, 2, 3])?;
    /// let mut two = [0; 2];
    /// f.read_words(object, 1, &mut two)?;
    /// assert_eq!(two, [2, 3]);
    /// assert_eq!(f.read_words(object, 2, &mut two), Err(Error::NoField));
    /// # Ok::<_, Error>(())
    /// # })?;
    /// # Ok::<_, Box<dyn std::error::Error>>(())
    /// ```
    pub fn read_words<T>(&self, object: Local<'_, 'h, T>, from: u32, out: &mut [u64]) -> Result<(), Error> {
        of_field(self.raw().read_words(self.mutator(), object.register(), from, out)).map(drop)
    }
    /// Sets data words, from number `from` on. [`Error::NoField`] where one of them isn't there, and nothing is written.
    ///
    /// ```
    /// # use g1heap::*;
    /// # let mut heap = Heap::new(&Sizes::default())?;
    /// # heap.run(|f| {
    /// let object = f.alloc_any(0, 0, 3)?;
    /// f.write_words(object, 1, &[8, 9])?;
    /// assert_eq!(f.words(object), [0, 8, 9]);
    /// assert_eq!(f.write_words(object, 2, &[8, 9]), Err(Error::NoField));
    /// # Ok::<_, Error>(())
    /// # })?;
    /// # Ok::<_, Box<dyn std::error::Error>>(())
    /// ```
    pub fn write_words<T>(&self, object: Local<'_, 'h, T>, from: u32, words: &[u64]) -> Result<(), Error> {
        of_field(self.raw().write_words(self.mutator(), object.register(), from, words)).map(drop)
    }
    /// All data words of an object.
    ///
    /// ```
    /// # use g1heap::*;
    /// # let mut heap = Heap::new(&Sizes::default())?;
    /// # heap.run(|f| {
    /// assert_eq!(f.words(f.alloc_any(1, 0, 3)?), [0, 0, 0]);
    /// # Ok::<_, Error>(())
    /// # })?;
    /// # Ok::<_, Box<dyn std::error::Error>>(())
    /// ```
    pub fn words<T>(&self, object: Local<'_, 'h, T>) -> Vec<u64> {
        let mut words = vec![0; self.shape(object).1 as usize];
        done(self.raw().read_words(self.mutator(), object.register(), 0, &mut words));
        words
    }
    /// A new object that has these pointers and these data words.
    ///
    /// ```
    /// # use g1heap::*;
    /// # let mut heap = Heap::new(&Sizes::default())?;
    /// # heap.run(|f| {
    /// let first = f.alloc_filled(&[], &[1, 2, 3])?;
    /// let second = f.alloc_filled(&[None, Some(first)], &[4])?;
    /// assert_eq!((f.shape(second), f.words(second)), ((2, 1), vec![4]));
    /// assert!(f.same(f.get_at(second, 1)?.unwrap(), first));
    /// # Ok::<_, Error>(())
    /// # })?;
    /// # Ok::<_, Box<dyn std::error::Error>>(())
    /// ```
    pub fn alloc_filled(&self, pointers: &[Option<Local<'_, 'h>>], words: &[u64]) -> Result<Local<'f, 'h>, Error> {
        let object = self.alloc_any(count(pointers.len())?, 0, count(words.len())?)?;
        for (field, pointer) in (0..).zip(pointers) {
            if pointer.is_some() {
                self.put_at(object, field, *pointer)?;
            }
        }
        done(self.raw().write_words(self.mutator(), object.register(), 0, words));
        Ok(object)
    }

    fn new_bytes<T>(&self, bytes: &[u8], own: u64) -> Result<Local<'f, 'h, T>, Error> {
        let last = count(bytes.len() / 8 + 1)?;
        let object = self.make::<T>(0, 0, last + 1)?;
        let (mut words, mut len, mut from) = ([own; RUN], 1, 0);
        let mut add = |word, is_last| {
            words[len] = word;
            len += 1;
            if len == RUN || is_last {
                done(self.raw().write_words(self.mutator(), object.register(), from, &words[..len]));
                (from, len) = (from + len as u32, 0);
            }
        };
        let eights = bytes.chunks_exact(8);
        let rest = eights.remainder();
        eights.for_each(|eight| add(word_of_eight(eight), false));
        add(word_of(rest) | (LAST - rest.len() as u64) << LACKS, true);
        Ok(object)
    }
    /// Hands the bytes to `take`, some at a time, until it answers false; a multiple of 8 of them but at the end. Answers whether it
    /// took all.
    #[track_caller]
    pub(crate) fn runs_of<T>(&self, object: Local<'_, 'h, T>, take: impl FnMut(&[u8]) -> bool) -> bool {
        self.runs_up_to(object, self.shape(object).1, take)
    }
    /// The same of an object of `end` data words.
    #[track_caller]
    pub(crate) fn runs_up_to<T>(&self, object: Local<'_, 'h, T>, end: u32, mut take: impl FnMut(&[u8]) -> bool) -> bool {
        let (raw, mutator, register) = (self.raw(), self.mutator(), object.register());
        if (2..=SHORT as u32).contains(&end) {
            // It isn't worth while to clear larger buffers.
            let (mut words, mut bytes) = ([0; SHORT], [0; 8 * SHORT]);
            let last = end as usize - 2;
            done(raw.read_words(mutator, register, 1, &mut words[..=last]));
            bytes.chunks_exact_mut(8).zip(&words).for_each(|(eight, word)| eight.copy_from_slice(&word.to_le_bytes()));
            return take(&bytes[..8 * (last + 1) - lacks(words[last])]);
        }
        let (mut words, mut bytes) = ([0; RUN], [0; 8 * RUN]);
        for from in (1..end).step_by(RUN) {
            let run = &mut words[..RUN.min((end - from) as usize)];
            done(raw.read_words(mutator, register, from, run));
            for (eight, word) in bytes.chunks_mut(8).zip(&*run) {
                eight.copy_from_slice(&word.to_le_bytes());
            }
            let mut len = 8 * run.len();
            if from as usize + run.len() == end as usize {
                len -= lacks(run[run.len() - 1]);
            }
            if !take(&bytes[..len]) {
                return false;
            }
        }
        true
    }
    fn bytes_of<T>(&self, object: Local<'_, 'h, T>) -> Vec<u8> {
        let mut out = Vec::new();
        self.runs_of(object, |run| {
            out.extend_from_slice(run);
            true
        });
        out
    }
    #[track_caller]
    fn len_of<T>(&self, object: Local<'_, 'h, T>) -> usize {
        let last = self.shape(object).1.max(2) - 1; // where there are fewer words than 2, this one isn't there
        8 * last as usize - lacks(done(self.raw().read(self.mutator(), object.register(), last)).first)
    }

    /// A new object of these bytes.
    ///
    /// ```
    /// # use g1heap::*;
    /// # let mut heap = Heap::new(&Sizes::default())?;
    /// # heap.run(|f| {
    /// let bytes = f.alloc_bytes(&[1, 2, 255])?;
    /// assert_eq!((f.bytes(bytes), f.bytes_len(bytes)), (vec![1, 2, 255], 3));
    /// # Ok::<_, Error>(())
    /// # })?;
    /// # Ok::<_, Box<dyn std::error::Error>>(())
    /// ```
    pub fn alloc_bytes(&self, bytes: &[u8]) -> Result<Local<'f, 'h, Bytes>, Error> {
        self.new_bytes(bytes, 0)
    }
    /// The same with [a word of the program's own](Bytes::own), in no more calls.
    ///
    /// ```
    /// # use g1heap::*;
    /// # let mut heap = Heap::new(&Sizes::default())?;
    /// # heap.run(|f| {
    /// let bytes = f.alloc_bytes_own(&[1, 2, 255], 7u8)?;
    /// assert_eq!((f.bytes(bytes), f.read(bytes, Bytes::own::<u8>())), (vec![1, 2, 255], 7));
    /// # Ok::<_, Error>(())
    /// # })?;
    /// # Ok::<_, Box<dyn std::error::Error>>(())
    /// ```
    pub fn alloc_bytes_own<V: Bits>(&self, bytes: &[u8], own: V) -> Result<Local<'f, 'h, Bytes>, Error> {
        self.new_bytes(bytes, own.to_word())
    }
    /// A copy of the bytes.
    ///
    /// ```
    /// # use g1heap::*;
    /// # let mut heap = Heap::new(&Sizes::default())?;
    /// # heap.run(|f| {
    /// let all: Vec<u8> = (0..1000).map(|it| it as u8).collect();
    /// assert_eq!(f.bytes(f.alloc_bytes(&all)?), all);
    /// # Ok::<_, Error>(())
    /// # })?;
    /// # Ok::<_, Box<dyn std::error::Error>>(())
    /// ```
    pub fn bytes(&self, object: Local<'_, 'h, Bytes>) -> Vec<u8> {
        self.bytes_of(object)
    }
    /// How many bytes there are.
    ///
    /// ```
    /// # use g1heap::*;
    /// # let mut heap = Heap::new(&Sizes::default())?;
    /// # heap.run(|f| {
    /// assert_eq!(f.bytes_len(f.alloc_bytes(&[])?), 0);
    /// # Ok::<_, Error>(())
    /// # })?;
    /// # Ok::<_, Box<dyn std::error::Error>>(())
    /// ```
    pub fn bytes_len(&self, object: Local<'_, 'h, Bytes>) -> usize {
        self.len_of(object)
    }
    /// A new object of this text.
    ///
    /// ```
    /// # use g1heap::*;
    /// # layout! { struct Symbol { pointers { name: Text } } }
    /// # let mut heap = Heap::new(&Sizes::default())?;
    /// # heap.run(|f| {
    /// let symbol = f.alloc::<Symbol>()?;
    /// f.put(symbol, Symbol::name, f.alloc_text("lambda λ")?);
    /// let name = f.get(symbol, Symbol::name)?.unwrap();
    /// assert_eq!(f.text(name), "lambda λ");
    /// # Ok::<_, Error>(())
    /// # })?;
    /// # Ok::<_, Box<dyn std::error::Error>>(())
    /// ```
    pub fn alloc_text(&self, text: &str) -> Result<Local<'f, 'h, Text>, Error> {
        self.new_bytes(text.as_bytes(), 0)
    }
    /// The same with [a word of the program's own](Text::own), in no more calls: so nobody sees the text without its tag.
    ///
    /// ```
    /// # use g1heap::*;
    /// layout! { struct Tagged { words { tag: u8 } } }
    /// # let mut heap = Heap::new(&Sizes::default())?;
    /// # heap.run(|f| {
    /// let text = f.alloc_text_own("name", 7u8)?;
    /// assert_eq!((f.text(text).as_str(), f.read(text.any().assume(), Tagged::tag)), ("name", 7));
    /// # Ok::<_, Error>(())
    /// # })?;
    /// # Ok::<_, Box<dyn std::error::Error>>(())
    /// ```
    pub fn alloc_text_own<V: Bits>(&self, text: &str, own: V) -> Result<Local<'f, 'h, Text>, Error> {
        self.new_bytes(text.as_bytes(), own.to_word())
    }
    /// A copy of the text. What isn't UTF-8 in an object that was wrongly [assumed](Local::assume) to be one, becomes U+FFFD.
    ///
    /// ```
    /// # use g1heap::*;
    /// # let mut heap = Heap::new(&Sizes::default())?;
    /// # heap.run(|f| {
    /// assert_eq!(f.text(f.alloc_text("eins")?) + &f.text(f.alloc_text("zwei")?), "einszwei");
    /// # Ok::<_, Error>(())
    /// # })?;
    /// # Ok::<_, Box<dyn std::error::Error>>(())
    /// ```
    pub fn text(&self, object: Local<'_, 'h, Text>) -> String {
        String::from_utf8(self.bytes_of(object)).unwrap_or_else(|error| String::from_utf8_lossy(error.as_bytes()).into_owned())
    }
    /// The length of the text in bytes.
    ///
    /// ```
    /// # use g1heap::*;
    /// # let mut heap = Heap::new(&Sizes::default())?;
    /// # heap.run(|f| {
    /// assert_eq!(f.text_len(f.alloc_text("λ")?), 2);
    /// # Ok::<_, Error>(())
    /// # })?;
    /// # Ok::<_, Box<dyn std::error::Error>>(())
    /// ```
    pub fn text_len(&self, object: Local<'_, 'h, Text>) -> usize {
        self.len_of(object)
    }

    /// A new array of so many pointers, all nil.
    ///
    /// ```
    /// # use g1heap::*;
    /// # layout! { struct Cell { words { number: u64 } } }
    /// # let mut heap = Heap::new(&Sizes::default())?;
    /// # heap.run(|f| {
    /// let array = f.alloc_array::<Cell>(100)?;
    /// f.set_item(array, 99, f.alloc()?)?;
    /// assert!(f.item(array, 0)?.is_none() && f.item(array, 99)?.is_some());
    /// # Ok::<_, Error>(())
    /// # })?;
    /// # Ok::<_, Box<dyn std::error::Error>>(())
    /// ```
    #[inline]
    pub fn alloc_array<T>(&self, len: u32) -> Result<Local<'f, 'h, Array<T>>, Error> {
        self.make(len, 0, 1)
    }
    /// How many pointers the array has.
    ///
    /// ```
    /// # use g1heap::*;
    /// # let mut heap = Heap::new(&Sizes::default())?;
    /// # heap.run(|f| {
    /// assert_eq!(f.array_len(f.alloc_array::<Any>(7)?), 7);
    /// # Ok::<_, Error>(())
    /// # })?;
    /// # Ok::<_, Box<dyn std::error::Error>>(())
    /// ```
    #[inline]
    pub fn array_len<T>(&self, array: Local<'_, 'h, Array<T>>) -> u32 {
        self.shape(array).0
    }
    /// What an array holds at an index, in a new root. [`Error::NoField`] where there is none.
    ///
    /// ```
    /// # use g1heap::*;
    /// # let mut heap = Heap::new(&Sizes::default())?;
    /// # heap.run(|f| {
    /// let array = f.alloc_array::<Any>(7)?;
    /// assert!(f.item(array, 6)?.is_none());
    /// assert_eq!(f.item(array, 7).unwrap_err(), Error::NoField);
    /// # Ok::<_, Error>(())
    /// # })?;
    /// # Ok::<_, Box<dyn std::error::Error>>(())
    /// ```
    #[inline]
    pub fn item<T>(&self, array: Local<'_, 'h, Array<T>>, index: u32) -> Result<Option<Local<'f, 'h, T>>, Error> {
        self.pushed_at(self.raw().get(self.mutator(), self.top(), array.register(), index))
    }
    /// Sets what an array holds at an index. [`Error::NoField`] where there is none.
    ///
    /// ```
    /// # use g1heap::*;
    /// # layout! { struct Cell { words { number: u64 } } }
    /// # let mut heap = Heap::new(&Sizes::default())?;
    /// # heap.run(|f| {
    /// let array = f.alloc_array::<Cell>(7)?;
    /// f.set_item(array, 6, f.alloc()?)?;
    /// f.set_item(array, 6, Nil)?;
    /// assert_eq!(f.set_item(array, 7, Nil), Err(Error::NoField));
    /// # Ok::<_, Error>(())
    /// # })?;
    /// # Ok::<_, Box<dyn std::error::Error>>(())
    /// ```
    #[inline]
    pub fn set_item<T>(&self, array: Local<'_, 'h, Array<T>>, index: u32, value: impl Source<'h, T>) -> Result<(), Error> {
        of_field(self.raw().put(self.mutator(), array.register(), index, value.code())).map(drop)
    }
}
