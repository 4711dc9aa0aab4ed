//! What texts tell without a copy of them.
use crate::bulk::{word_of, word_of_eight, Text};
use crate::frame::Frame;
use crate::local::Local;
use std::str;

/// A character takes at most so many bytes.
const CHARACTER: usize = 4;

/// Adds what is UTF-8 of the bytes, and U+FFFD for what isn't. Answers how many bytes at the end may begin a character.
fn push_text(out: &mut String, mut bytes: &[u8]) -> usize {
    loop {
        let error = match str::from_utf8(bytes) {
            Ok(text) => {
                out.push_str(text);
                return 0;
            }
            Err(error) => error,
        };
        let (good, others) = bytes.split_at(error.valid_up_to());
        out.push_str(str::from_utf8(good).expect("it is UTF-8 up to there"));
        match error.error_len() {
            Some(len) => {
                out.push(char::REPLACEMENT_CHARACTER);
                bytes = &others[len..];
            }
            None => return others.len(),
        }
    }
}

/// A hash with some more bytes, which are a multiple of 8 but at the end.
fn mixed(hash: u64, bytes: &[u8]) -> u64 {
    let eights = bytes.chunks_exact(8);
    let rest = eights.remainder();
    let hash = eights.fold(hash, |hash, eight| stirred(hash ^ word_of_eight(eight)));
    if rest.is_empty() {
        return hash;
    }
    stirred(hash ^ word_of(rest))
}
fn stirred(hash: u64) -> u64 {
    let hash = hash.wrapping_mul(0x9e37_79b9_7f4a_7c15);
    hash ^ hash >> 32
}

impl Text {
    /// What [`Frame::text_hash`] tells of this text.
    ///
    /// ```
    /// # use g1heap::*;
    /// assert_ne!(Text::hash_of("ab"), Text::hash_of("ba"));
    /// ```
    pub fn hash_of(text: &str) -> u64 {
        stirred(mixed(0, text.as_bytes()) ^ text.len() as u64)
    }
}

impl<'h> Frame<'_, 'h> {
    /// Whether it is this text. Nothing is copied.
    ///
    /// ```
    /// # use g1heap::*;
    /// # let mut heap = Heap::new(&Sizes::default())?;
    /// # heap.run(|f| {
    /// let name = f.alloc_text("lambda λ")?;
    /// assert!(f.text_is(name, "lambda λ") && !f.text_is(name, "lambda"));
    /// # Ok::<_, Error>(())
    /// # })?;
    /// # Ok::<_, Box<dyn std::error::Error>>(())
    /// ```
    #[track_caller]
    pub fn text_is(&self, object: Local<'_, 'h, Text>, text: &str) -> bool {
        let mut left = text.as_bytes();
        let end = self.shape(object).1;
        if end as usize != left.len() / 8 + 2 {
            return false;
        }
        let is_so = self.runs_up_to(object, end, |run| match left.split_at(run.len().min(left.len())) {
            (first, others) if first == run => {
                left = others;
                true
            }
            _ => false,
        });
        is_so && left.is_empty()
    }
    /// Adds the text to `out`, which grows as it has to; nothing else is copied. What isn't UTF-8 in an object that was wrongly
    /// [assumed](Local::assume) to be one, becomes U+FFFD.
    ///
    /// ```
    /// # use g1heap::*;
    /// # let mut heap = Heap::new(&Sizes::default())?;
    /// # heap.run(|f| {
    /// let mut line = String::from("(");
    /// for word in ["eins", "zwei"] {
    ///     f.text_into(f.alloc_text(word)?, &mut line);
    /// }
    /// assert_eq!(line, "(einszwei");
    /// # Ok::<_, Error>(())
    /// # })?;
    /// # Ok::<_, Box<dyn std::error::Error>>(())
    /// ```
    #[track_caller]
    pub fn text_into(&self, object: Local<'_, 'h, Text>, out: &mut String) {
        let (mut begun, mut count) = ([0; 2 * CHARACTER], 0);
        self.runs_of(object, |mut run| {
            // A character that begins in one run ends in the next one.
            while count > 0 && !run.is_empty() {
                begun[count] = run[0];
                run = &run[1..];
                let left = push_text(out, &begun[..=count]);
                begun.copy_within(count + 1 - left..=count, 0);
                count = left;
            }
            if count == 0 {
                count = push_text(out, run);
                begun[..count].copy_from_slice(&run[run.len() - count..]);
            }
            true
        });
        if count > 0 {
            out.push(char::REPLACEMENT_CHARACTER);
        }
    }
    /// A hash of the text, the same in each run of each program, and as [`Text::hash_of`] tells it: for tables of the program's own.
    /// Nothing is copied. Who chooses texts can choose many with the same hash.
    ///
    /// ```
    /// # use g1heap::*;
    /// # let mut heap = Heap::new(&Sizes::default())?;
    /// # heap.run(|f| {
    /// let text = f.alloc_text("a name")?;
    /// assert_eq!(f.text_hash(text), Text::hash_of("a name"));
    /// # Ok::<_, Error>(())
    /// # })?;
    /// # Ok::<_, Box<dyn std::error::Error>>(())
    /// ```
    #[track_caller]
    pub fn text_hash(&self, object: Local<'_, 'h, Text>) -> u64 {
        let (mut hash, mut len) = (0, 0);
        self.runs_of(object, |run| {
            hash = mixed(hash, run);
            len += run.len() as u64;
            true
        });
        stirred(hash ^ len)
    }
}
