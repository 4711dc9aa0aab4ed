//! Hashes, and what was added by each: for texts that are there once.

/// What was added, by a hash of 64 bits. It knows nothing of what is gone: who added that takes it out.
pub struct Table<T> {
    /// As many as a power of two; what was added is at the place of its hash, or after it, before any that is empty.
    places: Vec<Option<(u64, T)>>,
    count: usize,
}
impl<T> Table<T> {
    pub fn new() -> Self {
        Table { places: (0..4096).map(|_| None).collect(), count: 0 }
    }
    /// What was added by this hash.
    pub fn of(&self, hash: u64) -> impl Iterator<Item = &T> {
        let mask = self.places.len() - 1;
        let mut at = hash as usize;
        std::iter::from_fn(move || loop {
            let (other, it) = self.places[at & mask].as_ref()?;
            at += 1;
            if *other == hash {
                return Some(it);
            }
        })
    }
    pub fn add(&mut self, hash: u64, it: T) {
        let mask = self.places.len() - 1;
        let mut at = hash as usize & mask;
        while self.places[at].is_some() {
            at = (at + 1) & mask;
        }
        self.places[at] = Some((hash, it));
        self.count += 1;
    }
    /// Whether so many are there that what is gone should be taken out.
    pub fn is_full(&self) -> bool {
        4 * self.count >= 3 * self.places.len()
    }
    /// Takes those out that don't live; there is room for as many as do then.
    pub fn keep<E>(&mut self, mut lives: impl FnMut(&T) -> Result<bool, E>) -> Result<(), E> {
        let room = self.places.len();
        let (mut all, mut kept) = (std::mem::take(&mut self.places), Vec::new());
        for (hash, it) in all.drain(..).flatten() {
            if lives(&it)? {
                kept.push((hash, it));
            }
        }
        let more = if 2 * kept.len() > room { 2 * room } else { room };
        self.places = (0..more).map(|_| None).collect();
        self.count = 0;
        kept.into_iter().for_each(|(hash, it)| self.add(hash, it));
        Ok(())
    }
}
