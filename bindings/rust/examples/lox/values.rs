//! The values of Lox on the heap. A value is a word and, where the word says so, an object: so numbers need none.
use super::table::Table;
use g1heap::{layout, Any, Array, Bits, Error, Frame, Local, Nil, Text, Var};
use std::collections::HashMap;

/// A number; or one of the constants below, which are no numbers' words.
#[derive(Clone, Copy, Debug, PartialEq, Eq)]
pub struct Scalar(pub u64);
/// What the words of a new object are.
pub const UNDEFINED: Scalar = Scalar(0);
pub const NIL: Scalar = Scalar(1);
pub const FALSE: Scalar = Scalar(2);
pub const TRUE: Scalar = Scalar(3);
pub const OBJECT: Scalar = Scalar(4);
/// And the functions that there are, from here on.
pub const NATIVE: u64 = 16;
const NUMBERS: u64 = 64;
/// No sum or product has these bits and some more up to NUMBERS.
const TURNED: u64 = 0xfffc_0000_0000_0000;

impl Scalar {
    pub fn of(number: f64) -> Scalar {
        Scalar(number.to_bits() ^ TURNED)
    }
    pub fn number(self) -> Option<f64> {
        (self.0 >= NUMBERS).then(|| f64::from_bits(self.0 ^ TURNED))
    }
    pub fn truth(is: bool) -> Scalar {
        if is {
            TRUE
        } else {
            FALSE
        }
    }
    pub fn is_true(self) -> bool {
        self != NIL && self != FALSE
    }
    pub fn native(self) -> Option<usize> {
        (NATIVE..NUMBERS).contains(&self.0).then(|| (self.0 - NATIVE) as usize)
    }
}
impl Bits for Scalar {
    fn to_word(self) -> u64 {
        self.0
    }
    fn from_word(word: u64) -> Self {
        Scalar(word)
    }
}
pub type Slot<'f, 'h> = (Scalar, Option<Local<'f, 'h>>);
pub fn object<'f, 'h, T: g1heap::Layout>(it: Local<'f, 'h, T>) -> Slot<'f, 'h> {
    (OBJECT, Some(it.any()))
}

/// What an object is.
#[derive(Clone, Copy, Debug, PartialEq, Eq)]
pub enum Tag {
    Text,
    Closure,
    Class,
    Instance,
    Bound,
    /// A list that has its items in itself.
    List,
    /// One that has them in slots, with room for more.
    Grown,
    Map,
}
const TAGS: [Tag; 8] = [Tag::Text, Tag::Closure, Tag::Class, Tag::Instance, Tag::Bound, Tag::List, Tag::Grown, Tag::Map];

/// The first word of an object: what it is, and a number that is wanted with it. So one call tells both.
#[derive(Clone, Copy, Debug, PartialEq, Eq)]
pub struct Head(pub Tag, pub u32);
impl Bits for Head {
    fn to_word(self) -> u64 {
        self.0 as u64 | u64::from(self.1) << 8
    }
    fn from_word(word: u64) -> Self {
        Head(TAGS[(word & 0xff) as usize], (word >> 8) as u32)
    }
}

layout! {
    pub struct Tagged { words { head: Head } }
    /// Its number is that of its function.
    pub struct Closure { pointers { upvalues: Upvalue.. } words { head: Head } }
    /// A variable that closures share: a place of the stack, and later its last value.
    pub struct Upvalue {
        pointers { value: Any, next: Upvalue }
        words {
            scalar: Scalar,
            /// The place and 1, as long as it has one.
            open: usize,
        }
    }
    /// Its number tells the names of its instances' fields, and `names` those of its methods. What it has no pointer for is in `more`.
    pub struct Class { pointers { name: Text, more: Array<Closure>, methods: Closure.. } words { head: Head, names: usize } }
    /// Its number is its class's. It has a pointer and a word for each field that instances of that class had when it was made; `more` has
    /// slots for others.
    pub struct Instance { pointers { class: Class, more: Slots, fields: Any.. } words { head: Head } }
    /// Its number is that of the method's function.
    pub struct Bound { pointers { receiver: Any, method: Closure } words { head: Head } }
    /// Its number tells how many items it has. As long as it doesn't grow, it has a pointer and a word for each.
    pub struct List { pointers { items: Slots, values: Any.. } words { head: Head } }
    /// Its number tells how many keys it has. Its slots are `room` keys, whose words are their names, and then their values.
    pub struct Map { pointers { slots: Slots } words { head: Head } }
    /// Values: slot n has pointer n and the word after word n.
    pub struct Slots { pointers { values: Any.. } words { room: u32 } }
}

/// The object and its number, where it is one of this sort.
pub fn as_a<'f, 'h, T>(g: &Frame<'_, 'h>, it: Option<Local<'f, 'h>>, tag: Tag) -> Option<(Local<'f, 'h, T>, u32)> {
    let (it, Head(found, number)) = headed(g, it)?;
    (found == tag).then(|| (it.assume(), number))
}
/// The object with its first word.
pub fn headed<'f, 'h>(g: &Frame<'_, 'h>, it: Option<Local<'f, 'h>>) -> Option<(Local<'f, 'h>, Head)> {
    it.map(|it| (it, g.read(it.assume(), Tagged::head)))
}

/// What a pointer and a word of an object hold.
fn load_at<'f, 'h, T>(g: &Frame<'f, 'h>, it: Local<'_, 'h, T>, pointer: u32, word: u32) -> Result<Slot<'f, 'h>, Error> {
    match Scalar(g.read_at(it, word)?) {
        OBJECT => Ok((OBJECT, g.get_at(it, pointer)?)),
        scalar => Ok((scalar, None)),
    }
}
fn store_at<'h, T>(g: &Frame<'_, 'h>, it: Local<'_, 'h, T>, pointer: u32, word: u32, value: Slot<'_, 'h>) -> Result<(), Error> {
    if value.1.is_some() || Scalar(g.read_at(it, word)?) == OBJECT {
        g.put_at(it, pointer, value.1)?;
    }
    g.write_at(it, word, value.0 .0)
}

impl Slots {
    pub fn alloc<'f, 'h>(g: &Frame<'f, 'h>, count: u32) -> Result<Local<'f, 'h, Slots>, Error> {
        Ok(g.alloc_any(count, 0, 1 + count)?.assume())
    }
    pub fn load<'f, 'h>(g: &Frame<'f, 'h>, slots: Local<'_, 'h, Slots>, at: u32) -> Result<Slot<'f, 'h>, Error> {
        load_at(g, slots, at, 1 + at)
    }
    pub fn store<'h>(g: &Frame<'_, 'h>, slots: Local<'_, 'h, Slots>, at: u32, value: Slot<'_, 'h>) -> Result<(), Error> {
        store_at(g, slots, at, 1 + at, value)
    }
    /// The same of a slot that was never set.
    pub fn fill<'h>(g: &Frame<'_, 'h>, slots: Local<'_, 'h, Slots>, at: u32, (scalar, object): Slot<'_, 'h>) -> Result<(), Error> {
        if object.is_some() {
            g.put_at(slots, at, object)?;
        }
        g.write_at(slots, 1 + at, scalar.0)
    }
    /// Sets a slot of those that a pointer of an object leads to. Where there is none of this number, there are more then.
    pub fn store_in<'h, T: g1heap::Layout>(
        g: &mut Frame<'_, 'h>,
        it: Local<'_, 'h, T>,
        field: g1heap::Pointer<T, Slots>,
        at: u32,
        value: Slot<'_, 'h>,
    ) -> Result<(), Error> {
        g.scope(|g| {
            let old = g.get(it, field)?;
            if let Some(slots) = old {
                match Slots::store(g, slots, at, value) {
                    Err(Error::NoField) => {}
                    done => return done,
                }
            }
            let slots = Slots::alloc(g, 2 * at + 4)?;
            if let Some(old) = old {
                let words = g.words(old);
                g.write_words(slots, 0, &words)?;
                for at in (0..words.len() as u32 - 1).filter(|at| Scalar(words[1 + *at as usize]) == OBJECT) {
                    g.scope(|g| g.put_at(slots, at, g.get_at(old, at)?))?;
                }
            }
            g.put(it, field, slots);
            Slots::store(g, slots, at, value)
        })
    }
}

/// So many words need no memory of the system.
const FEW: usize = 8;

impl List {
    /// A list of some values, which `value` tells by their places.
    pub fn alloc<'f, 'g, 'h>(g: &Frame<'f, 'h>, count: u32, value: impl Fn(u32) -> Slot<'g, 'h>) -> Result<Local<'f, 'h, List>, Error> {
        let list = g.alloc_any(1 + count, 0, 1 + count)?.assume();
        let (mut few, mut many) = ([0; FEW], Vec::new());
        let words = match few.get_mut(..=count as usize) {
            Some(words) => words,
            None => {
                many.resize(1 + count as usize, 0);
                &mut many[..]
            }
        };
        words[0] = Head(Tag::List, count).to_word();
        for (at, word) in (0..).zip(&mut words[1..]) {
            let (scalar, object) = value(at);
            *word = scalar.0;
            if object.is_some() {
                g.put_at(list, 1 + at, object)?;
            }
        }
        g.write_words(list, 0, words)?;
        Ok(list)
    }
    pub fn load<'f, 'h>(g: &Frame<'f, 'h>, (list, tag): (Local<'_, 'h, List>, Tag), at: u32) -> Result<Slot<'f, 'h>, Error> {
        match tag {
            Tag::List => load_at(g, list, 1 + at, 1 + at),
            _ => Slots::load(g, g.field(list, List::items)?, at),
        }
    }
    pub fn store<'h>(g: &Frame<'_, 'h>, (list, tag): (Local<'_, 'h, List>, Tag), at: u32, value: Slot<'_, 'h>) -> Result<(), Error> {
        match tag {
            Tag::List => store_at(g, list, 1 + at, 1 + at, value),
            _ => Slots::store(g, g.field(list, List::items)?, at, value),
        }
    }
    pub fn push<'h>(g: &mut Frame<'_, 'h>, (list, tag): (Local<'_, 'h, List>, Tag), count: u32, value: Slot<'_, 'h>) -> Result<(), Error> {
        if tag == Tag::List {
            g.scope(|g| List::grow(g, list, count))?;
        }
        Slots::store_in(g, list, List::items, count, value)?;
        g.write(list, List::head, Head(Tag::Grown, count + 1));
        Ok(())
    }
    /// Its items go to slots.
    fn grow<'h>(g: &mut Frame<'_, 'h>, list: Local<'_, 'h, List>, count: u32) -> Result<(), Error> {
        let slots = Slots::alloc(g, 2 * count + 4)?;
        for at in 0..count {
            g.scope(|g| {
                let value = load_at(g, list, 1 + at, 1 + at)?;
                g.put_at(list, 1 + at, Nil)?;
                Slots::fill(g, slots, at, value)
            })?;
        }
        g.put(list, List::items, slots);
        Ok(())
    }
}

impl Instance {
    pub fn alloc<'f, 'h>(
        g: &Frame<'f, 'h>,
        class: Local<'_, 'h, Class>,
        number: u32,
        fields: u32,
    ) -> Result<Local<'f, 'h, Instance>, Error> {
        let new = g.alloc_any(2 + fields, 0, 1 + fields)?.assume();
        g.put(new, Instance::class, class);
        g.write(new, Instance::head, Head(Tag::Instance, number));
        Ok(new)
    }
    pub fn load<'f, 'h>(g: &Frame<'f, 'h>, instance: Local<'_, 'h, Instance>, at: u32) -> Result<Slot<'f, 'h>, Error> {
        match load_at(g, instance, 2 + at, 1 + at) {
            Err(Error::NoField) => {}
            done => return done,
        }
        match g.get(instance, Instance::more)?.map(|more| Slots::load(g, more, at)) {
            None | Some(Err(Error::NoField)) => Ok((UNDEFINED, None)), // it was made before the class had this one
            Some(done) => done,
        }
    }
    pub fn store<'h>(g: &mut Frame<'_, 'h>, instance: Local<'_, 'h, Instance>, at: u32, value: Slot<'_, 'h>) -> Result<(), Error> {
        match store_at(g, instance, 2 + at, 1 + at, value) {
            Err(Error::NoField) => Slots::store_in(g, instance, Instance::more, at, value),
            done => done,
        }
    }
}

/// A class has pointers for so many methods.
const METHODS: u32 = 4;

impl Class {
    pub fn alloc<'f, 'h>(g: &Frame<'f, 'h>, name: Local<'_, 'h, Text>, number: u32) -> Result<Local<'f, 'h, Class>, Error> {
        let class = g.alloc_with::<Class>(METHODS)?;
        g.put(class, Class::name, name);
        g.write(class, Class::head, Head(Tag::Class, number));
        Ok(class)
    }
    pub fn method<'f, 'h>(g: &Frame<'f, 'h>, class: Local<'_, 'h, Class>, at: u32) -> Result<Local<'f, 'h, Closure>, Error> {
        let found = match at.checked_sub(METHODS) {
            None => g.get_nth(class, Class::methods, at)?,
            Some(at) => g.item(g.field(class, Class::more)?, at)?,
        };
        Ok(found.expect("a method"))
    }
    pub fn set_method<'h>(g: &Frame<'_, 'h>, class: Local<'_, 'h, Class>, at: u32, method: Local<'_, 'h, Closure>) -> Result<(), Error> {
        let at = match at.checked_sub(METHODS) {
            None => return g.put_nth(class, Class::methods, at, method),
            Some(at) => at,
        };
        let old = g.get(class, Class::more)?;
        match old {
            Some(old) if at < g.array_len(old) => g.set_item(old, at, method),
            _ => {
                let more = g.alloc_array(2 * at + METHODS)?;
                if let Some(old) = old {
                    g.copy_items(old, 0..at, more, 0)?;
                }
                g.put(class, Class::more, more);
                g.set_item(more, at, method)
            }
        }
    }
}

/// The names of methods and their functions, in their order, as classes have them. A class tells by a number which of these are its own.
pub struct Names {
    all: Vec<Vec<(u32, u32)>>,
    after: HashMap<(usize, u32, u32), (usize, u32)>,
}
impl Names {
    /// Those of a class without methods are 0.
    pub fn new() -> Names {
        Names { all: vec![Vec::new()], after: HashMap::new() }
    }
    /// The place of a method, and its function.
    pub fn place(&self, names: usize, name: u32) -> Option<(u32, u32)> {
        let at = self.all[names].iter().position(|it| it.0 == name)?;
        Some((at as u32, self.all[names][at].1))
    }
    pub fn count(&self, names: usize) -> u32 {
        self.all[names].len() as u32
    }
    /// The same with this method, and its place.
    pub fn with(&mut self, names: usize, name: u32, function: u32) -> (usize, u32) {
        let all = &mut self.all;
        *self.after.entry((names, name, function)).or_insert_with(|| {
            let mut more = all[names].clone();
            let at = more.iter().position(|it| it.0 == name).unwrap_or(more.len());
            if at == more.len() {
                more.push((name, function));
            } else {
                more[at].1 = function;
            }
            all.push(more);
            (all.len() - 1, at as u32)
        })
    }
}

impl Map {
    pub fn alloc<'f, 'h>(g: &mut Frame<'f, 'h>) -> Result<Local<'f, 'h, Map>, Error> {
        g.lift(|g| {
            let slots = Slots::alloc(g, 16)?;
            g.write(slots, Slots::room, 8);
            g.new::<Map>(|p| {
                p.put(Map::slots, slots);
                p.write(Map::head, Head(Tag::Map, 0));
            })
        })
    }
    /// The place of the first that is looked at for a key of this name.
    fn first(key: u64, room: u32) -> u32 {
        (key.wrapping_mul(0x9e37_79b9_7f4a_7c15) >> 40) as u32 & (room - 1)
    }
    /// The place of a key, or the one where it goes, and whether it is there.
    fn place<'h>(g: &Frame<'_, 'h>, slots: Local<'_, 'h, Slots>, room: u32, key: u64) -> Result<(u32, bool), Error> {
        let mut at = Map::first(key, room);
        loop {
            match g.read_at(slots, 1 + at)? {
                0 => return Ok((at, false)),
                name if name == key => return Ok((at, true)),
                _ => at = (at + 1) & (room - 1),
            }
        }
    }
    /// What a key holds; UNDEFINED where it isn't there.
    pub fn get<'f, 'h>(g: &Frame<'f, 'h>, map: Local<'_, 'h, Map>, key: Local<'_, 'h>) -> Result<Slot<'f, 'h>, Error> {
        let (slots, room) = g.get_word(map, Map::slots, Slots::room)?.expect("slots");
        match Map::place(g, slots, room, g.name(key).number())? {
            (at, true) => Slots::load(g, slots, room + at),
            _ => Ok((UNDEFINED, None)),
        }
    }
    pub fn set<'h>(
        g: &mut Frame<'_, 'h>,
        (map, count): (Local<'_, 'h, Map>, u32),
        key: Local<'_, 'h>,
        value: Slot<'_, 'h>,
    ) -> Result<(), Error> {
        g.scope(|g| {
            let (slots, room) = g.get_word(map, Map::slots, Slots::room)?.expect("slots");
            let name = g.name(key).number();
            let (at, is_there) = Map::place(g, slots, room, name)?;
            if is_there {
                return Slots::store(g, slots, room + at, value);
            }
            if 4 * count >= 3 * room {
                Map::grow(g, map, slots, room)?;
                return Map::set(g, (map, count), key, value);
            }
            g.put_at(slots, at, key)?;
            g.write_at(slots, 1 + at, name)?;
            g.write(map, Map::head, Head(Tag::Map, count + 1));
            Slots::fill(g, slots, room + at, value)
        })
    }
    /// Twice as many slots.
    fn grow<'h>(g: &mut Frame<'_, 'h>, map: Local<'_, 'h, Map>, slots: Local<'_, 'h, Slots>, room: u32) -> Result<(), Error> {
        let (old, more) = (g.words(slots), 2 * room);
        let new = Slots::alloc(g, 2 * more)?;
        let mut words = vec![0; 1 + 2 * more as usize];
        words[0] = u64::from(more);
        for from in (0..room).filter(|from| old[1 + *from as usize] != 0) {
            let (name, value) = (old[1 + from as usize], old[1 + (room + from) as usize]);
            let mut to = Map::first(name, more);
            while words[1 + to as usize] != 0 {
                to = (to + 1) & (more - 1);
            }
            (words[1 + to as usize], words[1 + (more + to) as usize]) = (name, value);
            g.scope(|g| g.put_at(new, to, g.get_at(slots, from)?))?;
            if Scalar(value) == OBJECT {
                g.scope(|g| g.put_at(new, more + to, g.get_at(slots, room + from)?))?;
            }
        }
        g.write_words(new, 0, &words)?;
        g.put(map, Map::slots, new);
        Ok(())
    }
}

/// So many weak slots has an object of those that hold texts.
const WEAKS: u32 = 128;
/// The table just grows until it has so many, where no marking told of some that are gone.
const MANY: u32 = 65_536;

/// The texts that the program has, each once: a table of hashes, and weak slots by number, which the collector makes nil where nothing else
/// holds the text.
pub struct Interned<'o, 'h> {
    table: Table<u32>,
    weaks: Var<'o, 'h, Array>,
    /// Slots that are in no use.
    free: Vec<u32>,
    count: u32,
    /// How many markings there were when those that are gone were taken out.
    markings: u64,
}
impl<'o, 'h> Interned<'o, 'h> {
    pub fn new(f: &Frame<'o, 'h>) -> Result<Self, Error> {
        let weaks = f.var(f.alloc_array(8)?)?;
        Ok(Interned { table: Table::new(), weaks, free: Vec::new(), count: 0, markings: 0 })
    }
    /// The object that has a slot.
    fn holder<'f>(&self, g: &Frame<'f, 'h>, number: u32) -> Result<Local<'f, 'h>, Error> {
        Ok(g.item(self.weaks.local().expect("an array"), number / WEAKS)?.expect("slots"))
    }
    fn at<'f>(&self, g: &Frame<'f, 'h>, number: u32) -> Result<Option<Local<'f, 'h, Text>>, Error> {
        Ok(g.get_weak_at(self.holder(g, number)?, number % WEAKS)?.map(Local::assume))
    }
    /// The only object of this text.
    pub fn text<'f>(&mut self, f: &mut Frame<'f, 'h>, text: &str) -> Result<Local<'f, 'h, Text>, Error> {
        f.lift(|g| {
            let hash = Text::hash_of(text);
            for number in self.table.of(hash) {
                let found = self.at(g, *number)?;
                if let Some(found) = found.filter(|it| g.text_is(*it, text)) {
                    return Ok(found);
                }
            }
            let new = g.alloc_text_own(text, Head(Tag::Text, 0))?;
            if self.table.is_full() {
                self.clean(g)?;
            }
            let number = match self.free.pop() {
                Some(number) => number,
                None => g.scope(|g| self.more(g))?,
            };
            g.put_weak_at(self.holder(g, number)?, number % WEAKS, new)?;
            self.table.add(hash, number);
            Ok(new)
        })
    }
    /// Takes those out that are gone, or makes room for more.
    fn clean(&mut self, g: &mut Frame<'_, 'h>) -> Result<(), Error> {
        if g.markings() == self.markings {
            if self.count < MANY {
                return self.table.keep(|_| Ok(true));
            }
            g.collect();
        }
        self.markings = g.markings();
        let mut table = std::mem::replace(&mut self.table, Table::new());
        let mut free = std::mem::take(&mut self.free);
        table.keep(|number| {
            let lives = g.scope(|g| self.at(g, *number).map(|it| it.is_some()))?;
            if !lives {
                free.push(*number);
            }
            Ok::<_, Error>(lives)
        })?;
        (self.table, self.free) = (table, free);
        Ok(())
    }
    /// A slot that there wasn't before, and others after it that are free.
    fn more(&mut self, g: &Frame<'_, 'h>) -> Result<u32, Error> {
        let (weaks, at) = (self.weaks.local().expect("an array"), self.count / WEAKS);
        let new = g.alloc_any(0, WEAKS, 0)?;
        if at == g.array_len(weaks) {
            let more = g.alloc_array(2 * at)?;
            g.copy_items(weaks, 0..at, more, 0)?;
            g.set_item(more, at, new)?;
            self.weaks.set(g, more);
        } else {
            g.set_item(weaks, at, new)?;
        }
        self.free.extend((self.count + 1..self.count + WEAKS).rev());
        self.count += WEAKS;
        Ok(self.count - WEAKS)
    }
}
