//! Random steps against a graph in plain Rust, from which nothing is ever freed or moved. `SEEDS` says how many runs there are.
use g1heap::*;

layout! { struct Small { pointers { one: Any, other: Small } weaks { seen: Any } words { a: u64, b: i64 } } }

struct Random(u64);
impl Random {
    fn below(&mut self, most: usize) -> usize {
        self.0 ^= self.0 << 13;
        self.0 ^= self.0 >> 7;
        self.0 ^= self.0 << 17;
        (self.0 >> 11) as usize % most
    }
}

struct Object {
    name: Name,
    small: bool,
    pointers: Vec<Option<usize>>,
    weaks: Vec<Option<usize>>,
    words: Vec<u64>,
}
struct Model {
    random: Random,
    objects: Vec<Object>,
    roots: Vec<usize>, // of all frames
    globals: Vec<(Global, Option<usize>)>,
    kept: Vec<(Kept, usize)>,
    left: usize, // steps
    full: usize,
    cleared: usize,
}
type Root<'f, 'h> = (Local<'f, 'h>, usize);
/// What a step found, and what it should have found: it becomes a root.
type Found<'f, 'h> = Option<(Result<Option<Local<'f, 'h>>, Error>, Option<usize>)>;

impl Model {
    fn reaches(&self, target: usize) -> bool {
        let mut seen = vec![false; self.objects.len()];
        let globals = self.globals.iter().filter_map(|it| it.1);
        let mut work: Vec<usize> = self.roots.iter().copied().chain(globals).chain(self.kept.iter().map(|it| it.1)).collect();
        while let Some(at) = work.pop() {
            if at == target {
                return true;
            }
            if !std::mem::replace(&mut seen[at], true) {
                work.extend(self.objects[at].pointers.iter().flatten());
            }
        }
        false
    }
    fn born(&mut self, name: Name, small: bool, (pointers, weaks, words): (usize, usize, usize)) -> usize {
        self.objects.push(Object { name, small, pointers: vec![None; pointers], weaks: vec![None; weaks], words: vec![0; words] });
        self.objects.len() - 1
    }
    fn pick<'f, 'h>(&mut self, all: &[Root<'f, 'h>]) -> Option<Root<'f, 'h>> {
        (!all.is_empty()).then(|| all[self.random.below(all.len())])
    }
    /// The same, or nil.
    fn pick_or_nil<'f, 'h>(&mut self, all: &[Root<'f, 'h>]) -> Option<Root<'f, 'h>> {
        self.pick(all).filter(|_| self.random.below(3) > 0)
    }

    fn alloc<'f, 'h>(&mut self, f: &Frame<'f, 'h>) -> Option<Root<'f, 'h>> {
        let made = if self.random.below(3) == 0 {
            f.alloc::<Small>().map(|it| (it.any(), self.born(f.name(it), true, (2, 1, 2))))
        } else {
            let huge = if self.random.below(50) == 0 { 300 } else { 6 };
            let shape = (self.random.below(huge), self.random.below(3), self.random.below(huge));
            f.alloc_any(shape.0 as u32, shape.1 as u32, shape.2 as u32).map(|it| (it, self.born(f.name(it), false, shape)))
        };
        match made {
            Ok(made) => return Some(made),
            Err(Error::Full) => self.full += 1,
            Err(error) => assert!(error == Error::NoRegisters && f.room() == 0),
        }
        None
    }
    fn get<'f, 'h>(&mut self, f: &Frame<'f, 'h>, (at, it): Root<'_, 'h>) -> Found<'f, 'h> {
        let i = self.random.below(4);
        let answer = f.get_at(at, i as u32);
        if i < self.objects[it].pointers.len() {
            return Some((answer, self.objects[it].pointers[i]));
        }
        assert_eq!(answer.err(), Some(if f.room() == 0 { Error::NoRegisters } else { Error::NoField }));
        None
    }
    fn put<'h>(&mut self, f: &Frame<'_, 'h>, (at, it): Root<'_, 'h>, value: Option<Root<'_, 'h>>) {
        let i = self.random.below(4);
        if self.objects[it].small && i == 1 {
            return; // by its layout there is a Small
        }
        let answer = f.put_at(at, i as u32, value.map(|it| it.0));
        match self.objects[it].pointers.get_mut(i) {
            Some(field) => *field = value.map(|it| it.1),
            None => assert_eq!(answer, Err(Error::NoField)),
        }
    }
    fn write<'h>(&mut self, f: &Frame<'_, 'h>, (at, it): Root<'_, 'h>) {
        let (i, value) = (self.random.below(4), self.random.0);
        match (f.write_at(at, i as u32, value), self.objects[it].words.get_mut(i)) {
            (Ok(()), Some(word)) => *word = value,
            (answer, word) => assert!(answer == Err(Error::NoField) && word.is_none()),
        }
    }
    /// A run of words, written or read.
    fn run<'h>(&mut self, f: &Frame<'_, 'h>, (at, it): Root<'_, 'h>) {
        let (from, len) = (self.random.below(5), self.random.below(80));
        let is_there = from + len <= self.objects[it].words.len();
        let mut words: Vec<u64> = (0..len).map(|_| self.random.0 ^ self.random.below(1 << 20) as u64).collect();
        if self.random.below(2) == 0 {
            assert_eq!(f.write_words(at, from as u32, &words).is_ok(), is_there);
            if is_there {
                self.objects[it].words[from..from + len].copy_from_slice(&words);
            }
        } else {
            assert_eq!(f.read_words(at, from as u32, &mut words).is_ok(), is_there);
            assert!(!is_there || words == self.objects[it].words[from..from + len]);
        }
    }
    fn look<'h>(&mut self, f: &Frame<'_, 'h>, (at, it): Root<'_, 'h>) {
        let object = &self.objects[it];
        assert_eq!(f.words(at), object.words);
        assert_eq!((f.name(at), f.weaks(at) as usize), (object.name, object.weaks.len()));
        assert_eq!(f.shape(at), (object.pointers.len() as u32, object.words.len() as u32));
    }
    fn by_layout<'h>(&mut self, f: &Frame<'_, 'h>, (at, it): Root<'_, 'h>) {
        if !self.objects[it].small {
            return;
        }
        let small = at.assume::<Small>();
        assert_eq!(f.read(small, Small::a), self.objects[it].words[0]);
        f.write(small, Small::b, -1);
        f.put(small, Small::other, small);
        self.objects[it].words[1] = u64::MAX;
        self.objects[it].pointers[1] = Some(it);
    }
    fn weak<'f, 'h>(&mut self, f: &Frame<'f, 'h>, (at, it): Root<'_, 'h>, value: Option<Root<'_, 'h>>) -> Found<'f, 'h> {
        if self.objects[it].weaks.is_empty() {
            return None;
        }
        if self.random.below(2) == 0 {
            f.put_weak_at(at, 0, value.map(|it| it.0)).unwrap();
            self.objects[it].weaks[0] = value.map(|it| it.1);
            return None;
        }
        match (f.get_weak_at(at, 0), self.objects[it].weaks[0]) {
            (Ok(None), Some(target)) => {
                assert!(!self.reaches(target));
                self.objects[it].weaks[0] = None;
                self.cleared += 1;
                None
            }
            answer => Some(answer),
        }
    }
    fn global<'f, 'h>(&mut self, f: &Frame<'f, 'h>, value: Option<Root<'_, 'h>>) -> Found<'f, 'h> {
        let i = self.random.below(self.globals.len());
        if self.random.below(2) == 0 {
            return Some((f.load(self.globals[i].0), self.globals[i].1));
        }
        if f.save(self.globals[i].0, value.map(|it| it.0)).is_ok() {
            self.globals[i].1 = value.map(|it| it.1);
        } else {
            assert!(f.room() == 0 && value.is_none());
        }
        None
    }
    fn keep<'f, 'h>(&mut self, f: &Frame<'f, 'h>, (at, it): Root<'_, 'h>) -> Found<'f, 'h> {
        if self.random.below(2) == 0 && !self.kept.is_empty() {
            let (kept, it) = &self.kept[self.random.below(self.kept.len())];
            return Some((f.kept(kept).map(Some), Some(*it)));
        }
        match f.keep(at) {
            Ok(kept) => self.kept.push((kept, it)),
            Err(error) => {
                assert!(error == Error::NoGlobals && self.kept.len() == 12);
                let i = self.random.below(self.kept.len());
                self.kept.swap_remove(i);
            }
        }
        None
    }
    fn steps(&mut self, f: &Frame<'_, '_>) {
        let steps = f.steps();
        let _ = match self.random.below(11) {
            0 => u64::from(steps.begin()),
            1 => steps.mark(3).unwrap_or(0),
            2 => steps.remark().unwrap_or(0),
            3 => steps.cleanup().unwrap_or(0),
            4 => steps.pause(200).words,
            5 => steps.refine(2),
            6 => steps.compact(200).words,
            7 => steps.pause_within(200, 4).words,
            8 => steps.young(200, 4).words,
            9 => u64::from(steps.give_back()),
            _ => {
                f.collect_due();
                0
            }
        };
    }
    /// Takes what was found, if it is what it should be.
    fn take<'f, 'h>(&mut self, f: &Frame<'_, 'h>, found: Found<'f, 'h>) -> Option<Root<'f, 'h>> {
        match found? {
            (Ok(Some(at)), Some(it)) => {
                assert_eq!(f.name(at), self.objects[it].name);
                return Some((at, it));
            }
            (Ok(None), None) => {}
            (Err(Error::NoRegisters), _) => assert_eq!(f.room(), 0),
            (answer, expected) => panic!("{:?} and not {:?}", answer, expected),
        }
        None
    }
}

/// Steps in a frame, and in frames within it.
fn play<'h>(f: &mut Frame<'_, 'h>, model: &mut Model, outer: &[Root<'_, 'h>], depth: usize) {
    let mut all: Vec<Root<'_, 'h>> = outer.to_vec();
    let below = model.roots.len();
    let until = model.left.saturating_sub(1 + model.random.below(200));
    let mut place = f.nil_var::<Any>().ok().map(|var| (var, None));
    while model.left > until {
        model.left -= 1;
        let (one, other) = (model.pick(&all), model.pick_or_nil(&all));
        let mut made = None;
        let found = match (model.random.below(20), one) {
            (0..=2, _) | (_, None) => {
                made = model.alloc(f);
                None
            }
            (3 | 4, Some(at)) => model.get(f, at),
            (5 | 6, Some(at)) => {
                model.put(f, at, other);
                None
            }
            (kind @ 7..=10, Some(at)) => {
                [Model::write, Model::run, Model::look, Model::by_layout][kind - 7](model, f, at);
                None
            }
            (11 | 12, Some(at)) => model.weak(f, at, other),
            (13 | 14, Some(_)) => model.global(f, other),
            (15 | 16, Some(at)) => model.keep(f, at),
            (17, Some((at, it))) => {
                if let Some((var, held)) = &mut place {
                    if model.random.below(2) == 0 {
                        var.set(f, at);
                        *held = Some(it);
                        model.roots.push(it); // it stays here too long, so fewer weak slots are looked at
                    } else if let (Some(local), Some(held)) = (var.local(), *held) {
                        assert_eq!(f.name(local), model.objects[held].name);
                    }
                }
                None
            }
            (18, _) => {
                if depth < 12 {
                    f.scope(|g| play(g, model, &all, depth + 1));
                }
                None
            }
            _ => {
                model.steps(f);
                None
            }
        };
        if let Some(root) = made.or_else(|| model.take(f, found)) {
            all.push(root);
            model.roots.push(root.1);
        }
    }
    model.roots.truncate(below);
}

#[test]
fn random_steps() {
    let (mut full, mut cleared) = (0, 0);
    let seeds = std::env::var("SEEDS").map_or(60, |it| it.parse().unwrap());
    for seed in 1..=seeds {
        let sizes = Sizes::default().regions(16).words(64).buffer(7).globals(20).registers(40);
        let mut heap = Heap::new(&sizes).unwrap();
        let globals = (0..8).map(|_| (heap.new_global().unwrap(), None)).collect();
        let random = Random(u64::wrapping_mul(seed, 0x9e3779b97f4a7c15));
        let mut model =
            Model { random, objects: Vec::new(), roots: Vec::new(), globals, kept: Vec::new(), left: 5000, full: 0, cleared: 0 };
        while model.left > 0 {
            heap.run(|f| play(f, &mut model, &[], 0));
        }
        full += model.full;
        cleared += model.cleared;
    }
    assert!(full > 0 && cleared > 0, "{} {}", full, cleared);
}
