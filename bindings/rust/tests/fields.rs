//! Tails, fields that are never nil, objects that are filled when they are made, and what else is told of objects.
use g1heap::*;

layout! {
    struct Cell { pointers { next: Cell } words { n: u64 } }
    struct Closure {
        pointers {
            code: Cell,
            /// What it captured.
            upvalues: Array<Cell>..
        }
        weaks { seen: Any }
        words { line: u32, column: u32 }
    }
    struct Samples { pointers { of: Cell } words { rate: u64, samples: i64.., } }
    struct Only { words { all: u64.. } }
    struct Observer { weaks { it: Cell } words { n: u64 } }
    struct Large {
        pointers { a: Cell, b: Cell, c: Cell, d: Cell, e: Cell, f: Cell, g: Cell, h: Cell, i: Cell }
        words { j: u64, k: u64, l: u64, m: u64, n: u64, o: u64, p: u64, q: u64, r: u64 }
    }
}

fn sizes() -> Sizes {
    Sizes::default().regions(16).words(64).buffer(7).registers(16)
}
fn cell<'f, 'h>(f: &Frame<'f, 'h>, n: u64) -> Local<'f, 'h, Cell> {
    f.new::<Cell>(|p| p.write(Cell::n, n)).unwrap()
}

#[test]
fn a_tail_is_as_long_as_it_was_made() {
    Heap::new(&sizes()).unwrap().run(|f| {
        assert_eq!((Closure::POINTERS, Closure::WEAKS, Closure::WORDS, Closure::TAIL), (1, 1, 2, Tail::Pointers));
        assert_eq!((Samples::POINTERS, Samples::WORDS, Only::WORDS, Only::TAIL), (1, 1, 0, Tail::Words));
        let closure = f.alloc_with::<Closure>(3).unwrap();
        assert_eq!((f.shape(closure), f.weaks(closure), f.tail_len(closure)), ((4, 2), 1, 3));
        f.put(closure, Closure::code, cell(f, 1));
        let array = f.alloc_array::<Cell>(1).unwrap();
        for index in 0..3 {
            assert!(f.get_nth(closure, Closure::upvalues, index).unwrap().is_none());
            f.put_nth(closure, Closure::upvalues, index, array).unwrap();
            f.scope(|g| assert!(g.same(g.get_nth(closure, Closure::upvalues, index).unwrap().unwrap(), array)));
        }
        for index in [3, 4, u32::MAX - 1, u32::MAX] {
            assert_eq!(f.get_nth(closure, Closure::upvalues, index).unwrap_err(), Error::NoField);
            assert_eq!(f.put_nth(closure, Closure::upvalues, index, Nil), Err(Error::NoField));
        }
        let code = f.field(closure, Closure::code).unwrap();
        assert_eq!(f.read(code, Cell::n), 1);
        let samples = f.alloc_with::<Samples>(4).unwrap();
        assert_eq!((f.shape(samples), f.tail_len(samples)), ((1, 5), 4));
        f.write(samples, Samples::rate, 44_100);
        for index in 0..4 {
            f.write_nth(samples, Samples::samples, index, -i64::from(index)).unwrap();
        }
        assert_eq!(f.words(samples), [44_100, 0, -1i64 as u64, -2i64 as u64, -3i64 as u64]);
        assert_eq!(f.read_nth(samples, Samples::samples, 3), Ok(-3));
        for index in [4, u32::MAX] {
            assert_eq!(f.read_nth(samples, Samples::samples, index), Err(Error::NoField));
            assert_eq!(f.write_nth(samples, Samples::samples, index, 1), Err(Error::NoField));
        }
    });
}

#[test]
fn a_tail_may_be_empty_or_too_long() {
    Heap::new(&sizes()).unwrap().run(|f| {
        let (made, also) = (f.alloc::<Only>().unwrap(), f.alloc_with::<Only>(0).unwrap());
        assert_eq!((f.tail_len(made), f.tail_len(also), f.shape(made)), (0, 0, (0, 0)));
        assert_eq!(f.read_nth(made, Only::all, 0), Err(Error::NoField));
        assert_eq!(f.alloc_with::<Closure>(u32::MAX).unwrap_err(), Error::TooBig);
        assert_eq!(f.alloc_with::<Samples>(u32::MAX - 1).unwrap_err(), Error::TooBig);
        assert_eq!(f.alloc_with::<Only>(2000).unwrap_err(), Error::TooBig);
    });
}

#[test]
#[should_panic(expected = "isn't of the layout")]
fn a_tail_of_another_layout_panics() {
    Heap::new(&sizes()).unwrap().run(|f| f.tail_len(f.alloc_any(0, 1, 2).unwrap().assume::<Closure>()));
}

#[test]
#[should_panic(expected = "pointer 1, `h2`, of fields::a_nil_field_is_named::Three is nil")]
fn a_nil_field_is_named() {
    layout! { struct Three { pointers { h1: Cell, h2: Cell, h3: Cell } } }
    Heap::new(&sizes())
        .unwrap()
        .run(|f| {
            let three = f.alloc::<Three>().unwrap();
            f.put(three, Three::h1, f.alloc().unwrap());
            f.field(three, Three::h1).unwrap();
            f.field(three, Three::h2).map(drop)
        })
        .unwrap();
}

#[test]
fn objects_are_filled() {
    for policy in [true, false] {
        let mut heap = Heap::new(&sizes().policy(policy)).unwrap();
        heap.run(|f| {
            let (one, two) = (cell(f, 1), cell(f, 2));
            let first = f.new::<Cell>(|p| p.put(Cell::next, one)).unwrap();
            assert!(f.same(f.field(first, Cell::next).unwrap(), one) && f.read(first, Cell::n) == 0);
            let observer = f.new::<Observer>(|p| p.write(Observer::n, 7)).unwrap();
            assert!((f.read(observer, Observer::n), f.get_weak(observer, Observer::it).unwrap().is_none()) == (7, true));
            let place = f.var(two).unwrap();
            let large = f
                .new::<Large>(|p| {
                    p.put(Large::a, one);
                    p.put(Large::b, one);
                    p.put(Large::b, Nil);
                    p.put(Large::i, &place);
                    p.write(Large::j, 3);
                    p.write(Large::r, u64::MAX);
                })
                .unwrap();
            assert_eq!((f.shape(large), f.words(large)), ((9, 9), vec![3, 0, 0, 0, 0, 0, 0, 0, u64::MAX]));
            assert!(f.get(large, Large::b).unwrap().is_none() && f.same(f.field(large, Large::i).unwrap(), two));
            while f.room() > 0 {
                f.copy(one).unwrap();
            }
            assert_eq!(f.new::<Cell>(|p| p.write(Cell::n, 1)).unwrap_err(), Error::NoRegisters);
            assert_eq!(f.new::<Observer>(|_| ()).unwrap_err(), Error::NoRegisters);
        });
        heap.run(|f| while f.scope(|g| g.new::<Cell>(|_| ()).is_ok()) && f.markings() == 0 {});
        assert_eq!(heap.counts() == Counts::default(), !policy);
    }
}

/// Makes a list of so many cells at most in a scope, and answers how many there were.
fn fill(f: &mut Frame<'_, '_>, most: u64) -> u64 {
    f.scope(|g| {
        let mut list = g.nil_var::<Cell>().unwrap();
        for n in 0..most {
            let pushed = g.scope(|h| {
                let cell = h.new::<Cell>(|p| {
                    p.put(Cell::next, &list);
                    p.write(Cell::n, n);
                })?;
                list.set(h, cell);
                Ok::<_, Error>(())
            });
            if let Err(error) = pushed {
                assert_eq!((error, g.read(list.local().unwrap(), Cell::n)), (Error::Full, n - 1));
                return n;
            }
        }
        most
    })
}

#[test]
fn what_a_left_frame_held_is_no_reason_to_be_full() {
    let most = Heap::new(&sizes()).unwrap().run(|f| fill(f, u64::MAX));
    assert!(most > 100, "{most}");
    for count in most - 20..=most + 1 {
        Heap::new(&sizes()).unwrap().run(|f| {
            assert_eq!(fill(f, count), count.min(most));
            for n in 0..100 {
                f.scope(|g| g.new::<Cell>(|p| p.write(Cell::n, n)).map(drop)).unwrap();
            }
        });
    }
}

#[test]
fn what_left_frames_held_goes_where_objects_are_filled() {
    Heap::new(&sizes()).unwrap().run(|f| {
        let observer = f.alloc::<Observer>().unwrap();
        f.scope(|g| {
            (0..5).for_each(|n| assert!(g.read(cell(g, n), Cell::n) == n)); // the next root is in a register that isn't used again
            g.put_weak(observer, Observer::it, cell(g, 5));
        });
        while f.markings() < 2 {
            f.scope(|g| g.new::<Cell>(|p| p.write(Cell::n, 1)).map(drop)).unwrap();
        }
        assert!(f.get_weak(observer, Observer::it).unwrap().is_none());
    });
}

#[test]
fn a_root_is_lifted_with_a_value() {
    Heap::new(&sizes()).unwrap().run(|f| {
        let (root, text) = f
            .lift_with(|g| {
                g.alloc::<Cell>()?;
                let cell = g.new::<Cell>(|p| p.write(Cell::n, 5))?;
                g.alloc::<Cell>()?;
                Ok::<_, Error>((cell, String::from("five")))
            })
            .unwrap();
        f.scope(|g| g.alloc::<Cell>().map(drop)).unwrap();
        assert_eq!((f.read(root, Cell::n), text.as_str(), f.room()), (5, "five", 15));
        assert_eq!(f.lift_with(|_| Err::<(Local<Cell>, u8), _>(Error::Full)).unwrap_err(), Error::Full);
        assert_eq!(f.room(), 15);
    });
}

#[test]
fn weak_slots_are_cleared_where_markings_end() {
    for policy in [true, false] {
        let mut heap = Heap::new(&sizes().policy(policy)).unwrap();
        heap.run(|f| {
            let observer = f.alloc::<Observer>().unwrap();
            assert_eq!(f.markings(), 0);
            f.scope(|g| g.put_weak(observer, Observer::it, cell(g, 1)));
            let steps = f.steps();
            assert!(steps.remark().is_none() && f.markings() == 0);
            assert!(steps.begin() && f.markings() == 0);
            assert!(steps.remark().is_some() && f.markings() == 1);
            assert!(f.get_weak(observer, Observer::it).unwrap().is_none());
            f.collect();
            assert_eq!(f.markings(), 2);
        });
    }
    let mut heap = Heap::new(&sizes()).unwrap();
    heap.run(|f| {
        let observer = f.alloc::<Observer>().unwrap();
        for _ in 0..20 {
            f.scope(|g| g.put_weak(observer, Observer::it, cell(g, 1)));
            let seen = f.markings();
            while f.markings() < seen + 2 {
                f.scope(|g| g.alloc::<Cell>().map(drop)).unwrap(); // a slot that is read while marking runs holds its object
            }
            assert!(f.scope(|g| g.get_weak(observer, Observer::it).unwrap().is_none()));
        }
    });
}
