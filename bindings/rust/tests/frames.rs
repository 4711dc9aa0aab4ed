use g1heap::*;
use std::panic::{catch_unwind, AssertUnwindSafe};

layout! { struct Cell { pointers { next: Cell } words { n: u64 } } }
layout! { struct Observer { weaks { it: Cell } } }

fn heap() -> Heap {
    Heap::new(&Sizes::default().regions(16).words(64).buffer(7).registers(16).globals(4)).unwrap()
}

#[test]
fn full_is_an_error_and_the_heap_goes_on() {
    let mut heap = heap();
    let made = heap.run(|f| {
        let mut list = f.nil_var::<Cell>().unwrap();
        for made in 0.. {
            match f.scope(|g| {
                let cell = g.alloc::<Cell>()?;
                g.put(cell, Cell::next, &list);
                list.set(g, cell);
                Ok::<_, Error>(())
            }) {
                Ok(()) => {}
                Err(error) => {
                    assert_eq!(error, Error::Full);
                    return made;
                }
            }
        }
        0
    });
    assert!(made > 100, "{}", made); // of 256
    heap.run(|f| (0..10_000).for_each(|_| f.scope(|g| assert!(g.alloc::<Cell>().is_ok()))));
    heap.run(|f| assert_eq!(f.alloc_any(2000, 0, 0).err(), Some(Error::TooBig)));
    heap.run(|f| assert_eq!(f.alloc_any(0, 256, 0).err(), Some(Error::TooBig)));
}

#[test]
fn registers_end_with_an_error() {
    fn deep(f: &mut Frame<'_, '_>) -> Result<u32, Error> {
        f.alloc::<Cell>()?;
        f.scope(deep)
    }
    let mut heap = heap();
    heap.run(|f| {
        assert_eq!(f.scope(deep), Err(Error::NoRegisters));
        assert_eq!(f.room(), 16);
        let first = f.alloc::<Cell>().unwrap();
        for _ in 0..15 {
            f.alloc::<Cell>().unwrap();
        }
        f.put(first, Cell::next, first);
        assert_eq!(f.alloc::<Cell>().err(), Some(Error::NoRegisters));
        assert_eq!(f.nil_var::<Cell>().err(), Some(Error::NoRegisters));
        assert_eq!(f.copy(first).err(), Some(Error::NoRegisters));
        assert_eq!(f.get(first, Cell::next).err(), Some(Error::NoRegisters));
        f.collect();
    });
}

#[test]
fn a_panic_leaves_its_frames() {
    let mut heap = heap();
    heap.run(|f| {
        let mine = f.alloc::<Cell>().unwrap();
        f.write(mine, Cell::n, 7);
        for _ in 0..100 {
            let thrown = catch_unwind(AssertUnwindSafe(|| {
                f.scope(|g| {
                    g.alloc::<Cell>().unwrap();
                    g.scope(|h| {
                        h.alloc::<Cell>().unwrap();
                        panic!("thrown");
                    })
                })
            }));
            assert!(thrown.is_err());
            assert_eq!(f.room(), 15);
        }
        assert_eq!(f.read(mine, Cell::n), 7);
    });
    assert!(catch_unwind(AssertUnwindSafe(|| heap.run(|f| {
        f.alloc::<Cell>().unwrap();
        panic!("thrown")
    })))
    .is_err());
    heap.run(|f| {
        f.collect();
        assert_eq!(f.steps().live_words(), 0);
    });
}

#[test]
fn what_a_left_frame_held_is_collected() {
    let mut heap = heap();
    heap.run(|f| {
        let observer = f.alloc::<Observer>().unwrap();
        f.scope(|g| {
            let seen = g.alloc::<Cell>().unwrap();
            g.put_weak(observer, Observer::it, seen);
            g.collect();
            assert!(g.get_weak(observer, Observer::it).unwrap().is_some());
        });
        f.collect();
        assert!(f.get_weak(observer, Observer::it).unwrap().is_none());
    });
}

#[test]
fn roots_are_handed_on() {
    let mut heap = heap();
    heap.run(|f| {
        let outer = f.alloc::<Cell>().unwrap();
        let same = f.lift(|g| g.copy(outer)).unwrap();
        assert!(f.same(outer, same));
        let made = |g: &Frame<'_, '_>, n| g.alloc::<Cell>().map(|it| g.write(it, Cell::n, n));
        let second = f
            .lift(|g| {
                made(g, 1)?;
                let it = g.alloc()?;
                g.write(it, Cell::n, 2);
                made(g, 3)?;
                Ok::<_, Error>(it)
            })
            .unwrap();
        let third = f
            .lift_option(|g| {
                made(g, 4)?;
                let it = g.alloc()?;
                g.write(it, Cell::n, 5);
                made(g, 6)?;
                Ok::<_, Error>(Some(it))
            })
            .unwrap()
            .unwrap();
        f.scope(|g| (0..3).for_each(|_| made(g, 7).unwrap()));
        assert_eq!((f.read(second, Cell::n), f.read(third, Cell::n)), (2, 5));
        assert!(f.lift_option(|g| g.get(outer, Cell::next)).unwrap().is_none());
        assert_eq!(f.room(), 12);
        let var = f.var(second).unwrap();
        assert!(f.same(var.into_local().unwrap(), second));
        f.put(outer, Cell::next, f.alloc::<Cell>().unwrap());
        f.put(outer, Cell::next, None::<Local<Cell>>);
        f.put(outer, Cell::next, Nil);
        let mut at = f.var(outer).unwrap();
        assert!(!at.follow(f, Cell::next) && !at.follow(f, Cell::next) && at.is_nil());
    });
}

#[test]
fn two_heaps() {
    let (mut one, mut two) = (heap(), heap());
    one.run(|f| {
        let a = f.alloc::<Cell>().unwrap();
        f.write(a, Cell::n, 1);
        two.run(|g| {
            let b = g.alloc::<Cell>().unwrap();
            g.write(b, Cell::n, f.read(a, Cell::n) + 1);
            assert_eq!(g.read(b, Cell::n), 2);
        });
    });
    assert!(Heap::new(&Sizes::default().words(100)).unwrap_err() == BadSizes::Words);
}

#[test]
#[should_panic(expected = "isn't of the layout")]
fn a_wrong_layout_panics() {
    heap().run(|f| f.read(f.alloc_any(0, 0, 1).unwrap().assume::<Cell>(), Cell::n));
    heap().run(|f| f.get(f.alloc_any(0, 0, 1).unwrap().assume::<Cell>(), Cell::next).map(drop)).unwrap();
}

#[test]
fn a_new_place_is_nil() {
    let mut heap = heap();
    heap.run(|f| {
        f.scope(|g| (0..3).for_each(|_| assert!(g.alloc::<Cell>().is_ok())));
        let place = f.nil_var::<Cell>().unwrap();
        f.collect();
        assert_eq!((place.is_nil(), f.steps().live_words()), (true, 0));
    });
}

#[test]
fn a_program_collects_by_itself() {
    let sizes = Sizes::default().regions(16).words(64).buffer(7).registers(16).policy(false);
    let mut heap = Heap::new(&sizes).unwrap();
    heap.run(|f| {
        for _ in 0..3 {
            let mut made = 0;
            while f.scope(|g| g.alloc::<Cell>().is_ok()) {
                made += 1;
            }
            assert!(made > 100);
            assert_eq!(f.alloc::<Cell>().err(), Some(Error::Full));
            let steps = f.steps();
            assert!(steps.remark().is_none() && steps.begin() && !steps.begin());
            assert!(steps.remark().is_some() && steps.cleanup().unwrap() > 0);
        }
        assert_eq!(f.counts(), Counts::default());
        f.collect();
        f.collect_due();
        let pauses = f.counts().pauses;
        while f.scope(|g| g.alloc::<Cell>().is_ok()) {}
        assert_eq!((f.counts().cycles, f.counts().pauses), (1, pauses));
        assert_eq!(f.alloc_any(0, 256, 0).unwrap_err(), Error::TooBig);
        assert_eq!(f.alloc_any(0, 1, 5000).unwrap_err(), Error::TooBig);
    });
}

#[test]
fn what_a_left_frame_held_is_no_reason_to_be_full() {
    let mut heap = heap();
    heap.run(|f| {
        for _ in 0..3 {
            let made = f.scope(|g| {
                let mut list = g.nil_var::<Cell>().unwrap();
                let mut made = 0;
                while list.push(g, Cell::next).is_ok() {
                    made += 1;
                }
                made
            });
            assert!(made > 100);
            for _ in 0..100 {
                f.scope(|g| g.alloc::<Cell>().map(drop)).unwrap();
            }
        }
    });
}

#[test]
fn a_place_gets_new_objects_at_its_front() {
    let mut heap = heap();
    heap.run(|f| {
        let mut list = f.nil_var::<Cell>().unwrap();
        for n in 0..50 {
            let cell = list.push(f, Cell::next).unwrap();
            f.write(cell, Cell::n, n);
            assert_eq!(f.room(), 15);
        }
        for n in (0..50).rev() {
            assert_eq!(f.read(list.local().unwrap(), Cell::n), n);
            list.follow(f, Cell::next);
        }
        assert!(list.is_nil());
        while f.room() > 0 {
            f.alloc::<Cell>().unwrap();
        }
        assert_eq!(list.push(f, Cell::next).unwrap_err(), Error::NoRegisters);
        assert!(list.is_nil());
    });
}

#[test]
fn a_place_that_is_set_to_nil_holds_nothing() {
    let mut heap = heap();
    heap.run(|f| {
        let mut place = f.var(f.alloc::<Cell>().unwrap()).unwrap();
        let cell = f.alloc::<Cell>().unwrap();
        place.set(f, place_of(f, cell).local());
        f.put(cell, Cell::next, &place);
        assert!(place.get(f, cell, Cell::next) && f.same(place.local().unwrap(), cell));
        place.set(f, Nil);
        f.put(cell, Cell::next, &place);
        assert!(place.is_nil() && place.local().is_none() && f.get(cell, Cell::next).unwrap().is_none());
        assert!(!place.get(f, cell, Cell::next) && place.into_local().is_none());
    });
    fn place_of<'f, 'h>(f: &Frame<'f, 'h>, cell: Local<'_, 'h, Cell>) -> Var<'f, 'h, Cell> {
        f.var(cell).unwrap()
    }
}

#[test]
fn words_are_what_they_hold() {
    layout! { struct All {
        weaks { it: All }
        words { a: i64, b: u32, c: i32, d: u16, e: i16, f: u8, g: i8, h: usize, i: bool, j: f64, k: f32, l: char, m: Name, n: u64 }
    } }
    let mut heap = heap();
    heap.run(|f| {
        let all = f.alloc::<All>().unwrap();
        assert_eq!((f.read(all, All::i), f.read(all, All::l), f.read(all, All::k)), (false, '\0', 0.0));
        macro_rules! all {
            ($($field:ident: $value:expr),*) => {
                $(f.write(all, All::$field, $value);)*
                $(assert_eq!(f.read(all, All::$field), $value);)*
            };
        }
        let name = f.name(all);
        all!(a: -1, b: u32::MAX, c: -1, d: u16::MAX, e: -1, f: u8::MAX, g: -1, h: 1, i: true, j: -0.5, k: -0.5, l: 'λ', m: name, n: 7);
        all!(a: i64::MIN, b: 7, c: i32::MIN, d: 7, e: i16::MIN, f: 7, g: i8::MIN, h: usize::MAX, i: false, j: f64::INFINITY, k: f32::MIN,
            l: '\u{10ffff}', m: name, n: u64::MAX);
        assert_eq!((f.shape(all), f.weaks(all)), ((0, 14), 1));
        f.write_at(all, 11, 0xd800).unwrap();
        assert_eq!(f.read(all, All::l), '\u{fffd}');
    });
}

#[test]
fn the_policy_has_a_pace() {
    let mut heap = heap();
    let pace = heap.pace();
    assert!(pace.reserve == 3 && pace.pause_words > 0 && pace.mark_words > 0 && pace.cycle_words > 0);
    assert!(pace.young_words > 0 && pace.cards_left > 0 && pace.visit_cards > 0 && pace.clear_objects > 0);
    let other = pace.reserve(4).pause_words(100).mark_words(5).cycle_words(1000).young_words(300).cards_left(2);
    let other = other.visit_cards(9).clear_objects(3);
    assert_eq!((other.reserve, other.pause_words, other.mark_words), (4, 100, 5));
    assert_eq!((other.cycle_words, other.young_words, other.cards_left), (1000, 300, 2));
    assert_eq!((other.visit_cards, other.clear_objects), (9, 3));
    heap.set_pace(other);
    assert_eq!(heap.pace(), other);
    heap.run(|f| (0..10_000).for_each(|_| f.scope(|g| assert!(g.alloc::<Cell>().is_ok()))));
    assert!(heap.counts().cycles > 10 && heap.pace() == other);
}

#[test]
fn sizes_are_set_one_by_one() {
    let sizes = Sizes::default().regions(1).words(2).buffer(3).card(4).globals(5).registers(6).policy(false);
    assert_eq!(
        (sizes.regions, sizes.words, sizes.buffer, sizes.card, sizes.globals, sizes.registers, sizes.policy),
        (1, 2, 3, 4, 5, 6, false)
    );
    assert_eq!(Sizes::default().policy(true), Sizes::default());
}

#[test]
fn sizes_by_mebibytes() {
    for mebibytes in [1, 2, 3, 5, 8, 9, 50, 64, 100, 128] {
        let sizes = Sizes::mebibytes(mebibytes);
        assert_eq!((u64::from(sizes.regions) * u64::from(sizes.words)) >> 17, u64::from(mebibytes));
        assert!(sizes.regions <= 1024 && (sizes.regions > 500 || sizes.words == 1024) && sizes.words.is_power_of_two());
        Heap::new(&sizes).unwrap();
    }
    assert_eq!(Heap::new(&Sizes::mebibytes(0)).unwrap_err(), BadSizes::Regions);
    assert!(Heap::new(&Sizes::mebibytes(u32::MAX)).is_err());
    let two = Sizes::default();
    let all = [
        (two.regions(1), BadSizes::Regions),
        (two.words(1000), BadSizes::Words),
        (two.buffer(3), BadSizes::Buffer),
        (two.card(7), BadSizes::Card),
        (two.globals(65_537), BadSizes::Globals),
        (two.registers(0), BadSizes::Registers),
    ];
    for (sizes, error) in all {
        assert_eq!(Heap::new(&sizes).unwrap_err(), error);
    }
}

#[test]
fn the_largest_object() {
    let mut heap = Heap::new(&Sizes::mebibytes(256)).unwrap(); // of 33,554,432 words
    heap.run(|f| {
        assert_eq!(f.alloc_any(0, 0, 16_777_215).err(), Some(Error::TooBig));
        let object = f.alloc_any(0, 0, 16_777_214).unwrap(); // two more words are taken
        assert_eq!(f.read_at(object, 16_777_213), Ok(0));
    });
    for (regions, words) in [(4096, 1_048_576), (4, 8_388_608)] {
        assert_eq!(Heap::new(&Sizes::default().regions(regions).words(words)).unwrap_err(), BadSizes::Words);
    }
}

#[test]
fn an_error_leaves_a_stack_as_it_was() {
    let mut heap = heap();
    heap.run(|f| {
        f.stack(|stack| {
            stack.push(Nil).unwrap();
            let wrong = stack.reduce(1, |g, _| g.alloc_any(2000, 0, 0).map(Some));
            assert_eq!((wrong, stack.len()), (Err(Error::TooBig), 1));
            let thrown = catch_unwind(AssertUnwindSafe(|| {
                stack.reduce(1, |g, _| -> Result<_, Error> {
                    g.alloc::<Cell>()?;
                    panic!("thrown")
                })
            }));
            assert!(thrown.is_err() && stack.len() == 1 && stack.top(0).is_none());
            assert!(catch_unwind(AssertUnwindSafe(|| stack.top(1).is_none())).is_err());
            assert!(catch_unwind(AssertUnwindSafe(|| stack.store(1))).is_err());
            assert!(catch_unwind(AssertUnwindSafe(|| stack.reduce(2, |_, _| Ok::<_, Error>(None)))).is_err());
            assert_eq!(stack.len(), 1);
        });
    });
}

#[test]
fn a_stack_looks_into_its_last_value() {
    let mut heap = heap();
    heap.run(|f| {
        let (one, other) = (f.alloc::<Cell>().unwrap(), f.alloc::<Cell>().unwrap());
        f.put(one, Cell::next, other);
        f.write(one, Cell::n, 5);
        f.stack(|stack| {
            stack.push(Nil).unwrap();
            stack.push(one).unwrap();
            assert_eq!(stack.read(0, Cell::n), 5);
            assert!(stack.follow(Cell::next) && stack.scope(|g, s| g.same(s.at(1).unwrap(), other)));
            assert!(!stack.follow(Cell::next) && stack.top(0).is_none() && !stack.follow(Cell::next));
            assert!(catch_unwind(AssertUnwindSafe(|| stack.read(0, Cell::n))).is_err());
            stack.truncate(0);
            assert!(catch_unwind(AssertUnwindSafe(|| stack.follow(Cell::next))).is_err());
        });
    });
}

#[test]
fn what_left_frames_held_goes_by_itself() {
    let mut heap = heap();
    heap.run(|f| {
        let observer = f.alloc::<Observer>().unwrap();
        f.scope(|g| {
            (0..5).for_each(|_| assert!(g.alloc::<Cell>().is_ok())); // the next root is in a register that isn't used again
            g.put_weak(observer, Observer::it, g.alloc::<Cell>().unwrap());
        });
        while f.counts().cycles < 2 {
            f.scope(|g| g.alloc::<Cell>().map(drop)).unwrap();
        }
        assert!(f.get_weak(observer, Observer::it).unwrap().is_none());
    });
}
