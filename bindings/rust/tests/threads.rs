use g1heap::*;
use std::sync::atomic::{AtomicBool, Ordering};
use std::sync::{Barrier, Mutex};
use std::thread::sleep;
use std::time::Duration;

layout! { struct Cell { pointers { next: Cell } words { n: u64 } } }

#[test]
fn a_heap_under_a_mutex() {
    let mut heap = Heap::new(&Sizes::default()).unwrap();
    let list = heap.new_global::<Cell>().unwrap();
    let heap = Mutex::new(heap);
    std::thread::scope(|s| {
        for t in 0..4 {
            let heap = &heap;
            s.spawn(move || {
                for i in 0..1000 {
                    heap.lock().unwrap().run(|f| {
                        let cell = f.alloc::<Cell>().unwrap();
                        f.write(cell, Cell::n, t * 1000 + i);
                        let old = f.load(list).unwrap();
                        f.put(cell, Cell::next, old);
                        f.save(list, cell).unwrap();
                    });
                }
            });
        }
    });
    let sum = heap.into_inner().unwrap().run(|f| {
        let mut at = f.var(f.load(list).unwrap()).unwrap();
        let mut sum = 0;
        while let Some(cell) = at.local() {
            sum += f.read(cell, Cell::n);
            at.follow(f, Cell::next);
        }
        sum
    });
    assert_eq!(sum, 3999 * 2000);
}

#[test]
fn roots_stay_while_others_run() {
    let sizes = Sizes::default().regions(32).words(64).buffer(7).registers(32);
    let shared = Shared::new(&sizes, 4).unwrap();
    let barrier = Barrier::new(4);
    std::thread::scope(|s| {
        for t in 0..4u64 {
            let (mut seat, barrier) = (shared.seat().unwrap(), &barrier);
            s.spawn(move || {
                seat.run(|f| {
                    let mine = f.alloc::<Cell>().unwrap();
                    f.write(mine, Cell::n, t);
                    f.scope(|g| assert!(g.alloc::<Cell>().is_ok()));
                    f.unlocked(|| barrier.wait());
                    for i in 0..2000 {
                        f.scope(|g| {
                            let cell = g.alloc::<Cell>().unwrap();
                            g.put(cell, Cell::next, mine);
                            if i % 50 == 0 {
                                g.unlocked(std::thread::yield_now);
                            }
                            let back = g.get(cell, Cell::next).unwrap().unwrap();
                            assert_eq!(g.read(back, Cell::n), t);
                        });
                    }
                });
            });
        }
        assert!(shared.seat().is_none());
    });
    let mut seat = shared.seat().unwrap();
    seat.run(|f| {
        f.collect();
        assert_eq!(f.steps().live_words(), 0);
    });
    // A panic of one thread is no end of the heap for the others.
    let thrown = std::panic::catch_unwind(std::panic::AssertUnwindSafe(|| seat.run(|f| f.scope(|g| g.unlocked(|| panic!("thrown"))))));
    assert!(thrown.is_err());
    seat.run(|f| assert!(f.alloc::<Cell>().is_ok()));
}

#[test]
fn what_a_left_frame_held_is_collected_by_others() {
    let shared = Shared::new(&Sizes::default(), 2).unwrap();
    let (mut one, mut two) = (shared.seat().unwrap(), shared.seat().unwrap());
    one.run(|f| {
        f.scope(|g| (0..3).for_each(|_| assert!(g.alloc::<Cell>().is_ok())));
        let live = f.unlocked(|| {
            two.run(|g| {
                g.collect();
                g.steps().live_words()
            })
        });
        assert_eq!(live, 0);
    });
}

#[test]
fn the_lock_is_taken_again() {
    let shared = Shared::new(&Sizes::default(), 2).unwrap();
    let (mut one, mut two) = (shared.seat().unwrap(), shared.seat().unwrap());
    let (go, entered) = (Barrier::new(2), AtomicBool::new(false));
    std::thread::scope(|s| {
        s.spawn(|| {
            go.wait();
            two.run(|_| entered.store(true, Ordering::SeqCst));
        });
        one.run(|f| {
            f.unlocked(|| ());
            go.wait();
            sleep(Duration::from_millis(50));
            assert!(!entered.load(Ordering::SeqCst));
        });
    });
    assert!(entered.load(Ordering::SeqCst));
}

#[test]
fn unlocked_lets_all_in_that_wait() {
    let shared = Shared::new(&Sizes::default(), 8).unwrap();
    let (go, is_first, order) = (Barrier::new(8), AtomicBool::new(true), Mutex::new(Vec::new()));
    std::thread::scope(|s| {
        for t in 0..8 {
            let (mut seat, go, is_first, order) = (shared.seat().unwrap(), &go, &is_first, &order);
            s.spawn(move || {
                seat.run(|f| {
                    f.unlocked(|| go.wait());
                    if is_first.swap(false, Ordering::SeqCst) {
                        sleep(Duration::from_millis(200)); // in which the others come to wait
                    }
                    for _ in 0..10 {
                        order.lock().unwrap().push(t);
                        f.unlocked(|| ());
                    }
                })
            });
        }
    });
    let order = order.into_inner().unwrap();
    let mut first = order[..8].to_vec(); // by then each one was in once, and none twice
    first.sort();
    assert_eq!(first, [0, 1, 2, 3, 4, 5, 6, 7], "{order:?}");
}

#[test]
fn a_global_that_was_kept_is_taken_back() {
    let shared = Shared::new(&Sizes::default().globals(2).registers(4), 2).unwrap();
    let (mut one, mut two) = (shared.seat().unwrap(), shared.seat().unwrap());
    let keep = |seat: &mut Seat| seat.run(|f| f.keep(f.alloc::<Cell>().unwrap()).unwrap());
    drop((keep(&mut one), keep(&mut two)));
    let first = shared.new_global::<Cell>().expect("out of runs");
    one.run(|f| {
        assert!(f.load(first).unwrap().is_none());
        let second = shared.new_global::<Cell>().expect("the other one came back with the first");
        assert!(f.load(second).unwrap().is_none());
    });
    assert_eq!(shared.new_global::<Cell>().unwrap_err(), Error::NoGlobals);
}

#[test]
fn a_global_that_was_kept_is_taken_back_in_a_run() {
    let shared = Shared::new(&Sizes::default().globals(1).registers(2), 2).unwrap();
    let (mut one, mut two) = (shared.seat().unwrap(), shared.seat().unwrap());
    one.run(|f| {
        drop(f.keep(f.alloc::<Cell>().unwrap()).unwrap());
        f.alloc::<Cell>().unwrap(); // the last register, so another thread's serves
        let global = shared.new_global::<Cell>().expect("in a run");
        f.unlocked(|| two.run(|g| assert!(g.load(global).unwrap().is_none())));
    });
    // Where no register is left at all, nothing is made nil.
    let shared = Shared::new(&Sizes::default().globals(1).registers(1), 1).unwrap();
    shared.seat().unwrap().run(|f| {
        drop(f.keep(f.alloc::<Cell>().unwrap()).unwrap());
        assert_eq!(shared.new_global::<Cell>().unwrap_err(), Error::NoRegisters);
        assert_eq!(f.new_global::<Cell>().unwrap_err(), Error::NoRegisters);
    });
    assert!(shared.new_global::<Cell>().is_ok());
}

#[test]
fn a_global_is_made_in_a_run() {
    let shared = Shared::new(&Sizes::default().globals(2), 1).unwrap();
    shared.seat().unwrap().run(|f| {
        let (one, other) = (shared.new_global::<Cell>().unwrap(), f.new_global::<Cell>().unwrap());
        f.save(one, f.alloc().unwrap()).unwrap();
        assert!(f.load(one).unwrap().is_some() && f.load(other).unwrap().is_none());
        assert_eq!(shared.new_global::<Cell>().unwrap_err(), Error::NoGlobals);
    });
}

#[test]
fn a_run_within_a_run_panics() {
    let shared = Shared::new(&Sizes::default(), 2).unwrap();
    let (mut one, mut other) = (shared.seat().unwrap(), shared.seat().unwrap());
    one.run(|f| {
        let cell = f.alloc::<Cell>().unwrap();
        let thrown = std::panic::catch_unwind(std::panic::AssertUnwindSafe(|| other.run(|g| g.room())));
        let said = thrown.unwrap_err();
        assert!(said.downcast_ref::<&str>().unwrap().contains("Frame::unlocked"), "{:?}", said);
        assert!(std::panic::catch_unwind(|| shared.counts()).is_err());
        assert_eq!(f.read(cell, Cell::n), 0);
        f.unlocked(|| assert_eq!(other.run(|g| g.room()), 4096));
        assert_eq!(f.unlocked(|| shared.counts()), Counts::default());
    });
    std::thread::spawn(move || other.run(|f| assert_eq!(f.room(), 4096))).join().unwrap();
}

#[test]
fn seats_come_back() {
    let shared = Shared::new(&Sizes::default(), 3).unwrap();
    for _ in 0..3 {
        let all: Vec<_> = (0..3).map(|_| shared.seat().unwrap()).collect();
        assert!(shared.seat().is_none());
        drop(all);
    }
    assert_eq!(Shared::new(&Sizes::default(), 0).unwrap_err(), BadSizes::Mutators);
}

#[test]
fn what_threads_keep_is_left_by_others() {
    let shared = Shared::new(&Sizes::default().globals(8), 4).unwrap();
    std::thread::scope(|s| {
        for _ in 0..4 {
            let mut seat = shared.seat().unwrap();
            s.spawn(move || {
                let mut kept = Vec::new();
                for n in 0..500 {
                    let next = seat.run(|f| {
                        let cell = f.alloc().unwrap();
                        f.write(cell, Cell::n, n);
                        f.keep(cell).unwrap()
                    });
                    kept.clear(); // without the lock
                    kept.push(next);
                    seat.run(|f| assert_eq!(f.read(f.kept(&kept[0]).unwrap(), Cell::n), n));
                }
            });
        }
    });
    let left = shared.seat().unwrap().run(|f| {
        f.collect();
        f.steps().live_words()
    });
    assert_eq!(left, 0);
}
