//! Globals, and what is kept.
use g1heap::*;

layout! { struct Cell { pointers { next: Cell } words { n: u64 } } }

fn heap() -> Heap {
    Heap::new(&Sizes::default().regions(16).words(64).buffer(7).registers(16).globals(4)).unwrap()
}

#[test]
fn what_is_kept_stays() {
    let mut heap = heap();
    let kept: Vec<Kept<Cell>> = heap.run(|f| {
        (0..4u64)
            .map(|n| {
                let cell = f.alloc().unwrap();
                f.write(cell, Cell::n, n);
                f.keep(cell).unwrap()
            })
            .collect()
    });
    heap.run(|f| {
        let one = f.alloc::<Cell>().unwrap();
        assert_eq!(f.keep(one).err(), Some(Error::NoGlobals));
        f.collect();
        for (n, kept) in kept.iter().enumerate() {
            assert_eq!(
                f.scope(|g| {
                    let cell = g.kept(kept).unwrap();
                    g.read(cell, Cell::n)
                }),
                n as u64
            );
        }
    });
    std::thread::spawn(move || drop(kept)).join().unwrap();
    heap.run(|f| {
        let again = f.alloc::<Cell>().unwrap();
        f.collect();
        assert_eq!(f.steps().live_words(), 4);
        f.keep(again).unwrap();
    });
}

#[test]
#[should_panic(expected = "a global of another heap")]
fn another_heaps_global() {
    let (mut one, mut two) = (heap(), heap());
    let global = one.new_global::<Cell>().unwrap();
    two.run(|f| f.load(global).is_ok());
}

#[test]
#[should_panic(expected = "kept by another heap")]
fn another_heaps_kept() {
    let (mut one, mut two) = (heap(), heap());
    let kept = one.run(|f| f.keep(f.alloc::<Cell>().unwrap()).unwrap());
    two.run(|f| f.kept(&kept).is_ok());
}

#[test]
fn a_global_is_nil_at_first() {
    let mut heap = heap();
    let kept: Vec<Kept<Cell>> = heap.run(|f| (0..4).map(|_| f.keep(f.alloc().unwrap()).unwrap()).collect());
    assert_eq!(heap.new_global::<Cell>().unwrap_err(), Error::NoGlobals);
    drop(kept);
    let global = heap.new_global::<Cell>().unwrap();
    heap.run(|f| {
        assert!(f.load(global).unwrap().is_none());
        let more: Vec<_> = (0..3).map(|_| f.new_global::<Cell>().unwrap()).collect();
        assert!(more.into_iter().all(|it| f.load(it).unwrap().is_none()));
        assert_eq!(f.new_global::<Cell>().unwrap_err(), Error::NoGlobals);
    });
}

#[test]
fn a_global_in_a_run() {
    let mut heap = heap();
    heap.run(|f| {
        let kept: Vec<_> = (0..4).map(|_| f.keep(f.alloc::<Cell>().unwrap()).unwrap()).collect();
        drop(kept);
        let global = f.new_global::<Cell>().unwrap();
        assert!(f.load(global).unwrap().is_none());
        f.save(global, f.alloc().unwrap()).unwrap();
        f.save(global, Nil).unwrap();
        assert!(f.load(global).unwrap().is_none());
        while f.room() > 0 {
            f.alloc::<Cell>().unwrap();
        }
        assert_eq!(f.save(global, Nil), Err(Error::NoRegisters));
        assert_eq!(f.load(global).unwrap_err(), Error::NoRegisters);
    });
}

#[test]
fn what_is_kept_no_more_is_no_reason_to_be_full() {
    let mut heap = heap();
    let fill = |f: &mut Frame<'_, '_>| {
        let mut list = f.nil_var::<Cell>().unwrap();
        while list.push(f, Cell::next).is_ok() {}
        f.keep(list.local().unwrap()).unwrap()
    };
    for _ in 0..3 {
        let kept = heap.run(fill);
        heap.run(|f| {
            while f.scope(|g| g.alloc::<Cell>().is_ok()) {}
            drop(kept);
            for _ in 0..100 {
                f.scope(|g| g.alloc::<Cell>().map(drop)).unwrap();
            }
        });
    }
}

#[test]
fn what_is_kept_is_told_apart() {
    let mut heap = heap();
    let mut kept: Vec<(Kept<Cell>, u64)> = Vec::new();
    for n in 0..200 {
        heap.run(|f| {
            let cell = f.alloc().unwrap();
            f.write(cell, Cell::n, n);
            kept.push((f.keep(cell).unwrap(), n));
            if kept.len() == 4 {
                kept.swap_remove(n as usize % 4);
            }
            for (it, n) in &kept {
                f.scope(|g| assert_eq!(g.read(g.kept(it).unwrap(), Cell::n), *n));
            }
        });
    }
}
