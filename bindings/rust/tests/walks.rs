//! The objects that a heap keeps, and what holds one: more of both than a look takes at once.
use g1heap::*;
use std::collections::HashSet;

layout! {
    struct Cell { pointers { next: Cell } words { number: u64 } }
    struct Guess { weaks { of: Cell } }
}

const COUNT: u64 = 100;

/// A heap with a list of cells in a global.
fn listed() -> (Heap, Global<Cell>) {
    let mut heap = Heap::new(&Sizes::default()).unwrap();
    let list = heap.new_global::<Cell>().unwrap();
    heap.run(|f| {
        for number in 0..COUNT {
            f.scope(|g| {
                let cell = g.alloc::<Cell>()?;
                g.write(cell, Cell::number, number);
                g.put(cell, Cell::next, g.load(list)?);
                g.save(list, cell)?;
                g.alloc::<Cell>().map(drop)
            })?;
        }
        f.collect();
        Ok::<_, Error>(())
    })
    .unwrap();
    (heap, list)
}

#[test]
fn each_object_is_told_once() {
    let (heap, _) = listed();
    let told: Vec<Object> = heap.objects().collect();
    assert_eq!(told.len() as u64, COUNT);
    assert_eq!(told.iter().map(|it| it.name).collect::<HashSet<_>>().len() as u64, COUNT);
    assert_eq!(told.iter().map(|it| it.word).sum::<u64>(), COUNT * (COUNT - 1) / 2);
    assert!(told.iter().all(|it| (it.pointers, it.weaks, it.values) == (1, 0, 1)));
}

#[test]
fn each_holder_is_told() {
    let (mut heap, list) = listed();
    let last = heap.objects().find(|it| it.word == COUNT - 1).unwrap();
    assert!(matches!(heap.holders(last.name).collect::<Vec<_>>()[..], [Holder::Global(_)]));
    let roots = heap.run(|f| {
        let first = f.load(list)?.unwrap();
        assert_eq!(f.name(first), last.name);
        for _ in 0..COUNT {
            f.scope(|g| {
                let guess = g.alloc::<Guess>()?;
                g.put_weak(guess, Guess::of, first);
                Ok::<_, Error>(())
            })?;
        }
        Ok::<_, Error>(f.steps().holders(last.name).filter(|it| matches!(it, Holder::Register { mutator: 0, .. })).count())
    });
    assert!(roots.unwrap() >= 1);
    let guesses = heap.holders(last.name).filter(|it| matches!(it, Holder::Object { field: 0, is_weak: true, fields: 1, .. }));
    assert_eq!(guesses.count() as u64, COUNT);
    heap.run(|f| f.collect());
    assert!(!heap.holders(last.name).any(|it| matches!(it, Holder::Object { .. })));
}

#[test]
fn a_shortest_way_is_told() {
    let (mut heap, list) = listed();
    let names: Vec<Name> = (0..COUNT).rev().map(|number| heap.objects().find(|it| it.word == number).unwrap().name).collect();
    // More objects lead to the list's end than the first room has entries.
    let way = heap.path(names[names.len() - 1]);
    assert_eq!(way.len() as u64, COUNT);
    assert!(matches!(way[0], Holder::Global(_)));
    for (entry, &name) in way[1..].iter().zip(&names) {
        assert_eq!(*entry, Holder::Object { name, field: 0, is_weak: false, fields: 1 });
    }
    // A second way, by one object, and one by a weak slot, which isn't followed.
    let short = heap.new_global::<Cell>().unwrap();
    let cell = heap.run(|f| {
        let mut end = f.load(list)?.unwrap();
        for _ in 1..COUNT {
            end = f.get(end, Cell::next)?.unwrap();
        }
        let (cell, guess) = (f.alloc::<Cell>()?, f.alloc::<Guess>()?);
        f.put(cell, Cell::next, end);
        f.put_weak(guess, Guess::of, end);
        f.save(short, cell)?;
        Ok::<_, Error>(f.name(cell))
    });
    heap.run(|f| f.collect());
    let way = heap.path(names[names.len() - 1]);
    assert_eq!(way[1..], [Holder::Object { name: cell.unwrap(), field: 0, is_weak: false, fields: 1 }]);
}
