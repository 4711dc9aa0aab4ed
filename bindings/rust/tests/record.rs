//! Needs --features recorded. Where G1HEAP names the program `g1heap`, it judges the lines too.
#![cfg(feature = "recorded")]
use g1heap::*;
use std::io::Write;
use std::process::{Command, Stdio};
use std::sync::atomic::{AtomicU32, Ordering};
use std::sync::{Arc, Mutex};

layout! { struct Cell { pointers { next: Cell } weaks { seen: Cell } words { n: u64 } } }

fn sizes() -> Sizes {
    Sizes::default().regions(16).words(64).buffer(7).registers(32)
}
type Lines = Arc<Mutex<Vec<u8>>>;
fn to(lines: &Lines) -> impl FnMut(&[u8]) -> std::io::Result<()> + Send + 'static {
    let lines = lines.clone();
    move |line| lines.lock().unwrap().write_all(line)
}
fn judge(lines: &Lines, least: usize) {
    static FILES: AtomicU32 = AtomicU32::new(0);
    let lines = lines.lock().unwrap();
    assert!(lines.iter().filter(|it| **it == b'\n').count() > least);
    if let Some(program) = std::env::var_os("G1HEAP") {
        let number = FILES.fetch_add(1, Ordering::Relaxed);
        let file = std::env::temp_dir().join(format!("g1heap-rust-{}-{}.record", std::process::id(), number));
        std::fs::write(&file, &*lines).unwrap();
        let out = Command::new(program).arg("check").arg(&file).stdin(Stdio::null()).output().unwrap();
        std::fs::remove_file(file).unwrap();
        assert!(out.stdout.starts_with(b"yes"), "{:?}", out);
    }
}
fn work(f: &mut Frame<'_, '_>) {
    let mut list = f.nil_var::<Cell>().unwrap();
    for i in 0..3000 {
        f.scope(|g| {
            let cell = g.alloc::<Cell>().unwrap();
            g.put_weak(cell, Cell::seen, &list);
            g.put(cell, Cell::next, if i % 20 == 0 { None } else { list.local() });
            g.write(cell, Cell::n, i);
            list.set(g, cell);
            g.get_weak(cell, Cell::seen).unwrap();
            if i % 100 == 0 {
                g.alloc_text("some text that takes more than a word").unwrap();
                g.unlocked(std::thread::yield_now);
            }
        });
    }
    assert!(f.counts().pauses > 0);
}

#[test]
fn a_run_is_judged() {
    let lines = Lines::default();
    let mut heap = Heap::new(&sizes()).unwrap();
    assert!(heap.record(|_| Ok(()))); // whose place another one takes
    assert!(heap.record(to(&lines)));
    heap.run(work);
    assert!(!heap.record(|_| Ok(())));
    heap.run(|f| f.collect());
    drop(heap);
    judge(&lines, 15_000);
}

#[test]
fn threads_are_judged() {
    let lines = Lines::default();
    let shared = Shared::new(&sizes().regions(64), 3).unwrap();
    assert!(shared.record(to(&lines)));
    std::thread::scope(|threads| {
        for _ in 0..3 {
            let mut seat = shared.seat().unwrap();
            threads.spawn(move || seat.run(work));
        }
    });
    assert!(!shared.record(|_| Ok(())));
    judge(&lines, 45_000);
}

#[test]
fn a_writer_that_panics_ends_the_record_alone() {
    let lines = Arc::new(AtomicU32::new(0));
    let mut heap = Heap::new(&sizes()).unwrap();
    let counted = lines.clone();
    heap.record(move |_| {
        assert!(counted.fetch_add(1, Ordering::Relaxed) < 2, "thrown");
        Ok(())
    });
    heap.run(|f| (0..10).for_each(|_| assert!(f.alloc::<Cell>().is_ok())));
    assert_eq!(lines.load(Ordering::Relaxed), 3);
}

/// An error, and something to throw, that throws once more when it is dropped.
#[derive(Debug)]
struct Thrower;
impl Drop for Thrower {
    fn drop(&mut self) {
        panic!("thrown by a drop");
    }
}
impl std::fmt::Display for Thrower {
    fn fmt(&self, f: &mut std::fmt::Formatter<'_>) -> std::fmt::Result {
        f.write_str("a thrower")
    }
}
impl std::error::Error for Thrower {}

fn ends_the_record_alone(mut end: impl FnMut() -> std::io::Result<()> + Send + 'static) {
    let lines = Arc::new(AtomicU32::new(0));
    let mut heap = Heap::new(&sizes()).unwrap();
    let counted = lines.clone();
    assert!(heap.record(move |_| if counted.fetch_add(1, Ordering::Relaxed) < 2 { Ok(()) } else { end() }));
    heap.run(|f| (0..10).for_each(|_| assert!(f.alloc::<Cell>().is_ok())));
    assert_eq!(lines.load(Ordering::Relaxed), 3);
}

#[test]
fn a_writers_error_may_throw_when_it_is_dropped() {
    ends_the_record_alone(|| Err(std::io::Error::new(std::io::ErrorKind::Other, Thrower)));
}

#[test]
fn what_a_writer_throws_may_throw_when_it_is_dropped() {
    ends_the_record_alone(|| std::panic::panic_any(Thrower));
}

#[test]
fn a_writer_reaches_no_heap_in_use() {
    let shared = Shared::new(&sizes().globals(1), 2).unwrap();
    let (told, left): (Lines, Arc<Mutex<Option<Kept<Cell>>>>) = Default::default();
    let (mut seat, mut other, within) = (shared.seat().unwrap(), shared.seat().unwrap(), shared.clone());
    let (tells, leaves) = (told.clone(), left.clone());
    assert!(shared.record(move |line| {
        if leaves.lock().unwrap().take().is_some() {
            assert_eq!(within.new_global::<Cell>().unwrap_err(), Error::NoGlobals); // it needs a step, and one is being written
            assert!(std::panic::catch_unwind(std::panic::AssertUnwindSafe(|| other.run(|g| g.room()))).is_err());
            assert!(std::panic::catch_unwind(|| within.counts()).is_err());
        }
        tells.lock().unwrap().write_all(line)
    }));
    seat.run(|f| {
        *left.lock().unwrap() = Some(f.keep(f.alloc().unwrap()).unwrap());
        f.collect();
        assert!(left.lock().unwrap().is_none());
    });
    assert!(shared.new_global::<Cell>().is_ok());
    judge(&told, 4);
}

#[test]
fn a_writer_may_leave_what_was_kept() {
    let left: Arc<Mutex<Vec<Kept<Cell>>>> = Arc::default();
    let mut heap = Heap::new(&sizes()).unwrap();
    let leaves = left.clone();
    heap.record(move |_| {
        drop(leaves.lock().unwrap().pop());
        Ok(())
    });
    heap.run(|f| {
        for _ in 0..20 {
            let kept = [f.keep(f.alloc().unwrap()).unwrap(), f.keep(f.alloc().unwrap()).unwrap()];
            left.lock().unwrap().extend(kept);
            f.scope(|g| g.collect());
            if f.room() < 4 {
                break;
            }
        }
    });
    drop(heap);
}
