//! GCBench, as `clients/gcbench.c` has it: trees of many lifetimes beside a long-lived tree and a long-lived array of doubles.
//!
//!     gcbench [DEPTH]      the depth of the long-lived tree, 16 where it is left out; the stretch tree is 2 deeper
use g1heap::{layout, Error, Frame, Heap, Local, Sizes};

layout! { struct Node { pointers { left: Node, right: Node } words { i: u64, j: u64 } } }

/// A tree from its leaves up.
fn make_tree<'f, 'h>(f: &mut Frame<'f, 'h>, depth: u32) -> Result<Local<'f, 'h, Node>, Error> {
    if depth == 0 {
        return f.alloc();
    }
    f.lift(|g| {
        let left = make_tree(g, depth - 1)?;
        let right = make_tree(g, depth - 1)?;
        let node = g.alloc::<Node>()?;
        g.put(node, Node::left, left);
        g.put(node, Node::right, right);
        Ok(node)
    })
}

/// A tree from its root down.
fn populate<'h>(f: &mut Frame<'_, 'h>, depth: u32, node: Local<'_, 'h, Node>) -> Result<(), Error> {
    if depth == 0 {
        return Ok(());
    }
    for side in [Node::left, Node::right] {
        f.scope(|g| {
            let child = g.alloc()?;
            g.put(node, side, child);
            populate(g, depth - 1, child)
        })?;
    }
    Ok(())
}

fn count<'h>(f: &mut Frame<'_, 'h>, node: Local<'_, 'h, Node>) -> Result<u64, Error> {
    let mut nodes = 1;
    for side in [Node::left, Node::right] {
        nodes += f.scope(|g| match g.get(node, side)? {
            Some(child) => count(g, child),
            None => Ok(0),
        })?;
    }
    Ok(nodes)
}

fn tree_size(depth: u32) -> u64 {
    (2 << depth) - 1
}

fn bench(f: &mut Frame<'_, '_>, deepest: u32, length: u32) -> Result<(), Error> {
    f.scope(|g| make_tree(g, deepest + 2).map(drop))?;
    let long_lived = f.alloc()?;
    populate(f, deepest, long_lived)?;
    let array = f.alloc_any(0, 0, length)?;
    for i in 0..length / 2 {
        f.write_at(array, i, (1.0 / f64::from(i)).to_bits())?;
    }
    for depth in (4..=deepest).step_by(2) {
        let times = 2 * tree_size(deepest + 2) / tree_size(depth);
        for _ in 0..times {
            f.scope(|g| {
                let node = g.alloc()?;
                populate(g, depth, node)
            })?;
        }
        for _ in 0..times {
            f.scope(|g| make_tree(g, depth).map(drop))?;
        }
        println!("{times} trees of depth {depth}, top down and bottom up");
    }
    let broken = if f.read_at(array, 10)? == (1.0f64 / 10.0).to_bits() { "" } else { ", and it is broken" };
    let nodes = count(f, long_lived)?;
    println!("long-lived: a tree of {nodes} nodes, an array of {length} words{broken}");
    Ok(())
}

fn main() -> Result<(), Box<dyn std::error::Error>> {
    let deepest: u32 = std::env::args().nth(1).map_or(Ok(16), |it| it.parse())?;
    if !(4..=17).contains(&deepest) {
        return Err("usage: gcbench [DEPTH], a depth of 4 to 17".into());
    }
    let length = 500_000 >> (16 - deepest.min(16));
    let mut sizes = Sizes::default().registers(64).globals(16);
    if deepest > 12 {
        sizes.words = 16384;
        sizes.regions = if deepest <= 16 { 400 } else { 800 };
    }
    let mut heap = Heap::new(&sizes)?;
    heap.run(|f| bench(f, deepest, length))?;
    if std::env::var_os("VERBOSE").is_some() {
        eprintln!("{:?}", heap.counts());
    }
    Ok(())
}
