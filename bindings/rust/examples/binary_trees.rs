//! binary-trees, as `clients/binary_trees.c` has it: it makes and walks many trees while a long-lived one stands.
//!
//!     binary_trees [DEPTH]      16 where it is left out; 19 is the deepest that 16,777,216 words hold
use g1heap::{layout, Error, Frame, Heap, Local, Sizes};

layout! { struct Node { pointers { left: Node, right: Node } } }

fn make_tree<'f, 'h>(f: &mut Frame<'f, 'h>, depth: u32) -> Result<Local<'f, 'h, Node>, Error> {
    let node = f.alloc()?;
    if depth > 0 {
        for side in [Node::left, Node::right] {
            f.scope(|g| make_tree(g, depth - 1).map(|child| g.put(node, side, child)))?;
        }
    }
    Ok(node)
}

fn count<'h>(f: &mut Frame<'_, 'h>, node: Local<'_, 'h, Node>) -> Result<u64, Error> {
    let mut nodes = 1;
    for side in [Node::left, Node::right] {
        nodes += f.scope(|g| match g.get(node, side)? {
            Some(child) => count(g, child),
            None => Ok(0),
        })?;
    }
    Ok(nodes)
}

/// Makes a tree, counts its nodes, and leaves it.
fn try_tree(f: &mut Frame<'_, '_>, depth: u32) -> Result<u64, Error> {
    f.scope(|g| {
        let tree = make_tree(g, depth)?;
        count(g, tree)
    })
}

fn bench(f: &mut Frame<'_, '_>, deepest: u32) -> Result<(), Error> {
    println!("stretch tree of depth {}\t check: {}", deepest + 1, try_tree(f, deepest + 1)?);
    let long_lived = make_tree(f, deepest)?;
    for depth in (4..=deepest).step_by(2) {
        let times = 1u64 << (deepest - depth + 4);
        let mut nodes = 0;
        for _ in 0..times {
            nodes += try_tree(f, depth)?;
        }
        println!("{times}\t trees of depth {depth}\t check: {nodes}");
    }
    println!("long lived tree of depth {deepest}\t check: {}", count(f, long_lived)?);
    Ok(())
}

fn main() -> Result<(), Box<dyn std::error::Error>> {
    let deepest: u32 = std::env::args().nth(1).map_or(Ok(16), |it| it.parse())?;
    if !(6..=19).contains(&deepest) {
        return Err("usage: binary_trees [DEPTH], a depth of 6 to 19".into());
    }
    let mut sizes = Sizes::default().registers(64).globals(16);
    if deepest > 12 {
        sizes.words = 16384;
        sizes.regions = if deepest <= 17 { 256 } else { 1024 };
    }
    let mut heap = Heap::new(&sizes)?;
    heap.run(|f| bench(f, deepest))?;
    if std::env::var_os("VERBOSE").is_some() {
        eprintln!("{:?}", heap.counts());
    }
    Ok(())
}
