//! Makes one kind of call so many times, as tools/measuring/library_costs.c does, for tools/measure rust, which counts
//! instructions of two runs.
//!
//!     costs CALL TIMES
use g1heap::{layout, Frame, Heap, Sizes};

layout! {
    struct Node { pointers { left: Node, right: Node } words { a: u64, b: u64 } }
    struct Three { pointers { left: Node, right: Node } words { a: u64 } }
}

/// What a frame is lent to, and not inlined.
#[inline(never)]
fn room(f: &Frame<'_, '_>) -> u32 {
    f.room()
}

fn main() -> Result<(), Box<dyn std::error::Error>> {
    let mut words = std::env::args().skip(1);
    let (call, times) = (words.next().ok_or("a call")?, words.next().ok_or("a number")?.parse::<u64>()?);
    let sizes = Sizes::default().buffer(128).globals(16).registers(64).policy(call.starts_with("make"));
    let mut heap = Heap::new(&if call.contains("filled") { sizes.regions(16).words(1 << 18) } else { sizes })?;
    let sum = heap.run(|f| {
        let a = f.alloc::<Node>()?;
        let b = f.alloc::<Node>()?;
        f.put(a, Node::left, b);
        let mut place = f.var(a)?;
        let mut sum = 0;
        match call.as_str() {
            "get" => {
                for _ in 0..times {
                    sum += u64::from(f.scope(|g| g.get(a, Node::left).map(|it| it.is_some()))?);
                }
            }
            "get into a place" => {
                for _ in 0..times {
                    sum += u64::from(place.get(f, a, Node::left));
                }
            }
            "read" => {
                for _ in 0..times {
                    sum += f.read(a, Node::b);
                }
            }
            "write" => {
                for i in 0..times {
                    f.write(a, Node::b, i);
                }
            }
            "put" | "put while marking" => {
                if call != "put" {
                    f.steps().begin();
                }
                for _ in 0..times {
                    f.put(a, Node::left, b);
                }
            }
            "move" => {
                for _ in 0..times {
                    place.set(f, a);
                }
            }
            "new 2 + 1" | "make 2 + 1" => {
                for _ in 0..times {
                    f.scope(|g| g.alloc::<Three>().map(drop))?;
                }
            }
            "make filled 2 + 1" => {
                for _ in 0..times {
                    f.scope(|g| {
                        g.new::<Three>(|p| {
                            p.put(Three::left, a);
                            p.write(Three::a, 7);
                        })
                        .map(drop)
                    })?;
                }
            }
            "name" => {
                for _ in 0..times {
                    sum += f.name(a).number();
                }
            }
            "scope" => {
                for _ in 0..times {
                    sum += u64::from(f.scope(|g| room(g)));
                }
            }
            "nothing" => {}
            _ => panic!("there is no such call"),
        }
        Ok::<_, g1heap::Error>(sum)
    })?;
    std::process::exit(i32::from(sum == 1)) // so that all of it is wanted
}
