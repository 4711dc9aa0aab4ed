//! A stack machine, whose integers are objects too. Its program makes a list of 1 to N and adds it up, by recursion, so many times.
//!
//!     vm [N [TIMES]]      500 and 200 where they are left out
use g1heap::{layout, Any, Error, Frame, Heap, Local, Sizes, Stack};

layout! {
    struct Int { words { value: i64 } }
    struct Pair { pointers { car: Any, cdr: Any } }
}

/// What the machine does. A place is counted from that of the call's first argument.
#[derive(Clone, Copy)]
enum Op {
    Int(i32),
    Nil,
    Add,
    Sub,
    Cons,
    Car,
    Cdr,
    /// Pushes what a place holds.
    Pick(u32),
    /// Pops a value into a place.
    Store(u32),
    JumpNil(u32),
    JumpZero(u32),
    Jump(u32),
    /// Where to go on, and how many arguments are on the stack.
    Call(u32, u32),
    Return,
    Halt,
}

fn new_int<'f, 'h>(g: &Frame<'f, 'h>, value: i64) -> Result<Option<Local<'f, 'h>>, Error> {
    let int = g.alloc::<Int>()?;
    g.write(int, Int::value, value);
    Ok(Some(int.any()))
}
fn cons<'f, 'h>(g: &Frame<'f, 'h>, stack: &Stack<'_, 'h>) -> Result<Option<Local<'f, 'h>>, Error> {
    let pair = g.alloc::<Pair>()?;
    g.put(pair, Pair::car, stack.top(1));
    g.put(pair, Pair::cdr, stack.top(0));
    Ok(Some(pair.any()))
}

fn run(stack: &mut Stack<'_, '_>, code: &[Op]) -> Result<i64, Error> {
    let (mut calls, mut base, mut pc) = (Vec::new(), 0, 0usize);
    loop {
        let op = code[pc];
        pc += 1;
        match op {
            Op::Int(value) => stack.reduce(0, |g, _| new_int(g, value.into()))?,
            Op::Nil => stack.push(g1heap::Nil)?,
            Op::Add => stack.reduce(2, |g, s| new_int(g, s.read(1, Int::value) + s.read(0, Int::value)))?,
            Op::Sub => stack.reduce(2, |g, s| new_int(g, s.read(1, Int::value) - s.read(0, Int::value)))?,
            Op::Cons => stack.reduce(2, |g, s| cons(g, s))?,
            Op::Car => drop(stack.follow(Pair::car)),
            Op::Cdr => drop(stack.follow(Pair::cdr)),
            Op::Pick(place) => stack.pick(base + place as usize)?,
            Op::Store(place) => stack.store(base + place as usize),
            Op::Jump(to) => pc = to as usize,
            Op::JumpNil(to) => {
                if stack.top(0).is_none() {
                    pc = to as usize;
                }
                stack.truncate(stack.len() - 1);
            }
            Op::JumpZero(to) => {
                if stack.read(0, Int::value) == 0 {
                    pc = to as usize;
                }
                stack.truncate(stack.len() - 1);
            }
            Op::Call(to, arguments) => {
                calls.push((pc, base));
                (pc, base) = (to as usize, stack.len() - arguments as usize);
            }
            Op::Return => {
                stack.store(base);
                stack.truncate(base + 1);
                (pc, base) = calls.pop().expect("a call");
            }
            Op::Halt => return Ok(stack.read(0, Int::value)),
        }
    }
}

/// Makes the list in place 1, while place 0 counts down, and calls the sum of a list, at 16.
fn program(n: i32) -> [Op; 27] {
    use Op::*;
    #[rustfmt::skip]
    let code = [
        Int(n), Nil, // the places
        Pick(0), JumpZero(13), Pick(0), Pick(1), Cons, Store(1), Pick(0), Int(1), Sub, Store(0), Jump(2), // the list
        Pick(1), Call(16, 1), Halt, // its sum
        Pick(0), JumpNil(25), Pick(0), Car, Pick(0), Cdr, Call(16, 1), Add, Return, Int(0), Return, // the sum of a list
    ];
    code
}

fn main() -> Result<(), Box<dyn std::error::Error>> {
    let mut words = std::env::args().skip(1);
    let n = words.next().map_or(Ok(500), |it| it.parse())?;
    let times: u32 = words.next().map_or(Ok(200), |it| it.parse())?;
    let mut heap = Heap::new(&Sizes::default().regions(64))?;
    let mut sum = 0;
    for _ in 0..times {
        sum = heap.run(|f| f.stack(|stack| run(stack, &program(n))))?;
    }
    println!("{times} times the sum of 1 to {n}: {sum}");
    if std::env::var_os("VERBOSE").is_some() {
        eprintln!("{:?}", heap.counts());
    }
    Ok(())
}
