//! An interpreter of Lox, whose closures, classes, instances, strings, lists and maps are objects of the heap, and whose numbers are words
//! beside them. `lox_rc` does the same by `Rc`, of the same steps.
//!
//!     lox [FILE]      a short program where it is left out; with VERBOSE in the environment what the collector did goes to standard error
use g1heap::{Array, Error, Frame, Heap, Local, Nil, Sizes, Stack, Text, Var};
use std::io::Write;
#[path = "lox/compiler.rs"]
mod compiler;
#[path = "lox/objects.rs"]
mod objects;
#[path = "lox/table.rs"]
mod table;
#[path = "lox/values.rs"]
mod values;
use compiler::{compile, Call, Handler, Op, Program, NATIVES};
use values::*;

/// Why a program stops.
enum Stop {
    Heap(Error),
    Wrong(String),
}
impl From<Error> for Stop {
    fn from(error: Error) -> Self {
        Stop::Heap(error)
    }
}
type Answer<T = ()> = Result<T, Stop>;
fn wrong<T>(message: impl Into<String>) -> Answer<T> {
    Err(Stop::Wrong(message.into()))
}

/// So many calls may be open.
const CALLS: usize = 1000;

/// The machine but for the objects on its stack, which are lent; the words of its values are here.
struct Vm<'p, 'o, 'h> {
    program: &'p Program,
    words: Vec<Scalar>,
    calls: Vec<Call>,
    handlers: Vec<Handler>,
    /// The words of variables, and what objects they hold.
    globals: (Vec<Scalar>, Local<'o, 'h, Array>),
    /// Those of the program, by number.
    texts: Local<'o, 'h, Array<Text>>,
    interned: Interned<'o, 'h>,
    /// Those that are open, the highest first, and their places.
    open: Var<'o, 'h, Upvalue>,
    places: Vec<usize>,
    /// The names of the fields that instances of a class have.
    fields: Vec<Vec<u32>>,
    names: Names,
    init: Option<u32>,
    /// A text that is being made.
    both: String,
    out: std::io::BufWriter<std::io::StdoutLock<'static>>,
}

impl<'p, 'o, 'h> Vm<'p, 'o, 'h> {
    fn new(f: &mut Frame<'o, 'h>, program: &'p Program) -> Answer<Self> {
        let mut interned = Interned::new(f)?;
        let texts = f.alloc_array(program.texts.len() as u32)?;
        for (index, text) in (0..).zip(&program.texts) {
            f.scope(|g| {
                let text = interned.text(g, text)?;
                g.set_item(texts, index, text)
            })?;
        }
        let mut globals = vec![UNDEFINED; program.globals.len()];
        (0..NATIVES.len()).for_each(|native| globals[native] = Scalar(NATIVE + native as u64));
        Ok(Vm {
            program,
            words: Vec::new(),
            calls: Vec::new(),
            handlers: Vec::new(),
            globals: (globals, f.alloc_array(program.globals.len() as u32)?),
            texts,
            interned,
            open: f.nil_var()?,
            places: Vec::new(),
            fields: vec![Vec::new(); program.classes as usize],
            names: Names::new(),
            init: program.texts.iter().position(|it| it == "init").map(|it| it as u32),
            both: String::new(),
            out: std::io::BufWriter::new(std::io::stdout().lock()),
        })
    }
    fn name(&self, text: u32) -> &'p str {
        &self.program.texts[text as usize]
    }
    fn top(&self, below: usize) -> Scalar {
        self.words[self.words.len() - 1 - below]
    }

    /// Values that hold no object.
    #[inline(always)]
    fn push(&mut self, stack: &mut Stack<'_, 'h>, word: Scalar) -> Answer {
        stack.push(Nil)?;
        self.words.push(word);
        Ok(())
    }
    #[inline(always)]
    fn pick(&mut self, stack: &mut Stack<'_, 'h>, place: usize) -> Answer {
        stack.pick(place)?;
        self.words.push(self.words[place]);
        Ok(())
    }
    /// A place takes the last value, which stays.
    fn assign(&mut self, stack: &mut Stack<'_, 'h>, place: usize) {
        stack.assign(place, self.words.len() - 1);
        self.words[place] = self.top(0);
    }
    /// Pops a value into a place.
    fn store(&mut self, stack: &mut Stack<'_, 'h>, place: usize) {
        stack.store(place);
        self.words.swap_remove(place);
    }
    fn truncate(&mut self, stack: &mut Stack<'_, 'h>, len: usize) {
        stack.truncate(len);
        self.words.truncate(len);
    }
    /// Pops some values, and pushes the one that `body` makes of them.
    #[inline]
    fn make<'s>(
        &mut self,
        stack: &mut Stack<'s, 'h>,
        args: usize,
        body: impl for<'g> FnOnce(&mut Self, &mut Frame<'g, 'h>, &Stack<'s, 'h>) -> Answer<Slot<'g, 'h>>,
    ) -> Answer {
        let mut word = NIL;
        stack.reduce(args, |g, s| {
            let (scalar, object) = body(self, g, s)?;
            word = scalar;
            Ok::<_, Stop>(object)
        })?;
        self.words.truncate(self.words.len() - args);
        self.words.push(word);
        Ok(())
    }
    /// What `body` makes replaces the value of a place.
    #[inline]
    fn put<'s>(
        &mut self,
        stack: &mut Stack<'s, 'h>,
        place: usize,
        body: impl for<'g> FnOnce(&mut Self, &mut Frame<'g, 'h>, &Stack<'s, 'h>) -> Answer<Slot<'g, 'h>>,
    ) -> Answer {
        let mut word = NIL;
        stack.replace(place, |g, s| {
            let (scalar, object) = body(self, g, s)?;
            word = scalar;
            Ok::<_, Stop>(object)
        })?;
        self.words[place] = word;
        Ok(())
    }

    /// It's a function by itself: within `main` each step would make ready what few of them need.
    #[inline(never)]
    fn run(&mut self, stack: &mut Stack<'_, 'h>) -> Answer {
        self.push(stack, NIL)?;
        self.push(stack, NIL)?;
        self.calls.push(Call { function: self.program.functions.len() - 1, pc: 0, base: 1 });
        while let Some(call) = self.calls.last_mut() {
            let op = self.program.functions[call.function].code[call.pc];
            call.pc += 1;
            let base = call.base;
            match op {
                Op::Number(number) => self.push(stack, Scalar::of(number))?,
                Op::Nil => self.push(stack, NIL)?,
                Op::Bool(is) => self.push(stack, Scalar::truth(is))?,
                Op::Pop => self.truncate(stack, self.words.len() - 1),
                Op::Again => self.pick(stack, self.words.len() - 1)?,
                Op::Pick(place) => self.pick(stack, base + place as usize)?,
                Op::Store(place) => self.assign(stack, base + place as usize),
                Op::Jump(to) => call.pc = to as usize,
                Op::JumpFalse(to) => {
                    if !self.words.last().map_or(false, |it| it.is_true()) {
                        call.pc = to as usize;
                    }
                }
                Op::Equal | Op::Less | Op::Greater | Op::Add | Op::Sub | Op::Mul | Op::Div => self.binary(stack, op)?,
                Op::Not | Op::Negate => self.unary(stack, op)?,
                Op::Call(args) => self.call(stack, args)?,
                Op::Return => {
                    self.close(stack, base)?;
                    self.store(stack, base - 1);
                    self.truncate(stack, base);
                    self.calls.pop();
                }
                _ => self.rarer(stack, op, base)?,
            }
        }
        Ok(())
    }
    fn rarer(&mut self, stack: &mut Stack<'_, 'h>, op: Op, base: usize) -> Answer {
        match op {
            Op::Text(text) => self.make(stack, 0, |vm, g, _| Ok((OBJECT, g.item(vm.texts, text)?.map(Local::any)))),
            Op::GetGlobal(global) => match self.globals.0[global as usize] {
                UNDEFINED => self.undefined(global),
                OBJECT => self.make(stack, 0, |vm, g, _| Ok((OBJECT, g.item(vm.globals.1, global)?))),
                scalar => self.push(stack, scalar),
            },
            Op::SetGlobal(_) | Op::DefineGlobal(_) => self.set_global(stack, op),
            Op::GetUpvalue(index) => self.get_upvalue(stack, base, index),
            Op::SetUpvalue(index) => self.set_upvalue(stack, base, index),
            Op::Close => {
                self.close(stack, self.words.len() - 1)?;
                self.truncate(stack, self.words.len() - 1);
                Ok(())
            }
            Op::GetField(name) => self.get_field(stack, name),
            Op::SetField(name) => self.set_field(stack, name),
            Op::GetSuper(name) => self.get_super(stack, name),
            Op::Invoke(name, args) => self.invoke(stack, name, args),
            Op::List(count) => self.list(stack, count),
            Op::Index => self.index(stack),
            Op::SetIndex => self.set_index(stack),
            Op::Print => {
                let line = stack.scope(|g, s| self.shown(g, self.top(0), s.top(0)))?;
                let _ = writeln!(self.out, "{line}");
                self.truncate(stack, self.words.len() - 1);
                Ok(())
            }
            Op::Closure(function) => self.closure(stack, function as usize, base),
            Op::Class(name, number) => self.class(stack, name, number),
            Op::Inherit => self.inherit(stack),
            Op::Method(name) => self.add_method(stack, name),
            Op::Try(pc) => {
                self.handlers.push(Handler { calls: self.calls.len(), pc: pc as usize, len: self.words.len() });
                Ok(())
            }
            Op::EndTry => {
                self.handlers.pop();
                Ok(())
            }
            Op::Throw => self.throw(stack),
            other => unreachable!("{:?}", other),
        }
    }
    fn set_global(&mut self, stack: &mut Stack<'_, 'h>, op: Op) -> Answer {
        let (value, global) = match op {
            Op::SetGlobal(global) if self.globals.0[global as usize] == UNDEFINED => return self.undefined(global),
            Op::SetGlobal(global) | Op::DefineGlobal(global) => (self.top(0), global),
            other => unreachable!("{:?}", other),
        };
        let old = std::mem::replace(&mut self.globals.0[global as usize], value);
        if old == OBJECT || value == OBJECT {
            stack.scope(|g, s| g.set_item(self.globals.1, global, s.top(0)))?;
        }
        if matches!(op, Op::DefineGlobal(_)) {
            self.truncate(stack, self.words.len() - 1);
        }
        Ok(())
    }
    fn undefined(&self, global: u32) -> Answer {
        wrong(format!("Undefined variable '{}'.", self.program.globals[global as usize]))
    }
    /// What is thrown goes to the last handler.
    fn throw(&mut self, stack: &mut Stack<'_, 'h>) -> Answer {
        let Handler { calls, pc, len } = match self.handlers.pop() {
            Some(handler) => handler,
            None => {
                let shown = stack.scope(|g, s| self.shown(g, self.top(0), s.top(0)))?;
                return wrong(format!("Uncaught {shown}."));
            }
        };
        self.close(stack, len)?;
        if self.words.len() > len + 1 {
            self.store(stack, len);
            self.truncate(stack, len + 1);
        }
        self.calls.truncate(calls);
        self.calls[calls - 1].pc = pc;
        Ok(())
    }

    fn binary<'s>(&mut self, stack: &mut Stack<'s, 'h>, op: Op) -> Answer {
        let (left, right) = (self.top(1), self.top(0));
        let result = match (op, left.number(), right.number()) {
            (Op::Equal, Some(one), Some(other)) => Scalar::truth(one == other),
            (Op::Equal, ..) => {
                let same =
                    left == right && (left != OBJECT || stack.scope(|g, s| s.top(0).zip(s.top(1)).map_or(false, |(a, b)| g.same(a, b))));
                self.truncate(stack, self.words.len() - 2);
                return self.push(stack, Scalar::truth(same));
            }
            (Op::Less, Some(one), Some(other)) => Scalar::truth(one < other),
            (Op::Greater, Some(one), Some(other)) => Scalar::truth(one > other),
            (Op::Add, Some(one), Some(other)) => Scalar::of(one + other),
            (Op::Sub, Some(one), Some(other)) => Scalar::of(one - other),
            (Op::Mul, Some(one), Some(other)) => Scalar::of(one * other),
            (Op::Div, Some(one), Some(other)) => Scalar::of(one / other),
            (Op::Add, ..) => return self.join(stack),
            _ => return wrong("Operands must be numbers."),
        };
        // Neither has an object, so the one below can be another word.
        self.truncate(stack, self.words.len() - 1);
        *self.words.last_mut().expect("a value") = result;
        Ok(())
    }
    fn join(&mut self, stack: &mut Stack<'_, 'h>) -> Answer {
        self.make(stack, 2, |vm, g, s| match (as_a(g, s.top(1), Tag::Text), as_a(g, s.top(0), Tag::Text)) {
            (Some((one, _)), Some((other, _))) => {
                vm.both.clear();
                g.text_into(one, &mut vm.both);
                g.text_into(other, &mut vm.both);
                Ok((OBJECT, Some(vm.interned.text(g, &vm.both)?.any())))
            }
            _ => wrong("Operands must be two numbers or two strings."),
        })
    }
    fn unary(&mut self, stack: &mut Stack<'_, 'h>, op: Op) -> Answer {
        let value = self.top(0);
        let result = match (op, value.number()) {
            (Op::Not, _) => Scalar::truth(!value.is_true()),
            (_, Some(number)) => Scalar::of(-number),
            _ => return wrong("Operand must be a number."),
        };
        if value == OBJECT {
            self.truncate(stack, self.words.len() - 1);
            return self.push(stack, result);
        }
        *self.words.last_mut().expect("a value") = result;
        Ok(())
    }

    /// What a place holds.
    fn value<'s>(&self, stack: &'s Stack<'_, 'h>, place: usize) -> Slot<'s, 'h> {
        (self.words[place], stack.at(place))
    }
    /// The same, as a root of this frame.
    fn at<'g>(&self, g: &Frame<'g, 'h>, stack: &Stack<'_, 'h>, place: usize) -> Answer<Slot<'g, 'h>> {
        Ok((self.words[place], stack.at(place).map(|it| g.copy(it)).transpose()?))
    }
    fn get_upvalue(&mut self, stack: &mut Stack<'_, 'h>, base: usize, index: u32) -> Answer {
        self.make(stack, 0, |vm, g, s| {
            let closure = s.at(base - 1).expect("a closure").assume::<Closure>();
            let upvalue = g.get_nth(closure, Closure::upvalues, index)?.expect("it was captured");
            match (g.read(upvalue, Upvalue::open), g.read(upvalue, Upvalue::scalar)) {
                (0, OBJECT) => Ok((OBJECT, g.get(upvalue, Upvalue::value)?)),
                (0, scalar) => Ok((scalar, None)),
                (open, _) => vm.at(g, s, open - 1),
            }
        })
    }
    fn set_upvalue(&mut self, stack: &mut Stack<'_, 'h>, base: usize, index: u32) -> Answer {
        let open = stack.scope(|g, s| {
            let closure = s.at(base - 1).expect("a closure").assume::<Closure>();
            let upvalue = g.get_nth(closure, Closure::upvalues, index)?.expect("it was captured");
            let open = g.read(upvalue, Upvalue::open);
            if open == 0 {
                g.put(upvalue, Upvalue::value, s.top(0));
                g.write(upvalue, Upvalue::scalar, self.top(0));
            }
            Ok::<_, Error>(open)
        })?;
        if open > 0 {
            self.assign(stack, open - 1);
        }
        Ok(())
    }
    fn closure(&mut self, stack: &mut Stack<'_, 'h>, function: usize, base: usize) -> Answer {
        let captures = &self.program.functions[function].captures;
        self.make(stack, 0, |_, g, _| {
            let closure = g.alloc_with::<Closure>(captures.len() as u32)?;
            g.write(closure, Closure::head, Head(Tag::Closure, function as u32));
            Ok(object(closure))
        })?;
        stack.scope(|g, s| {
            let closure = s.top(0).expect("a closure").assume::<Closure>();
            for (index, (is_local, place)) in (0..).zip(captures) {
                g.scope(|g| {
                    let upvalue = if *is_local {
                        self.capture(g, base + *place as usize)?
                    } else {
                        let around = s.at(base - 1).expect("a closure").assume::<Closure>();
                        g.get_nth(around, Closure::upvalues, *place)?.expect("it was captured")
                    };
                    g.put_nth(closure, Closure::upvalues, index, upvalue)
                })?;
            }
            Ok(())
        })
    }
    /// The only open upvalue of a place.
    fn capture<'g>(&mut self, g: &mut Frame<'g, 'h>, place: usize) -> Result<Local<'g, 'h, Upvalue>, Error> {
        g.lift(|g| {
            let (mut before, mut at) = (g.nil_var::<Upvalue>()?, g.var(&self.open)?);
            while let Some(upvalue) = at.local() {
                match g.read(upvalue, Upvalue::open) {
                    open if open == place + 1 => return g.copy(upvalue),
                    open if open <= place => break,
                    _ => before.set(g, upvalue),
                }
                at.follow(g, Upvalue::next);
            }
            let new = g.new::<Upvalue>(|p| {
                p.put(Upvalue::next, &at);
                p.write(Upvalue::open, place + 1);
            })?;
            match before.local() {
                Some(before) => g.put(before, Upvalue::next, new),
                None => self.open.set(g, new),
            }
            let index = self.places.partition_point(|it| *it < place);
            self.places.insert(index, place);
            Ok(new)
        })
    }
    /// The upvalues of places from `from` on take what these hold.
    #[inline(always)]
    fn close(&mut self, stack: &mut Stack<'_, 'h>, from: usize) -> Answer {
        while let Some(place) = self.places.last().copied().filter(|it| *it >= from) {
            self.close_last(stack, place)?;
        }
        Ok(())
    }
    #[inline(never)]
    fn close_last(&mut self, stack: &mut Stack<'_, 'h>, place: usize) -> Answer {
        stack.scope(|g, s| {
            let upvalue = g.copy(self.open.local().expect("an open one"))?;
            self.open.follow(g, Upvalue::next);
            g.put(upvalue, Upvalue::next, Nil);
            g.put(upvalue, Upvalue::value, s.at(place));
            g.write(upvalue, Upvalue::scalar, self.words[place]);
            g.write(upvalue, Upvalue::open, 0);
            Ok::<_, Error>(())
        })?;
        self.places.pop();
        Ok(())
    }
}

const PROGRAM: &str = r#"
    class Counter {
        init(name) { this.name = name; this.count = 0; }
        next() { this.count = this.count + 1; return this.name + " " + str(this.count); }
    }
    var next = Counter("step").next;
    print next();
    print next();
"#;

/// Runs a program, and answers what is said where it stops.
fn interpret(heap: &mut Heap, program: &Program) -> Option<String> {
    heap.run(|f| {
        let mut vm = match Vm::new(f, program) {
            Ok(vm) => vm,
            Err(Stop::Heap(error)) => return Some(error.to_string()),
            Err(Stop::Wrong(message)) => return Some(message),
        };
        let done = f.stack(|stack| vm.run(stack));
        let said = match done {
            Ok(()) => None,
            Err(Stop::Heap(error)) => Some(program.stopped(&error.to_string(), &vm.calls)),
            Err(Stop::Wrong(message)) => Some(program.stopped(&message, &vm.calls)),
        };
        let _ = vm.out.flush();
        said
    })
}

fn main() -> Result<(), Box<dyn std::error::Error>> {
    let source = std::env::args().nth(1).map_or_else(|| Ok(PROGRAM.into()), std::fs::read_to_string)?;
    let program = compile(&source)?;
    let mut heap = Heap::new(&Sizes::mebibytes(16).registers(16_384))?;
    let said = interpret(&mut heap, &program);
    if std::env::var_os("VERBOSE").is_some() {
        eprintln!("{:?}", heap.counts());
    }
    if let Some(said) = said {
        println!("{said}");
        std::process::exit(70);
    }
    Ok(())
}
