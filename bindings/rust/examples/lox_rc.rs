//! The interpreter of Lox of the example `lox`, by `Rc` and `RefCell` and without the heap, so that the two can be compared: they do the
//! same steps, and each string is there once in both. What holds itself is never freed here.
//!
//!     lox_rc [FILE]
use std::cell::RefCell;
use std::collections::HashMap;
use std::convert::Infallible;
use std::hash::{BuildHasherDefault, Hash, Hasher};
use std::io::Write;
use std::rc::{Rc, Weak};
#[path = "lox/compiler.rs"]
mod compiler;
#[path = "lox/table.rs"]
mod table;
use compiler::{compile, Call, Handler, Op, Program, NATIVES};
use table::Table;

#[derive(Clone)]
enum Value {
    Undefined,
    Nil,
    Bool(bool),
    Number(f64),
    Native(usize),
    Text(Rc<str>),
    Closure(Rc<Closure>),
    Class(Rc<Class>),
    Instance(Rc<Instance>),
    Bound(Rc<(Value, Rc<Closure>)>),
    List(Rc<RefCell<Vec<Value>>>),
    Map(Rc<RefCell<HashMap<Key, Value, BuildHasherDefault<Mixed>>>>),
}
/// A string as a key, by where it is: there is only one of its text.
struct Key(Rc<str>);
impl PartialEq for Key {
    fn eq(&self, other: &Key) -> bool {
        Rc::ptr_eq(&self.0, &other.0)
    }
}
impl Eq for Key {}
impl Hash for Key {
    fn hash<H: Hasher>(&self, hasher: &mut H) {
        hasher.write_usize(self.0.as_ptr() as usize);
    }
}
#[derive(Default)]
struct Mixed(u64);
impl Hasher for Mixed {
    fn write(&mut self, _: &[u8]) {
        unreachable!("a key is a number");
    }
    fn write_usize(&mut self, place: usize) {
        self.0 = (place as u64).wrapping_mul(0x9e37_79b9_7f4a_7c15);
        self.0 ^= self.0 >> 32;
    }
    fn finish(&self) -> u64 {
        self.0
    }
}
/// The strings that the program has, each once.
struct Interned(Table<Weak<str>>);
impl Interned {
    fn text(&mut self, text: &str) -> Rc<str> {
        let hash = g1heap::Text::hash_of(text);
        let mut found = self.0.of(hash).filter_map(Weak::upgrade);
        if let Some(found) = found.find(|it| **it == *text) {
            return found;
        }
        drop(found);
        let new = Rc::from(text);
        if self.0.is_full() {
            let _ = self.0.keep(|it| Ok::<_, Infallible>(it.strong_count() > 0));
        }
        self.0.add(hash, Rc::downgrade(&new));
        new
    }
}
struct Closure {
    function: usize,
    upvalues: Vec<Rc<RefCell<Upvalue>>>,
}
enum Upvalue {
    Open(usize),
    Closed(Value),
}
struct Class {
    name: Rc<str>,
    number: usize,
    methods: RefCell<Vec<(u32, Rc<Closure>)>>,
}
struct Instance {
    class: Rc<Class>,
    fields: RefCell<Vec<Value>>,
}
impl Class {
    fn method(&self, name: u32) -> Option<Rc<Closure>> {
        self.methods.borrow().iter().find(|it| it.0 == name).map(|it| it.1.clone())
    }
}

impl Value {
    fn is_true(&self) -> bool {
        !matches!(self, Value::Nil | Value::Bool(false))
    }
    fn is(&self, other: &Value) -> bool {
        match (self, other) {
            (Value::Nil, Value::Nil) => true,
            (Value::Bool(one), Value::Bool(other)) => one == other,
            (Value::Number(one), Value::Number(other)) => one == other,
            (Value::Native(one), Value::Native(other)) => one == other,
            (Value::Text(one), Value::Text(other)) => Rc::ptr_eq(one, other),
            (Value::Closure(one), Value::Closure(other)) => Rc::ptr_eq(one, other),
            (Value::Class(one), Value::Class(other)) => Rc::ptr_eq(one, other),
            (Value::Instance(one), Value::Instance(other)) => Rc::ptr_eq(one, other),
            (Value::Bound(one), Value::Bound(other)) => Rc::ptr_eq(one, other),
            (Value::List(one), Value::List(other)) => Rc::ptr_eq(one, other),
            (Value::Map(one), Value::Map(other)) => Rc::ptr_eq(one, other),
            _ => false,
        }
    }
}

type Answer<T = ()> = Result<T, String>;
fn wrong<T>(message: impl Into<String>) -> Answer<T> {
    Err(message.into())
}

/// So many calls may be open.
const CALLS: usize = 1000;

struct Vm<'p> {
    program: &'p Program,
    stack: Vec<Value>,
    calls: Vec<Call>,
    handlers: Vec<Handler>,
    globals: Vec<Value>,
    texts: Vec<Rc<str>>,
    interned: Interned,
    /// Those that are open, the highest last.
    open: Vec<(usize, Rc<RefCell<Upvalue>>)>,
    /// The names of the fields that instances of a class have.
    fields: Vec<Vec<u32>>,
    init: Option<u32>,
    /// A string that is being made.
    both: String,
    out: std::io::BufWriter<std::io::StdoutLock<'static>>,
}

impl<'p> Vm<'p> {
    fn new(program: &'p Program) -> Self {
        let mut globals = vec![Value::Undefined; program.globals.len()];
        (0..NATIVES.len()).for_each(|native| globals[native] = Value::Native(native));
        let mut interned = Interned(Table::new());
        Vm {
            program,
            stack: Vec::new(),
            calls: Vec::new(),
            handlers: Vec::new(),
            globals,
            texts: program.texts.iter().map(|it| interned.text(it)).collect(),
            interned,
            open: Vec::new(),
            fields: vec![Vec::new(); program.classes as usize],
            init: program.texts.iter().position(|it| it == "init").map(|it| it as u32),
            both: String::new(),
            out: std::io::BufWriter::new(std::io::stdout().lock()),
        }
    }
    fn pop(&mut self) -> Value {
        self.stack.pop().expect("a value")
    }
    fn top(&self, below: usize) -> &Value {
        &self.stack[self.stack.len() - 1 - below]
    }
    /// Pops some values, and pushes this one.
    fn reduce(&mut self, args: usize, value: Value) {
        self.stack.truncate(self.stack.len() - args);
        self.stack.push(value);
    }

    /// It's a function by itself: within `main` each step would make ready what few of them need.
    #[inline(never)]
    fn run(&mut self) -> Answer {
        self.stack = vec![Value::Nil, Value::Nil];
        self.calls.push(Call { function: self.program.functions.len() - 1, pc: 0, base: 1 });
        while let Some(call) = self.calls.last_mut() {
            let op = self.program.functions[call.function].code[call.pc];
            call.pc += 1;
            let base = call.base;
            match op {
                Op::Number(number) => self.stack.push(Value::Number(number)),
                Op::Nil => self.stack.push(Value::Nil),
                Op::Bool(is) => self.stack.push(Value::Bool(is)),
                Op::Pop => drop(self.stack.pop()),
                Op::Again => self.stack.push(self.top(0).clone()),
                Op::Pick(place) => self.stack.push(self.stack[base + place as usize].clone()),
                Op::Store(place) => self.stack[base + place as usize] = self.top(0).clone(),
                Op::Jump(to) => call.pc = to as usize,
                Op::JumpFalse(to) => {
                    if !self.stack.last().map_or(false, Value::is_true) {
                        call.pc = to as usize;
                    }
                }
                Op::Equal | Op::Less | Op::Greater | Op::Add | Op::Sub | Op::Mul | Op::Div => self.binary(op)?,
                Op::Not | Op::Negate => self.unary(op)?,
                Op::Call(args) => self.call(args)?,
                Op::Return => {
                    self.close(base);
                    let result = self.pop();
                    self.stack.truncate(base - 1);
                    self.stack.push(result);
                    self.calls.pop();
                }
                _ => self.rarer(op, base)?,
            }
        }
        Ok(())
    }
    fn rarer(&mut self, op: Op, base: usize) -> Answer {
        match op {
            Op::Text(text) => self.stack.push(Value::Text(self.texts[text as usize].clone())),
            Op::GetGlobal(_) | Op::SetGlobal(_) | Op::DefineGlobal(_) => self.global(op)?,
            Op::GetUpvalue(_) | Op::SetUpvalue(_) => self.upvalue(op, base),
            Op::Close => {
                self.close(self.stack.len() - 1);
                self.stack.pop();
            }
            Op::GetField(name) => self.get_field(name)?,
            Op::SetField(name) => self.set_field(name)?,
            Op::GetSuper(name) => match self.pop() {
                Value::Class(class) => self.bind(&class, name)?,
                _ => unreachable!("a class"),
            },
            Op::Invoke(name, args) => self.invoke(name, args)?,
            Op::List(count) => {
                let items = self.stack.split_off(self.stack.len() - count as usize);
                self.stack.push(Value::List(Rc::new(RefCell::new(items))));
            }
            Op::Index => self.index()?,
            Op::SetIndex => self.set_index()?,
            Op::Print => {
                let line = self.shown(self.top(0));
                let _ = writeln!(self.out, "{line}");
                self.stack.pop();
            }
            Op::Closure(function) => self.closure(function as usize, base),
            Op::Try(pc) => self.handlers.push(Handler { calls: self.calls.len(), pc: pc as usize, len: self.stack.len() }),
            Op::EndTry => drop(self.handlers.pop()),
            Op::Throw => self.throw()?,
            _ => self.class(op)?,
        }
        Ok(())
    }
    fn class(&mut self, op: Op) -> Answer {
        match op {
            Op::Class(name, number) => {
                let class = Class { name: self.texts[name as usize].clone(), number: number as usize, methods: RefCell::default() };
                self.stack.push(Value::Class(Rc::new(class)));
            }
            Op::Inherit => match (self.top(1), self.top(0)) {
                (Value::Class(other), Value::Class(class)) => *class.methods.borrow_mut() = other.methods.borrow().clone(),
                _ => return wrong("Superclass must be a class."),
            },
            Op::Method(name) => match (self.pop(), self.top(0)) {
                (Value::Closure(method), Value::Class(class)) => {
                    class.methods.borrow_mut().retain(|it| it.0 != name);
                    class.methods.borrow_mut().push((name, method));
                }
                _ => unreachable!("a class"),
            },
            other => unreachable!("{:?}", other),
        }
        Ok(())
    }
    fn global(&mut self, op: Op) -> Answer {
        match op {
            Op::GetGlobal(global) => match &self.globals[global as usize] {
                Value::Undefined => return self.undefined(global),
                value => self.stack.push(value.clone()),
            },
            Op::SetGlobal(global) => match &mut self.globals[global as usize] {
                Value::Undefined => return self.undefined(global),
                value => *value = self.stack.last().expect("a value").clone(),
            },
            Op::DefineGlobal(global) => self.globals[global as usize] = self.pop(),
            other => unreachable!("{:?}", other),
        }
        Ok(())
    }
    fn undefined(&self, global: u32) -> Answer {
        wrong(format!("Undefined variable '{}'.", self.program.globals[global as usize]))
    }
    /// What is thrown goes to the last handler.
    fn throw(&mut self) -> Answer {
        let Handler { calls, pc, len } = match self.handlers.pop() {
            Some(handler) => handler,
            None => return wrong(format!("Uncaught {}.", self.shown(self.top(0)))),
        };
        self.close(len);
        let thrown = self.pop();
        self.stack.truncate(len);
        self.stack.push(thrown);
        self.calls.truncate(calls);
        self.calls[calls - 1].pc = pc;
        Ok(())
    }

    fn binary(&mut self, op: Op) -> Answer {
        let result = match (op, self.top(1), self.top(0)) {
            (Op::Equal, one, other) => Value::Bool(one.is(other)),
            (Op::Less, Value::Number(one), Value::Number(other)) => Value::Bool(one < other),
            (Op::Greater, Value::Number(one), Value::Number(other)) => Value::Bool(one > other),
            (Op::Add, Value::Number(one), Value::Number(other)) => Value::Number(one + other),
            (Op::Sub, Value::Number(one), Value::Number(other)) => Value::Number(one - other),
            (Op::Mul, Value::Number(one), Value::Number(other)) => Value::Number(one * other),
            (Op::Div, Value::Number(one), Value::Number(other)) => Value::Number(one / other),
            (Op::Add, Value::Text(one), Value::Text(other)) => {
                let (one, other) = (one.clone(), other.clone());
                self.both.clear();
                self.both.push_str(&one);
                self.both.push_str(&other);
                Value::Text(self.interned.text(&self.both))
            }
            (Op::Add, ..) => return wrong("Operands must be two numbers or two strings."),
            _ => return wrong("Operands must be numbers."),
        };
        self.reduce(2, result);
        Ok(())
    }

    fn unary(&mut self, op: Op) -> Answer {
        let result = match (op, self.pop()) {
            (Op::Not, value) => Value::Bool(!value.is_true()),
            (_, Value::Number(number)) => Value::Number(-number),
            _ => return wrong("Operand must be a number."),
        };
        self.stack.push(result);
        Ok(())
    }

    fn closure_of(&self, base: usize) -> &Closure {
        match &self.stack[base - 1] {
            Value::Closure(closure) => closure,
            _ => unreachable!("a closure"),
        }
    }
    fn upvalue(&mut self, op: Op, base: usize) {
        let index = match op {
            Op::GetUpvalue(index) | Op::SetUpvalue(index) => index as usize,
            other => unreachable!("{:?}", other),
        };
        let upvalue = self.closure_of(base).upvalues[index].clone();
        let value = self.top(0).clone();
        match (&mut *upvalue.borrow_mut(), op) {
            (Upvalue::Open(place), Op::GetUpvalue(_)) => self.stack.push(self.stack[*place].clone()),
            (Upvalue::Closed(value), Op::GetUpvalue(_)) => self.stack.push(value.clone()),
            (Upvalue::Open(place), _) => self.stack[*place] = value,
            (Upvalue::Closed(old), _) => *old = value,
        };
    }
    fn closure(&mut self, function: usize, base: usize) {
        let upvalues = self.program.functions[function].captures.iter();
        let upvalues = upvalues.map(|(is_local, place)| match is_local {
            true => self.capture(base + *place as usize),
            false => self.closure_of(base).upvalues[*place as usize].clone(),
        });
        let upvalues = upvalues.collect();
        self.stack.push(Value::Closure(Rc::new(Closure { function, upvalues })));
    }
    fn capture(&mut self, place: usize) -> Rc<RefCell<Upvalue>> {
        match self.open.binary_search_by_key(&place, |it| it.0) {
            Ok(at) => self.open[at].1.clone(),
            Err(at) => {
                let new = Rc::new(RefCell::new(Upvalue::Open(place)));
                self.open.insert(at, (place, new.clone()));
                new
            }
        }
    }
    /// The upvalues of places from `from` on take what these hold.
    fn close(&mut self, from: usize) {
        while self.open.last().map_or(false, |it| it.0 >= from) {
            let (place, upvalue) = self.open.pop().expect("an open one");
            *upvalue.borrow_mut() = Upvalue::Closed(self.stack[place].clone());
        }
    }

    /// Calls what is below the receiver and so many arguments.
    fn call(&mut self, args: u32) -> Answer {
        let place = self.stack.len() - args as usize - 2;
        match self.stack[place].clone() {
            Value::Native(native) => self.native(native, args),
            Value::Closure(closure) => self.enter(closure.function, args),
            Value::Bound(bound) => {
                self.stack[place + 1] = bound.0.clone();
                self.stack[place] = Value::Closure(bound.1.clone());
                self.enter(bound.1.function, args)
            }
            Value::Class(class) => {
                let fields = RefCell::new(Vec::with_capacity(self.fields[class.number].len()));
                self.stack[place + 1] = Value::Instance(Rc::new(Instance { class: class.clone(), fields }));
                if let Some(init) = self.init.and_then(|name| class.method(name)) {
                    self.stack[place] = Value::Closure(init.clone());
                    return self.enter(init.function, args);
                }
                if args > 0 {
                    return wrong(format!("Expected 0 arguments but got {args}."));
                }
                self.stack.swap_remove(place);
                Ok(())
            }
            _ => wrong("Can only call functions and classes."),
        }
    }
    fn enter(&mut self, function: usize, args: u32) -> Answer {
        let arity = self.program.functions[function].arity;
        if args != arity {
            return wrong(format!("Expected {arity} arguments but got {args}."));
        }
        if self.calls.len() >= CALLS {
            return wrong("Stack overflow.");
        }
        self.calls.push(Call { function, pc: 0, base: self.stack.len() - args as usize - 1 });
        Ok(())
    }

    fn field(&self, instance: &Instance, name: u32) -> Option<Value> {
        let at = self.fields[instance.class.number].iter().position(|it| *it == name)?;
        instance.fields.borrow().get(at).filter(|it| !matches!(it, Value::Undefined)).cloned()
    }
    /// The receiver on the stack becomes a method of it.
    fn bind(&mut self, class: &Class, name: u32) -> Answer {
        match class.method(name) {
            Some(method) => {
                let receiver = self.pop();
                self.stack.push(Value::Bound(Rc::new((receiver, method))));
                Ok(())
            }
            None => wrong(format!("Undefined property '{}'.", self.program.texts[name as usize])),
        }
    }
    fn get_field(&mut self, name: u32) -> Answer {
        let instance = match self.top(0) {
            Value::Instance(instance) => instance.clone(),
            _ => return wrong("Only instances have properties."),
        };
        match self.field(&instance, name) {
            Some(value) => {
                self.reduce(1, value);
                Ok(())
            }
            None => self.bind(&instance.class, name),
        }
    }
    fn set_field(&mut self, name: u32) -> Answer {
        let value = self.pop();
        let instance = match self.pop() {
            Value::Instance(instance) => instance,
            _ => return wrong("Only instances have fields."),
        };
        let names = &mut self.fields[instance.class.number];
        let at = names.iter().position(|it| *it == name).unwrap_or_else(|| {
            names.push(name);
            names.len() - 1
        });
        let mut fields = instance.fields.borrow_mut();
        if fields.len() <= at {
            fields.resize(at + 1, Value::Undefined);
        }
        fields[at] = value.clone();
        self.stack.push(value);
        Ok(())
    }
    fn invoke(&mut self, name: u32, args: u32) -> Answer {
        let place = self.stack.len() - args as usize - 2;
        let instance = match &self.stack[place] {
            Value::Instance(instance) => instance.clone(),
            _ => return wrong("Only instances have methods."),
        };
        self.stack[place] = match (self.field(&instance, name), instance.class.method(name)) {
            (Some(value), _) => value,
            (_, Some(method)) => Value::Closure(method),
            _ => return wrong(format!("Undefined property '{}'.", self.program.texts[name as usize])),
        };
        self.call(args)
    }

    fn index(&mut self) -> Answer {
        let key = self.pop();
        let found = match (self.pop(), &key) {
            (Value::List(list), key) => list.borrow()[place_in(key, list.borrow().len())?].clone(),
            (Value::Map(map), Value::Text(key)) => map.borrow().get(&Key(key.clone())).cloned().unwrap_or(Value::Nil),
            (Value::Map(_), _) => return wrong("Only strings are keys."),
            (Value::Text(text), key) => {
                let at = place_in(key, text.len())?;
                Value::Text(self.interned.text(text.get(at..at + 1).unwrap_or("?")))
            }
            _ => return wrong("Only lists, maps and strings have items."),
        };
        self.stack.push(found);
        Ok(())
    }
    fn set_index(&mut self) -> Answer {
        let value = self.pop();
        let key = self.pop();
        match (self.pop(), key) {
            (Value::List(list), key) => {
                let at = place_in(&key, list.borrow().len())?;
                list.borrow_mut()[at] = value.clone();
            }
            (Value::Map(map), Value::Text(key)) => drop(map.borrow_mut().insert(Key(key), value.clone())),
            (Value::Map(_), _) => return wrong("Only strings are keys."),
            _ => return wrong("Only lists and maps take items."),
        }
        self.stack.push(value);
        Ok(())
    }

    fn native(&mut self, native: usize, args: u32) -> Answer {
        let (name, arity) = NATIVES[native];
        if args != arity {
            return wrong(format!("Expected {arity} arguments but got {args}."));
        }
        let result = match (name, self.top(1), self.top(0)) {
            ("map", ..) => Value::Map(Rc::default()),
            ("len", _, Value::List(list)) => Value::Number(list.borrow().len() as f64),
            ("len", _, Value::Map(map)) => Value::Number(map.borrow().len() as f64),
            ("len", _, Value::Text(text)) => Value::Number(text.len() as f64),
            ("len", ..) => return wrong("Only lists, maps and strings have a length."),
            ("push", Value::List(list), value) => {
                list.borrow_mut().push(value.clone());
                value.clone()
            }
            ("push", ..) => return wrong("Only lists can be pushed to."),
            ("has", Value::Map(map), Value::Text(key)) => Value::Bool(map.borrow().contains_key(&Key(key.clone()))),
            ("has", Value::Map(_), _) => return wrong("Only strings are keys."),
            ("has", ..) => return wrong("Only maps have keys."),
            (_, _, value) => {
                let shown = self.shown(value);
                Value::Text(self.interned.text(&shown))
            }
        };
        self.reduce(args as usize + 2, result);
        Ok(())
    }
    /// A value as it is printed.
    fn shown(&self, value: &Value) -> String {
        let function = |function: usize| format!("<fn {}>", self.program.functions[function].name);
        match value {
            Value::Undefined | Value::Nil => "nil".into(),
            Value::Bool(is) => is.to_string(),
            Value::Number(number) => number.to_string(),
            Value::Native(native) => format!("<native {}>", NATIVES[*native].0),
            Value::Text(text) => text.to_string(),
            Value::Closure(closure) => function(closure.function),
            Value::Bound(bound) => function(bound.1.function),
            Value::Class(class) => class.name.to_string(),
            Value::Instance(instance) => format!("{} instance", instance.class.name),
            Value::Map(map) => format!("<map of {}>", map.borrow().len()),
            Value::List(list) => format!("[{}]", list.borrow().iter().map(|it| self.shown(it)).collect::<Vec<_>>().join(", ")),
        }
    }
}

fn place_in(at: &Value, len: usize) -> Answer<usize> {
    match at {
        Value::Number(at) if *at >= 0.0 && *at < len as f64 && at.fract() == 0.0 => Ok(*at as usize),
        _ => wrong("Index out of range."),
    }
}

fn main() -> Result<(), Box<dyn std::error::Error>> {
    let source = std::env::args().nth(1).map_or_else(|| Ok("print \"a program?\";".into()), std::fs::read_to_string)?;
    let program = compile(&source)?;
    let mut vm = Vm::new(&program);
    let done = vm.run();
    vm.out.flush()?;
    if let Err(message) = done {
        println!("{}", program.stopped(&message, &vm.calls));
        drop(vm);
        std::process::exit(70);
    }
    Ok(())
}
