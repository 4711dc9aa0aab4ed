//! A small Lisp: quote, if, lambda, define; integers, pairs, symbols, strings. Lists, environments, functions and frames are the heap's.
//!
//!     lisp [FILE]      a program of its own where FILE is left out
use g1heap::{layout, Any, Error, Frame, Global, Heap, Local, Sizes, Text};
use std::fmt;

layout! {
    /// What all objects begin with.
    struct Tagged { words { tag: u8 } }
    struct Int { words { tag: u8, value: i64 } }
    struct Str { pointers { text: Text } words { tag: u8 } }
    /// A name by its number, or one of `PRIMITIVES`.
    struct Symbol { words { tag: u8, id: usize } }
    struct Cons { pointers { car: Any, cdr: Any } words { tag: u8 } }
    struct Lambda { pointers { names: Any, body: Any, env: Any } words { tag: u8 } }
    /// A list of pairs of names and values: a Cons of Conses.
    struct Env { pointers { first: Cons, rest: Env } words { tag: u8 } }
}
const INT: u8 = 0;
const SYMBOL: u8 = 1;
const CONS: u8 = 2;
const LAMBDA: u8 = 3;
const PRIMITIVE: u8 = 4;
const STR: u8 = 5;
const PRIMITIVES: [&str; 9] = ["+", "-", "<", "=", "cons", "car", "cdr", "null", "append"];

/// The empty list is nil.
type Value<'f, 'h> = Option<Local<'f, 'h>>;
type Answer<'f, 'h> = Result<Value<'f, 'h>, Wrong>;
type Tokens = std::iter::Peekable<std::vec::IntoIter<String>>;

#[derive(Debug)]
enum Wrong {
    Heap(Error),
    IsNo(&'static str),
    Unbound(String),
    Text(&'static str),
}
impl From<Error> for Wrong {
    fn from(error: Error) -> Self {
        Wrong::Heap(error)
    }
}
impl fmt::Display for Wrong {
    fn fmt(&self, f: &mut fmt::Formatter<'_>) -> fmt::Result {
        match self {
            Wrong::Heap(error) => error.fmt(f),
            Wrong::IsNo(kind) => write!(f, "that is no {kind}"),
            Wrong::Unbound(name) => write!(f, "a name that isn't defined: {name}"),
            Wrong::Text(what) => f.write_str(what),
        }
    }
}
impl std::error::Error for Wrong {}

fn tag<'h>(f: &Frame<'_, 'h>, value: Value<'_, 'h>) -> Option<u8> {
    value.map(|it| f.read(it.assume(), Tagged::tag))
}
/// The object as one of a layout, where it has this tag.
fn as_a<'f, 'h, T>(f: &Frame<'_, 'h>, value: Value<'f, 'h>, wanted: u8, kind: &'static str) -> Result<Local<'f, 'h, T>, Wrong> {
    match value {
        Some(it) if f.read(it.assume(), Tagged::tag) == wanted => Ok(it.assume()),
        _ => Err(Wrong::IsNo(kind)),
    }
}
fn int<'f, 'h>(f: &Frame<'f, 'h>, value: i64) -> Answer<'f, 'h> {
    let it = f.alloc()?;
    f.write(it, Int::value, value);
    Ok(Some(it.any()))
}
fn number<'h>(f: &Frame<'_, 'h>, value: Value<'_, 'h>) -> Result<i64, Wrong> {
    Ok(f.read(as_a(f, value, INT, "integer")?, Int::value))
}
fn string<'f, 'h>(f: &Frame<'f, 'h>, text: &str) -> Answer<'f, 'h> {
    let it = f.alloc()?;
    f.write(it, Str::tag, STR);
    f.put(it, Str::text, f.alloc_text(text)?);
    Ok(Some(it.any()))
}
fn symbol<'f, 'h>(f: &Frame<'f, 'h>, tag: u8, id: usize) -> Answer<'f, 'h> {
    let it = f.alloc()?;
    f.write(it, Symbol::tag, tag);
    f.write(it, Symbol::id, id);
    Ok(Some(it.any()))
}
fn cons<'f, 'h>(f: &Frame<'f, 'h>, car: Value<'_, 'h>, cdr: Value<'_, 'h>) -> Answer<'f, 'h> {
    let it = f.alloc()?;
    f.write(it, Cons::tag, CONS);
    f.put(it, Cons::car, car);
    f.put(it, Cons::cdr, cdr);
    Ok(Some(it.any()))
}
fn car<'f, 'h>(f: &Frame<'f, 'h>, value: Value<'_, 'h>) -> Answer<'f, 'h> {
    Ok(f.get(as_a(f, value, CONS, "pair")?, Cons::car)?)
}
fn cdr<'f, 'h>(f: &Frame<'f, 'h>, value: Value<'_, 'h>) -> Answer<'f, 'h> {
    Ok(f.get(as_a(f, value, CONS, "pair")?, Cons::cdr)?)
}
fn text<'h>(f: &mut Frame<'_, 'h>, value: Value<'_, 'h>) -> Result<String, Wrong> {
    let text = f.lift(|g| g.get(as_a(g, value, STR, "string")?, Str::text)?.ok_or(Wrong::IsNo("string")))?;
    Ok(f.text(text))
}

struct Lisp {
    names: Vec<String>,
    globals: Global<Env>,
}

impl Lisp {
    fn id(&mut self, name: &str) -> usize {
        let found = self.names.iter().position(|it| it == name);
        found.unwrap_or_else(|| {
            self.names.push(name.into());
            self.names.len() - 1
        })
    }

    fn read<'f, 'h>(&mut self, f: &mut Frame<'f, 'h>, tokens: &mut Tokens) -> Answer<'f, 'h> {
        let token = tokens.next().ok_or(Wrong::Text("the text ends too early"))?;
        match token.as_str() {
            "(" => self.read_rest(f, tokens),
            ")" => Err(Wrong::Text("a ) without its (")),
            word => match (word.parse(), word.strip_prefix('"')) {
                (Ok(value), _) => int(f, value),
                (_, Some(text)) => string(f, text),
                _ => symbol(f, SYMBOL, self.id(word)),
            },
        }
    }
    fn read_rest<'f, 'h>(&mut self, f: &mut Frame<'f, 'h>, tokens: &mut Tokens) -> Answer<'f, 'h> {
        if tokens.next_if(|it| it == ")").is_some() {
            return Ok(None);
        }
        f.lift_option(|g| {
            let first = self.read(g, tokens)?;
            let rest = self.read_rest(g, tokens)?;
            cons(g, first, rest)
        })
    }
    fn write<'h>(&self, f: &mut Frame<'_, 'h>, value: Value<'_, 'h>) -> Result<String, Wrong> {
        match (tag(f, value), value) {
            (Some(INT), _) => Ok(number(f, value)?.to_string()),
            (Some(STR), _) => Ok(format!("{:?}", text(f, value)?)),
            (Some(SYMBOL), Some(it)) => Ok(self.names[f.read(it.assume(), Symbol::id)].clone()),
            (Some(CONS), Some(it)) => {
                let (mut all, mut at) = (Vec::new(), f.var(it)?);
                while tag(f, at.local()) == Some(CONS) {
                    f.scope(|g| {
                        let first = car(g, at.local())?;
                        all.push(self.write(g, first)?);
                        at.set(g, cdr(g, at.local())?);
                        Ok::<_, Wrong>(())
                    })?;
                }
                let end = if at.is_nil() { String::new() } else { format!(" . {}", self.write(f, at.local())?) };
                Ok(format!("({}{end})", all.join(" ")))
            }
            (None, _) => Ok("()".into()),
            _ => Ok("a function".into()),
        }
    }

    /// The pair of a name and its value that comes first.
    fn find<'f, 'h>(
        &self,
        f: &mut Frame<'f, 'h>,
        id: usize,
        list: Option<Local<'_, 'h, Env>>,
    ) -> Result<Option<Local<'f, 'h, Cons>>, Wrong> {
        f.lift_option(|g| {
            let (mut entry, mut name) = (g.nil_var::<Cons>()?, g.nil_var::<Any>()?);
            let mut at = g.var(list)?;
            while let Some(env) = at.local() {
                entry.get(g, env, Env::first);
                let pair = entry.local().ok_or(Wrong::IsNo("pair"))?;
                name.get(g, pair, Cons::car);
                if g.read(as_a(g, name.local(), SYMBOL, "name")?, Symbol::id) == id {
                    return Ok(entry.into_local());
                }
                at.follow(g, Env::rest);
            }
            Ok(None)
        })
    }
    fn value_of<'f, 'h>(&self, f: &mut Frame<'f, 'h>, id: usize, env: Value<'_, 'h>) -> Answer<'f, 'h> {
        f.lift_option(|g| {
            let found = match self.find(g, id, env.map(Local::assume))? {
                Some(entry) => Some(entry),
                None => {
                    let globals = g.load(self.globals)?;
                    self.find(g, id, globals)?
                }
            };
            let entry = found.ok_or_else(|| Wrong::Unbound(self.names[id].clone()))?;
            Ok(g.get(entry, Cons::cdr)?)
        })
    }
    fn define<'h>(&mut self, f: &mut Frame<'_, 'h>, name: Value<'_, 'h>, value: Value<'_, 'h>) -> Result<(), Wrong> {
        f.scope(|g| {
            as_a::<Symbol>(g, name, SYMBOL, "name")?;
            let entry = cons(g, name, value)?;
            let list = cons(g, entry, g.load(self.globals)?.map(Local::any))?;
            Ok(g.save(self.globals, list.map(Local::assume))?)
        })
    }

    fn eval<'f, 'h>(&mut self, f: &mut Frame<'f, 'h>, x: Value<'_, 'h>, env: Value<'_, 'h>) -> Answer<'f, 'h> {
        match (tag(f, x), x) {
            (Some(SYMBOL), Some(it)) => self.value_of(f, f.read(it.assume(), Symbol::id), env),
            (Some(CONS), _) => f.lift_option(|g| {
                let (head, rest) = (car(g, x)?, cdr(g, x)?);
                if let Ok(name) = as_a(g, head, SYMBOL, "name") {
                    let name = self.names[g.read(name, Symbol::id)].clone();
                    if ["quote", "if", "lambda", "define"].contains(&name.as_str()) {
                        return self.special(g, &name, rest, env);
                    }
                }
                let function = self.eval(g, head, env)?;
                let arguments = self.eval_all(g, rest, env)?;
                self.apply(g, function, arguments)
            }),
            _ => Ok(x.map(|it| f.copy(it)).transpose()?),
        }
    }
    fn special<'f, 'h>(&mut self, g: &mut Frame<'f, 'h>, name: &str, rest: Value<'_, 'h>, env: Value<'_, 'h>) -> Answer<'f, 'h> {
        match name {
            "quote" => car(g, rest),
            "if" => {
                let (test, others) = (car(g, rest)?, cdr(g, rest)?);
                let branch = if self.eval(g, test, env)?.is_some() { others } else { cdr(g, others)? };
                let branch = car(g, branch)?;
                self.eval(g, branch, env)
            }
            "lambda" => {
                let it = g.alloc()?;
                g.write(it, Lambda::tag, LAMBDA);
                g.put(it, Lambda::names, car(g, rest)?);
                g.put(it, Lambda::body, car(g, cdr(g, rest)?)?);
                g.put(it, Lambda::env, env);
                Ok(Some(it.any()))
            }
            _ => {
                let (name, value) = (car(g, rest)?, car(g, cdr(g, rest)?)?);
                let value = self.eval(g, value, env)?;
                self.define(g, name, value)?;
                Ok(name)
            }
        }
    }
    fn eval_all<'f, 'h>(&mut self, f: &mut Frame<'f, 'h>, list: Value<'_, 'h>, env: Value<'_, 'h>) -> Answer<'f, 'h> {
        if list.is_none() {
            return Ok(None);
        }
        f.lift_option(|g| {
            let (first, rest) = (car(g, list)?, cdr(g, list)?);
            let (first, rest) = (self.eval(g, first, env)?, self.eval_all(g, rest, env)?);
            cons(g, first, rest)
        })
    }
    fn apply<'f, 'h>(&mut self, f: &mut Frame<'f, 'h>, function: Value<'_, 'h>, arguments: Value<'_, 'h>) -> Answer<'f, 'h> {
        if let Ok(primitive) = as_a(f, function, PRIMITIVE, "primitive") {
            return f.lift_option(|g| call(g, g.read(primitive, Symbol::id), arguments));
        }
        f.lift_option(|g| {
            let lambda = as_a(g, function, LAMBDA, "function")?;
            let (mut names, mut values) = (g.var(g.get(lambda, Lambda::names)?)?, g.var(arguments)?);
            let mut env = g.var(g.get(lambda, Lambda::env)?)?;
            while !names.is_nil() {
                g.scope(|h| {
                    let entry = cons(h, car(h, names.local())?, car(h, values.local())?)?;
                    env.set(h, cons(h, entry, env.local())?);
                    names.set(h, cdr(h, names.local())?);
                    values.set(h, cdr(h, values.local())?);
                    Ok::<_, Wrong>(())
                })?;
            }
            let (body, env) = (g.get(lambda, Lambda::body)?, env.into_local());
            self.eval(g, body, env)
        })
    }
}

fn call<'f, 'h>(g: &mut Frame<'f, 'h>, primitive: usize, arguments: Value<'_, 'h>) -> Answer<'f, 'h> {
    let first = car(g, arguments)?;
    let second = |g: &Frame<'f, 'h>| car(g, cdr(g, arguments)?);
    let truth = |is: bool| if is { int(g, 1) } else { Ok(None) };
    match PRIMITIVES[primitive] {
        "+" => int(g, number(g, first)?.wrapping_add(number(g, second(g)?)?)),
        "-" => int(g, number(g, first)?.wrapping_sub(number(g, second(g)?)?)),
        "<" => truth(number(g, first)? < number(g, second(g)?)?),
        "=" => truth(number(g, first)? == number(g, second(g)?)?),
        "cons" => cons(g, first, second(g)?),
        "car" => car(g, first),
        "cdr" => cdr(g, first),
        "null" => truth(first.is_none()),
        _ => {
            let second = second(g)?;
            let both = text(g, first)? + &text(g, second)?;
            string(g, &both)
        }
    }
}

/// Words, parentheses and strings; a string's token begins with its quote, and has no end.
fn tokens(program: &str) -> Tokens {
    let mut all = Vec::new();
    for (place, part) in program.split('"').enumerate() {
        if place % 2 == 1 {
            all.push(format!("\"{part}"));
        } else {
            all.extend(part.replace('(', " ( ").replace(')', " ) ").split_whitespace().map(String::from));
        }
    }
    all.into_iter().peekable()
}

const PROGRAM: &str = r#"
    (define fib (lambda (n) (if (< n 2) n (+ (fib (- n 1)) (fib (- n 2))))))
    (define upto (lambda (n) (if (= n 0) (quote ()) (cons n (upto (- n 1))))))
    (define sum (lambda (l) (if (null l) 0 (+ (car l) (sum (cdr l))))))
    (fib 18)
    (sum (upto 500))
    (quote (a (b) "c"))
    (append "one and " "two")
    (cons fib (cons 1 2))
"#;

fn main() -> Result<(), Box<dyn std::error::Error>> {
    let program = std::env::args().nth(1).map_or_else(|| Ok(PROGRAM.into()), std::fs::read_to_string)?;
    let mut heap = Heap::new(&Sizes::default().registers(65536))?;
    let mut lisp = Lisp { names: Vec::new(), globals: heap.new_global()? };
    heap.run(|f| -> Result<(), Wrong> {
        for (number, name) in PRIMITIVES.iter().enumerate() {
            f.scope(|g| {
                let (name, primitive) = (symbol(g, SYMBOL, lisp.id(name))?, symbol(g, PRIMITIVE, number)?);
                lisp.define(g, name, primitive)
            })?;
        }
        let mut tokens = tokens(&program);
        while tokens.peek().is_some() {
            let line = f.scope(|g| {
                let x = lisp.read(g, &mut tokens)?;
                let value = lisp.eval(g, x, None)?;
                lisp.write(g, value)
            })?;
            println!("{line}");
        }
        Ok(())
    })?;
    if std::env::var_os("VERBOSE").is_some() {
        eprintln!("{:?}", heap.counts());
    }
    Ok(())
}
