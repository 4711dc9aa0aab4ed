//! Compiles a Lox program for a stack machine. What it makes holds no value of a heap.
#[path = "scanner.rs"]
mod scanner;
use scanner::{scan, Kind, Token};

/// What the machine does. Places are counted from that of the call's receiver.
#[derive(Clone, Copy, Debug)]
pub enum Op {
    Number(f64),
    Text(u32),
    Nil,
    Bool(bool),
    Pop,
    /// Pushes the last value once more.
    Again,
    Pick(u32),
    /// Sets a place, and leaves the value.
    Store(u32),
    GetGlobal(u32),
    SetGlobal(u32),
    DefineGlobal(u32),
    GetUpvalue(u32),
    SetUpvalue(u32),
    /// Pops a value, which closures go on with.
    Close,
    GetField(u32),
    SetField(u32),
    GetSuper(u32),
    List(u32),
    Index,
    SetIndex,
    Equal,
    Less,
    Greater,
    Add,
    Sub,
    Mul,
    Div,
    Not,
    Negate,
    Print,
    Jump(u32),
    /// Leaves the value.
    JumpFalse(u32),
    /// Of so many arguments; the function and a receiver are below them.
    Call(u32),
    Invoke(u32, u32),
    Closure(u32),
    Return,
    /// Of a name and a number.
    Class(u32, u32),
    /// The last class takes the methods of the one below it.
    Inherit,
    Method(u32),
    /// What is thrown from here on is caught there, up to the end of this.
    Try(u32),
    EndTry,
    Throw,
}

#[derive(Debug, Default)]
pub struct Function {
    pub name: String,
    pub arity: u32,
    pub code: Vec<Op>,
    pub lines: Vec<u32>,
    /// Each a place of the function around it, or one of what that one captured.
    pub captures: Vec<(bool, u32)>,
}

#[derive(Debug, Default)]
pub struct Program {
    /// The last one is the program itself.
    pub functions: Vec<Function>,
    /// Texts and names, each once.
    pub texts: Vec<String>,
    pub globals: Vec<String>,
    pub classes: u32,
}

/// The functions that there are, which are the first globals, and how many arguments they take.
pub const NATIVES: [(&str, u32); 5] = [("len", 1), ("push", 2), ("map", 0), ("has", 2), ("str", 1)];

/// A call: its function, the next of its steps, and the place of its receiver.
#[derive(Clone, Copy, Debug)]
pub struct Call {
    pub function: usize,
    pub pc: usize,
    pub base: usize,
}

/// Where what is thrown is caught: in which of the open calls, at which of its steps, and how many values are left then.
#[derive(Clone, Copy, Debug)]
pub struct Handler {
    pub calls: usize,
    pub pc: usize,
    pub len: usize,
}

impl Program {
    /// What is printed where a program stops.
    #[allow(dead_code)]
    pub fn stopped(&self, message: &str, calls: &[Call]) -> String {
        let lines = calls.iter().rev().map(|call| {
            let function = &self.functions[call.function];
            let line = function.lines[call.pc.saturating_sub(1)];
            let name = if function.name.is_empty() { "script".into() } else { format!("{}()", function.name) };
            format!("\n[line {line}] in {name}")
        });
        let all: Vec<_> = lines.collect();
        let shown = if all.len() > 8 { [&all[..4], &["\n..".to_string()], &all[all.len() - 3..]].concat() } else { all };
        message.to_string() + &shown.concat()
    }
}

fn number_of(all: &mut Vec<String>, text: &str) -> u32 {
    let found = all.iter().position(|it| it == text);
    found.unwrap_or_else(|| {
        all.push(text.into());
        all.len() - 1
    }) as u32
}

struct Local<'s> {
    name: &'s str,
    depth: u32,
    is_captured: bool,
}
/// A function that is being compiled.
#[derive(Default)]
struct Scope<'s> {
    function: Function,
    is_init: bool,
    locals: Vec<Local<'s>>,
    depth: u32,
    /// How many blocks are open whose throws are caught.
    tries: u32,
}
impl Scope<'_> {
    fn find(&self, name: &str) -> Option<u32> {
        self.locals.iter().rposition(|it| it.name == name).map(|it| it as u32)
    }
    fn capture(&mut self, capture: (bool, u32)) -> u32 {
        let captures = &mut self.function.captures;
        let found = captures.iter().position(|it| *it == capture);
        found.unwrap_or_else(|| {
            captures.push(capture);
            captures.len() - 1
        }) as u32
    }
}

struct Compiler<'s> {
    tokens: Vec<Token<'s>>,
    at: usize,
    scopes: Vec<Scope<'s>>,
    program: Program,
    /// Of each class around, whether it has another one below it.
    classes: Vec<bool>,
}
type Answer<T = ()> = Result<T, String>;

pub fn compile(source: &str) -> Answer<Program> {
    let globals = NATIVES.iter().map(|it| it.0.to_string()).collect();
    let program = Program { globals, ..Program::default() };
    let mut compiler = Compiler { tokens: scan(source)?, at: 0, scopes: Vec::new(), program, classes: Vec::new() };
    compiler.begin_function("", "", false);
    while compiler.tokens[compiler.at].kind != Kind::End {
        compiler.declaration()?;
    }
    compiler.end_function();
    Ok(compiler.program)
}

impl<'s> Compiler<'s> {
    fn scope(&mut self) -> &mut Scope<'s> {
        self.scopes.last_mut().expect("a function")
    }
    fn emit(&mut self, op: Op) -> usize {
        let line = self.tokens[self.at.saturating_sub(1)].line;
        let function = &mut self.scope().function;
        function.code.push(op);
        function.lines.push(line);
        function.code.len() - 1
    }
    /// The step at `jump` goes on behind what there is.
    fn land(&mut self, jump: usize) {
        let code = &mut self.scope().function.code;
        let end = code.len() as u32;
        match &mut code[jump] {
            Op::Jump(to) | Op::JumpFalse(to) | Op::Try(to) => *to = end,
            other => unreachable!("{:?} is no jump", other),
        }
    }
    fn wrong<T>(&self, message: &str) -> Answer<T> {
        let token = self.tokens[self.at];
        Err(format!("[line {}] Error at '{}': {message}", token.line, token.text))
    }
    fn is(&self, text: &str) -> bool {
        let token = self.tokens[self.at];
        token.kind == Kind::Own && token.text == text
    }
    fn take(&mut self, text: &str) -> bool {
        let is = self.is(text);
        self.at += usize::from(is);
        is
    }
    fn expect(&mut self, text: &str) -> Answer {
        if self.take(text) {
            return Ok(());
        }
        self.wrong(&format!("Expect '{text}'."))
    }
    fn name(&mut self) -> Answer<&'s str> {
        let token = self.tokens[self.at];
        if token.kind != Kind::Name {
            return self.wrong("Expect a name.");
        }
        self.at += 1;
        Ok(token.text)
    }
    fn text(&mut self, text: &str) -> u32 {
        number_of(&mut self.program.texts, text)
    }

    fn begin_function(&mut self, name: &str, receiver: &'s str, is_init: bool) {
        let locals = vec![Local { name: receiver, depth: 0, is_captured: false }];
        let function = Function { name: name.into(), ..Function::default() };
        self.scopes.push(Scope { function, is_init, locals, ..Scope::default() });
    }
    /// Answers the number of the function.
    fn end_function(&mut self) -> u32 {
        self.emit_return();
        let scope = self.scopes.pop().expect("a function");
        self.program.functions.push(scope.function);
        self.program.functions.len() as u32 - 1
    }
    fn emit_return(&mut self) {
        let result = if self.scope().is_init { Op::Pick(0) } else { Op::Nil };
        self.emit(result);
        self.emit(Op::Return);
    }
    fn begin_block(&mut self) {
        self.scope().depth += 1;
    }
    fn end_block(&mut self) {
        let depth = self.scope().depth;
        self.scope().depth -= 1;
        while self.scope().locals.last().map_or(false, |it| it.depth == depth) {
            let local = self.scope().locals.pop().expect("a local");
            self.emit(if local.is_captured { Op::Close } else { Op::Pop });
        }
    }

    fn add_local(&mut self, name: &'s str) -> Answer {
        let depth = self.scope().depth;
        if self.scope().locals.iter().any(|it| it.depth == depth && it.name == name) {
            self.at -= 1;
            return self.wrong("Already a variable with this name in this scope.");
        }
        self.scope().locals.push(Local { name, depth, is_captured: false });
        Ok(())
    }
    /// Whether variables are locals here.
    fn is_local(&self) -> bool {
        self.scopes.len() > 1 || self.scopes[0].depth > 0
    }
    /// The last value becomes a variable: a local is where it is.
    fn define(&mut self, name: &'s str) -> Answer {
        if self.is_local() {
            return self.add_local(name);
        }
        let global = number_of(&mut self.program.globals, name);
        self.emit(Op::DefineGlobal(global));
        Ok(())
    }
    /// What the function at `level` captures of those around it.
    fn upvalue(&mut self, level: usize, name: &str) -> Option<u32> {
        let outer = level.checked_sub(1)?;
        let capture = match self.scopes[outer].find(name) {
            Some(place) => {
                self.scopes[outer].locals[place as usize].is_captured = true;
                (true, place)
            }
            None => (false, self.upvalue(outer, name)?),
        };
        Some(self.scopes[level].capture(capture))
    }
    /// The steps that get and set a variable.
    fn variable(&mut self, name: &str) -> (Op, Op) {
        let level = self.scopes.len() - 1;
        if let Some(place) = self.scopes[level].find(name) {
            return (Op::Pick(place), Op::Store(place));
        }
        if let Some(upvalue) = self.upvalue(level, name) {
            return (Op::GetUpvalue(upvalue), Op::SetUpvalue(upvalue));
        }
        let global = number_of(&mut self.program.globals, name);
        (Op::GetGlobal(global), Op::SetGlobal(global))
    }
    fn get(&mut self, name: &str) {
        let (get, _) = self.variable(name);
        self.emit(get);
    }

    fn declaration(&mut self) -> Answer {
        if self.take("class") {
            self.class()
        } else if self.take("fun") {
            let name = self.name()?;
            if self.is_local() {
                self.add_local(name)?; // so that it can call itself
                return self.function(name, "", false);
            }
            self.function(name, "", false)?;
            self.define(name)
        } else if self.take("var") {
            self.var()
        } else {
            self.statement()
        }
    }
    fn var(&mut self) -> Answer {
        let name = self.name()?;
        if self.take("=") {
            self.expression()?;
        } else {
            self.emit(Op::Nil);
        }
        self.expect(";")?;
        self.define(name)
    }
    fn function(&mut self, name: &'s str, receiver: &'s str, is_init: bool) -> Answer {
        self.begin_function(name, receiver, is_init);
        self.begin_block();
        self.expect("(")?;
        while !self.is(")") {
            let parameter = self.name()?;
            self.add_local(parameter)?;
            self.scope().function.arity += 1;
            if !self.take(",") {
                break;
            }
        }
        self.expect(")")?;
        self.expect("{")?;
        self.block()?;
        let number = self.end_function();
        self.emit(Op::Closure(number));
        Ok(())
    }
    fn class(&mut self) -> Answer {
        let name = self.name()?;
        let (text, number) = (self.text(name), self.program.classes);
        self.program.classes += 1;
        self.emit(Op::Class(text, number));
        self.define(name)?;
        let has_super = self.take("<");
        if has_super {
            let other = self.name()?;
            if other == name {
                return self.wrong("A class can't inherit from itself.");
            }
            self.get(other);
            self.begin_block();
            self.add_local("super")?;
        }
        self.classes.push(has_super);
        self.get(name);
        if has_super {
            self.emit(Op::Inherit);
        }
        // The class is a value on the stack meanwhile, which no name reaches.
        self.begin_block();
        self.add_local("")?;
        self.expect("{")?;
        while !self.is("}") {
            let method = self.name()?;
            self.function(method, "this", method == "init")?;
            let method = self.text(method);
            self.emit(Op::Method(method));
        }
        self.expect("}")?;
        self.end_block();
        self.classes.pop();
        if has_super {
            self.end_block();
        }
        Ok(())
    }

    fn block(&mut self) -> Answer {
        while !self.is("}") && self.tokens[self.at].kind != Kind::End {
            self.declaration()?;
        }
        self.expect("}")
    }
    fn statement(&mut self) -> Answer {
        if self.take("{") {
            self.begin_block();
            self.block()?;
            self.end_block();
            return Ok(());
        }
        if self.take("if") {
            return self.if_else();
        }
        if self.take("while") {
            return self.while_loop();
        }
        if self.take("for") {
            return self.for_loop();
        }
        if self.take("return") {
            return self.return_value();
        }
        if self.take("try") {
            return self.try_catch();
        }
        let op = if self.take("print") {
            Op::Print
        } else if self.take("throw") {
            Op::Throw
        } else {
            Op::Pop
        };
        self.expression()?;
        self.expect(";")?;
        self.emit(op);
        Ok(())
    }
    fn condition(&mut self) -> Answer<usize> {
        self.expect("(")?;
        self.expression()?;
        self.expect(")")?;
        let jump = self.emit(Op::JumpFalse(0));
        self.emit(Op::Pop);
        Ok(jump)
    }
    fn if_else(&mut self) -> Answer {
        let otherwise = self.condition()?;
        self.statement()?;
        let end = self.emit(Op::Jump(0));
        self.land(otherwise);
        self.emit(Op::Pop);
        if self.take("else") {
            self.statement()?;
        }
        self.land(end);
        Ok(())
    }
    fn here(&mut self) -> u32 {
        self.scope().function.code.len() as u32
    }
    fn while_loop(&mut self) -> Answer {
        let start = self.here();
        let end = self.condition()?;
        self.statement()?;
        self.emit(Op::Jump(start));
        self.land(end);
        self.emit(Op::Pop);
        Ok(())
    }
    fn for_loop(&mut self) -> Answer {
        self.begin_block();
        self.expect("(")?;
        if self.take("var") {
            self.var()?;
        } else if !self.take(";") {
            self.expression()?;
            self.expect(";")?;
            self.emit(Op::Pop);
        }
        let mut start = self.here();
        let mut end = None;
        if !self.take(";") {
            self.expression()?;
            self.expect(";")?;
            end = Some(self.emit(Op::JumpFalse(0)));
            self.emit(Op::Pop);
        }
        if !self.is(")") {
            let body = self.emit(Op::Jump(0));
            let step = self.here();
            self.expression()?;
            self.emit(Op::Pop);
            self.emit(Op::Jump(start));
            start = step;
            self.land(body);
        }
        self.expect(")")?;
        self.statement()?;
        self.emit(Op::Jump(start));
        if let Some(end) = end {
            self.land(end);
            self.emit(Op::Pop);
        }
        self.end_block();
        Ok(())
    }
    fn try_catch(&mut self) -> Answer {
        let start = self.emit(Op::Try(0));
        self.scope().tries += 1;
        self.expect("{")?;
        self.begin_block();
        self.block()?;
        self.end_block();
        self.scope().tries -= 1;
        self.emit(Op::EndTry);
        let end = self.emit(Op::Jump(0));
        self.land(start);
        // What was thrown is a value on the stack, which this names.
        self.expect("catch")?;
        self.expect("(")?;
        let name = self.name()?;
        self.begin_block();
        self.add_local(name)?;
        self.expect(")")?;
        self.expect("{")?;
        self.block()?;
        self.end_block();
        self.land(end);
        Ok(())
    }
    /// A return leaves the blocks whose throws are caught.
    fn end_tries(&mut self) {
        for _ in 0..self.scope().tries {
            self.emit(Op::EndTry);
        }
    }
    fn return_value(&mut self) -> Answer {
        if self.scopes.len() == 1 {
            return self.wrong("Can't return from top-level code.");
        }
        if self.take(";") {
            self.end_tries();
            self.emit_return();
            return Ok(());
        }
        if self.scope().is_init {
            return self.wrong("Can't return a value from an initializer.");
        }
        self.expression()?;
        self.expect(";")?;
        self.end_tries();
        self.emit(Op::Return);
        Ok(())
    }

    fn expression(&mut self) -> Answer {
        self.binary(1, true)
    }
    /// An expression whose signs bind as strongly as `least`, or more; 7 are those of one operand.
    fn binary(&mut self, least: u8, may_set: bool) -> Answer {
        self.prefix(may_set && least == 1)?;
        loop {
            let sign = self.tokens[self.at];
            let strength = match sign.text {
                _ if sign.kind != Kind::Own => return Ok(()),
                "or" => 1,
                "and" => 2,
                "==" | "!=" => 3,
                "<" | ">" | "<=" | ">=" => 4,
                "+" | "-" => 5,
                "*" | "/" => 6,
                _ => return Ok(()),
            };
            if strength < least {
                return Ok(());
            }
            self.at += 1;
            self.operator(sign.text, strength)?;
        }
    }
    fn operator(&mut self, sign: &str, strength: u8) -> Answer {
        if strength <= 2 {
            let mut end = self.emit(Op::JumpFalse(0));
            if sign == "or" {
                let otherwise = end;
                end = self.emit(Op::Jump(0));
                self.land(otherwise);
            }
            self.emit(Op::Pop);
            self.binary(strength + 1, false)?;
            self.land(end);
            return Ok(());
        }
        self.binary(strength + 1, false)?;
        self.emit(match sign {
            "==" | "!=" => Op::Equal,
            "<" | ">=" => Op::Less,
            ">" | "<=" => Op::Greater,
            "+" => Op::Add,
            "-" => Op::Sub,
            "*" => Op::Mul,
            _ => Op::Div,
        });
        if ["!=", ">=", "<="].contains(&sign) {
            self.emit(Op::Not);
        }
        Ok(())
    }
    fn prefix(&mut self, may_set: bool) -> Answer {
        let token = self.tokens[self.at];
        self.at += 1;
        match (token.kind, token.text) {
            (Kind::Number, text) => {
                let number = text.parse().expect("digits");
                self.emit(Op::Number(number));
            }
            (Kind::Text, text) => {
                let text = self.text(text);
                self.emit(Op::Text(text));
            }
            (Kind::Name, name) => {
                let (get, set) = self.variable(name);
                if may_set && self.take("=") {
                    self.expression()?;
                    self.emit(set);
                    return Ok(());
                }
                self.emit(get);
            }
            (Kind::Own, word) => self.word(word)?,
            (Kind::End, _) => {
                self.at -= 1;
                return self.wrong("Expect expression.");
            }
        }
        self.suffixes(may_set)
    }
    fn word(&mut self, word: &str) -> Answer {
        match word {
            "nil" => drop(self.emit(Op::Nil)),
            "true" | "false" => drop(self.emit(Op::Bool(word == "true"))),
            "(" => {
                self.expression()?;
                self.expect(")")?;
            }
            "-" | "!" => {
                self.binary(7, false)?;
                self.emit(if word == "-" { Op::Negate } else { Op::Not });
            }
            "[" => {
                let count = self.list("]")?;
                self.emit(Op::List(count));
            }
            "this" if !self.classes.is_empty() => self.get("this"),
            "super" if self.classes.last() == Some(&true) => {
                self.expect(".")?;
                let name = self.name()?;
                let name = self.text(name);
                self.get("this");
                self.get("super");
                self.emit(Op::GetSuper(name));
            }
            _ => {
                self.at -= 1;
                return self.wrong("Expect expression.");
            }
        }
        Ok(())
    }
    /// Expressions up to `end`.
    fn list(&mut self, end: &str) -> Answer<u32> {
        let mut count = 0;
        while !self.is(end) {
            self.expression()?;
            count += 1;
            if !self.take(",") {
                break;
            }
        }
        self.expect(end)?;
        Ok(count)
    }
    fn suffixes(&mut self, may_set: bool) -> Answer {
        loop {
            if self.take("(") {
                self.emit(Op::Nil);
                let count = self.list(")")?;
                self.emit(Op::Call(count));
            } else if self.take("[") {
                self.expression()?;
                self.expect("]")?;
                if may_set && self.take("=") {
                    self.expression()?;
                    self.emit(Op::SetIndex);
                    return Ok(());
                }
                self.emit(Op::Index);
            } else if self.take(".") {
                let name = self.name()?;
                let name = self.text(name);
                if self.take("(") {
                    self.emit(Op::Again);
                    let count = self.list(")")?;
                    self.emit(Op::Invoke(name, count));
                } else if may_set && self.take("=") {
                    self.expression()?;
                    self.emit(Op::SetField(name));
                    return Ok(());
                } else {
                    self.emit(Op::GetField(name));
                }
            } else {
                return Ok(());
            }
        }
    }
}
