//! Calls, instances, lists and maps.
use super::*;

impl<'h> Vm<'_, '_, 'h> {
    /// Calls what is below the receiver and so many arguments.
    pub fn call(&mut self, stack: &mut Stack<'_, 'h>, args: u32) -> Answer {
        let place = self.words.len() - args as usize - 2;
        if let Some(native) = self.words[place].native() {
            return self.native(stack, native, args);
        }
        let head = stack.scope(|g, s| headed(g, s.at(place)).map(|it| it.1));
        match head {
            Some(Head(Tag::Closure, function)) => self.enter(function, args),
            Some(Head(Tag::Bound, function)) => {
                self.put(stack, place + 1, |_, g, s| {
                    let bound = s.at(place).expect("a bound method").assume::<Bound>();
                    Ok((OBJECT, g.get(bound, Bound::receiver)?))
                })?;
                self.put(stack, place, |_, g, s| {
                    let bound = s.at(place).expect("a bound method").assume::<Bound>();
                    Ok(object(g.field(bound, Bound::method)?))
                })?;
                self.enter(function, args)
            }
            Some(Head(Tag::Class, number)) => self.instance(stack, place, number, args),
            _ => wrong("Can only call functions and classes."),
        }
    }
    fn enter(&mut self, function: u32, args: u32) -> Answer {
        let function = function as usize;
        let arity = self.program.functions[function].arity;
        if args != arity {
            return wrong(format!("Expected {arity} arguments but got {args}."));
        }
        if self.calls.len() >= CALLS {
            return wrong("Stack overflow.");
        }
        self.calls.push(Call { function, pc: 0, base: self.words.len() - args as usize - 1 });
        Ok(())
    }
    fn instance(&mut self, stack: &mut Stack<'_, 'h>, place: usize, number: u32, args: u32) -> Answer {
        self.put(stack, place + 1, |vm, g, s| {
            let class = s.at(place).expect("a class").assume();
            Ok(object(Instance::alloc(g, class, number, vm.fields[number as usize].len() as u32)?))
        })?;
        let names = stack.read(1 + args as usize, Class::names);
        if let Some((at, function)) = self.init.and_then(|init| self.names.place(names, init)) {
            self.put(stack, place, |_, g, s| {
                let class = s.at(place).expect("a class").assume();
                Ok(object(Class::method(g, class, at)?))
            })?;
            return self.enter(function, args);
        }
        if args > 0 {
            return wrong(format!("Expected 0 arguments but got {args}."));
        }
        self.store(stack, place);
        Ok(())
    }
    /// A method of a class, and its function.
    fn method<'g>(
        &self,
        g: &Frame<'g, 'h>,
        class: Local<'_, 'h, Class>,
        names: usize,
        name: u32,
    ) -> Result<Option<(Local<'g, 'h, Closure>, u32)>, Error> {
        match self.names.place(names, name) {
            Some((at, function)) => Ok(Some((Class::method(g, class, at)?, function))),
            None => Ok(None),
        }
    }
    fn method_of<'g>(
        &self,
        g: &Frame<'g, 'h>,
        instance: Local<'_, 'h, Instance>,
        name: u32,
    ) -> Result<Option<(Local<'g, 'h, Closure>, u32)>, Error> {
        let (class, names) = g.get_word(instance, Instance::class, Class::names)?.expect("a class");
        self.method(g, class, names, name)
    }
    /// Puts a method of the instance above into a place, if there is one, and answers its function.
    fn put_method(&mut self, stack: &mut Stack<'_, 'h>, place: usize, name: u32) -> Answer<Option<u32>> {
        let mut function = None;
        self.put(stack, place, |vm, g, s| {
            let instance = s.at(place + 1).expect("an instance").assume();
            match vm.method_of(g, instance, name)? {
                Some((method, number)) => {
                    function = Some(number);
                    Ok(object(method))
                }
                None => vm.at(g, s, place),
            }
        })?;
        Ok(function)
    }

    /// What a field of an instance holds, whose class has this number.
    fn field<'g>(
        &self,
        g: &Frame<'g, 'h>,
        (instance, number): (Local<'_, 'h, Instance>, u32),
        name: u32,
    ) -> Result<Option<Slot<'g, 'h>>, Error> {
        match self.fields[number as usize].iter().position(|it| *it == name) {
            Some(at) => Ok(Some(Instance::load(g, instance, at as u32)?).filter(|it| it.0 != UNDEFINED)),
            None => Ok(None),
        }
    }
    pub fn get_field(&mut self, stack: &mut Stack<'_, 'h>, name: u32) -> Answer {
        self.make(stack, 1, |vm, g, s| {
            let (instance, number) = match as_a::<Instance>(g, s.top(0), Tag::Instance) {
                Some(found) => found,
                None => return wrong("Only instances have properties."),
            };
            if let Some(found) = vm.field(g, (instance, number), name)? {
                return Ok(found);
            }
            match vm.method_of(g, instance, name)? {
                Some(method) => bound(g, instance, method),
                None => wrong(format!("Undefined property '{}'.", vm.name(name))),
            }
        })
    }
    pub fn set_field(&mut self, stack: &mut Stack<'_, 'h>, name: u32) -> Answer {
        stack.scope(|g, s| {
            let (instance, number) = match as_a::<Instance>(g, s.top(1), Tag::Instance) {
                Some(found) => found,
                None => return wrong("Only instances have fields."),
            };
            let fields = &mut self.fields[number as usize];
            let at = fields.iter().position(|it| *it == name).unwrap_or_else(|| {
                fields.push(name);
                fields.len() - 1
            });
            Ok(Instance::store(g, instance, at as u32, (self.top(0), s.top(0)))?)
        })?;
        self.store(stack, self.words.len() - 2);
        Ok(())
    }
    pub fn get_super(&mut self, stack: &mut Stack<'_, 'h>, name: u32) -> Answer {
        self.make(stack, 2, |vm, g, s| {
            let (instance, class) = (s.top(1).expect("an instance").assume(), s.top(0).expect("a class").assume());
            match vm.method(g, class, g.read(class, Class::names), name)? {
                Some(method) => bound(g, instance, method),
                None => wrong(format!("Undefined property '{}'.", vm.name(name))),
            }
        })
    }
    pub fn invoke(&mut self, stack: &mut Stack<'_, 'h>, name: u32, args: u32) -> Answer {
        let place = self.words.len() - args as usize - 2;
        let number = match stack.scope(|g, s| as_a::<Instance>(g, s.at(place), Tag::Instance).map(|it| it.1)) {
            Some(number) => number,
            None => return wrong("Only instances have methods."),
        };
        if self.fields[number as usize].contains(&name) {
            let mut is_field = false;
            self.put(stack, place, |vm, g, s| {
                let instance = s.at(place).expect("an instance").assume();
                let found = vm.field(g, (instance, number), name)?;
                is_field = found.is_some();
                found.map_or_else(|| vm.at(g, s, place), Ok)
            })?;
            if is_field {
                return self.call(stack, args);
            }
        }
        match self.put_method(stack, place, name)? {
            Some(function) => self.enter(function, args),
            None => wrong(format!("Undefined property '{}'.", self.name(name))),
        }
    }
    pub fn class(&mut self, stack: &mut Stack<'_, 'h>, name: u32, number: u32) -> Answer {
        self.make(stack, 0, |vm, g, _| {
            let name = g.item(vm.texts, name)?.expect("a name");
            Ok(object(Class::alloc(g, name, number)?))
        })
    }
    /// The class below takes a method, and this is popped.
    pub fn add_method(&mut self, stack: &mut Stack<'_, 'h>, name: u32) -> Answer {
        stack.scope(|g, s| {
            let (class, method) = (s.top(1).expect("a class").assume(), s.top(0).expect("a closure").assume());
            let (names, at) = self.names.with(g.read(class, Class::names), name, g.read(method, Closure::head).1);
            Class::set_method(g, class, at, method)?;
            g.write(class, Class::names, names);
            Ok::<_, Error>(())
        })?;
        self.truncate(stack, self.words.len() - 1);
        Ok(())
    }
    /// A class takes the methods of the one below it.
    pub fn inherit(&mut self, stack: &mut Stack<'_, 'h>) -> Answer {
        stack.scope(|g, s| {
            let (other, _) = match as_a::<Class>(g, s.top(1), Tag::Class) {
                Some(found) => found,
                None => return wrong("Superclass must be a class."),
            };
            let class = s.top(0).expect("a class").assume::<Class>();
            let names = g.read(other, Class::names);
            for at in 0..self.names.count(names) {
                g.scope(|g| Class::set_method(g, class, at, Class::method(g, other, at)?))?;
            }
            g.write(class, Class::names, names);
            Ok(())
        })
    }

    pub fn list(&mut self, stack: &mut Stack<'_, 'h>, count: u32) -> Answer {
        self.make(stack, count as usize, |vm, g, s| {
            let first = vm.words.len() - count as usize;
            Ok(object(List::alloc(g, count, |at| vm.value(s, first + at as usize))?))
        })
    }
    pub fn index(&mut self, stack: &mut Stack<'_, 'h>) -> Answer {
        self.make(stack, 2, |vm, g, s| {
            let key = vm.top(0).number();
            match headed(g, s.top(1)) {
                Some((it, Head(tag @ (Tag::List | Tag::Grown), count))) => {
                    let at = place_in(key, count as usize)?;
                    Ok(List::load(g, (it.assume(), tag), at as u32)?)
                }
                Some((it, Head(Tag::Map, _))) => {
                    let (found, object) = Map::get(g, it.assume(), key_of(g, s.top(0))?)?;
                    Ok((if found == UNDEFINED { NIL } else { found }, object))
                }
                Some((it, Head(Tag::Text, _))) => {
                    let at = place_in(key, g.text_len(it.assume()))?;
                    let letter = g.text(it.assume()).get(at..at + 1).unwrap_or("?").to_string();
                    Ok((OBJECT, Some(vm.interned.text(g, &letter)?.any())))
                }
                _ => wrong("Only lists, maps and strings have items."),
            }
        })
    }
    pub fn set_index(&mut self, stack: &mut Stack<'_, 'h>) -> Answer {
        stack.scope(|g, s| {
            let value = (self.top(0), s.top(0));
            match headed(g, s.top(2)) {
                Some((it, Head(tag @ (Tag::List | Tag::Grown), count))) => {
                    let at = place_in(self.top(1).number(), count as usize)?;
                    Ok(List::store(g, (it.assume(), tag), at as u32, value)?)
                }
                Some((it, Head(Tag::Map, count))) => Ok(Map::set(g, (it.assume(), count), key_of(g, s.top(1))?, value)?),
                _ => wrong("Only lists and maps take items."),
            }
        })?;
        self.store(stack, self.words.len() - 3);
        self.truncate(stack, self.words.len() - 1);
        Ok(())
    }

    fn native(&mut self, stack: &mut Stack<'_, 'h>, native: usize, args: u32) -> Answer {
        let (name, arity) = NATIVES[native];
        if args != arity {
            return wrong(format!("Expected {arity} arguments but got {args}."));
        }
        self.make(stack, args as usize + 2, |vm, g, s| match name {
            "map" => Ok(object(Map::alloc(g)?)),
            "len" => match headed(g, s.top(0)) {
                Some((_, Head(Tag::List | Tag::Grown | Tag::Map, count))) => Ok((Scalar::of(count.into()), None)),
                Some((it, Head(Tag::Text, _))) => Ok((Scalar::of(g.text_len(it.assume()) as f64), None)),
                _ => wrong("Only lists, maps and strings have a length."),
            },
            "push" => match headed(g, s.top(1)) {
                Some((it, Head(tag @ (Tag::List | Tag::Grown), count))) => {
                    List::push(g, (it.assume(), tag), count, (vm.top(0), s.top(0)))?;
                    vm.at(g, s, vm.words.len() - 1)
                }
                _ => wrong("Only lists can be pushed to."),
            },
            "has" => match as_a::<Map>(g, s.top(1), Tag::Map) {
                Some((map, _)) => {
                    let key = key_of(g, s.top(0))?;
                    Ok((Scalar::truth(Map::get(g, map, key)?.0 != UNDEFINED), None))
                }
                None => wrong("Only maps have keys."),
            },
            _ => {
                let shown = vm.shown(g, vm.top(0), s.top(0))?;
                Ok((OBJECT, Some(vm.interned.text(g, &shown)?.any())))
            }
        })
    }
    /// A value as it is printed.
    pub fn shown(&self, g: &mut Frame<'_, 'h>, word: Scalar, it: Option<Local<'_, 'h>>) -> Answer<String> {
        let it = match it {
            Some(it) => it,
            None => return Ok(plain(word)),
        };
        let Head(tag, number) = g.read(it.assume(), Tagged::head);
        g.scope(|g| match tag {
            Tag::Text => Ok(g.text(it.assume())),
            Tag::Closure | Tag::Bound => Ok(format!("<fn {}>", self.program.functions[number as usize].name)),
            Tag::Class => Ok(g.text(g.field(it.assume(), Class::name)?)),
            Tag::Instance => {
                let class = g.field(it.assume(), Instance::class)?;
                Ok(g.text(g.field(class, Class::name)?) + " instance")
            }
            Tag::Map => Ok(format!("<map of {number}>")),
            Tag::List | Tag::Grown => {
                let mut all = Vec::new();
                for at in 0..number {
                    all.push(g.scope(|g| {
                        let (word, item) = List::load(g, (it.assume(), tag), at)?;
                        self.shown(g, word, item)
                    })?);
                }
                Ok(format!("[{}]", all.join(", ")))
            }
        })
    }
}

fn bound<'f, 'h>(
    g: &Frame<'f, 'h>,
    receiver: Local<'_, 'h, Instance>,
    (method, function): (Local<'_, 'h, Closure>, u32),
) -> Answer<Slot<'f, 'h>> {
    Ok(object(g.new::<Bound>(|p| {
        p.put(Bound::receiver, receiver);
        p.put(Bound::method, method);
        p.write(Bound::head, Head(Tag::Bound, function));
    })?))
}
fn key_of<'f, 'h>(g: &Frame<'_, 'h>, key: Option<Local<'f, 'h>>) -> Answer<Local<'f, 'h>> {
    as_a::<Text>(g, key, Tag::Text).map_or_else(|| wrong("Only strings are keys."), |(it, _)| Ok(it.any()))
}
fn place_in(at: Option<f64>, len: usize) -> Answer<usize> {
    let place = at.filter(|it| *it >= 0.0 && *it < len as f64 && it.fract() == 0.0);
    place.map_or_else(|| wrong("Index out of range."), |it| Ok(it as usize))
}
/// A value without an object.
fn plain(word: Scalar) -> String {
    match (word, word.number(), word.native()) {
        (_, Some(number), _) => number.to_string(),
        (_, _, Some(native)) => format!("<native {}>", NATIVES[native].0),
        (TRUE, ..) => "true".into(),
        (FALSE, ..) => "false".into(),
        _ => "nil".into(),
    }
}
