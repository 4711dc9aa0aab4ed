use g1heap::*;

layout! { struct Int { words { n: u64 } } }

#[test]
fn a_stack_as_a_vec() {
    let sizes = Sizes::default().regions(16).words(64).buffer(7).registers(24);
    let mut heap = Heap::new(&sizes).unwrap();
    let mut seed = 88172645463325252u64;
    let mut next = move |most: usize| {
        seed ^= seed << 13;
        seed ^= seed >> 7;
        seed ^= seed << 17;
        (seed >> 9) as usize % most
    };
    heap.run(|f| {
        let under = f.alloc::<Int>().unwrap();
        f.write(under, Int::n, 77);
        f.stack(|stack| {
            let mut model: Vec<Option<u64>> = Vec::new();
            for step in 0..200_000u64 {
                let len = model.len();
                match next(9) {
                    0 if stack.push(Nil).is_ok() => model.push(None),
                    1 if stack.push(under).is_ok() => model.push(Some(77)),
                    2 | 3 => {
                        let args = next(len.min(3) + 1);
                        let done = stack.reduce(args, |g, s| -> Result<_, Error> {
                            for below in 0..args {
                                assert_eq!(s.top(below).map(|it| g.read(it.assume(), Int::n)), model[len - 1 - below]);
                            }
                            let it = g.alloc()?;
                            g.write(it, Int::n, step);
                            Ok(if step % 5 == 0 { None } else { Some(it.any()) })
                        });
                        match done {
                            Ok(()) => {
                                model.truncate(len - args);
                                model.push(if step % 5 == 0 { None } else { Some(step) });
                            }
                            Err(error) => assert_eq!((error, len), (Error::NoRegisters, 23)),
                        }
                    }
                    4 if len > 0 => {
                        let at = next(len);
                        if stack.pick(at).is_ok() {
                            model.push(model[at]);
                        }
                    }
                    5 if len > 0 => {
                        let at = next(len);
                        stack.store(at);
                        let last = model.pop().unwrap();
                        if at < len - 1 {
                            model[at] = last;
                        }
                    }
                    7 if len > 0 => {
                        let at = next(len);
                        let done = stack.replace(at, |g, s| -> Result<_, Error> {
                            assert_eq!(s.at(at).map(|it| g.read(it.assume(), Int::n)), model[at]);
                            let it = g.alloc()?;
                            g.write(it, Int::n, step);
                            Ok(if step % 5 == 0 { None } else { Some(it.any()) })
                        });
                        match done {
                            Ok(()) => model[at] = if step % 5 == 0 { None } else { Some(step) },
                            Err(error) => assert_eq!((error, len), (Error::NoRegisters, 23)),
                        }
                    }
                    6 if next(4) == 0 => {
                        let to = next(len + 1);
                        stack.truncate(to);
                        model.truncate(to);
                    }
                    _ => {}
                }
                assert_eq!(stack.len(), model.len());
                if step % 16 == 0 {
                    stack.scope(|g, s| {
                        let all: Vec<_> = (0..s.len()).map(|i| s.at(i).map(|it| g.read(it.assume(), Int::n))).collect();
                        assert_eq!(all, model);
                        if step % 1024 == 0 {
                            g.collect();
                            let held: std::collections::BTreeSet<_> = model.iter().flatten().copied().chain([77]).collect();
                            assert_eq!(g.steps().live_words(), 3 * held.len() as u64);
                        }
                    });
                }
            }
        })
    });
}

#[test]
#[should_panic(expected = "there is no such value")]
fn a_place_above_the_stack_is_not_replaced() {
    let mut heap = Heap::new(&Sizes::default()).unwrap();
    heap.run(|f| f.stack(|stack| stack.replace(0, |_, _| Ok::<_, Error>(None)))).unwrap();
}
