//! Objects of any length.
use g1heap::*;

layout! { struct Symbol { pointers { name: Text, also: Any } } }

fn heap() -> Heap {
    Heap::new(&Sizes::default().regions(16).words(64).buffer(7).registers(16)).unwrap()
}

#[test]
fn bytes_of_each_length() {
    heap().run(|f| {
        for len in (0..70).chain(250..262).chain([500, 511, 512, 513, 800]) {
            f.scope(|g| {
                let all: Vec<u8> = (0..len).map(|it| (it * 7 + len) as u8).collect();
                let object = g.alloc_bytes(&all).unwrap();
                assert_eq!((g.bytes(object), g.bytes_len(object)), (all, len));
                assert_eq!(g.shape(object), (0, 2 + len as u32 / 8));
            });
        }
        assert!(f.counts().cycles > 0);
        assert_eq!(f.alloc_bytes(&[0; 10_000]).unwrap_err(), Error::TooBig);
    });
}

#[test]
fn a_byte_is_where_it_is_said_to_be() {
    heap().run(|f| {
        let object = f.alloc_bytes(&[1, 2, 3, 4, 5, 6, 7, 8, 9]).unwrap();
        assert_eq!(f.words(object), [0, 0x0807_0605_0403_0201, 0x0600_0000_0000_0009]);
    });
}

#[test]
fn words_of_the_programs_own() {
    heap().run(|f| {
        for len in (0..20).chain(240..260).chain([504, 800]) {
            f.scope(|g| {
                let text = "x".repeat(len);
                let (one, other) = (g.alloc_text_own(&text, 7u8).unwrap(), g.alloc_bytes_own(text.as_bytes(), -1i64).unwrap());
                assert_eq!((g.read(one, Text::own::<u8>()), g.read(other, Bytes::own::<i64>())), (7, -1));
                assert_eq!((g.text(one), g.bytes(other)), (text.clone(), text.clone().into_bytes()));
                assert_eq!(g.words(one)[1..], g.words(g.alloc_text(&text).unwrap())[1..]);
            });
        }
    });
}

#[test]
fn texts_stay_while_objects_move() {
    heap().run(|f| {
        let texts = ["", "λ", "eine längere Zeile, die nicht in ein Wort passt", "12345678"];
        let symbols: Vec<_> = texts
            .map(|text| {
                let symbol = f.alloc::<Symbol>().unwrap();
                let mut name = f.nil_var().unwrap();
                f.scope(|g| name.set(g, g.alloc_text(text).unwrap()));
                f.put(symbol, Symbol::name, &name);
                f.put(symbol, Symbol::also, &name);
                symbol
            })
            .to_vec();
        for _ in 0..300 {
            f.scope(|g| g.alloc_any(3, 0, 9).map(drop)).unwrap();
        }
        f.collect();
        for (symbol, text) in symbols.into_iter().zip(texts) {
            f.scope(|g| {
                let name = g.get(symbol, Symbol::name).unwrap().unwrap();
                assert_eq!((g.text(name).as_str(), g.text_len(name)), (text, text.len()));
            });
        }
    });
}

#[test]
fn what_is_no_text_is_told() {
    heap().run(|f| {
        let bytes = f.alloc_bytes(b"a\xffb").unwrap();
        assert_eq!(f.text(bytes.any().assume()), "a\u{fffd}b");
    });
}

#[test]
#[should_panic(expected = "isn't of the layout")]
fn a_length_that_is_wrong_panics() {
    heap().run(|f| f.bytes(f.alloc_filled(&[], &[1, u64::MAX]).unwrap().assume()));
}

#[test]
#[should_panic(expected = "isn't of the layout")]
fn what_has_no_length_panics() {
    heap().run(|f| f.bytes_len(f.alloc_filled(&[], &[1]).unwrap().assume()));
}

#[test]
fn runs_of_words() {
    heap().run(|f| {
        let object = f.alloc_any(1, 1, 100).unwrap();
        let all: Vec<u64> = (1..=100).collect();
        f.write_words(object, 0, &all).unwrap();
        assert_eq!(f.words(object), all);
        let mut some = [0; 40];
        f.read_words(object, 60, &mut some).unwrap();
        assert_eq!(some[..], all[60..]);
        assert_eq!(f.read_words(object, 61, &mut some), Err(Error::NoField));
        assert_eq!(some[..], all[60..]);
        assert_eq!(f.write_words(object, 61, &some), Err(Error::NoField));
        assert_eq!(f.write_words(object, u32::MAX, &some), Err(Error::NoField));
        assert_eq!(f.words(object), all);
        assert_eq!((f.read_words(object, 100, &mut []), f.write_words(object, 100, &[])), (Ok(()), Ok(())));
        assert_eq!((f.read_words(object, 101, &mut []), f.write_words(object, 101, &[])), (Err(Error::NoField), Err(Error::NoField)));
    });
}

#[test]
fn filled_objects() {
    heap().run(|f| {
        let one = f.alloc_filled(&[], &[]).unwrap();
        let two = f.alloc_filled(&[Some(one), None, Some(one)], &[5, 6]).unwrap();
        assert_eq!((f.shape(two), f.words(two), f.weaks(two)), ((3, 2), vec![5, 6], 0));
        assert!(f.get_at(two, 1).unwrap().is_none() && f.same(f.get_at(two, 2).unwrap().unwrap(), one));
        assert_eq!(f.alloc_filled(&[], &[0; 2000]).unwrap_err(), Error::TooBig);
    });
}

#[test]
fn arrays() {
    heap().run(|f| {
        let array = f.alloc_array::<Symbol>(50).unwrap();
        for index in 0..50 {
            f.scope(|g| g.set_item(array, index, g.alloc().unwrap())).unwrap();
        }
        f.set_item(array, 7, Nil).unwrap();
        assert_eq!(f.array_len(array), 50);
        for index in 0..50 {
            assert_eq!(f.scope(|g| g.item(array, index).unwrap().is_some()), index != 7);
        }
        assert_eq!((f.item(array, 50).unwrap_err(), f.set_item(array, 50, Nil)), (Error::NoField, Err(Error::NoField)));
        let holder = f.alloc::<Symbol>().unwrap();
        f.put(holder, Symbol::also, array); // of any layout
    });
}

/// Texts of lengths about those of a word and of what is read at once, of characters of each length.
fn texts() -> Vec<String> {
    let lengths = (0..20).chain(80..90).chain(250..262).chain(505..518);
    lengths.flat_map(|len| ["a", "λ", "€", "𝄞"].map(|it| "x".repeat(len % 7) + &it.repeat(len / it.len()))).collect()
}

#[test]
fn texts_are_compared_and_told_apart() {
    heap().run(|f| {
        for text in texts() {
            f.scope(|g| {
                let object = g.alloc_text(&text).unwrap();
                assert!(g.text_is(object, &text) && g.text_hash(object) == Text::hash_of(&text));
                let mut out = String::from("->");
                g.text_into(object, &mut out);
                assert_eq!(out, format!("->{text}"));
                for place in [0, text.chars().count() / 2, text.chars().count().saturating_sub(1)] {
                    let other: String = text.chars().enumerate().map(|(at, it)| if at == place { 'b' } else { it }).collect();
                    assert_eq!((g.text_is(object, &other), Text::hash_of(&other) == Text::hash_of(&text)), (other == text, other == text));
                }
                for other in [text.clone() + "a", text.clone() + "\0", text.chars().skip(1).collect()] {
                    assert_eq!((g.text_is(object, &other), Text::hash_of(&other) == Text::hash_of(&text)), (other == text, other == text));
                }
            });
        }
    });
}

#[test]
fn what_is_no_text_is_told_a_run_at_a_time() {
    heap().run(|f| {
        for len in 250..260 {
            for cut in [&b"\xff"[..], b"\xf0\x9d", b"\xf0\x9d\x84z", b"\xe2\x82\xe2\x82\xac", b"\xce"] {
                f.scope(|g| {
                    let bytes = [vec![b'a'; len].as_slice(), cut, b"\xce\xbb"].concat();
                    let text: Local<Text> = g.alloc_bytes(&bytes).unwrap().any().assume();
                    let mut out = String::new();
                    g.text_into(text, &mut out);
                    assert_eq!((out.as_str(), out.as_str()), (&*String::from_utf8_lossy(&bytes), g.text(text).as_str()));
                });
            }
            let end = [vec![b'a'; len].as_slice(), b"\xf0\x9d"].concat();
            f.scope(|g| {
                let mut out = String::new();
                g.text_into(g.alloc_bytes(&end).unwrap().any().assume(), &mut out);
                assert_eq!(out, String::from_utf8_lossy(&end));
            });
        }
    });
}

#[test]
fn each_has_a_word_of_the_programs_own() {
    layout! { struct Tagged { words { tag: u64 } } }
    heap().run(|f| {
        let (text, bytes) = (f.alloc_text("12345678").unwrap(), f.alloc_bytes(b"").unwrap());
        let array = f.alloc_array::<Symbol>(3).unwrap();
        let all = [text.any(), bytes.any(), array.any()];
        assert!(all.iter().all(|it| f.read(it.assume(), Tagged::tag) == 0));
        f.write(text, Text::own(), u64::MAX);
        f.write(bytes, Bytes::own(), 2);
        f.write(array, Array::own(), 3);
        assert_eq!(all.map(|it| f.read(it.assume(), Tagged::tag)), [u64::MAX, 2, 3]);
        assert_eq!((f.read(text, Text::own::<i64>()), f.read(array, Array::own::<u64>())), (-1, 3));
        assert!(f.text_is(text, "12345678") && f.text(text) == "12345678" && f.text_hash(text) == Text::hash_of("12345678"));
        assert_eq!((f.bytes(bytes), f.bytes_len(bytes), f.array_len(array)), (vec![], 0, 3));
    });
}

layout! { struct Number { words { n: u64 } } }

/// Fills an array with numbers from `first` on, and nil at every third place.
fn fill<'h>(f: &mut Frame<'_, 'h>, array: Local<'_, 'h, Array<Number>>, first: u64) -> Vec<Option<u64>> {
    let len = f.array_len(array);
    (0..len)
        .map(|at| {
            let number = (at % 3 < 2).then(|| first + u64::from(at));
            f.scope(|g| {
                let item = number.map(|number| g.new::<Number>(|p| p.write(Number::n, number)).unwrap());
                g.set_item(array, at, item).unwrap();
            });
            number
        })
        .collect()
}
fn numbers<'h>(f: &mut Frame<'_, 'h>, array: Local<'_, 'h, Array<Number>>) -> Vec<Option<u64>> {
    f.scope(|g| {
        let (mut items, mut all) = (g.items(array).unwrap(), Vec::new());
        while let Some(item) = items.next(g) {
            all.push(item.map(|it| g.scope(|h| h.read(it, Number::n))));
        }
        assert!(items.next(g).is_none() && items.told() == g.array_len(array));
        all
    })
}

#[test]
fn items_are_copied_and_told() {
    let mut heap = Heap::new(&Sizes::default().registers(4)).unwrap();
    heap.run(|f| {
        let (one, other) = (f.alloc_array::<Number>(10).unwrap(), f.alloc_array::<Number>(6).unwrap());
        for (from, to, into_other) in
            [(0..6, 0, true), (4..10, 0, true), (1..3, 4, true), (0..8, 2, false), (2..10, 0, false), (3..3, 6, true)]
        {
            let (mut first, mut second) = (fill(f, one, 100), fill(f, other, 200));
            let range = from.start as usize..from.end as usize;
            if into_other {
                second[to as usize..to as usize + range.len()].copy_from_slice(&first[range]);
            } else {
                first.copy_within(range, to as usize);
            }
            f.copy_items(one, from, if into_other { other } else { one }, to).unwrap();
            assert_eq!((numbers(f, one), numbers(f, other)), (first, second));
        }
        let (first, second) = (numbers(f, one), numbers(f, other));
        #[allow(clippy::reversed_empty_ranges)]
        for (from, to) in [(5..11, 0), (0..7, 0), (0..2, 5), (0..2, u32::MAX), (3..2, 0), (11..11, 0), (0..0, 7)] {
            assert_eq!(f.copy_items(one, from, other, to), Err(Error::NoField));
        }
        assert_eq!((numbers(f, one), numbers(f, other)), (first, second));
        while f.room() > 0 {
            f.copy(one).unwrap();
        }
        assert_eq!(f.copy_items(one, 0..1, other, 0), Err(Error::NoRegisters));
        assert_eq!(f.items(one).unwrap_err(), Error::NoRegisters);
    });
}
