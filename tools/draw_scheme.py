#!/usr/bin/env python3
"""Draws Scheme programs, valid and malformed ones, and runs clients/scheme.c on each.

    tools/draw_scheme.py SCHEME [--programs 2000] [--seed 1] [--jobs 4] [--seconds 2]

A program ends with status 0 and says nothing on standard error; or with status 1 and one message there that names a line and a form, or
the text that was read before, and says what was wrong; it never ends by a signal. A third of the programs compute with integers, lists,
vectors, characters and strings, and what they print is known from Python; a third are drawn by a grammar that goes wrong now and then; a
third are such ones with words left out, doubled or exchanged. Each runs in a folder of its own, for the files that it may write. One that
runs for longer than the seconds is stopped, and counted. Prints the first programs that failed; the last line counts all.
"""
import argparse
import concurrent.futures
import os
import random
import re
import subprocess
import sys
import tempfile

LEAST, MOST = -2 ** 63, 2 ** 63 - 1
EDGES = [0, 1, -1, 2, 10, 255, 256, 2 ** 31, 2 ** 32, 2 ** 62, MOST, MOST - 1, LEAST, LEAST + 1, 3037000500, -3037000500]
PRIMITIVES = """+ - * quotient remainder modulo < > = <= >= cons car cdr cadr cddr caar cdddar set-car! set-cdr! eq? null? pair? number?
    symbol? string? vector? procedure? boolean? char? list? input-port? output-port? eof-object? display write newline write-char error
    length list->vector string-length string-append substring string-ref string-set! make-string string=? string<? string>? char<? char=?
    char>=? number->string string->number symbol->string string->symbol char->integer integer->char char-upcase char-downcase make-vector
    vector-ref vector-set! vector-length call/cc apply eval read read-char peek-char open-input-file open-output-file close-input-port
    close-output-port current-input-port current-output-port""".split()
PRELUDE = """list vector string not map for-each append reverse list-tail list-ref assq assv assoc memq memv member equal? eqv? zero?
    positive? negative? odd? even? abs max min gcd lcm expt / floor exact? char-alphabetic? char-numeric? char-whitespace? char-ci=?
    string-ci<? string->list list->string string-copy string-fill! vector->list vector-fill! force load char-ready? gc-stats
    call-with-input-file call-with-output-file with-input-from-file with-output-to-file call-with-current-continuation""".split()
FORMS = """quote if define set! lambda begin define-macro and or cond case let let* letrec do delay quasiquote unquote unquote-splicing
    when else =>""".split()
# Calls whose operands mostly have the right kind: c character, i number, l list, p port for input, q port for output, s string, v vector.
TYPED = """(substring s i i)|(string-set! s i c)|(string-ref s i)|(string<? s s s)|(string-ci=? s s)|(string-append s s)|(string->list s)|
    (string-copy s)|(string-fill! s c)|(string->symbol s)|(symbol->string 'a)|(string->number s i)|(number->string i i)|(string c c)|
    (list->string (list c c))|(make-string i c)|(char-upcase c)|(char->integer c)|(integer->char i)|(char<? c c)|(char-ci=? c c)|
    (char-alphabetic? c)|(vector-ref v i)|(vector-set! v i l)|(vector->list v)|(vector-fill! v c)|(list->vector l)|(make-vector i c)|
    (list-tail l i)|(list-ref l i)|(append l l i)|(reverse l)|(assv i l)|(member c l)|(set-car! l i)|(set-cdr! l i)|(map + l l)|
    (length l)|(equal? v v)|(equal? l l)|(read p)|(read-char p)|(peek-char p)|(eof-object? (read-char p))|(close-input-port p)|
    (write s q)|(display l q)|(write-char c q)|(newline q)|(close-output-port q)|(procedure? car)|(input-port? p)|(modulo i i)|
    (expt i i)|(lcm i i)|(gc-stats)|(/ i i)|(load "f")|
    (begin (call-with-output-file "f" (lambda (to) (write l to) (write-char c to))) (call-with-input-file "f" read))|
    (with-output-to-file "f" (lambda () (write s)))|
    (with-input-from-file "f" (lambda () (list (peek-char) (read) (read-char))))""".split("|")
KINDS = {
    "c": ["#\\a", "#\\Z", "#\\space", "(string-ref \"abc\" 1)"], "i": ["0", "1", "2", "3", "10", "16", "-1", "(- 3 1)"],
    "l": ["'(1 2 3)", "(list 1 #\\a)", "'()", "'((1 a) (2 b))", "'(1 . 2)"], "q": ["(current-output-port)", '(open-output-file "f")'],
    "p": ["(current-input-port)", '(open-input-file "f")'],
    "s": ['"abc def"', '""', '"12"', "(make-string 9 #\\x)", '"long enough for two"'],
    "v": ["#(1 2 3)", "(make-vector 3 'a)", "(vector)", "(list->vector (list 1 2))"],
}
WORD = re.compile(rb'"(?:[^"\\]|\\.)*"?|#\\.\w*|,@|[()\'`,]|[^\s()\'"`,]+|\s+', re.S)
MESSAGE = re.compile(rb"(?:[^\n]*, )?line \d+, (?:in|after) .+: .*\n", re.S)
ODD = [b",", b",@", b"`", b"#", b"#(", b"#\\", b"#\\space", b"#\\blank", b"#x1g", b"#t#f", b"1.5", b"1/2", b"=>", b"else",
       b".", b"(", b")", b"'", b'"', b"()", b"(1 . 2)", b"'(1 . 2)", b"\0", b"'a", b"#t", b"-", b"1" * 30, b"x" * 300, b";", b"..", b"(.)"]


class Wrong(Exception):
    """A mistake that the program is to be told."""


def whole(value):
    if not LEAST <= value <= MOST:
        raise Wrong("beyond 64 bits")
    return value


def divided(name, one, other):
    if other == 0:
        raise Wrong("by 0")
    ratio = abs(one) // abs(other) * (1 if (one < 0) == (other < 0) else -1)
    return whole(ratio) if name == "quotient" else one - ratio * other if name == "remainder" else one % other


class Sums:
    """Expressions whose values are integers that are known: each call draws one, and answers its text and a function that computes it."""

    def __init__(self, draw):
        self.draw, self.fresh = draw, 0

    def number(self):
        draw = self.draw
        value = draw.choice(EDGES) if draw.random() < 0.3 else draw.randint(-1000, 1000)
        return str(value), lambda names: value

    def some(self, depth, names, least=0, most=4):
        return [self.expression(depth, names) for _ in range(self.draw.randint(least, most))]

    def expression(self, depth, names):
        draw = self.draw
        if depth == 0 or draw.random() < 0.1:
            if names and draw.random() < 0.5:
                name = draw.choice(names)
                return name, lambda values: values[name]
            return self.number()
        return draw.choice([self.sum, self.sum, self.division, self.choice, self.binding, self.call, self.length, self.text,
                            self.vector, self.loop, self.numbers, self.case, self.count, self.promise, self.template, self.character,
                            self.found, self.body, self.escape, self.order])(depth - 1, names)

    def sum(self, depth, names):
        name = self.draw.choice("+-*")
        parts = self.some(depth, names, 1 if name == "-" else 0)

        def value(values):
            found = [part(values) for _, part in parts]
            if name == "-" and len(found) == 1:
                return whole(-found[0])
            total = found[0] if found else int(name == "*")
            for it in found[1:]:
                total = whole({"+": total + it, "-": total - it, "*": total * it}[name])
            return total

        if self.draw.random() < 0.2:
            return f"(apply {name} (list {' '.join(text for text, _ in parts)}))", value
        return f"({name} {' '.join(text for text, _ in parts)})", value

    def division(self, depth, names):
        (one, first), (other, second) = self.some(depth, names, 2, 2)
        name = self.draw.choice(["quotient", "remainder", "modulo"])
        return f"({name} {one} {other})", lambda values: divided(name, first(values), second(values))

    def choice(self, depth, names):
        name, parts = self.draw.choice("<>="), self.some(depth, names, 4, 4)
        compare = {"<": int.__lt__, ">": int.__gt__, "=": int.__eq__}[name]
        text = "(if ({} {} {}) {} {})".format(name, *(it for it, _ in parts))
        return text, lambda values: parts[2 if compare(parts[0][1](values), parts[1][1](values)) else 3][1](values)

    def binding(self, depth, names):
        self.fresh += 1
        name, (one, first) = f"v{self.fresh}", self.expression(depth, names)
        other, second = self.expression(depth, [*names, name])
        return f"(let (({name} {one})) {other})", lambda values: second({**values, name: first(values)})

    def call(self, depth, names):
        self.fresh += 1
        first, rest = f"p{self.fresh}", f"r{self.fresh}"
        parts = self.some(depth, names, 1, 4)
        body, value = self.expression(depth, [*names, first])
        text = f"((lambda ({first} . {rest}) (+ (length {rest}) {body})) {' '.join(it for it, _ in parts)})"

        def called(values):
            found = [part(values) for _, part in parts]
            return whole(len(found) - 1 + value({**values, first: found[0]}))

        return text, called

    def length(self, depth, names):
        parts = self.some(depth, names)
        text = f"(length (reverse (list {' '.join(it for it, _ in parts)})))"
        return text, lambda values: len([part(values) for _, part in parts])

    def text(self, depth, names):
        (one, first), bytes_before = self.expression(depth, names), self.draw.randint(0, 20)
        if self.draw.random() < 0.5:
            return f"(string->number (number->string {one}))", first
        return f'(string-length (string-append "{"x" * bytes_before}" (number->string {one})))', \
            lambda values: bytes_before + len(str(first(values)))

    def vector(self, depth, names):
        (one, first), places = self.expression(depth, names), self.draw.randint(1, 30)
        place = self.draw.randint(0, places - 1)
        return f"(vector-ref (make-vector {places} {one}) {place})", first

    def loop(self, depth, names):
        self.fresh += 1
        name, times, (one, first) = f"w{self.fresh}", self.draw.randint(0, 20), self.expression(depth, names)
        text = f"(let {name} ((left {times}) (sum {one})) (if (= left 0) sum ({name} (- left 1) (+ sum left))))"

        def looped(values):
            total = first(values)
            for left in range(times, 0, -1):
                total = whole(total + left)
            return total

        return text, looped

    def numbers(self, depth, names):
        parts, name = self.some(depth, names, 1), self.draw.choice(["max", "min", "abs", "gcd"])
        parts = parts[:1] if name == "abs" else parts

        def value(values):
            found = [part(values) for _, part in parts]
            return {"max": max, "min": min, "gcd": gcd, "abs": lambda it: whole(abs(it[0]))}[name](found)

        return f"({name} {' '.join(text for text, _ in parts)})", value

    def case(self, depth, names):
        (key, chosen), parts = self.expression(depth, names), self.some(depth, names, 2, 4)
        keys = [self.draw.sample(range(-3, 12), self.draw.randint(0, 3)) for _ in parts[1:]]
        clauses = " ".join(f"(({' '.join(map(str, some))}) {text})" for some, (text, _) in zip(keys, parts[1:]))

        def value(values):
            it = chosen(values)
            return next((part for some, (_, part) in zip(keys, parts[1:]) if it in some), parts[0][1])(values)

        return f"(case {key} {clauses} (else {parts[0][0]}))", value

    def count(self, depth, names):
        self.fresh += 1
        name, times, (one, first) = f"i{self.fresh}", self.draw.randint(0, 9), self.expression(depth, names)
        other, second = self.expression(depth, [*names, name])
        text = f"(do (({name} 0 (+ {name} 1)) (sum {one} (+ sum {other}))) ((= {name} {times}) sum))"

        def counted(values):
            total = first(values)
            for place in range(times):
                total = whole(total + second({**values, name: place}))
            return total

        return text, counted

    def promise(self, depth, names):
        (one, first), times = self.expression(depth, names), self.draw.randint(1, 3)
        return f"(let ((p (delay {one}))) {'(force p) ' * times})", first

    def template(self, depth, names):
        parts, at = self.some(depth, names, 1), self.draw.choice(["list", "vector"])
        place = self.draw.randrange(len(parts))
        items = " ".join(f",{text}" if self.draw.random() < 0.7 else f",@(list {text})" for text, _ in parts)

        def value(values):
            return [part(values) for _, part in parts][place]

        return (f"(list-ref `(a {items}) {place + 1})" if at == "list" else f"(vector-ref `#({items} z) {place})"), value

    def character(self, depth, names):
        (one, first), code = self.expression(depth, names), self.draw.randint(33, 126)
        if self.draw.random() < 0.5:
            return f"(begin (char->integer (string-ref (number->string {one}) 0)))", lambda values: ord(str(first(values))[0])
        return f"(+ (char->integer #\\{chr(code)}) (* 0 {one}))", lambda values: whole(code + first(values) * 0)

    def found(self, depth, names):
        parts, (key, chosen) = self.some(depth, names, 1), self.expression(depth, names)
        text = f"(cond ((assv {key} (list {' '.join(f'(list {place} {it})' for place, (it, _) in enumerate(parts))})) => cadr) (else -1))"

        def value(values):
            it, found = chosen(values), [part(values) for _, part in parts]
            return found[it] if 0 <= it < len(found) else -1

        return text, value

    def body(self, depth, names):
        self.fresh += 1
        one, other, (text, first), (more, second) = f"d{self.fresh}", f"f{self.fresh}", *self.some(depth, names, 2, 2)
        lines = f"(define ({other} x) (+ x {one})) (define {one} {text})"
        return f"(let () {lines} ({other} {more}))", lambda values: whole(first(values) + second(values))

    def escape(self, depth, names):
        (one, first), (other, _) = self.some(depth, names, 2, 2)
        return f"(call/cc (lambda (k) (+ 1 (k {one}) {other})))", first

    def order(self, depth, names):
        parts, name = self.some(depth, names, 1), self.draw.choice(["<", ">", "<=", ">=", "="])
        text = f"(if (and ({name} {' '.join(it for it, _ in parts)}) (or #f #t)) 1 0)"
        compare = {"<": int.__lt__, ">": int.__gt__, "=": int.__eq__, "<=": int.__le__, ">=": int.__ge__}[name]

        def value(values):
            found = [part(values) for _, part in parts]
            return int(all(compare(a, b) for a, b in zip(found, found[1:])))

        return text, value


def gcd(numbers):
    """The greatest common divisor, as the Scheme computes it: by steps that each have to be within 64 bits."""
    total = 0
    for it in numbers:
        other = it
        while other != 0:
            total, other = other, divided("remainder", total, other)
        total = whole(abs(total))
    return total


def known(draw):
    """A program, what it prints, and what its mistake says or None."""
    sums, lines, told = Sums(draw), [], ""
    for _ in range(draw.randint(1, 5)):
        text, value = sums.expression(draw.randint(1, 4), [])
        lines.append(f"(display {text}) (newline)")
        try:
            told += f"{value({})}\n"
        except Wrong as wrong:
            return "\n".join(lines).encode(), told.encode(), str(wrong)
    return "\n".join(lines).encode(), told.encode(), None


def constant(draw):
    return draw.choice([
        lambda: str(draw.choice(EDGES)), lambda: str(draw.randint(-9, 99)), lambda: str(2 ** draw.randint(60, 70)),
        lambda: draw.choice(["#t", "#f"]),
        lambda: '"' + "".join(draw.choice(["a", "\\n", '\\"', "\\\\", "\0", "9", " "]) for _ in range(draw.randint(0, 6))) + '"',
        lambda: "'" + datum(draw, 2), lambda: "'()", lambda: '"99999999999999999999"', lambda: '"12"',
        lambda: draw.choice(["#\\a", "#\\space", "#\\newline", "#\\(", "#\\A", "#\\9"]), lambda: "#(1 a (2))",
        lambda: draw.choice(["#xff", "#b101", "#e7"]), lambda: "`" + template(draw, 2)])()


def template(draw, depth):
    """What a backquote is put before."""
    if depth == 0 or draw.random() < 0.3:
        return draw.choice(["1", "a", ",(+ 1 2)", ",@'(1 2)", ",x", ",@1", "()", "`b", ",car"])
    inner = " ".join(template(draw, depth - 1) for _ in range(draw.randint(0, 3)))
    return draw.choice(["({})", "({})", "#({})", "({} . ,(list 1))", ",({})", ",@(list {})", "`({})"]).format(inner)


def typed(draw):
    """A call of TYPED."""
    def operand(found):
        return draw.choice(KINDS[found.group()]) if draw.random() < 0.95 else constant(draw)
    return re.sub(r"(?<=[ (])[cilpqsv](?=[ )])", operand, draw.choice(TYPED).strip())


def datum(draw, depth):
    if depth == 0 or draw.random() < 0.4:
        return draw.choice(["1", "a", "()", '"s"', "#t", "lambda", "if", ".", "#\\x", "else", "=>"])
    tail = f" . {datum(draw, depth - 1)}" if draw.random() < 0.2 else ""
    return "(" + " ".join(datum(draw, depth - 1) for _ in range(draw.randint(0, 3))) + tail + ")"


def parameters(draw, names):
    if draw.random() < 0.1:
        return draw.choice(["x", "(1)", "((a))", '("s")', "(x . 1)", "1", "(())", "(x 2)", "(#t)", "(. x)"])
    return "(" + " ".join(names) + (" . more" if draw.random() < 0.2 else "") + ")"


def expression(draw, depth, names):
    """An expression that uses these names, and mostly means something."""
    def more(least, most):
        return " ".join(expression(draw, depth - 1, names) for _ in range(draw.randint(least, most)))

    if depth == 0 or draw.random() < 0.15:
        if names and draw.random() < 0.6:
            return draw.choice(names)
        return draw.choice(PRIMITIVES + PRELUDE) if draw.random() < 0.1 else constant(draw)
    inner = [f"{draw.choice('abcxyz')}{draw.randint(0, 9)}" for _ in range(draw.randint(0, 3))]
    tail = draw.choice([" . 1", " . x", ".", " . (2)"]) if draw.random() < 0.03 else ""
    return draw.choice([
        lambda: f"({draw.choice(PRIMITIVES)} {more(0, 3)}{tail})", lambda: f"({draw.choice(PRIMITIVES)} {more(1, 2)}{tail})",
        lambda: f"({draw.choice(PRELUDE)} {more(0, 3)}{tail})", lambda: f"({draw.choice(FORMS)} {more(0, 3)}{tail})",
        lambda: typed(draw), lambda: typed(draw), lambda: f"(let ((p {typed(draw)})) {typed(draw)} {typed(draw)})",
        lambda: f"(if {more(2, 3)}{tail})", lambda: f"(begin {more(0, 4)}{tail})", lambda: f"({more(1, 3)})",
        lambda: f"(lambda {parameters(draw, inner)} {expression(draw, depth - 1, names + inner)}{tail})",
        lambda: f"((lambda {parameters(draw, inner)} {expression(draw, depth - 1, names + inner)}) {more(0, 4)})",
        lambda: f"(let ({' '.join(f'({it} {more(1, 1)})' for it in inner)}) {expression(draw, depth - 1, names + inner)})",
        lambda: f"(set! {draw.choice(names or ['nothing'])} {more(1, 1)})", lambda: f"(call/cc (lambda (k) (k {more(0, 2)})))",
        lambda: f"(apply {draw.choice(PRIMITIVES)} (list {more(0, 3)}))", lambda: f"(apply {draw.choice(PRIMITIVES)} {more(0, 2)})",
        lambda: f"(map (lambda (e) {expression(draw, depth - 1, names + ['e'])}) (list {more(0, 3)}))",
        lambda: f"(cond {clauses(draw, depth, names, '({} {})')}{tail})", lambda: f"({draw.choice(['and', 'or'])} {more(0, 3)}{tail})",
        lambda: f"(case {more(1, 1)} {clauses(draw, depth, names, draw.choice(['((1 a) {1})', '((#t 12) {1})', '({} {})']))})",
        lambda: f"({draw.choice(['let*', 'letrec', 'let x'])} ({' '.join(f'({it} {more(1, 1)})' for it in inner)}) "
                f"{expression(draw, depth - 1, names + inner)}{tail})",
        lambda: f"(do ({' '.join(f'({it} {more(1, 2)})' for it in inner)} (i 0 (+ i 1))) "
                f"((> i {draw.randint(0, 5)}) {more(0, 1)}) {more(0, 2)})",
        lambda: f"(do {more(0, 3)})",
        lambda: f"(force (delay {more(0, 2)}))", lambda: "`" + template(draw, 2),
        lambda: f"(let ({' '.join(f'({it} {more(1, 1)})' for it in inner)}) (define {draw.choice(['y', '(y . a)', '(y)'])} {more(0, 2)}) "
                f"(define z {more(1, 1)}) {expression(draw, depth - 1, names + inner + ['y', 'z'])})",
        lambda: f"({draw.choice(['call-with-output-file', 'with-output-to-file', 'call-with-input-file', 'with-input-from-file'])} \"f\" "
                f"(lambda p {expression(draw, depth - 1, names + ['p'])}))",
        lambda: f"(load {more(1, 1)})" if draw.random() < 0.2 else f"(eval '{datum(draw, 2)})",
    ])()


def clauses(draw, depth, names, form):
    """The clauses of cond or case."""
    parts = [form.format(expression(draw, depth - 1, names), expression(draw, depth - 1, names)) for _ in range(draw.randint(0, 3))]
    return " ".join(parts + ([f"(else {expression(draw, depth - 1, names)})"] if draw.random() < 0.5 else []))


def drawn(draw):
    """A program by the grammar. What is defined uses what was defined before it, so it ends."""
    names, lines = [], []
    for place in range(draw.randint(1, 8)):
        inner = [f"{it}{draw.randint(0, 9)}" for it in draw.sample("abcde", draw.randint(0, 3))]
        body = expression(draw, draw.randint(1, 4), names + inner)
        kind = draw.random()
        if kind < 0.25:
            lines.append(f"(define f{place} {expression(draw, 3, names)})")
        elif kind < 0.45:
            lines.append(f"(define (f{place}{''.join(' ' + it for it in inner)}) {body})")
        elif kind < 0.6:
            form = draw.choice(["({} {})", "({} {})", "({} . {})", "{}", "()", "(1 {})", "({} (1))"])
            form = form.format(f"f{place}", " ".join(inner) or "all")
            lines.append(f"(define-macro {form} (list 'quote {expression(draw, 2, inner)}))")
        else:
            lines.append(f"(display {expression(draw, draw.randint(1, 5), names)})")
            continue
        names.append(f"f{place}")
        lines.append(f"(write (f{place} {' '.join(expression(draw, 1, names) for _ in range(draw.randint(0, 3)))}))")
    return "\n".join(lines).encode("latin-1")


def mangled(draw):
    """A program with some words left out, doubled, exchanged or put in, or cut."""
    words = WORD.findall(known(draw)[0] if draw.random() < 0.3 else drawn(draw))
    for _ in range(draw.randint(1, 6)):
        if not words:
            break
        place, other = draw.randrange(len(words)), draw.randrange(len(words))
        kind = draw.randrange(6)
        if kind == 0:
            del words[place]
        elif kind == 1:
            words.insert(place, words[other])
        elif kind == 2:
            words[place], words[other] = words[other], words[place]
        elif kind == 3:
            words.insert(place, draw.choice([b" ", b""]) + draw.choice(ODD) + b" ")
        elif kind == 4:
            words[place] = draw.choice(FORMS + PRIMITIVES + PRELUDE).encode()
        else:
            words = words[: max(1, place)] if draw.random() < 0.2 else words
    return b"".join(words)


def program(seed, number):
    """The text of a program, what it has to print and to say, where that is known, and how many regions it has."""
    draw = random.Random(f"{seed} {number}")
    if number % 3 == 0:
        return (*known(draw), 64)
    return (drawn(draw) if number % 3 == 1 else mangled(draw)), None, None, draw.choice([20, 32, 64])


def wrong_of(status, out, err, printed, said):
    """What is wrong of how a program ended, or None."""
    lines = err.count(b"\n")
    if status not in (0, 1):
        return f"status {status}: {err[:2000]!r}"
    if status != (lines != 0) or bool(lines) != bool(err):
        return f"status {status}, and it says {err[:300]!r}"
    if err and not MESSAGE.fullmatch(err):
        return f"a message without a form: {err[:300]!r}"
    if printed is not None and (out != printed or (said or "") not in err.decode("latin-1") or bool(said) != bool(lines)):
        return f"it prints {out[:300]!r} and says {err[:300]!r}, not {printed[:300]!r} and {said!r}"
    return None


def tried(scheme, seed, number, seconds):
    """Runs a program. Answers whether it ran on, and what is wrong of it or None."""
    text, printed, said, regions = program(seed, number)
    with tempfile.TemporaryFile() as source, tempfile.TemporaryDirectory() as folder:
        source.write(text)
        source.seek(0)
        try:
            done = subprocess.run([scheme], stdin=source, capture_output=True, timeout=seconds, check=False, cwd=folder,
                                  env={**os.environ, "G1HEAP_REGIONS": str(regions)})
        except subprocess.TimeoutExpired:
            return True, None
    return False, wrong_of(done.returncode, done.stdout, done.stderr, printed, said)


def main():
    parser = argparse.ArgumentParser(description=__doc__, formatter_class=argparse.RawDescriptionHelpFormatter)
    parser.add_argument("scheme", help="clients/scheme.c, compiled")
    parser.add_argument("--programs", type=int, default=2000)
    parser.add_argument("--seed", type=int, default=1)
    parser.add_argument("--jobs", type=int, default=len(os.sched_getaffinity(0)))
    parser.add_argument("--seconds", type=float, default=2)
    parser.add_argument("--show", type=int, metavar="NUMBER", help="writes the program of this number, and runs none")
    words = parser.parse_args()
    if words.show is not None:
        sys.stdout.buffer.write(program(words.seed, words.show)[0] + b"\n")
        return 0
    scheme, failed, long = os.path.abspath(words.scheme), 0, 0
    with concurrent.futures.ThreadPoolExecutor(words.jobs) as pool:
        found = pool.map(lambda number: tried(scheme, words.seed, number, words.seconds), range(words.programs))
        for number, (ran_on, wrong) in enumerate(found):
            long += ran_on
            failed += wrong is not None
            if wrong is not None and failed <= 10:
                print(f"program {number}, seed {words.seed}: {wrong}", file=sys.stderr)
    print(f"{words.programs - failed} Scheme programs passed, {failed} failed, {long} of them were stopped after {words.seconds:g} seconds")
    return 1 if failed else 0


if __name__ == "__main__":
    sys.exit(main())
