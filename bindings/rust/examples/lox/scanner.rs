//! The words and signs of a Lox program.

#[derive(Clone, Copy, Debug, PartialEq, Eq)]
pub enum Kind {
    Name,
    /// A word of the language, or a sign.
    Own,
    Number,
    /// Without its quotes.
    Text,
    End,
}

#[derive(Clone, Copy, Debug)]
pub struct Token<'s> {
    pub kind: Kind,
    pub text: &'s str,
    pub line: u32,
}

const WORDS: [&str; 19] = [
    "and", "catch", "class", "else", "false", "for", "fun", "if", "nil", "or", "print", "return", "super", "this", "throw", "true", "try",
    "var", "while",
];
const SIGNS: [&str; 4] = ["==", "!=", "<=", ">="];

/// The length of what is at the beginning of the text and is of this sort.
fn length(text: &str, is: impl Fn(char) -> bool) -> usize {
    text.find(|it| !is(it)).unwrap_or(text.len())
}

/// The next token's kind and its length, of a text that begins with one.
fn next(text: &str) -> Option<(Kind, usize)> {
    let is_word = |it: char| it.is_ascii_alphanumeric() || it == '_';
    let first = text.chars().next()?;
    if first.is_ascii_digit() {
        let whole = length(text, |it| it.is_ascii_digit());
        let part = match text[whole..].strip_prefix('.') {
            Some(rest) if rest.starts_with(|it: char| it.is_ascii_digit()) => 1 + length(rest, |it| it.is_ascii_digit()),
            _ => 0,
        };
        return Some((Kind::Number, whole + part));
    }
    if is_word(first) {
        let len = length(text, is_word);
        return Some((if WORDS.contains(&&text[..len]) { Kind::Own } else { Kind::Name }, len));
    }
    if first == '"' {
        return Some((Kind::Text, text[1..].find('"')? + 2));
    }
    let two = SIGNS.iter().any(|sign| text.starts_with(sign));
    "(){}[],.-+;:/*!=<>".contains(first).then_some((Kind::Own, 1 + usize::from(two)))
}

/// All tokens, and one at the end; or what is wrong.
pub fn scan(source: &str) -> Result<Vec<Token<'_>>, String> {
    let (mut tokens, mut rest, mut line) = (Vec::new(), source, 1);
    loop {
        let space = length(rest, char::is_whitespace);
        line += rest[..space].matches('\n').count() as u32;
        rest = &rest[space..];
        if rest.starts_with("//") {
            rest = &rest[length(rest, |it| it != '\n')..];
            continue;
        }
        if rest.is_empty() {
            tokens.push(Token { kind: Kind::End, text: "end", line });
            return Ok(tokens);
        }
        let (kind, len) = next(rest).ok_or_else(|| format!("[line {line}] Error: Unexpected character."))?;
        let text = if kind == Kind::Text { &rest[1..len - 1] } else { &rest[..len] };
        line += text.matches('\n').count() as u32;
        tokens.push(Token { kind, text, line });
        rest = &rest[len..];
    }
}
