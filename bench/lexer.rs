//! Tokens and bracket trees of a text in plain Rust, for the yardsticks.
#![allow(dead_code)]

#[derive(Clone, Copy)]
pub struct Place {
    pub line: u32,
    pub column: u32,
}

pub enum Kind {
    Open,
    Close,
    Word(Vec<u8>),
    Variable(Vec<u8>),
    Keyword(Vec<u8>),
    Number(i64, i64),
    Sign(u8),
}

pub struct Token {
    pub kind: Kind,
    pub place: Place,
}

pub enum Sexp {
    Leaf(Token),
    Group(Place, Vec<Sexp>),
}

struct Lexer<'a> {
    text: &'a [u8],
    at: usize,
    place: Place,
}

fn goes_on(byte: u8) -> bool {
    byte.is_ascii_alphanumeric() || byte == b'-' || byte == b'_'
}

impl<'a> Lexer<'a> {
    fn new(text: &'a [u8]) -> Self {
        Lexer { text, at: 0, place: Place { line: 1, column: 1 } }
    }

    fn pass(&mut self, count: usize) {
        for byte in &self.text[self.at..self.at + count] {
            if *byte == b'\n' {
                self.place.line = self.place.line.saturating_add(1);
                self.place.column = 1;
            } else {
                self.place.column = self.place.column.saturating_add(1);
            }
        }
        self.at += count;
    }

    fn run(&self, from: usize, test: impl Fn(u8) -> bool) -> usize {
        self.text[from..].iter().position(|byte| !test(*byte)).unwrap_or(self.text.len() - from)
    }

    fn name(&self, from: usize) -> Option<Vec<u8>> {
        if !self.text.get(from)?.is_ascii_alphabetic() {
            return None;
        }
        let count = self.run(from, goes_on);
        Some(self.text[from..from + count].to_ascii_lowercase())
    }

    fn number(&self) -> Option<(Kind, usize)> {
        let sign = (self.text[self.at] == b'-') as usize;
        let whole = self.run(self.at + sign, |byte| byte.is_ascii_digit());
        let point = self.at + sign + whole;
        let fraction = if self.text.get(point) == Some(&b'.') { self.run(point + 1, |byte| byte.is_ascii_digit()) } else { 0 };
        let mut value = 0i64;
        for byte in &self.text[self.at + sign..point + if fraction > 0 { fraction + 1 } else { 0 }] {
            if *byte != b'.' {
                value = value.checked_mul(10)?.checked_add((byte - b'0') as i64)?;
            }
        }
        let value = if sign == 1 { -value } else { value };
        let count = sign + whole + if fraction > 0 { fraction + 1 } else { 0 };
        Some((Kind::Number(value, 10i64.pow(fraction as u32)), count))
    }

    fn next(&mut self) -> Option<Option<Token>> {
        loop {
            let byte = *self.text.get(self.at)?;
            match byte {
                b' ' | b'\t' | b'\n' | b'\r' => self.pass(1),
                b';' => self.pass(self.run(self.at, |byte| byte != b'\n')),
                _ => break,
            }
        }
        let place = self.place;
        Some(self.kind().map(|(kind, count)| {
            self.pass(count);
            Token { kind, place }
        }))
    }

    fn kind(&self) -> Option<(Kind, usize)> {
        let next = self.text.get(self.at + 1).copied();
        match self.text[self.at] {
            b'(' => Some((Kind::Open, 1)),
            b')' => Some((Kind::Close, 1)),
            b'?' => self.name(self.at + 1).map(|name| { let count = name.len() + 1; (Kind::Variable(name), count) }),
            b':' => self.name(self.at + 1).map(|name| { let count = name.len() + 1; (Kind::Keyword(name), count) }),
            b'-' if next.is_some_and(|byte| byte.is_ascii_digit()) => self.number(),
            byte @ (b'<' | b'>') if next == Some(b'=') => Some((Kind::Sign(byte | 128), 2)),
            byte @ (b'-' | b'+' | b'*' | b'/' | b'<' | b'=' | b'>') => Some((Kind::Sign(byte), 1)),
            byte if byte.is_ascii_digit() => self.number(),
            _ => self.name(self.at).map(|name| { let count = name.len(); (Kind::Word(name), count) }),
        }
    }
}

pub fn tokens(text: &[u8]) -> Option<Vec<Token>> {
    let mut lexer = Lexer::new(text);
    let mut tokens = Vec::new();
    while let Some(token) = lexer.next() {
        tokens.push(token?);
    }
    Some(tokens)
}

pub fn brackets(text: &[u8]) -> Option<Vec<Sexp>> {
    let mut lexer = Lexer::new(text);
    let mut open: Vec<(Place, Vec<Sexp>)> = Vec::new();
    let mut here = Vec::new();
    while let Some(token) = lexer.next() {
        let token = token?;
        match token.kind {
            Kind::Open if open.len() == 200 => return None,
            Kind::Open => open.push((token.place, std::mem::take(&mut here))),
            Kind::Close => {
                let (place, above) = open.pop()?;
                let group = Sexp::Group(place, std::mem::replace(&mut here, above));
                here.push(group);
            }
            _ => here.push(Sexp::Leaf(token)),
        }
    }
    open.is_empty().then_some(here)
}
