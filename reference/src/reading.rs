//! Reads a conditional program. Where the text is none, the answer is the length of its longest beginning that some
//! conditional program begins with.
use crate::places::Place;
use crate::text::Text;
use crate::tokens::*;
use crate::tree::*;
use std::rc::Rc;

struct Reading<'a> {
    bytes: &'a [u8],
    at: usize,
    /// The last token that is known.
    last: Token,
}
type Read<T> = Result<T, usize>;

/// Which sequence is read: the left or right one of a place, or that of a literal.
#[derive(Clone, Copy)]
enum Kind {
    Left,
    Right(bool), // the left sequence is empty
    Literal,
}

impl<'a> Reading<'a> {
    /// one of these words; none is a prefix of another
    fn one_of(&mut self, words: &[&str]) -> Read<usize> {
        let mut open: Vec<usize> = (0..words.len()).collect();
        let start = self.at;
        loop {
            let k = self.at - start;
            let c = *self.bytes.get(self.at).ok_or(self.at)?;
            open.retain(|&w| words[w].as_bytes().get(k) == Some(&c));
            if open.is_empty() {
                return Err(self.at);
            }
            self.at += 1;
            if let Some(&w) = open.iter().find(|&&w| words[w].len() == k + 1) {
                return Ok(w);
            }
        }
    }
    fn digits(&mut self, max: u64) -> Read<u64> {
        let mut v = 0u64;
        let start = self.at;
        while let Some(&c) = self.bytes.get(self.at) {
            if !c.is_ascii_digit() || (self.at == start && c == b'0') {
                break;
            }
            let w = v * 10 + (c - b'0') as u64;
            if w > max {
                return Err(self.at);
            }
            v = w;
            self.at += 1;
        }
        if self.at == start {
            return Err(self.at);
        }
        Ok(v)
    }
    fn number(&mut self) -> Read<u32> {
        Ok(self.digits(u32::MAX as u64)? as u32)
    }
    fn int(&mut self, zero: bool) -> Read<i32> {
        match self.bytes.get(self.at) {
            Some(b'-') => {
                self.at += 1;
                Ok((-(self.digits(2147483648)? as i64)) as i32)
            }
            Some(b'0') if zero => {
                self.at += 1;
                Ok(0)
            }
            _ => Ok(self.digits(2147483647)? as i32),
        }
    }
    fn text(&mut self, empty: bool) -> Read<Text> {
        self.one_of(&["'"])?;
        let mut v: Vec<char> = Vec::new();
        loop {
            let c = *self.bytes.get(self.at).ok_or(self.at)?;
            if c == b'\'' {
                if v.is_empty() && !empty {
                    return Err(self.at);
                }
                self.at += 1;
                return Ok(v.into());
            }
            if c == b'\\' {
                self.at += 1;
                match self.bytes.get(self.at) {
                    Some(&d) if d == b'\'' || d == b'\\' => {
                        v.push(d as char);
                        self.at += 1;
                        continue;
                    }
                    _ => return Err(self.at),
                }
            }
            let (len, lo, hi) = match c {
                0..=0x7F => (1, 0, 0),
                0xC2..=0xDF => (2, 0x80, 0xBF),
                0xE0 => (3, 0xA0, 0xBF),
                0xED => (3, 0x80, 0x9F),
                0xE1..=0xEF => (3, 0x80, 0xBF),
                0xF0 => (4, 0x90, 0xBF),
                0xF1..=0xF3 => (4, 0x80, 0xBF),
                0xF4 => (4, 0x80, 0x8F),
                _ => return Err(self.at),
            };
            let start = self.at;
            self.at += 1;
            for k in 1..len {
                let (l, h) = if k == 1 { (lo, hi) } else { (0x80, 0xBF) };
                match self.bytes.get(self.at) {
                    Some(&d) if (l..=h).contains(&d) => self.at += 1,
                    _ => return Err(self.at),
                }
            }
            v.push(std::str::from_utf8(&self.bytes[start..self.at]).unwrap().chars().next().unwrap());
        }
    }
    fn seq(&mut self, kind: Kind) -> Read<Seq> {
        self.one_of(&["["])?;
        let mut v: Vec<u8> = Vec::new();
        let most = if let Kind::Literal = kind { 2 } else { 3 };
        loop {
            // a token, or at the start the end of an empty sequence
            let mut words: Vec<&str> = Vec::new();
            let mut toks: Vec<u8> = Vec::new();
            for t in 1..=self.last {
                let ok = match kind {
                    Kind::Left => t != END && (t != START || v.is_empty()),
                    Kind::Right(_) => t != START,
                    Kind::Literal => t != START || v.is_empty(),
                };
                if ok {
                    words.push(NAMES[t as usize]);
                    toks.push(t);
                }
            }
            if v.is_empty() && !matches!(kind, Kind::Literal | Kind::Right(true)) {
                words.push("]");
            }
            let w = self.one_of(&words)?;
            if w == toks.len() {
                return Ok(EMPTY);
            }
            v.push(toks[w]);
            let more = v.len() < most && *v.last().unwrap() != END;
            if self.one_of(if more { &["]", " "] } else { &["]"] })? == 0 {
                return Ok(seq(&v));
            }
        }
    }
    fn place(&mut self) -> Read<Place> {
        let p = if self.one_of(&["CPos(", "Pos("])? == 0 {
            Place::CPos(self.int(true)?)
        } else {
            let a = self.seq(Kind::Left)?;
            self.one_of(&[","])?;
            let b = self.seq(Kind::Right(a == EMPTY))?;
            self.one_of(&[","])?;
            Place::Pos(a, b, self.int(false)?)
        };
        self.one_of(&[")"])?;
        Ok(p)
    }
    fn source(&mut self, depth: u8) -> Read<Source> {
        let words: &[&str] = if depth < 3 { &["Col(", "Select("] } else { &["Col("] };
        let s = if self.one_of(words)? == 0 {
            Source::Col(self.number()?)
        } else {
            let column = self.number()?;
            self.one_of(&[","])?;
            let table = self.number()?;
            self.one_of(&[","])?;
            let key = self.number()?;
            self.one_of(&[","])?;
            let mut conditions = Vec::new();
            let mut part = false;
            loop {
                let a =
                    if conditions.len() == 2 && !part { self.atom(depth + 1, None)? } else { self.atom(depth + 1, Some(true))? };
                part |= !matches!(a, Atom::Const(_));
                conditions.push(a);
                let words: &[&str] = match (conditions.len() < 3, part) {
                    (true, true) => &[",", ")"],
                    (true, false) => &[","],
                    (false, _) => &[")"],
                };
                if words[self.one_of(words)?] == ")" {
                    break;
                }
            }
            return Ok(Source::Select(Rc::new(Select { column, table, key, conditions })));
        };
        self.one_of(&[")"])?;
        Ok(s)
    }
    /// `constant` says whether a constant may stand here, and whether it may be empty
    fn atom(&mut self, depth: u8, constant: Option<bool>) -> Read<Atom> {
        let words: &[&str] = if constant.is_some() { &["Whole(", "Sub(", "Const("] } else { &["Whole(", "Sub("] };
        let a = match self.one_of(words)? {
            0 => Atom::Whole(self.source(depth)?),
            1 => {
                let s = self.source(depth)?;
                self.one_of(&[","])?;
                let a = self.place()?;
                self.one_of(&[","])?;
                Atom::Sub(s, a, self.place()?)
            }
            _ => Atom::Const(self.text(constant.unwrap())?),
        };
        self.one_of(&[")"])?;
        Ok(a)
    }
    fn program(&mut self) -> Read<Program> {
        self.one_of(&["Concat("])?;
        let mut atoms = Vec::new();
        if self.bytes.get(self.at) == Some(&b')') {
            self.at += 1;
            return Ok(Program { atoms });
        }
        loop {
            atoms.push(self.atom(0, Some(false))?);
            if self.one_of(&[",", ")"])? == 1 {
                return Ok(Program { atoms });
            }
        }
    }
    /// what follows "Match(" or "!Match("
    fn literal(&mut self, negated: bool) -> Read<Literal> {
        let column = self.number()?;
        self.one_of(&[","])?;
        let seq = self.seq(Kind::Literal)?;
        self.one_of(&[","])?;
        let least = self.one_of(&["1", "2", "3"])? as u8 + 1;
        self.one_of(&[")"])?;
        Ok(Literal { negated, column, seq, least })
    }
}

/// Reads a conditional program with tokens up to this one.
pub fn read_switch(bytes: &[u8], last: Token) -> Result<Switch, usize> {
    let mut p = Reading { bytes, at: 0, last };
    p.one_of(&["Switch("])?;
    let mut cases = Vec::new();
    loop {
        let words: &[&str] = if cases.len() < 7 { &["else=>", "!Match(", "Match("] } else { &["else=>"] };
        let w = p.one_of(words)?;
        if w == 0 {
            break;
        }
        let first = p.literal(w == 1)?;
        let second = if p.one_of(&["=>", "&"])? == 1 {
            let w = p.one_of(&["!Match(", "Match("])?;
            let l = p.literal(w == 0)?;
            p.one_of(&["=>"])?;
            Some(l)
        } else {
            None
        };
        let program = p.program()?;
        p.one_of(&[";"])?;
        cases.push(Case { guard: Guard { first, second }, program });
    }
    let last = p.program()?;
    p.one_of(&[")"])?;
    if p.at < bytes.len() {
        return Err(p.at);
    }
    Ok(Switch { cases, last })
}
