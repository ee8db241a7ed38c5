//! Lines to entries.

use crate::book::Class;

/// The longest line, in bytes before its byte 10.
const LONGEST_LINE: usize = 300;
const LONGEST_WORD: usize = 12;
const MOST_DIGITS: usize = 15;

/// What is wrong with a line: the byte, counted from 1, and the number.
#[derive(Debug, PartialEq)]
pub struct Fault {
    pub byte: usize,
    pub number: u8,
}

/// What a line asks for. The holder of a new account is judged here and shown nowhere.
pub enum Entry {
    List { asset: i64 },
    Term { asset: i64, award: i64, kw: i64, ready: bool },
    Over { class: Class, asset: i64, cents: i64 },
    Under { class: Class, asset: i64, cents: i64 },
    Uplift { asset: i64, cents: i64 },
    Payin { asset: i64, cents: i64 },
    Ready { asset: i64 },
    Close,
}

/// A token as places in its line, both counted from 0: first byte, and one past the last.
#[derive(Clone, Copy)]
struct Token {
    kind: Kind,
    start: usize,
    end: usize,
}

#[derive(Clone, Copy, PartialEq)]
enum Kind {
    Open,
    Close,
    Word,
    Number(i64),
}

/// A reader of lines; it keeps its list of tokens from line to line.
#[derive(Default)]
pub struct Reader {
    tokens: Vec<Token>,
}

impl Reader {
    /// The entry of a line. The whole line is told apart first, then its tokens are read as a form, then its values are
    /// held against their ranges, so that a lower number is found before a higher one wherever they stand.
    pub fn entry(&mut self, line: &[u8]) -> Result<Entry, Fault> {
        if line.len() > LONGEST_LINE {
            return Err(Fault { byte: LONGEST_LINE + 1, number: 1 });
        }
        self.tell_apart(line)?;
        Form { line, tokens: &self.tokens }.entry()
    }

    fn tell_apart(&mut self, line: &[u8]) -> Result<(), Fault> {
        self.tokens.clear();
        let mut at = 0;
        while at < line.len() {
            let start = at;
            at += 1;
            let kind = match line[start] {
                b' ' => continue,
                b'(' => Kind::Open,
                b')' => Kind::Close,
                b'a'..=b'z' | b'0'..=b'9' | b'-' => {
                    while at < line.len() && matches!(line[at], b'a'..=b'z' | b'0'..=b'9' | b'-') {
                        at += 1;
                    }
                    run(&line[start..at]).ok_or(Fault { byte: start + 1, number: 2 })?
                }
                _ => return Err(Fault { byte: start + 1, number: 2 }),
            };
            self.tokens.push(Token { kind, start, end: at });
        }
        Ok(())
    }
}

/// A run as a word or a number, if it is one.
fn run(run: &[u8]) -> Option<Kind> {
    if run.iter().all(u8::is_ascii_lowercase) {
        return (run.len() <= LONGEST_WORD).then_some(Kind::Word);
    }
    let (negative, digits) = match run {
        [b'-', digits @ ..] => (true, digits),
        digits => (false, digits),
    };
    if digits.is_empty() || digits.len() > MOST_DIGITS || !digits.iter().all(u8::is_ascii_digit) {
        return None;
    }
    if digits[0] == b'0' && (negative || digits.len() > 1) {
        return None;
    }
    let size = digits.iter().fold(0, |size, digit| size * 10 + i64::from(digit - b'0'));
    Some(Kind::Number(if negative { -size } else { size }))
}

/// A number of a form that is yet to be held against its range.
struct Value {
    number: i64,
    byte: usize,
}

impl Value {
    fn within(self, least: i64, most: i64) -> Result<i64, Fault> {
        if (least..=most).contains(&self.number) {
            Ok(self.number)
        } else {
            Err(Fault { byte: self.byte, number: 4 })
        }
    }

    fn asset(self) -> Result<i64, Fault> {
        self.within(1, 9_999)
    }

    fn cents(self) -> Result<i64, Fault> {
        self.within(1, 1_000_000_000)
    }
}

/// A line of tokens that is being read: its bytes and the tokens not yet read.
struct Form<'a> {
    line: &'a [u8],
    tokens: &'a [Token],
}

impl<'a> Form<'a> {
    fn entry(mut self) -> Result<Entry, Fault> {
        self.take(Kind::Open)?;
        let (word, byte) = self.word()?;
        let entry = match word {
            b"list" => {
                let (asset, holder) = (self.field(b"asset")?, self.field(b"holder")?);
                self.end()?;
                let asset = asset.asset()?;
                holder.within(1, 999)?;
                Entry::List { asset }
            }
            b"term" => {
                let (asset, award) = (self.field(b"asset")?, self.field(b"award")?);
                let (kw, ready) = (self.field(b"kw")?, self.field(b"ready")?);
                self.end()?;
                Entry::Term {
                    asset: asset.asset()?,
                    award: award.within(-1_000_000_000, 1_000_000_000)?,
                    kw: kw.within(0, 1_000_000)?,
                    ready: ready.within(0, 1)? == 1,
                }
            }
            b"over" => {
                let (class, asset, cents) = self.adjustment()?;
                Entry::Over { class, asset, cents }
            }
            b"under" => {
                let (class, asset, cents) = self.adjustment()?;
                Entry::Under { class, asset, cents }
            }
            b"uplift" => {
                let (asset, cents) = self.sum()?;
                Entry::Uplift { asset, cents }
            }
            b"payin" => {
                let (asset, cents) = self.sum()?;
                Entry::Payin { asset, cents }
            }
            b"ready" => {
                let asset = self.field(b"asset")?;
                self.end()?;
                Entry::Ready { asset: asset.asset()? }
            }
            b"close" => {
                self.end()?;
                Entry::Close
            }
            _ => return Err(no_form(byte)),
        };
        Ok(entry)
    }

    /// The fields of over and under, and the end of the line.
    fn adjustment(&mut self) -> Result<(Class, i64, i64), Fault> {
        let class = self.class()?;
        let (asset, cents) = self.sum()?;
        Ok((class, asset, cents))
    }

    /// An asset, cents, and the end of the line.
    fn sum(&mut self) -> Result<(i64, i64), Fault> {
        let (asset, cents) = (self.field(b"asset")?, self.field(b"cents")?);
        self.end()?;
        Ok((asset.asset()?, cents.cents()?))
    }

    fn class(&mut self) -> Result<Class, Fault> {
        self.take(Kind::Open)?;
        self.exactly(b"class")?;
        let class = match self.word()? {
            (b"delivery", _) => Class::Delivery,
            (b"availability", _) => Class::Availability,
            (_, byte) => return Err(no_form(byte)),
        };
        self.take(Kind::Close)?;
        Ok(class)
    }

    fn field(&mut self, name: &[u8]) -> Result<Value, Fault> {
        self.take(Kind::Open)?;
        self.exactly(name)?;
        let token = self.next()?;
        let byte = token.start + 1;
        let Kind::Number(number) = token.kind else { return Err(no_form(byte)) };
        self.take(Kind::Close)?;
        Ok(Value { number, byte })
    }

    /// The bracket that closes the form, and nothing behind it.
    fn end(&mut self) -> Result<(), Fault> {
        self.take(Kind::Close)?;
        match self.tokens.first() {
            None => Ok(()),
            Some(token) => Err(no_form(token.start + 1)),
        }
    }

    fn exactly(&mut self, name: &[u8]) -> Result<(), Fault> {
        match self.word()? {
            (word, _) if word == name => Ok(()),
            (_, byte) => Err(no_form(byte)),
        }
    }

    fn word(&mut self) -> Result<(&'a [u8], usize), Fault> {
        let token = self.take(Kind::Word)?;
        Ok((&self.line[token.start..token.end], token.start + 1))
    }

    fn take(&mut self, kind: Kind) -> Result<Token, Fault> {
        let token = self.next()?;
        if token.kind == kind {
            Ok(token)
        } else {
            Err(no_form(token.start + 1))
        }
    }

    /// The next token; where there is none the line ends early, one past its last byte.
    fn next(&mut self) -> Result<Token, Fault> {
        let (&token, rest) = self.tokens.split_first().ok_or(no_form(self.line.len() + 1))?;
        self.tokens = rest;
        Ok(token)
    }
}

fn no_form(byte: usize) -> Fault {
    Fault { byte, number: 3 }
}
