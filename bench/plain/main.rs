//! The settlement book as a plain program: forms on standard input, rows and refusals on standard output.
//!
//! It shares no code with the proved program and is written from the rules alone. It is there to compare transcripts
//! with, and as the baseline of a benchmark. Build it with `rustc -O --edition 2021 main.rs`.

mod book;
mod read;

use book::{Book, Row};
use read::{Entry, Fault, Reader};
use std::io::{self, BufWriter, Read, Write};

/// The longest input that is read, in bytes.
const LONGEST_INPUT: usize = 65_536;

/// A book with what it needs to read and answer lines.
struct Session<W> {
    book: Book,
    rows: Vec<Row>,
    out: W,
}

impl<W: Write> Session<W> {
    /// Puts one entry to the book and prints what it answers.
    fn enter(&mut self, entry: Entry) -> io::Result<Result<(), book::Refusal>> {
        let book = &mut self.book;
        let done = match entry {
            Entry::List { asset } => book.list(asset),
            Entry::Term { asset, award, kw, ready } => match book.term(asset, award, kw, ready) {
                Ok(invoice) if invoice > 0 => {
                    writeln!(self.out, "(invoice (asset {asset}) (cents {invoice}))")?;
                    Ok(())
                }
                other => other.map(|_| ()),
            },
            Entry::Over { class, asset, cents } => book.over(class, asset, cents),
            Entry::Under { class, asset, cents } => book.under(class, asset, cents),
            Entry::Uplift { asset, cents } => book.uplift(asset, cents),
            Entry::Payin { asset, cents } => book.payin(asset, cents),
            Entry::Ready { asset } => book.ready(asset),
            Entry::Close => match book.close(&mut self.rows) {
                Ok(residue) => {
                    self.print_close(residue)?;
                    Ok(())
                }
                Err(refusal) => Err(refusal),
            },
        };
        Ok(done)
    }

    fn print_close(&mut self, residue: [i64; 2]) -> io::Result<()> {
        for row in &self.rows {
            writeln!(
                self.out,
                "(row (asset {}) (award {}) (taken {}) (share {}) (paid {}) (carried {}))",
                row.asset,
                row.award,
                row.taken[0] + row.taken[1],
                row.share[0] + row.share[1],
                row.paid,
                row.carried,
            )?;
        }
        let [delivery, availability] = residue;
        let period = self.book.closes();
        writeln!(self.out, "(closed (period {period}) (delivery {delivery}) (availability {availability}))")
    }
}

fn refused(out: &mut impl Write, line: usize, byte: usize, layer: &str, number: u8) -> io::Result<()> {
    writeln!(out, "(refused (line {line}) (byte {byte}) (layer {layer}) (number {number}))")
}

/// The lines of an input. One that ends in byte 10 has no empty line behind it.
fn lines(input: &[u8]) -> impl Iterator<Item = &[u8]> {
    let body = input.strip_suffix(b"\n").unwrap_or(input);
    let none = input.is_empty();
    body.split(|&byte| byte == b'\n').filter(move |_| !none)
}

fn main() -> io::Result<()> {
    let mut input = Vec::new();
    io::stdin().take(LONGEST_INPUT as u64 + 1).read_to_end(&mut input)?;
    let out = BufWriter::with_capacity(1 << 16, io::stdout().lock());
    let mut session = Session { book: Book::default(), rows: Vec::new(), out };
    if input.len() > LONGEST_INPUT {
        refused(&mut session.out, 0, 0, "text", 1)?;
        return session.out.flush();
    }
    let mut reader = Reader::default();
    for (index, line) in lines(&input).enumerate() {
        match reader.entry(line) {
            Ok(entry) => {
                if let Err(refusal) = session.enter(entry)? {
                    refused(&mut session.out, index + 1, 1, "book", refusal as u8)?;
                }
            }
            Err(Fault { byte, number }) => {
                let layer = if number <= 2 { "text" } else { "form" };
                refused(&mut session.out, index + 1, byte, layer, number)?;
            }
        }
    }
    session.out.flush()
}
