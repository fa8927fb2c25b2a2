// The plain program beside the certificate's last part: it has the numbers of a certificate's lines in memory, and writes the same text through a
// buffer of 64 KiB into a file, which it syncs.
//
// Its time is that of the writing alone: each number is made into text, and labels and words are copied. It makes no line: it has no tree and no
// proofs, so it adds no rows, finds no bound of a node's box and puts no multipliers in order, as the certificate's part does in its time.
//
//   plain CERTIFICATE OUT     prints the processor seconds of the writing
use std::fs::File;
use std::io::{BufWriter, Write};

/// A word of a line: a number, or text as it stands.
enum Word {
    Number(i64),
    Text(String),
}

fn word(text: &str) -> Word {
    match text.parse::<i64>() {
        Ok(number) if number.to_string() == text => Word::Number(number),
        _ => Word::Text(text.to_string()),
    }
}

fn write_line(out: &mut BufWriter<File>, line: &[Word]) -> std::io::Result<()> {
    for (place, word) in line.iter().enumerate() {
        if place > 0 {
            out.write_all(b" ")?;
        }
        match word {
            Word::Number(number) => write!(out, "{number}")?,
            Word::Text(text) => out.write_all(text.as_bytes())?,
        }
    }
    out.write_all(b"\n")
}

extern "C" {
    /// What this process has used of the processor so far, in microseconds (C's `clock`).
    fn clock() -> i64;
}

fn processor_seconds() -> f64 {
    // It takes nothing and changes nothing.
    unsafe { clock() as f64 / 1e6 }
}

fn main() -> std::io::Result<()> {
    let mut words = std::env::args().skip(1);
    let (from, to) = (words.next().unwrap(), words.next().unwrap());
    let text = std::fs::read_to_string(from)?;
    let lines: Vec<Vec<Word>> = text
        .lines()
        .map(|line| line.split(' ').map(word).collect())
        .collect();
    let start = processor_seconds();
    let mut out = BufWriter::with_capacity(1 << 16, File::create(to)?);
    for line in &lines {
        write_line(&mut out, line)?;
    }
    out.into_inner()?.sync_all()?;
    println!("{}", processor_seconds() - start);
    Ok(())
}
