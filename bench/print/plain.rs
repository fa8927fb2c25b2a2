// Prints the derived lines of a certificate by `write!`, each by one write to a file, for bench/print.sh: `plain CERTIFICATE PRINTED`. It takes them
// apart into numbers first, and prints the nanoseconds of the printing alone.
use std::env;
use std::error::Error;
use std::fmt::{self, Display};
use std::fs::{self, File};
use std::io::Write;
use std::time::Instant;

/// A word of a line: a number, or text.
enum Word {
    Whole(i128),
    Fraction(i128, u128),
    Text(String),
}

impl Word {
    fn read(word: &str) -> Word {
        if let Ok(number) = word.parse() {
            return Word::Whole(number);
        }
        match word.split_once('/').map(|(num, den)| (num.parse(), den.parse())) {
            Some((Ok(num), Ok(den))) => Word::Fraction(num, den),
            _ => Word::Text(word.to_string()),
        }
    }
}

impl Display for Word {
    fn fmt(&self, f: &mut fmt::Formatter<'_>) -> fmt::Result {
        match self {
            Word::Whole(number) => write!(f, "{number}"),
            Word::Fraction(num, den) => write!(f, "{num}/{den}"),
            Word::Text(text) => f.write_str(text),
        }
    }
}

fn main() -> Result<(), Box<dyn Error>> {
    let words: Vec<String> = env::args().skip(1).collect();
    let [certificate, printed] = words.as_slice() else { return Err("CERTIFICATE PRINTED".into()) };
    let text = fs::read_to_string(certificate)?;
    let derived = text.lines().skip_while(|line| !line.starts_with("DER ")).skip(1);
    let lines: Vec<Vec<Word>> = derived.map(|line| line.split(' ').map(Word::read).collect()).collect();
    let mut file = File::create(printed)?;
    let mut buffer = Vec::new();
    let start = Instant::now();
    for line in &lines {
        buffer.clear();
        let mut gap = "";
        for word in line {
            write!(buffer, "{gap}{word}")?;
            gap = " ";
        }
        buffer.push(b'\n');
        file.write_all(&buffer)?;
    }
    println!("{}", start.elapsed().as_nanos());
    Ok(())
}
