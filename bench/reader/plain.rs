// Reads the same texts as the program into the same shape of data, for bench/reader.sh: the whole of the format's sections,
// with its refusals of unknown and repeated names and of numbers outside the limits, as a Rust programmer would write it without proofs.
use std::collections::HashMap;
use std::time::Instant;

#[derive(Clone, Copy)]
struct Frac {
    num: i128,
    den: i128,
}

#[derive(Clone, Copy, PartialEq)]
enum Sense {
    L,
    G,
    E,
}

struct Row {
    sense: Option<Sense>,
    rhs: Frac,
    terms: Vec<(u32, Frac)>,
}

struct Problem {
    names: Vec<String>,
    rows: Vec<Row>,
    objective: Vec<(u32, Frac)>,
    spans: Vec<(i64, i64)>,
}

type Fault = (usize, &'static str);

fn gcd(mut a: u128, mut b: u128) -> u128 {
    while b > 0 {
        (a, b) = (b, a % b);
    }
    a
}

// A multiple of 10^-15 of size at most 10^9.
fn number(field: &[u8]) -> Result<Frac, &'static str> {
    let (negative, mut rest) = match field {
        [b'-', rest @ ..] => (true, rest),
        [b'+', rest @ ..] => (false, rest),
        _ => (false, field),
    };
    let (mut size, mut scale, mut digits, mut point) = (0u128, 0u32, 0, false);
    while let [byte, more @ ..] = rest {
        match byte {
            b'0'..=b'9' => {
                size = size * 10 + u128::from(byte - b'0');
                if size > 1_000_000_000_000_000_000_000_000 || scale > 14 {
                    return Err("TooLarge or TooFine");
                }
                scale += u32::from(point);
                digits += 1;
            }
            b'.' if !point => point = true,
            _ => break,
        }
        rest = more;
    }
    if digits == 0 || !rest.is_empty() {
        return Err("BadNumber");
    }
    let den = 10u128.pow(scale);
    if size > 1_000_000_000 * den {
        return Err("TooLarge");
    }
    let common = gcd(size, den);
    let num = (size / common) as i128;
    Ok(Frac { num: if negative { -num } else { num }, den: (den / common) as i128 })
}

fn are_fields(fields: &[&[u8]]) -> bool {
    fields.iter().all(|f| f.len() <= 255 && f.iter().all(|b| (0x21..=0x7e).contains(b)))
}

#[derive(Default)]
struct Reader<'a> {
    section: &'a [u8],
    rows: HashMap<&'a [u8], usize>,
    made: Vec<Row>,
    columns: HashMap<&'a [u8], usize>,
    names: Vec<&'a [u8]>,
    last: &'a [u8],
    // the column that named a row last
    seen: Vec<usize>,
    sides: HashMap<&'a [u8], ()>,
    uppers: Vec<Option<i64>>,
}

impl<'a> Reader<'a> {
    fn row_line(&mut self, fields: &[&'a [u8]]) -> Result<(), &'static str> {
        let [kind, name] = fields else { return Err("BadFields") };
        let sense = match *kind {
            b"N" => None,
            b"L" => Some(Sense::L),
            b"G" => Some(Sense::G),
            b"E" => Some(Sense::E),
            _ => return Err("BadFields"),
        };
        if sense.is_some() && self.made.len() > 8000 {
            return Err("TooMany");
        }
        if self.rows.insert(name, self.made.len()).is_some() {
            return Err("Duplicate");
        }
        self.made.push(Row { sense, rhs: Frac { num: 0, den: 1 }, terms: Vec::new() });
        self.seen.push(usize::MAX);
        Ok(())
    }

    fn entry(&mut self, column: &'a [u8], row: &[u8], value: &[u8]) -> Result<(), &'static str> {
        let Some(&row) = self.rows.get(row) else { return Err("UnknownRow") };
        if self.names.is_empty() || column != self.last {
            if self.columns.contains_key(column) {
                return Err("Duplicate");
            }
            if self.names.len() >= 8000 {
                return Err("TooMany");
            }
            self.columns.insert(column, self.names.len());
            self.names.push(column);
            self.uppers.push(None);
            self.last = column;
        }
        let index = self.names.len() - 1;
        if self.seen[row] == index {
            return Err("Duplicate");
        }
        self.seen[row] = index;
        let number = number(value)?;
        if number.num != 0 {
            self.made[row].terms.push((index as u32, number));
        }
        Ok(())
    }

    fn column_line(&mut self, fields: &[&'a [u8]]) -> Result<(), &'static str> {
        match fields {
            [_, b"'MARKER'", _] => Ok(()),
            [column, row, value] => self.entry(column, row, value),
            [column, row, value, second, other] => {
                self.entry(column, row, value)?;
                self.entry(column, second, other)
            }
            _ => Err("BadFields"),
        }
    }

    fn side_line(&mut self, fields: &[&'a [u8]]) -> Result<(), &'static str> {
        for pair in fields[fields.len() % 2..].chunks_exact(2) {
            let Some(&row) = self.rows.get(pair[0]) else { return Err("UnknownRow") };
            if self.sides.insert(pair[0], ()).is_some() {
                return Err("Duplicate");
            }
            self.made[row].rhs = number(pair[1])?;
        }
        Ok(())
    }

    fn bound_line(&mut self, fields: &[&'a [u8]]) -> Result<(), &'static str> {
        let [b"UP", .., column, value] = fields else { return Err("BadFields") };
        let Some(&column) = self.columns.get(column) else { return Err("UnknownColumn") };
        let upper = number(value)?;
        self.uppers[column] = Some(upper.num.div_euclid(upper.den) as i64);
        Ok(())
    }

    fn data_line(&mut self, fields: &[&'a [u8]]) -> Result<(), &'static str> {
        if !are_fields(fields) {
            return Err("BadFields");
        }
        match self.section {
            b"ROWS" => self.row_line(fields),
            b"COLUMNS" => self.column_line(fields),
            b"RHS" => self.side_line(fields),
            b"BOUNDS" => self.bound_line(fields),
            _ => Err("BadSection"),
        }
    }

    fn problem(self) -> Option<Problem> {
        let mut spans = Vec::new();
        for upper in &self.uppers {
            spans.push((0, (*upper)?));
        }
        let (mut rows, mut objective) = (Vec::new(), None);
        for row in self.made {
            match row.sense {
                Some(_) => rows.push(row),
                None if objective.is_none() => objective = Some(row.terms),
                None => {}
            }
        }
        let names = self.names.iter().map(|name| String::from_utf8_lossy(name).into_owned()).collect();
        Some(Problem { names, rows, objective: objective?, spans })
    }
}

fn read(text: &[u8]) -> Result<Problem, Fault> {
    let mut reader = Reader::default();
    let mut number = 0;
    let mut fields: Vec<&[u8]> = Vec::new();
    for line in text.split(|b| *b == b'\n') {
        number += 1;
        let line = line.strip_suffix(b"\r").unwrap_or(line);
        if line.first() == Some(&b'*') {
            continue;
        }
        fields.clear();
        fields.extend(line.split(|b| *b == b' ' || *b == b'\t').filter(|field| !field.is_empty()).take(6));
        if fields.is_empty() {
            continue;
        }
        if line[0] == b' ' || line[0] == b'\t' {
            reader.data_line(&fields).map_err(|fault| (number, fault))?;
        } else {
            reader.section = fields[0];
            if fields[0] == b"ENDATA" {
                return reader.problem().ok_or((number, "no objective or no bound"));
            }
        }
    }
    Err((number, "NoEnd"))
}

fn main() {
    let text = std::fs::read(std::env::args().nth(1).unwrap()).unwrap();
    let start = Instant::now();
    let read = read(&text);
    print!("{} {} ", start.elapsed().as_nanos(), text.len());
    match &read {
        Ok(problem) => {
            let terms: usize = problem.rows.iter().map(|row| row.terms.len()).sum();
            let checksum: i128 = problem.rows.iter().map(|row| row.rhs.num + row.terms.iter().map(|t| t.1.num / t.1.den).sum::<i128>()).sum();
            println!("{} columns, {} rows, {terms} terms", problem.names.len(), problem.rows.len());
            eprintln!("{checksum} {} {}", problem.objective.len(), problem.spans.len());
        }
        Err((line, kind)) => println!("refused at line {line}: {kind}"),
    }
}
