//! The writes and syncs of a journal's appends in plain Rust: `plain JOURNAL` prints how many frames a journal has, and `plain JOURNAL COPY` adds
//! them one by one to a new one.

use std::env;
use std::error::Error;
use std::fs::{self, File, OpenOptions};
use std::os::unix::fs::FileExt;

const EMPTY: &[u8; 9] = b"BNCJRNL1\0";

/// The payloads of a journal that is whole.
fn payloads(file: &[u8]) -> Vec<&[u8]> {
    let mut payloads = Vec::new();
    let mut rest = &file[8..];
    while let [1, a, b, c, d, behind @ ..] = rest {
        let (payload, more) = behind.split_at(u32::from_le_bytes([*a, *b, *c, *d]) as usize);
        payloads.push(payload);
        rest = more;
    }
    payloads
}

/// One append: the frame behind the closed gate, a sync, the gate, a sync of the bytes alone. The file is kept in memory too.
fn append(disk: &File, file: &mut Vec<u8>, payload: &[u8]) -> Result<(), Box<dyn Error>> {
    let end = file.len() - 1;
    file.extend_from_slice(&(payload.len() as u32).to_le_bytes());
    file.extend_from_slice(payload);
    file.push(0);
    disk.write_all_at(&file[end + 1..], end as u64 + 1)?;
    disk.sync_all()?;
    disk.write_all_at(&[1], end as u64)?;
    disk.sync_data()?;
    file[end] = 1;
    Ok(())
}

/// A journal of these payloads, in a new file.
fn write(path: &str, payloads: &[&[u8]]) -> Result<(), Box<dyn Error>> {
    let disk = OpenOptions::new().read(true).write(true).create_new(true).open(path)?;
    disk.write_all_at(EMPTY, 0)?;
    disk.sync_all()?;
    let mut file = EMPTY.to_vec();
    for payload in payloads {
        append(&disk, &mut file, payload)?;
    }
    Ok(())
}

fn main() -> Result<(), Box<dyn Error>> {
    let words: Vec<String> = env::args().skip(1).collect();
    let journal = fs::read(words.first().ok_or("JOURNAL [COPY]")?)?;
    let payloads = payloads(&journal);
    if let Some(copy) = words.get(1) {
        write(copy, &payloads)?;
    }
    println!("{}", payloads.len());
    Ok(())
}
