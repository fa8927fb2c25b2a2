//! Prints COUNT names whose hashes share their last BITS bits, a name a line: `colliding COUNT BITS`.
//! The hash is that of a table of names with the runtime's fixed key: SipHash-1-3 with keys of 0, of the name's length in 8 bytes and the name, whose
//! two halves are then joined by an exclusive or.

use std::hash::{DefaultHasher, Hasher};
use std::thread::scope;

/// The names are this many hexadecimal digits.
const DIGITS: usize = 10;
/// So many names are looked at by a thread at a time.
const PIECE: u64 = 1 << 24;

fn name_of(number: u64) -> [u8; DIGITS] {
    let mut name = [0; DIGITS];
    for (at, digit) in name.iter_mut().enumerate() {
        *digit = b"0123456789abcdef"[(number >> (4 * (DIGITS - 1 - at)) & 15) as usize];
    }
    name
}

fn hash_of(name: &[u8]) -> u64 {
    let mut hasher = DefaultHasher::new();
    hasher.write(&(name.len() as u64).to_le_bytes());
    hasher.write(name);
    let hash = hasher.finish();
    hash ^ hash >> 32
}

/// The numbers of a piece whose names have a hash that ends in 0 bits.
fn found(piece: u64, last: u64) -> Vec<u64> {
    let numbers = piece * PIECE..(piece + 1) * PIECE;
    numbers.filter(|number| hash_of(&name_of(*number)) & last == 0).collect()
}

fn main() {
    let words: Vec<u64> = std::env::args().skip(1).map(|word| word.parse().expect("a number")).collect();
    let [count, bits] = words[..] else { panic!("usage: colliding COUNT BITS") };
    let (last, threads) = ((1 << bits) - 1, std::thread::available_parallelism().map_or(1, |it| it.get() as u64));
    let (mut left, mut next) = (count as usize, 0);
    while left > 0 {
        let pieces = scope(|scope| {
            let begun: Vec<_> = (next..next + threads).map(|piece| scope.spawn(move || found(piece, last))).collect();
            begun.into_iter().flat_map(|it| it.join().expect("a piece")).collect::<Vec<_>>()
        });
        for number in pieces.iter().take(left) {
            println!("{}", String::from_utf8_lossy(&name_of(*number)));
        }
        left -= left.min(pieces.len());
        next += threads;
    }
}
