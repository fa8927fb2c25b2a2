// Locks and unlocks of std's Mutex round a list, for bench/lock.sh: alone, and by four threads.
use std::hint::black_box;
use std::sync::Mutex;
use std::thread;
use std::time::Instant;

const TURNS: u32 = 1_000_000;

fn take_turns(lock: &Mutex<Vec<(u64, u64)>>, count: u32) {
    for _ in 0..count {
        let held = lock.lock().unwrap();
        black_box(held.len());
    }
}

fn main() {
    let lock = Mutex::new(Vec::new());
    let start = Instant::now();
    take_turns(&lock, TURNS);
    println!("alone {}", start.elapsed().as_nanos());
    let start = Instant::now();
    thread::scope(|scope| {
        for _ in 0..4 {
            scope.spawn(|| take_turns(&lock, TURNS / 4));
        }
    });
    println!("four {}", start.elapsed().as_nanos());
}
