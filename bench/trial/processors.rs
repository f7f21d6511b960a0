//! How much more four threads do than one, where none waits for another: each makes passes over 2,048 numbers of its own, which is what a worker
//! of a trial does most. That is what a machine lets four workers gain at most: two processors of it may be halves of one core, and a core
//! that works alone may run faster.
use std::hint::black_box;
use std::thread;
use std::time::{Duration, Instant};

const NUMBERS: usize = 2_048;
const SPELL: Duration = Duration::from_millis(300);
const SPELLS: usize = 5;

/// How many passes a thread makes in a spell, in hundreds.
fn passes() -> u64 {
    let (begun, mut count, mut numbers) = (Instant::now(), 0, [1i64; NUMBERS]);
    while begun.elapsed() < SPELL {
        for step in 0..100 {
            for number in &mut numbers {
                *number = number.wrapping_sub(step).max(-1_000_000);
            }
            black_box(&mut numbers);
        }
        count += 1;
    }
    count
}

fn together(threads: usize) -> u64 {
    thread::scope(|scope| {
        let made: Vec<_> = (0..threads).map(|_| scope.spawn(passes)).collect();
        made.into_iter().map(|thread| thread.join().unwrap()).sum()
    })
}

fn main() {
    let best = |threads| (0..SPELLS).map(|_| together(threads)).max().unwrap() as f64;
    println!("{:.2}", best(4) / best(1));
}
