//! Turns per second of threads that append to one list behind a mutex.
//!
//! build:  rustc -C opt-level=3 -C target-cpu=native -o turns turns.rs
//! run:    ./turns THREADS TURNS STEPS, which prints the length of the list and the nanoseconds that it took

use std::sync::Mutex;
use std::thread;
use std::time::Instant;

struct Entry {
    #[allow(dead_code)]
    who: u64,
    #[allow(dead_code)]
    made: u64,
}

/// So many steps of a generator, as what a turn does besides.
fn work(seed: u64, steps: u64) -> u64 {
    let mut x = seed;
    for _ in 0..steps {
        x ^= x << 13;
        x ^= x >> 7;
        x ^= x << 17;
    }
    x
}

fn main() {
    let mut words = std::env::args().skip(1).map(|w| w.parse::<u64>().unwrap());
    let seats = words.next().unwrap();
    let turns = words.next().unwrap();
    let steps = words.next().unwrap();
    let list = Mutex::new(Vec::new());
    let start = Instant::now();
    thread::scope(|scope| {
        for who in 1..=seats {
            let list = &list;
            scope.spawn(move || {
                for n in 0..turns / seats {
                    let mut list = list.lock().unwrap();
                    let made = work(n | 1, steps);
                    list.push(Entry { who, made });
                }
            });
        }
    });
    let took = start.elapsed();
    println!("{} {}", list.into_inner().unwrap().len(), took.as_nanos());
}
