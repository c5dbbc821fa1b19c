//! The peer of bench/quotas: takes from a quota in plain Rust, by each of so many threads at once.
//!
//!     take_peer TIMES HOW THREADS
//!
//! HOW is `atomic`, by one atomic addition a take, or `mutex`, by one under a mutex. It prints how
//! many takes had a place, and the number that was added to.

use std::sync::atomic::{AtomicU64, Ordering};
use std::sync::Mutex;
use std::thread;

/// How many may take, as in `crates/bench_answer`.
const QUOTA: u64 = 2_000_000_000;

/// Takes so often, and tells how many of the takes had a place.
fn takes(times: u64, take: impl Fn() -> u64) -> u64 {
    (0..times).filter(|_| take() < QUOTA).count() as u64
}

/// The same by so many threads at once.
fn takes_at_once(times: u64, threads: u64, take: impl Fn() -> u64 + Sync) -> u64 {
    let work = || takes(times, &take);
    thread::scope(|scope| {
        let threads: Vec<_> = (0..threads).map(|_| scope.spawn(work)).collect();
        threads.into_iter().map(|thread| thread.join().unwrap()).sum()
    })
}

fn main() {
    let words: Vec<String> = std::env::args().skip(1).collect();
    let [times, how, threads] = words.as_slice() else {
        panic!("take_peer TIMES HOW THREADS");
    };
    let (times, threads) = (times.parse().unwrap(), threads.parse().unwrap());
    let (places, counter) = if how == "atomic" {
        let number = AtomicU64::new(0);
        let places = takes_at_once(times, threads, || number.fetch_add(1, Ordering::SeqCst));
        (places, number.into_inner())
    } else {
        let number = Mutex::new(0);
        let places = takes_at_once(times, threads, || {
            let mut number = number.lock().unwrap();
            *number += 1;
            *number - 1
        });
        (places, number.into_inner().unwrap())
    };
    println!("places={places} counter={counter}");
}
