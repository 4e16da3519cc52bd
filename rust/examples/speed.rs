//! Times a get and a mix of calls: a plain map behind a lock for comparison, the cache with one owner, and the shared
//! cache with one to four threads over 1, 16 and 64 shards.
//!
//! `cargo run --release --example speed`

use ravulemis::{sync, unsync};
use std::collections::HashMap;
use std::hint::black_box;
use std::sync::Mutex;
use std::thread;
use std::time::Instant;

const KEYS: u64 = 10_000;
const CALLS: u64 = 2_000_000;
const REPEATS: usize = 5;

/// Keys at random, always the same.
fn keys(seed: u64) -> impl Iterator<Item = u64> {
    let mut random = seed;
    (0..CALLS).map(move |_| {
        random = random
            .wrapping_mul(6364136223846793005)
            .wrapping_add(1442695040888963407);
        (random >> 33) % KEYS
    })
}

/// Nanoseconds of one call in the median of the repeats, of as many calls by each of some threads at once.
fn nanoseconds(threads: u64, work: impl Fn(u64) + Sync) -> f64 {
    let mut times: Vec<f64> = (0..REPEATS)
        .map(|_| {
            let start = Instant::now();
            thread::scope(|scope| {
                for thread in 0..threads {
                    let work = &work;
                    scope.spawn(move || work(thread));
                }
            });
            start.elapsed().as_nanos() as f64 / (CALLS * threads) as f64
        })
        .collect();
    times.sort_by(f64::total_cmp);
    times[REPEATS / 2]
}

fn main() {
    println!("{KEYS} keys, of which a mix keeps half; nanoseconds of wall time a call, SipHash");
    let map: Mutex<HashMap<u64, u64>> = Mutex::new((0..KEYS).map(|key| (key, key)).collect());
    let plain = nanoseconds(1, |seed| {
        keys(seed).for_each(|key| {
            black_box(map.lock().unwrap().get(&key).copied());
        })
    });
    println!("HashMap in a Mutex, hits: {plain:.0}");
    let mut owned = unsync::Cache::new(2 * KEYS);
    (0..KEYS).for_each(|key| owned.insert(key, key));
    let owned = Mutex::new(owned);
    let hits = nanoseconds(1, |seed| {
        let mut owned = owned.lock().unwrap();
        keys(seed).for_each(|key| {
            black_box(owned.get(&key));
        })
    });
    println!("unsync::Cache, hits: {hits:.0}");
    println!("| shards | threads | hits | 15 gets and an insert |");
    println!("|---|---|---|---|");
    for shards in [1, 16, 64] {
        for threads in [1, 2, 4] {
            let full = sync::Cache::builder().max_capacity(4 * KEYS).shards(shards).build();
            (0..KEYS).for_each(|key| full.insert(key, key));
            let hits = nanoseconds(threads, |seed| {
                keys(seed).for_each(|key| {
                    black_box(full.get(&key));
                })
            });
            let half = sync::Cache::builder().max_capacity(KEYS / 2).shards(shards).build();
            let mix = nanoseconds(threads, |seed| {
                keys(seed).enumerate().for_each(|(step, key)| match step % 16 {
                    0 => half.insert(key, key),
                    _ => {
                        black_box(half.get(&key));
                    }
                })
            });
            println!("| {shards} | {threads} | {hits:.0} | {mix:.0} |");
        }
    }
}
