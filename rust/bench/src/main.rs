//! Times one cache under one workload, once.
//!
//! `ravulemis_bench SUBJECT SHARDS THREADS WORKLOAD CALLS` prints nanoseconds a call: of wall time, and of the threads'
//! processor time. Each thread makes so many calls. `compare` calls it.

mod subjects;

use std::sync::Barrier;
use std::time::Instant;
use std::{env, fs, hint, thread};
use subjects::{Subject, subject};

const KEYS: u64 = 10_000;

/// Pseudorandom numbers of 32 bits.
struct Random(u64);

impl Random {
    fn next(&mut self) -> u64 {
        self.0 = self
            .0
            .wrapping_mul(6364136223846793005)
            .wrapping_add(1442695040888963407);
        self.0 >> 32
    }

    /// A key: each as often as any other, or the lower ones far more often.
    fn key(&mut self, is_skewed: bool) -> u64 {
        let fraction = self.next();
        if !is_skewed {
            return (fraction * KEYS) >> 32;
        }
        let square = (fraction * fraction) >> 32;
        let fourth = (square * square) >> 32;
        (fourth * KEYS) >> 32
    }
}

/// What is done with a cache.
#[derive(Clone, Copy)]
enum Workload {
    /// All keys are there, and are asked for equally often.
    Hits,
    /// A quarter of the keys fits; a key that is missing is put there.
    ReadThrough,
}

impl Workload {
    fn capacity(self) -> u64 {
        match self {
            Workload::Hits => 4 * KEYS,
            Workload::ReadThrough => KEYS / 4,
        }
    }

    fn fill(self, cache: &dyn Subject) {
        match self {
            Workload::Hits => (0..KEYS).for_each(|key| cache.insert(key, key)),
            Workload::ReadThrough => self.play(cache, 0, 4 * KEYS),
        }
    }

    /// Makes so many calls.
    #[inline(never)]
    fn play(self, cache: &dyn Subject, seed: u64, calls: u64) {
        let mut random = Random(seed);
        let mut sum = 0;
        match self {
            Workload::Hits => sum = cache.sum(&mut (0..calls).map(|_| random.key(false))),
            Workload::ReadThrough => cache.read_through(&mut (0..calls).map(|_| random.key(true))),
        }
        hint::black_box(sum);
    }
}

/// Nanoseconds that this thread was on a processor.
fn processor_time() -> f64 {
    let text = fs::read_to_string("/proc/thread-self/schedstat").unwrap_or_default();
    let first = text.split(' ').next().unwrap_or_default();
    first.parse().unwrap_or(f64::NAN)
}

fn main() {
    let arguments: Vec<String> = env::args().skip(1).collect();
    let [name, shards, threads, workload, calls] = &arguments[..] else {
        panic!("SUBJECT SHARDS THREADS WORKLOAD CALLS");
    };
    let number = |text: &String| text.parse::<u64>().expect("a number");
    let (threads, calls) = (number(threads), number(calls));
    let workload = match workload.as_str() {
        "hits" => Workload::Hits,
        "read-through" => Workload::ReadThrough,
        _ => panic!("hits or read-through"),
    };
    let cache = subject(name, number(shards) as usize, workload.capacity() as usize);
    workload.fill(&*cache);
    let start = Barrier::new(threads as usize + 1);
    let (wall, processor) = thread::scope(|scope| {
        let work = |thread: u64| {
            start.wait();
            let before = processor_time();
            workload.play(&*cache, thread + 1, calls);
            processor_time() - before
        };
        let workers: Vec<_> = (0..threads).map(|thread| scope.spawn(move || work(thread))).collect();
        start.wait();
        let begun = Instant::now();
        let processor: f64 = workers.into_iter().map(|it| it.join().expect("a worker")).sum();
        (begun.elapsed().as_nanos() as f64, processor)
    });
    let calls = (calls * threads) as f64;
    println!("{:.1} {:.1}", wall / calls, processor / calls);
}
