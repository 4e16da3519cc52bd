//! A read-through cache that eight threads share, under load: with a weigher, a listener and an idle time. At the end
//! no value is lost: each is there, or the listener was notified of it once; and the bound is kept.
//!
//! `cargo run --release --example service [SECONDS]`

use ravulemis::RemovalCause;
use ravulemis::sync::Cache;
use std::sync::Arc;
use std::sync::atomic::{AtomicBool, AtomicU64, Ordering};
use std::thread;
use std::time::{Duration, Instant};

const THREADS: u64 = 8;
const PAGES: u64 = 20_000;
const MAX_BYTES: u64 = 4 << 20;

/// Counts and bytes of pages: of those that were fetched, and of those that left.
#[derive(Default)]
struct Totals {
    count: AtomicU64,
    bytes: AtomicU64,
}

impl Totals {
    fn add(&self, page: &str) {
        self.count.fetch_add(1, Ordering::Relaxed);
        self.bytes.fetch_add(page.len() as u64, Ordering::Relaxed);
    }

    fn get(&self) -> (u64, u64) {
        (self.count.load(Ordering::Relaxed), self.bytes.load(Ordering::Relaxed))
    }
}

/// What the service reads from where it is slow.
fn fetch(page: u64) -> Arc<str> {
    "x".repeat((page % 1000) as usize).into()
}

/// Asks for pages, some much more often than others, until it is told to stop. Answers how often.
fn serve(cache: &Cache<u64, Arc<str>>, fetched: &Totals, seed: u64, stop: &AtomicBool) -> u64 {
    let (mut random, mut served) = (seed, 0);
    while !stop.load(Ordering::Relaxed) {
        random = random
            .wrapping_mul(6364136223846793005)
            .wrapping_add(1442695040888963407);
        let (high, low) = (random >> 48, (random >> 33) % PAGES);
        let page = if high % 4 == 0 { low } else { low % (PAGES / 50) };
        let value = cache.get_with(page, || {
            let value = fetch(page);
            fetched.add(&value);
            value
        });
        assert_eq!(value.len() as u64, page % 1000);
        if high % 1000 == 0 {
            cache.invalidate(&page);
        }
        served += 1;
    }
    served
}

fn main() {
    let seconds = std::env::args()
        .nth(1)
        .map_or(5, |it| it.parse().expect("a number of seconds"));
    let (left, fetched, stop) = (Arc::new(Totals::default()), Totals::default(), AtomicBool::new(false));
    let told = Arc::clone(&left);
    let cache: Cache<u64, Arc<str>> = Cache::builder()
        .max_capacity(MAX_BYTES)
        .shards(16)
        .weigher(|_, page: &Arc<str>| page.len() as u32)
        .time_to_idle(Duration::from_millis(500))
        .eviction_listener(move |_, page, _: RemovalCause| told.add(&page))
        .build();
    let start = Instant::now();
    let served: u64 = thread::scope(|scope| {
        let threads: Vec<_> = (0..THREADS)
            .map(|seed| {
                scope.spawn({
                    let (cache, fetched, stop) = (&cache, &fetched, &stop);
                    move || serve(cache, fetched, seed, stop)
                })
            })
            .collect();
        while start.elapsed() < Duration::from_secs(seconds) {
            thread::sleep(Duration::from_millis(100));
            cache.run_pending_tasks();
        }
        stop.store(true, Ordering::Relaxed);
        threads
            .into_iter()
            .map(|it| it.join().expect("a thread that served"))
            .sum()
    });
    cache.run_pending_tasks();
    let (bytes, stats) = (cache.weighted_size(), cache.stats());
    assert!(bytes <= MAX_BYTES, "the bound is kept");
    // Hidden entries leave too, so that all are told.
    cache.invalidate_all();
    cache.run_pending_tasks();
    assert_eq!(
        (cache.entry_count(), fetched.get()),
        (0, left.get()),
        "each page that was fetched is told once"
    );
    println!(
        "{served} pages served in {seconds} s, {} of them fetched, {bytes} bytes kept",
        fetched.get().0
    );
    println!("{stats:?}");
}
