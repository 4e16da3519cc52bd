//! What tests share in which threads wait for each other.

use ravulemis::sync::Cache;
use std::hash::{Hash, Hasher};
use std::sync::mpsc::{self, Receiver, Sender};
use std::thread;
use std::time::Duration;

// What takes longer hangs.
const LONG: Duration = Duration::from_secs(10);

/// Whether a call comes back. One that does not is left behind.
pub fn ends<R>(call: impl FnOnce() -> R + Send + 'static) -> bool {
    let (sender, ended) = mpsc::channel();
    thread::spawn(move || {
        call();
        sender.send(())
    });
    ended.recv_timeout(LONG).is_ok()
}

// What a call answers that a thread of its own makes.
fn answer_of<R: Send + 'static>(call: impl FnOnce() -> R + Send + 'static) -> Receiver<R> {
    let (sender, answer) = mpsc::channel();
    thread::spawn(move || sender.send(call()));
    answer
}

/// A key that tells when another is found equal to it: in a cache that keeps none, when one comes to wait for it. All
/// hashes are equal.
#[derive(Clone)]
pub struct Watched {
    number: u32,
    told: Sender<()>,
}

impl PartialEq for Watched {
    fn eq(&self, other: &Self) -> bool {
        let is_same = self.number == other.number;
        if is_same {
            // The test may no longer listen.
            let _ = self.told.send(());
        }
        is_same
    }
}

impl Eq for Watched {}

impl Hash for Watched {
    fn hash<H: Hasher>(&self, state: &mut H) {
        state.write_u32(0);
    }
}

/// A key, and what it tells.
pub fn watched(number: u32) -> (Watched, Receiver<()>) {
    let (told, tells) = mpsc::channel();
    (Watched { number, told }, tells)
}

/// What two calls for a key answer, each made by a thread of its own. The first calls its last argument when it is on
/// its way: then the second is made, and the first goes on when that one waits for it. The cache keeps no key.
pub fn with_one_who_waits<V, A, B>(
    cache: &Cache<Watched, V>,
    first: impl FnOnce(&Cache<Watched, V>, Watched, &dyn Fn()) -> A + Send + 'static,
    second: impl FnOnce(&Cache<Watched, V>, Watched) -> B + Send + 'static,
) -> (A, B)
where
    V: Send + Sync + 'static,
    A: Send + 'static,
    B: Send + 'static,
{
    let (key, waits) = watched(1);
    let (begins, begun) = mpsc::channel();
    let (owned, same_key) = (cache.clone(), key.clone());
    let first = answer_of(move || {
        first(&owned, same_key, &|| {
            begins.send(()).unwrap();
            waits.recv_timeout(LONG).expect("nobody waits");
        })
    });
    begun.recv_timeout(LONG).expect("the first has not begun");
    let owned = cache.clone();
    let second = answer_of(move || second(&owned, key));
    let first = first.recv_timeout(LONG).expect("the first has not ended");
    (first, second.recv_timeout(LONG).expect("the second has not ended"))
}
