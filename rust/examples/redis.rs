//! Two processes, played by one program, that each keep a cache in front of the same Redis server. A miss asks the
//! server, and the server only if it has nothing asks the database. What the server announces as changed is
//! invalidated; after a lost connection everything is.
//!
//! `examples/redis.sh` starts a server and runs this; or `cargo run --release --example redis HOST:PORT`.

use ravulemis::sync::Cache;
use std::io::{self, BufRead, BufReader, Read, Write};
use std::net::TcpStream;
use std::sync::atomic::{AtomicU64, Ordering};
use std::sync::{Arc, Mutex};
use std::thread;
use std::time::{Duration, Instant};

/// An announcement can overtake a look-up that is under way, or come late: so long may an old value be served.
const TIME_TO_LIVE: Duration = Duration::from_secs(30);
const SECONDS_AT_THE_SERVER: &str = "3600";

/// What the server answers, in those forms of its protocol that these calls meet.
enum Reply {
    Nothing,
    Text(String),
    List(Vec<Reply>),
}

struct Connection(BufReader<TcpStream>);

impl Connection {
    fn open(address: &str) -> io::Result<Self> {
        let stream = TcpStream::connect(address)?;
        stream.set_nodelay(true)?;
        Ok(Connection(BufReader::new(stream)))
    }

    /// Makes a call, and reads its reply.
    fn call(&mut self, words: &[&str]) -> io::Result<Reply> {
        let mut request = format!("*{}\r\n", words.len());
        for word in words {
            request += &format!("${}\r\n{word}\r\n", word.len());
        }
        self.0.get_mut().write_all(request.as_bytes())?;
        self.reply()
    }

    fn reply(&mut self) -> io::Result<Reply> {
        let mut line = String::new();
        self.0.read_line(&mut line)?;
        let line = line.trim_end();
        let Some((kind, rest)) = line.split_at_checked(1) else {
            return Err(io::ErrorKind::UnexpectedEof.into());
        };
        let count = || rest.parse::<usize>().map_err(io::Error::other);
        match kind {
            "-" => Err(io::Error::other(rest)),
            "_" => Ok(Reply::Nothing),
            "$" | "*" if rest == "-1" => Ok(Reply::Nothing),
            "$" => {
                let mut bytes = vec![0; count()? + 2];
                self.0.read_exact(&mut bytes)?;
                bytes.truncate(bytes.len() - 2);
                Ok(Reply::Text(String::from_utf8(bytes).map_err(io::Error::other)?))
            }
            "*" | ">" => self.list(count()?),
            "%" => self.list(2 * count()?),
            _ => Ok(Reply::Text(rest.to_string())),
        }
    }

    fn list(&mut self, count: usize) -> io::Result<Reply> {
        (0..count)
            .map(|_| self.reply())
            .collect::<io::Result<_>>()
            .map(Reply::List)
    }
}

/// A process of the service: its own cache, its connection to the server, and the address from which it listens.
struct Process {
    near: Cache<String, Arc<str>>,
    server: Mutex<Connection>,
    listens_from: Mutex<String>,
    loaded: AtomicU64,
}

impl Process {
    fn start(address: &'static str) -> io::Result<Arc<Self>> {
        let near = Cache::builder().max_capacity(10_000).time_to_live(TIME_TO_LIVE).build();
        let process = Arc::new(Process {
            near,
            server: Mutex::new(Connection::open(address)?),
            listens_from: Mutex::default(),
            loaded: AtomicU64::new(0),
        });
        let mut listener = process.subscribe(address)?;
        let listening = Arc::clone(&process);
        thread::spawn(move || {
            loop {
                while let Ok(announced) = listener.reply() {
                    listening.forget(announced);
                }
                // Whatever was announced meanwhile is lost, so subscribe first, and then forget everything.
                while let Err(error) = listening.subscribe(address).map(|it| listener = it) {
                    eprintln!("{error}");
                    thread::sleep(Duration::from_millis(50));
                }
                listening.near.invalidate_all();
            }
        });
        Ok(process)
    }

    /// A connection on which the server announces each key that changes.
    fn subscribe(&self, address: &str) -> io::Result<Connection> {
        let mut listener = Connection::open(address)?;
        listener.call(&["HELLO", "3"])?;
        listener.call(&["CLIENT", "TRACKING", "ON", "BCAST"])?;
        *self.listens_from.lock().unwrap() = listener.0.get_ref().local_addr()?.to_string();
        Ok(listener)
    }

    /// Invalidates the keys of an announcement, or all if it names none, since the server was emptied.
    fn forget(&self, announced: Reply) {
        let Reply::List(words) = announced else { return };
        match words.into_iter().nth(1) {
            Some(Reply::List(keys)) => {
                for key in keys {
                    if let Reply::Text(key) = key {
                        self.near.invalidate(&key);
                    }
                }
            }
            _ => self.near.invalidate_all(),
        }
    }

    /// What the service reads: from its own cache, else from the server, else from the database. All threads that miss
    /// a key wait for one request.
    fn get(&self, key: &str) -> Result<Arc<str>, Arc<io::Error>> {
        self.near.try_get_with_by_ref(key, || {
            let mut server = self.server.lock().unwrap();
            if let Reply::Text(value) = server.call(&["GET", key])? {
                return Ok(value.into());
            }
            let value = self.ask_database(key);
            server.call(&["SET", key, &value, "EX", SECONDS_AT_THE_SERVER])?;
            Ok(value.into())
        })
    }

    /// First the server, and then the own cache: the other way round a look-up in between brings the old value back.
    fn put(&self, key: &str, value: &str) -> io::Result<()> {
        let words = ["SET", key, value, "EX", SECONDS_AT_THE_SERVER];
        self.server.lock().unwrap().call(&words)?;
        self.near.invalidate(key);
        Ok(())
    }

    fn ask_database(&self, key: &str) -> String {
        self.loaded.fetch_add(1, Ordering::Relaxed);
        format!("the page {key}")
    }

    /// How long it takes until a value is served.
    fn time_until(&self, key: &str, value: &str) -> Result<Duration, Arc<io::Error>> {
        let start = Instant::now();
        while &*self.get(key)? != value {
            assert!(
                start.elapsed() < TIME_TO_LIVE / 2,
                "served although it was announced as old"
            );
        }
        Ok(start.elapsed())
    }
}

/// Nanoseconds of a call, in the mean.
fn nanoseconds(calls: u32, mut call: impl FnMut()) -> u128 {
    let start = Instant::now();
    for _ in 0..calls {
        call();
    }
    start.elapsed().as_nanos() / u128::from(calls)
}

fn main() -> Result<(), Arc<io::Error>> {
    let address: &'static str = std::env::args().nth(1).expect("HOST:PORT of a server").leak();
    let mut control = Connection::open(address)?;
    control.call(&["FLUSHALL"])?;
    let (one, other) = (Process::start(address)?, Process::start(address)?);

    // The database is asked once for both.
    assert_eq!((&*one.get("a")?, &*other.get("a")?), ("the page a", "the page a"));
    let loaded = one.loaded.load(Ordering::Relaxed) + other.loaded.load(Ordering::Relaxed);
    assert_eq!(loaded, 1);

    one.put("a", "new")?;
    assert_eq!(&*one.get("a")?, "new");
    println!(
        "the other process serves the new value after {:?}",
        other.time_until("a", "new")?
    );

    let from = other.listens_from.lock().unwrap().clone();
    control.call(&["CLIENT", "KILL", "ADDR", &from])?;
    one.put("a", "newer")?;
    println!(
        "and after a lost connection after {:?}",
        other.time_until("a", "newer")?
    );

    let near = nanoseconds(1_000_000, || assert!(other.get("a").is_ok()));
    let far = nanoseconds(20_000, || assert!(control.call(&["GET", "a"]).is_ok()));
    println!("a hit takes {near} ns, a round trip to the server {far} ns");
    Ok(())
}
