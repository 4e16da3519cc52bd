//! How a cache is asked, and what is done if a call is refused.

use super::Log;
use super::texts::{CHOSEN, MADE, Text};
use super::told::{Asked, Told};
use crate::engine::moka_engine::{FixedClock, Instant};
use crate::tests::allocator::{counting, refusable};
use std::convert::Infallible;
use std::fmt::Debug;

/// What a call answers, or hands back if it is refused, as text.
pub type Answer = Result<String, String>;

/// What a registration hands back, and the beginning of that in segments, before how many have registered it.
const PREDICATE: &str = "PredicateRefused { error: OutOfMemory, predicate: NoPredicate }";
const IN_SEGMENTS: &str = "(PredicateRefused { error: OutOfMemory, predicate: NoPredicate }, ";

/// How a call is made with a key and a value.
pub type Call<C> = fn(&mut C, Text, Text, Instant, &mut FixedClock) -> Answer;

/// The name of a call, the word of its value, its answer, and how it is made. A text is a word with the number of the
/// round, for which `#` stands in answers. `*` stands for a list that has the key, and is compared with that of the
/// calls none of which is refused.
pub type Step<C> = (&'static str, &'static str, &'static str, Call<C>);

/// A cache that is asked, and the call that is made of which round.
pub struct Round<'a, C> {
    pub cache: C,
    pub log: &'a mut Log,
    pub number: u64,
    /// The name of the call, and the words of its key and value.
    asked: (&'static str, &'static str, &'static str),
    /// What refused calls have counted that were made again.
    counted_twice: [u64; 3],
}

/// The answer of a call as text, which does not count as its memory.
pub fn show<T: Debug, E: Debug>(answer: Result<T, E>) -> Answer {
    let text = |it: &dyn Debug| format!("{it:?}");
    counting(false, || answer.map(|it| text(&it)).map_err(|it| text(&it)))
}

/// What a call lists, in order.
pub fn sorted<T: Ord>(listed: impl IntoIterator<Item = T>) -> Vec<T> {
    counting(false, || {
        let mut listed = Vec::from_iter(listed);
        listed.sort();
        listed
    })
}

/// Makes a cache, if need be a second time.
pub fn build<C, E>(log: &mut Log, make: impl Fn() -> Result<C, E>) -> C {
    let made = refusable("build", &make).or_else(|_| {
        log.refused.push("build".into());
        refusable("build", &make)
    });
    made.ok().expect("a cache")
}

impl<'a, C: Asked> Round<'a, C> {
    pub fn new(cache: C, log: &'a mut Log) -> Self {
        Round {
            cache,
            log,
            number: 0,
            asked: ("", "", ""),
            counted_twice: [0; 3],
        }
    }

    pub fn now(&self) -> Instant {
        Instant(self.number)
    }

    /// Key and value of the call: a text is a word with the number.
    fn texts(&self) -> (Text, Text) {
        let text = |word| Text::new(format!("{word} {}", self.number));
        (text(self.asked.1), text(self.asked.2))
    }

    /// What the cache tells of itself and of the key, but for what was counted twice.
    fn told(&self) -> Told {
        let mut told = self.cache.told(&self.texts().0, self.now());
        told.counted = [0, 1, 2].map(|it| told.counted[it] - self.counted_twice[it]);
        told
    }

    /// Makes these steps with a key.
    pub fn make(&mut self, key: &'static str, steps: &[Step<C>]) {
        for &(name, value, answer, call) in steps {
            let answered = self.answer((name, key, value), call);
            if answer == "*" {
                assert!(answered.contains(&format!("{:?}", self.texts().0)), "{answered}");
                self.log.lines.push(answered);
            } else {
                assert_eq!(answered, answer.replace('#', &self.number.to_string()), "{name}");
            }
        }
    }

    /// What a call answers, which is made again if it is refused.
    fn answer(&mut self, asked: (&'static str, &'static str, &'static str), call: Call<C>) -> String {
        let before = self.begin(asked);
        let ask = |it: &mut Self| {
            let (key, value) = it.texts();
            it.refusable(|cache, now, clock| call(cache, key, value, now, clock))
        };
        ask(self).unwrap_or_else(|refused| {
            self.meet(before, &refused);
            ask(self).expect("memory")
        })
    }

    /// What is told before a call of this name, with a key and a value of these words.
    pub fn begin(&mut self, asked: (&'static str, &'static str, &'static str)) -> Told {
        self.asked = asked;
        MADE.set(0);
        CHOSEN.set(0);
        self.told()
    }

    /// What a call answers, which is refused if an allocation is.
    pub fn refusable<T, E, F>(&mut self, call: F) -> Result<T, E>
    where
        F: FnOnce(&mut C, Instant, &mut FixedClock) -> Result<T, E>,
    {
        let now = self.now();
        refusable(self.asked.0, || call(&mut self.cache, now, &mut FixedClock(now)))
    }

    /// Compares what a refused call hands back and has done with what it should, and puts back what it took out.
    fn meet(&mut self, before: Told, refused: &str) {
        let place = self.place_of(refused, before.value.as_ref());
        let taken = before.value.clone().filter(|_| refused.starts_with("NotTold"));
        let counted = self.counted_at(place, before.value.is_some());
        let done = refused.strip_prefix(IN_SEGMENTS).and_then(|it| it.strip_suffix(')'));
        self.refused(place, before, |told| {
            told.counted = [0, 1, 2].map(|it| told.counted[it] + counted[it]);
            told.reads += (counted[0] + counted[1]) as usize;
            told.predicates += done.map_or(0, |it| it.parse().unwrap());
            if taken.is_some() {
                (told.value, told.writes) = (None, told.writes + 1);
            }
        });
        self.counted_twice = [0, 1, 2].map(|it| self.counted_twice[it] + counted[it]);
        if let Some(value) = taken {
            self.cache.put(self.texts().0, value, self.now()).unwrap();
        }
    }

    /// At which of its steps a call was refused, if it has several. It hands back its key, and its value or that which
    /// it took out.
    fn place_of(&self, refused: &str, there: Option<&Text>) -> &'static str {
        let (key, value) = self.texts();
        let insert = format!("InsertRefused {{ error: OutOfMemory, key: {key:?}, value: {value:?} }}");
        let removal = format!("NotTold {{ error: OutOfMemory, value: {:?} }}", there.unwrap_or(&value));
        match refused {
            it if it == insert && self.asked.0 != "or_insert" => "",
            it if it == insert && there.is_none() || it == format!("Insert({insert})") => " at the insert",
            it if it == insert || it == format!("Lookup({key:?})") => " at the look-up",
            it if it == format!("NotTold({key:?}, {removal})") => " at the removal",
            "OutOfMemory" | PREDICATE => "",
            it if it == removal || it.starts_with(IN_SEGMENTS) => "",
            it => panic!("{} hands back {it}", self.asked.0),
        }
    }

    /// The hits, misses and loads of a call that is refused at this place. It has called no closure unless it looked up
    /// its key, and then one at most.
    fn counted_at(&self, place: &str, is_there: bool) -> [u64; 3] {
        let (made, chosen) = (MADE.take(), CHOSEN.take());
        let looked_up = u64::from(place == " at the insert" || place == " at the removal");
        assert!(made + chosen <= looked_up, "{} calls closures{place}", self.asked.0);
        [looked_up * u64::from(is_there), looked_up * u64::from(!is_there), made]
    }

    /// Takes down that the call was refused at this place, and compares what is told then with what was told before,
    /// but for what the call has done.
    pub fn refused(&mut self, place: &str, before: Told, done: impl FnOnce(&mut Told)) {
        let (name, mut expected) = (self.asked.0, before);
        done(&mut expected);
        assert_eq!(self.told(), expected, "after a refused {name}");
        self.log.refused.push(format!("{name}{place}"));
    }

    /// Takes down what is told and listed after a run, which leaves nothing to be done.
    pub fn finish(&mut self) {
        self.asked.0 = "run";
        let Ok(is_more) = self.refusable(|cache, now, _| Ok::<_, Infallible>(cache.run(now)));
        let told = self.told();
        let waiting = (told.predicates, told.outstanding, told.oldest, told.writes, told.reads);
        assert_eq!((is_more, waiting), (false, (0, 0, None, 0, 0)));
        self.log.told = (told.entries, told.notices, told.counted);
        let entries = self.cache.entries(self.now());
        self.log.lines.push(format!("{told:?}, {entries}"));
    }

    /// Takes down what the listener was notified of.
    pub fn end(self) {
        let notices: Vec<_> = self.cache.engines().into_iter().map(|it| it.listener()).collect();
        self.log.lines.push(format!("{notices:?}"));
    }
}
