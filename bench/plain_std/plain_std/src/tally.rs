//! What a run does how often, and how long it takes: for builds that bench/plain_counts.py prepares.

use std::cell::RefCell;
use std::fs;
use std::sync::Mutex;
use std::sync::atomic::{AtomicBool, AtomicU64, Ordering::Relaxed};
use std::time::Instant;

static KNOWN: Mutex<Vec<&'static Tally>> = Mutex::new(Vec::new());

/// How often something was done, and the nanoseconds that it took in all.
pub struct Tally {
    name: &'static str,
    known: AtomicBool,
    times: AtomicU64,
    nanoseconds: AtomicU64,
}

impl Tally {
    pub const fn new(name: &'static str) -> Tally {
        Tally { name, known: AtomicBool::new(false), times: AtomicU64::new(0), nanoseconds: AtomicU64::new(0) }
    }

    /// It is done once more.
    pub fn once(&'static self) {
        if !self.known.load(Relaxed) && !self.known.swap(true, Relaxed) {
            KNOWN.lock().unwrap().push(self);
        }
        self.times.fetch_add(1, Relaxed);
    }

    /// It is done once more, until the answer goes out of scope.
    pub fn timed(&'static self) -> Timed {
        self.once();
        Timed { tally: self, since: Instant::now() }
    }
}

/// What goes on.
pub struct Timed {
    tally: &'static Tally,
    since: Instant,
}

impl Drop for Timed {
    fn drop(&mut self) {
        self.tally.nanoseconds.fetch_add(self.since.elapsed().as_nanos() as u64, Relaxed);
    }
}

/// Prints what was done since the last call, in the order in which it was first done.
pub fn tell() {
    for tally in KNOWN.lock().unwrap().iter() {
        let (times, nanoseconds) = (tally.times.swap(0, Relaxed), tally.nanoseconds.swap(0, Relaxed));
        match (times, nanoseconds) {
            (0, _) => {}
            (_, 0) => println!("  {}: {times}", tally.name),
            _ => println!("  {}: {times}, {:.4} ms each", tally.name, nanoseconds as f64 / times as f64 / 1e6),
        }
    }
}

thread_local! {
    /// The tallies of searches, by the names of their bounds' types.
    static SEARCHES: RefCell<Vec<(&'static str, &'static Tally)>> = const { RefCell::new(Vec::new()) };
    /// Where the words were copied to last.
    static COPY: RefCell<Vec<u64>> = const { RefCell::new(Vec::new()) };
}

/// The tally of this name, made where there is none.
fn tally_of(name: &'static str) -> &'static Tally {
    let mut known = KNOWN.lock().unwrap();
    if let Some(tally) = known.iter().copied().find(|tally| tally.name == name) {
        return tally;
    }
    let made: &'static Tally = Box::leak(Box::new(Tally::new(name)));
    made.known.store(true, Relaxed);
    known.push(made);
    made
}

/// A vertex is taken out of a search with a bound of this type, or by this name.
pub fn taken(bound: &'static str) {
    SEARCHES.with_borrow_mut(|searches| {
        let at = searches.iter().position(|search| std::ptr::eq(search.0, bound)).unwrap_or_else(|| {
            searches.push((bound, tally_of(bound)));
            searches.len() - 1
        });
        searches[at].1.once();
    });
}

static READINGS: Tally = Tally::new("every second reading of all loads");
static COPIES: Tally = Tally::new("plain copies of the words, before the other readings");
static BEGUN: AtomicU64 = AtomicU64::new(0);

/// A reading of these words begins. Every second one is timed, and before each other one a plain copy is: so both come upon words that
/// were left alone since the last reading. What the copy is written to was left alone for two.
pub fn reading(words: &[AtomicU64]) -> Option<Timed> {
    if BEGUN.fetch_add(1, Relaxed) % 2 == 1 {
        return Some(READINGS.timed());
    }
    COPY.with_borrow_mut(|copy| {
        copy.resize(words.len(), 0);
        // SAFETY: an AtomicU64 is laid out as a u64. Where another worker changes a word meanwhile this is a data race, which plain
        // counts of one worker don't have; nobody looks at what was copied.
        let words = unsafe { std::slice::from_raw_parts(words.as_ptr().cast::<u64>(), words.len()) };
        let _timed = COPIES.timed();
        copy.copy_from_slice(words);
        std::hint::black_box(copy.as_slice());
    });
    None
}

/// The part of a worker, until this goes out of scope.
pub struct Part {
    worker: u32,
    begin: f64,
    since: Instant,
}

/// The seconds that this thread had a processor for.
fn processor_seconds() -> f64 {
    let told = fs::read_to_string("/proc/thread-self/schedstat").unwrap_or_default();
    told.split(' ').next().and_then(|told| told.parse::<f64>().ok()).unwrap_or(0.0) / 1e9
}

/// The part of this worker begins.
pub fn part(worker: u32) -> Part {
    Part { worker, begin: processor_seconds(), since: Instant::now() }
}

impl Drop for Part {
    fn drop(&mut self) {
        let (taken, clock) = (processor_seconds() - self.begin, self.since.elapsed().as_secs_f64());
        println!("  part of worker {}: {taken:.3} processor seconds, {clock:.3} on the clock", self.worker);
    }
}
