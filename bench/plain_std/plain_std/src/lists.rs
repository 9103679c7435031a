//! What lists are alive when most of their bytes are: for builds that bench/plain_memory.py prepares.

use std::alloc::{GlobalAlloc, Layout, System};
use std::cell::{Cell, RefCell};
use std::fs;
use std::sync::Mutex;
use std::sync::atomic::{AtomicUsize, Ordering::Relaxed};

/// So many types of items are told apart; the first place is for what is no list of the sources.
const KINDS: usize = 256;
/// Lists of at least so many bytes have pages of their own.
const LARGE: usize = 128 << 10;
/// Before each list stands the place of its items' type.
const HEAD: usize = 16;
/// The greatest number of bytes so far is noted anew once it grew by so many.
const APART: usize = 256 << 10;

struct Kind {
    lists: AtomicUsize,
    bytes: AtomicUsize,
}

/// For each type of items its small lists, and its large ones.
static KINDS_ALIVE: [[Kind; 2]; KINDS] = [const { [const { Kind { lists: AtomicUsize::new(0), bytes: AtomicUsize::new(0) } }; 2] }; KINDS];
static ALIVE: AtomicUsize = AtomicUsize::new(0);
static NOTED: AtomicUsize = AtomicUsize::new(0);
static NAMES: Mutex<[&'static str; KINDS]> = Mutex::new([""; KINDS]);
static AT_MOST: Mutex<Noted> = Mutex::new([[(0, 0); 2]; KINDS]);

thread_local! {
    static KIND: Cell<usize> = const { Cell::new(0) };
    /// The places of the types that this thread has met, by their names.
    static MET: RefCell<Vec<(&'static str, usize)>> = const { RefCell::new(Vec::new()) };
}

/// The place of a type by its name.
fn place_of(name: &'static str) -> usize {
    let mut names = NAMES.lock().unwrap();
    let place = (1..KINDS).find(|&place| names[place] == name || names[place].is_empty()).expect("fewer types of items");
    names[place] = name;
    place
}

/// While this lives, what is taken is a list with items of one type.
pub struct Taking(usize);

/// What is taken from here on is a list with items of this type.
pub fn taking<T>() -> Taking {
    let name = std::any::type_name::<T>();
    let place = MET.with_borrow_mut(|met| {
        let at = met.iter().position(|met| std::ptr::eq(met.0, name)).unwrap_or_else(|| {
            met.push((name, place_of(name)));
            met.len() - 1
        });
        met[at].1
    });
    Taking(KIND.replace(place))
}

impl Drop for Taking {
    fn drop(&mut self) {
        KIND.set(self.0);
    }
}

/// The allocator of the system, which counts what is alive.
pub struct Counted;

type Noted = [[(usize, usize); 2]; KINDS];

fn kind(place: usize, size: usize) -> &'static Kind {
    &KINDS_ALIVE[place][usize::from(size >= LARGE)]
}

/// Notes what is alive.
fn note(at_most: &mut Noted) {
    NOTED.store(ALIVE.load(Relaxed), Relaxed);
    for place in 0..KINDS {
        for large in 0..2 {
            let kind = &KINDS_ALIVE[place][large];
            at_most[place][large] = (kind.lists.load(Relaxed), kind.bytes.load(Relaxed));
        }
    }
}

fn added(place: usize, size: usize) {
    kind(place, size).lists.fetch_add(1, Relaxed);
    kind(place, size).bytes.fetch_add(size, Relaxed);
    let alive = ALIVE.fetch_add(size, Relaxed) + size;
    if alive < NOTED.load(Relaxed) + APART {
        return;
    }
    if let Ok(mut at_most) = AT_MOST.try_lock() {
        note(&mut at_most);
    }
}

fn removed(place: usize, size: usize) {
    kind(place, size).lists.fetch_sub(1, Relaxed);
    kind(place, size).bytes.fetch_sub(size, Relaxed);
    ALIVE.fetch_sub(size, Relaxed);
}

fn with_head(layout: Layout) -> Layout {
    assert!(layout.align() <= HEAD, "an alignment above {HEAD}");
    Layout::from_size_align(layout.size() + HEAD, HEAD).unwrap()
}

/// The list behind its head, or null where the system had no memory.
unsafe fn begun(taken: *mut u8, size: usize) -> *mut u8 {
    if taken.is_null() {
        return taken;
    }
    let place = KIND.try_with(Cell::get).unwrap_or(0);
    added(place, size);
    unsafe {
        taken.cast::<usize>().write(place);
        taken.add(HEAD)
    }
}

// SAFETY: each call goes to the system's allocator, with room for the head before what is asked for. `with_head` refuses an alignment
// that the head would spoil.
unsafe impl GlobalAlloc for Counted {
    unsafe fn alloc(&self, layout: Layout) -> *mut u8 {
        unsafe { begun(System.alloc(with_head(layout)), layout.size()) }
    }

    unsafe fn alloc_zeroed(&self, layout: Layout) -> *mut u8 {
        unsafe { begun(System.alloc_zeroed(with_head(layout)), layout.size()) }
    }

    unsafe fn dealloc(&self, given: *mut u8, layout: Layout) {
        unsafe {
            let taken = given.sub(HEAD);
            removed(taken.cast::<usize>().read(), layout.size());
            System.dealloc(taken, with_head(layout));
        }
    }

    unsafe fn realloc(&self, given: *mut u8, layout: Layout, size: usize) -> *mut u8 {
        unsafe {
            let taken = System.realloc(given.sub(HEAD), with_head(layout), size + HEAD);
            if taken.is_null() {
                return taken;
            }
            let place = taken.cast::<usize>().read();
            removed(place, layout.size());
            added(place, size);
            taken.add(HEAD)
        }
    }
}

const MEBIBYTE: f64 = (1 << 20) as f64;

/// What the system says of the greatest memory of the process so far, in MiB.
fn greatest() -> f64 {
    let told = fs::read_to_string("/proc/self/status").unwrap_or_default();
    let line = told.lines().find_map(|line| line.strip_prefix("VmHWM:")).unwrap_or_default();
    line.trim().trim_end_matches(" kB").parse::<f64>().unwrap_or(0.0) / 1024.0
}

/// Prints what was alive when most was, since the last call.
pub fn tell() {
    let names = *NAMES.lock().unwrap();
    let mut at_most = AT_MOST.lock().unwrap();
    let mut lines = Vec::new();
    for place in 0..KINDS {
        for large in 0..2 {
            let (lists, bytes) = at_most[place][large];
            let name = if place == 0 { "no list of the sources" } else { names[place] };
            lines.push((bytes, format!("{lists} {} of {name}", if large == 0 { "small" } else { "large" })));
        }
    }
    lines.sort_by(|one, other| other.0.cmp(&one.0));
    let noted = NOTED.load(Relaxed);
    println!("  at most {:.1} MiB were asked for at once; the process had at most {:.1} so far", noted as f64 / MEBIBYTE, greatest());
    for (bytes, line) in lines.iter().filter(|line| line.0 * 200 > noted) {
        println!("  {:8.1} MiB: {line}", *bytes as f64 / MEBIBYTE);
    }
    note(&mut at_most);
}
