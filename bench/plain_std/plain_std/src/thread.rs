//! Threads.

/// What starts threads.
pub trait Threads {}

/// How many threads may run at once where no count is asked for: PLAIN_THREADS, or as many as the machine has processors.
pub fn thread_count() -> usize {
    match std::env::var("PLAIN_THREADS").map(|count| count.parse()) {
        Ok(Ok(count)) => count,
        _ => std::thread::available_parallelism().map_or(1, |count| count.get()),
    }
}

/// Runs two calls side by side.
pub fn join<R: Threads, A, B, F, G>(_: &R, first: F, second: G) -> (A, B)
where
    A: Send,
    B: Send,
    F: FnOnce() -> A + Send,
    G: FnOnce() -> B + Send,
{
    std::thread::scope(|scope| {
        let beside = scope.spawn(second);
        let found = first();
        (found, beside.join().unwrap_or_else(|_| std::process::abort()))
    })
}
