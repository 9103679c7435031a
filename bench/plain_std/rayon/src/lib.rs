//! Calls for the numbers of a range, side by side.

use plain_std::alloc::{AllocError, Global};
use plain_std::thread::thread_count;
use plain_std::vec::Vec as List;
use std::ops::Range;
use std::sync::atomic::{AtomicUsize, Ordering};

pub mod prelude {
    pub use super::{FromResults, IntoParallelIterator};
}

/// What can be gone through side by side.
pub trait IntoParallelIterator {
    fn into_par_iter(self) -> Numbers;
}

/// The numbers of a range.
pub struct Numbers(Range<usize>);

/// The answers of calls, one for each number.
pub struct Mapped<F>(Range<usize>, F);

impl IntoParallelIterator for Range<usize> {
    fn into_par_iter(self) -> Numbers {
        Numbers(self)
    }
}

impl Numbers {
    pub fn with_min_len(self, _: usize) -> Numbers {
        self
    }

    pub fn map<T, F: Fn(usize) -> T>(self, call: F) -> Mapped<F> {
        Mapped(self.0, call)
    }
}

impl<F> Mapped<F> {
    /// What the answers are together. Each thread takes the next number that none has taken.
    pub fn collect<T: Send, C: FromResults<T>, R>(self, _: &R, _: Global) -> Result<C, AllocError>
    where
        F: Fn(usize) -> T + Sync,
    {
        let Mapped(range, call) = self;
        let next = AtomicUsize::new(range.start);
        let work = || {
            let mut found = Vec::new();
            loop {
                let number = next.fetch_add(1, Ordering::Relaxed);
                if number >= range.end {
                    return found;
                }
                found.push((number, call(number)));
            }
        };
        let mut found = std::thread::scope(|scope| {
            let beside: Vec<_> = (1..thread_count().min(range.len())).map(|_| scope.spawn(&work)).collect();
            let mut found = work();
            for thread in beside {
                found.extend(thread.join().unwrap_or_else(|_| std::process::abort()));
            }
            found
        });
        found.sort_by_key(|answer| answer.0);
        Ok(C::from_results(found.into_iter().map(|answer| answer.1)))
    }
}

/// What answers are together.
pub trait FromResults<T> {
    fn from_results<I: Iterator<Item = T>>(answers: I) -> Self;
}

impl<T, E> FromResults<Result<T, E>> for Result<List<T>, E> {
    fn from_results<I: Iterator<Item = Result<T, E>>>(answers: I) -> Self {
        Ok(List(answers.collect::<Result<_, E>>()?))
    }
}
