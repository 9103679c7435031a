//! Words that change in single atomic steps. The seats, by which proofs tell who takes a step, are nothing here.

use plain_std::alloc::{AllocError, Global};
use std::marker::PhantomData;
use std::sync::atomic::{AtomicU64, Ordering};

pub trait TableRule<S, V, K> {}

pub trait Play<S, V> {}

pub trait Split<V> {}

pub trait Join<V> {}

/// The words of a table.
pub struct Shared<S, V, K, R> {
    words: Box<[AtomicU64]>,
    marks: PhantomData<fn() -> (S, V, K, R)>,
}

/// Owns the words.
pub struct Table<S, V, K, R, A> {
    pub shared: Shared<S, V, K, R>,
    alloc: PhantomData<fn() -> A>,
}

/// Who takes a step.
pub struct Seat<S, V>(PhantomData<fn() -> (S, V)>);

impl<S, V, K, R> Table<S, V, K, R, Global> {
    /// A table of these words.
    pub fn of_words(_: Global, words: &[u64], _: &K) -> Result<(Self, Seat<S, V>), AllocError> {
        let shared = Shared {
            words: words.iter().map(|word| AtomicU64::new(*word)).collect(),
            marks: PhantomData,
        };
        Ok((Table { shared, alloc: PhantomData }, Seat(PhantomData)))
    }
}

impl<S, V, K, R> Shared<S, V, K, R> {
    /// All words, for a build that times readings of them.
    pub fn words(&self) -> &[AtomicU64] {
        &self.words
    }

    #[inline(always)]
    pub fn fetch_add<P: Play<S, V>>(&self, _: &mut Seat<S, V>, word: usize, amount: u64) -> u64 {
        self.words[word].fetch_add(amount, Ordering::SeqCst)
    }

    #[inline(always)]
    pub fn fetch_sub<P: Play<S, V>>(&self, _: &mut Seat<S, V>, word: usize, amount: u64) -> u64 {
        self.words[word].fetch_sub(amount, Ordering::SeqCst)
    }

    #[inline(always)]
    pub fn load<P: Play<S, V>>(&self, _: &mut Seat<S, V>, word: usize) -> u64 {
        // SAFETY: the sources are proved to ask for words of the table alone, so the toolchain's table doesn't test that either.
        unsafe { self.words.get_unchecked(word) }.load(Ordering::SeqCst)
    }

    pub fn split_seat<P: Split<V>>(&self, _: &mut Seat<S, V>) -> Seat<S, V> {
        self.words[0].load(Ordering::SeqCst);
        Seat(PhantomData)
    }

    pub fn join_seat<P: Join<V>>(&self, _: &mut Seat<S, V>, _: Seat<S, V>) {
        self.words[0].load(Ordering::SeqCst);
    }
}
