//! Least weights of sets that join some vertices, by the recurrence of Dreyfus and Wagner, and distances.

use crate::design::{Grid, Piece};

/// More than any set weighs.
const NONE: u64 = u64::MAX / 4;

/// Pieces with their ends and weights.
pub struct Weighted {
    vertices: usize,
    pieces: Vec<(usize, usize, u64)>,
}

impl Weighted {
    pub fn of(grid: &Grid, pieces: impl Iterator<Item = (Piece, u64)>) -> Self {
        let with_ends = |(piece, weight)| grid.ends(piece).map(|(a, b)| (a, b, weight));
        Weighted { vertices: grid.vertices(), pieces: pieces.filter_map(with_ends).collect() }
    }

    /// Lowers the numbers along pieces until none can be lowered.
    fn relax(&self, numbers: &mut [u64]) {
        let mut changed = true;
        while changed {
            changed = false;
            for &(a, b, weight) in &self.pieces {
                let (low, high) = if numbers[a] <= numbers[b] { (a, b) } else { (b, a) };
                if numbers[low] + weight < numbers[high] {
                    numbers[high] = numbers[low] + weight;
                    changed = true;
                }
            }
        }
    }

    pub fn distances(&self, from: usize) -> Vec<Option<u64>> {
        let mut numbers = vec![NONE; self.vertices];
        numbers[from] = 0;
        self.relax(&mut numbers);
        numbers.into_iter().map(|number| (number < NONE).then_some(number)).collect()
    }

    /// The least weight of a set that joins the terminals.
    pub fn least(&self, terminals: &[usize]) -> Option<u64> {
        let (&root, others) = match terminals.split_last() {
            Some(split) if terminals.len() > 1 => split,
            _ => return Some(0),
        };
        let masks = 1 << others.len();
        let mut table = vec![vec![NONE; self.vertices]; masks];
        for mask in 1..masks {
            let mut numbers = vec![NONE; self.vertices];
            if mask.is_power_of_two() {
                numbers[others[mask.trailing_zeros() as usize]] = 0;
            }
            let mut part = (mask - 1) & mask;
            while part > 0 {
                let pair = table[part].iter().zip(&table[mask - part]);
                numbers.iter_mut().zip(pair).for_each(|(number, (a, b))| *number = (*number).min(a + b));
                part = (part - 1) & mask;
            }
            self.relax(&mut numbers);
            table[mask] = numbers;
        }
        let least = table[masks - 1][root];
        (least < NONE).then_some(least)
    }

    /// The weight of a least spanning tree of the terminals by distances.
    pub fn spanning(&self, terminals: &[usize]) -> Option<u64> {
        let distances: Vec<_> = terminals.iter().map(|&terminal| self.distances(terminal)).collect();
        let mut near: Vec<Option<u64>> = terminals.iter().map(|&terminal| distances.first()?[terminal]).collect();
        let mut apart: Vec<usize> = (1..terminals.len()).collect();
        let mut weight = 0;
        while !apart.is_empty() {
            let nearest = (0..apart.len()).min_by_key(|&place| near[apart[place]].unwrap_or(NONE))?;
            let taken = apart.swap_remove(nearest);
            weight += near[taken]?;
            for &other in &apart {
                let distance = distances[taken][terminals[other]].unwrap_or(NONE);
                near[other] = Some(near[other].unwrap_or(NONE).min(distance)).filter(|&number| number < NONE);
            }
        }
        Some(weight)
    }
}
