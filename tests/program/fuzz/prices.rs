//! Price vectors, weights and costs, steps, and bounds.

use crate::design::{Design, Grid, Ground, Kind, Net, Piece, Set};
use crate::fraction::Fraction;
use crate::routes::resources;
use crate::steiner::Weighted;

pub const GREATEST_PRICE: u64 = 32_768;

/// One price for each edge number, and behind them that of a piece.
pub type Prices = Vec<u64>;

pub fn price_table() -> Vec<u64> {
    let mut table = vec![1];
    while table.len() < 256 {
        let last = table[table.len() - 1];
        table.push(last + last / 40 + 1);
    }
    table
}

/// The price vector of loads at a scale.
pub fn price_vector(grid: &Grid, loads: &[u64], budget: Option<u64>, scale: u64) -> Prices {
    let table = price_table();
    let index = |(resource, capacity): (usize, u64)| (resource, 8 * scale * loads[resource] / capacity);
    let indices: Vec<(usize, u64)> = resources(grid, budget).into_iter().map(index).collect();
    let top = indices.iter().map(|&(_, index)| index).max().unwrap_or(0);
    let mut prices = vec![0; loads.len()];
    for (resource, index) in indices {
        prices[resource] = table[255_u64.saturating_sub(top - index) as usize];
    }
    prices
}

fn piece_weight(grid: &Grid, width: u64, prices: &Prices, piece: Piece) -> u64 {
    let of_piece = 4 * prices[grid.edge_numbers()] + 1;
    if grid.is_via(piece) {
        of_piece
    } else if grid.kind(piece) == Kind::Open {
        4 * prices[piece] * grid.demand(width, piece) + of_piece
    } else {
        1 << 38
    }
}

/// What a piece costs, with the price of the wirelength.
fn piece_cost(grid: &Grid, width: u64, prices: &Prices, piece: Piece) -> u64 {
    let along = if !grid.is_via(piece) && grid.kind(piece) == Kind::Open { prices[piece] * grid.demand(width, piece) } else { 0 };
    along + prices[grid.edge_numbers()]
}

fn weights(grid: &Grid, width: u64, ground: Ground, prices: &Prices) -> Weighted {
    Weighted::of(grid, grid.allowed(ground).into_iter().map(|piece| (piece, piece_weight(grid, width, prices, piece))))
}

pub fn costs(grid: &Grid, width: u64, ground: Ground, prices: &Prices) -> Weighted {
    Weighted::of(grid, grid.allowed(ground).into_iter().map(|piece| (piece, piece_cost(grid, width, prices, piece))))
}

/// Whether a set is a step of the net at the prices; else what is wrong.
pub fn check_step(grid: &Grid, net: &Net, ground: Ground, prices: &Prices, set: &Set) -> Result<(), String> {
    if let Some(piece) = set.iter().find(|&&piece| !grid.allows(ground, piece)) {
        return Err(format!("net {}: piece {piece} is not on the ground", net.id));
    }
    if grid.first_apart(set, &net.terminals).is_some() {
        return Err(format!("net {}: the terminals are not joined", net.id));
    }
    let weighted = weights(grid, net.width, ground, prices);
    let weight: u64 = set.iter().map(|&piece| piece_weight(grid, net.width, prices, piece)).sum();
    let few = net.terminals.len() <= 5;
    let least = if few { weighted.least(&net.terminals) } else { weighted.spanning(&net.terminals) };
    match least {
        Some(least) if weight == least || (!few && weight < least) => Ok(()),
        _ => Err(format!("net {}: a set of weight {weight}, where {least:?} is to be had", net.id)),
    }
}

/// The least set, where only one has the least weight and five terminals at most are to be joined.
pub fn only_step(grid: &Grid, net: &Net, ground: Ground, prices: &Prices) -> Option<Set> {
    if net.terminals.len() < 2 {
        return Some(Set::new());
    }
    if net.terminals.len() > 5 {
        return None;
    }
    let allowed = grid.allowed(ground);
    let without = |left_out: &Set| {
        let kept = allowed.difference(left_out).map(|&piece| (piece, piece_weight(grid, net.width, prices, piece)));
        Weighted::of(grid, kept).least(&net.terminals)
    };
    let least = without(&Set::new())?;
    // a piece is in every least set exactly where the others alone make none as light
    let needed: Set = allowed.iter().copied().filter(|&piece| without(&Set::from([piece])) != Some(least)).collect();
    let weight: u64 = needed.iter().map(|&piece| piece_weight(grid, net.width, prices, piece)).sum();
    (weight == least).then_some(needed)
}

fn grid_distance(grid: &Grid, a: usize, b: usize) -> usize {
    let (a, b) = (grid.place(a), grid.place(b));
    a.0.abs_diff(b.0) + a.1.abs_diff(b.1) + a.2.abs_diff(b.2)
}

/// The first terminal, and then each time the one that is farthest from those before.
fn spread(grid: &Grid, terminals: &[usize]) -> Vec<usize> {
    let mut chosen = vec![terminals[0]];
    while chosen.len() < 5 {
        let apart = |&terminal: &usize| chosen.iter().map(|&other| grid_distance(grid, terminal, other)).min();
        // the earlier one of several
        let farthest = terminals.iter().copied().rev().max_by_key(apart).expect("a terminal");
        chosen.push(farthest);
    }
    chosen
}

pub fn net_bound(grid: &Grid, net: &Net, ground: Ground, prices: &Prices) -> u64 {
    let costs = costs(grid, net.width, ground, prices);
    if net.terminals.len() <= 5 {
        return costs.least(&net.terminals).expect("a ground joins its terminals");
    }
    let to_other = |&from: &usize| {
        let distances = costs.distances(from);
        net.terminals.iter().filter(|&&to| to != from).filter_map(|&to| distances[to]).min().expect("another terminal") / 2
    };
    let halves = net.terminals.iter().map(to_other).sum();
    costs.least(&spread(grid, &net.terminals)).expect("a ground joins its terminals").max(halves)
}

pub fn net_bounds(design: &Design, grounds: &[Ground], prices: &Prices) -> u128 {
    design.nets.iter().zip(grounds).map(|(net, &ground)| u128::from(net_bound(&design.grid, net, ground, prices))).sum()
}

pub fn capacity_cost(grid: &Grid, prices: &Prices, budget: Option<u64>) -> u128 {
    resources(grid, budget).into_iter().map(|(resource, capacity)| u128::from(prices[resource]) * u128::from(capacity)).sum()
}

/// The bound of a design at prices; none where the capacities cost nothing.
pub fn design_bound(design: &Design, grounds: &[Ground], prices: &Prices, budget: Option<u64>) -> Option<Fraction> {
    let cost = capacity_cost(&design.grid, prices, budget);
    (cost > 0).then(|| Fraction::of(net_bounds(design, grounds, prices), cost))
}
