//! Route texts: how they are written and read, and what can be objected to them.

use crate::design::{Design, Grid, Kind, Net, Piece, Set, FARTHEST};
use crate::fraction::Fraction;
use crate::scan::{is_blank, number};

/// x, y and the layer, which counts from 1.
pub type Point = (i128, i128, i128);

pub struct Block {
    pub id: i128,
    pub segments: Vec<(Point, Point)>,
}

/// The blocks of a text, or the place at which it can't be read.
pub fn read_routes(text: &[u8]) -> Result<Vec<Block>, usize> {
    read_routes_within(text, FARTHEST)
}

/// The same with another limit of positions, since routes of a far design are written beyond the one of a text.
pub fn read_routes_within(text: &[u8], farthest: i128) -> Result<Vec<Block>, usize> {
    let mut reading = Reading { text, at: 0, farthest };
    let mut blocks = Vec::new();
    while reading.next_byte().is_some() {
        blocks.push(reading.block()?);
    }
    Ok(blocks)
}

struct Reading<'a> {
    text: &'a [u8],
    at: usize,
    farthest: i128,
}

impl<'a> Reading<'a> {
    /// The next byte after blanks, at which the reading then stands.
    fn next_byte(&mut self) -> Option<u8> {
        while self.at < self.text.len() && is_blank(self.text[self.at]) {
            self.at += 1;
        }
        self.text.get(self.at).copied()
    }

    fn token(&mut self) -> &'a [u8] {
        self.next_byte();
        let rest = &self.text[self.at..];
        let length = rest.iter().take_while(|&&byte| !is_blank(byte)).count();
        self.at += length;
        &rest[..length]
    }

    /// A whole token that is a number in the range.
    fn token_number(&mut self, least: i128, greatest: i128) -> Result<i128, usize> {
        self.next_byte();
        let start = self.at;
        number(self.token()).filter(|value| (least..=greatest).contains(value)).ok_or(start)
    }

    fn mark(&mut self, wanted: u8) -> Result<(), usize> {
        if self.next_byte() != Some(wanted) {
            return Err(self.at);
        }
        self.at += 1;
        Ok(())
    }

    /// A sign or none and the longest run of digits, which need not end a token.
    fn part_number(&mut self) -> Result<i128, usize> {
        let signed = matches!(self.next_byte(), Some(b'+' | b'-'));
        let start = self.at;
        let first_digit = start + usize::from(signed);
        let count = self.text[first_digit..].iter().take_while(|byte| byte.is_ascii_digit()).count();
        self.at = first_digit + count;
        number(&self.text[start..self.at]).filter(|value| value.abs() <= self.farthest).ok_or(start)
    }

    fn point(&mut self) -> Result<Point, usize> {
        self.mark(b'(')?;
        let x = self.part_number()?;
        self.mark(b',')?;
        let y = self.part_number()?;
        self.mark(b',')?;
        let layer = self.part_number()?;
        self.mark(b')')?;
        Ok((x, y, layer))
    }

    fn block(&mut self) -> Result<Block, usize> {
        // a name is any token, and is not compared
        self.token();
        let id = self.token_number(0, (1 << 32) - 1)?;
        if matches!(self.next_byte(), Some(b'0'..=b'9' | b'+' | b'-')) {
            self.token_number(-FARTHEST, FARTHEST)?;
        }
        let mut segments = Vec::new();
        while self.next_byte() == Some(b'(') {
            let from = self.point()?;
            self.mark(b'-')?;
            segments.push((from, self.point()?));
        }
        self.mark(b'!')?;
        Ok(Block { id, segments })
    }
}

/// The pieces between two vertices in a straight line, or none where they lie in more than one direction.
pub fn pieces_between(grid: &Grid, a: usize, b: usize) -> Option<Set> {
    let (low, high) = (grid.place(a.min(b)), grid.place(a.max(b)));
    let apart = [low.0 != high.0, low.1 != high.1, low.2 != high.2];
    if apart.iter().filter(|&&differs| differs).count() > 1 {
        return None;
    }
    let along_x = (low.0..high.0).map(|col| 2 * grid.vertex(col, low.1, low.2));
    let along_y = (low.1..high.1).map(|row| 2 * grid.vertex(low.0, row, low.2) + 1);
    let up = (low.2..high.2).map(|layer| grid.via(grid.vertex(low.0, low.1, layer)));
    Some(along_x.chain(along_y).chain(up).collect())
}

/// The pieces of a block, or the first objection to one of its segments.
fn pieces_of(grid: &Grid, index: usize, block: &Block) -> Result<Set, String> {
    let mut pieces = Set::new();
    for (segment, (from, to)) in block.segments.iter().enumerate() {
        let objection = |number: u32| format!("no {number} {index} {segment}\n");
        let ends = grid.vertex_at(from.0, from.1, from.2).zip(grid.vertex_at(to.0, to.1, to.2));
        let (a, b) = ends.ok_or_else(|| objection(44))?;
        let between = pieces_between(grid, a, b).ok_or_else(|| objection(45))?;
        if between.iter().any(|&piece| !grid.is_via(piece) && grid.kind(piece) == Kind::Wall) {
            return Err(objection(46));
        }
        pieces.extend(between);
    }
    Ok(pieces)
}

/// The sets that blocks give the nets, or the first objection to a block. A net without a block has none.
pub fn sets_of_blocks(design: &Design, blocks: &[Block]) -> Result<Vec<Option<Set>>, String> {
    let mut sets = vec![None; design.nets.len()];
    for (index, block) in blocks.iter().enumerate() {
        let position = design.position_of_id(block.id).ok_or_else(|| format!("no 41 {index}\n"))?;
        if sets[position].is_some() {
            return Err(format!("no 42 {}\n", block.id));
        }
        let pieces = pieces_of(&design.grid, index, block)?;
        if design.grid.first_apart(&pieces, &design.nets[position].terminals).is_some() {
            return Err(format!("no 47 {}\n", block.id));
        }
        sets[position] = Some(pieces);
    }
    Ok(sets)
}

pub fn lacks_block(net: &Net, set: &Option<Set>) -> bool {
    set.is_none() && net.terminals.len() >= 2
}

/// The sets of routes that are accepted, or the first objection.
pub fn accepted_sets(design: &Design, blocks: &[Block]) -> Result<Vec<Set>, String> {
    let sets = sets_of_blocks(design, blocks)?;
    match design.nets.iter().zip(&sets).find(|(net, set)| lacks_block(net, set)) {
        Some((net, _)) => Err(format!("no 43 {}\n", net.id)),
        None => Ok(sets.into_iter().map(Option::unwrap_or_default).collect()),
    }
}

/// The longest runs of edges of one direction, by their first and last vertex.
fn runs(grid: &Grid, set: &Set, along_y: bool) -> Vec<(usize, usize)> {
    let edges: Vec<Piece> = set.iter().copied().filter(|&piece| !grid.is_via(piece) && (piece % 2 == 1) == along_y).collect();
    let mut found = Vec::new();
    for &edge in &edges {
        let (from, mut to) = grid.ends(edge).expect("an edge");
        let step = to - from;
        let leads_here = from >= step && grid.ends(edge - 2 * step) == Some((from - step, from));
        if leads_here && set.contains(&(edge - 2 * step)) {
            continue;
        }
        let mut next = edge + 2 * step;
        while grid.ends(next).is_some() && !grid.is_via(next) && set.contains(&next) {
            to += step;
            next += 2 * step;
        }
        found.push((from, to));
    }
    found
}

/// The segments of a set in the order in which they are written, by their vertices.
pub fn segments(grid: &Grid, set: &Set) -> Vec<(usize, usize)> {
    let mut list = runs(grid, set, false);
    list.extend(runs(grid, set, true));
    list.extend(set.iter().filter(|&&piece| grid.is_via(piece)).map(|&via| grid.ends(via).expect("a via")));
    list
}

fn written_point(grid: &Grid, vertex: usize) -> String {
    let (x, y) = grid.written_position(vertex);
    format!("({x},{y},{})", grid.place(vertex).2 + 1)
}

/// A piece by its ends, as a segment of routes.
pub fn written_segment(grid: &Grid, ends: (usize, usize)) -> String {
    format!("{}-{}", written_point(grid, ends.0), written_point(grid, ends.1))
}

pub fn routes_text(design: &Design, sets: &[Set]) -> Vec<u8> {
    let mut text = Vec::new();
    for (net, set) in design.nets.iter().zip(sets) {
        text.extend(&net.name);
        text.extend(format!(" {}\n", net.id).bytes());
        for ends in segments(&design.grid, set) {
            text.extend(format!("{}\n", written_segment(&design.grid, ends)).bytes());
        }
        text.extend(b"!\n");
    }
    text
}

#[derive(Clone, Copy, PartialEq, Eq, Debug)]
pub struct Measure {
    pub overflow: u64,
    pub wirelength: u64,
    pub peak: Option<Fraction>,
}

/// The load of each edge number, and behind them the wirelength.
pub fn loads(design: &Design, sets: &[Set]) -> Vec<u64> {
    let mut loads = vec![0; design.grid.edge_numbers() + 1];
    for (net, set) in design.nets.iter().zip(sets) {
        add_load(&design.grid, net.width, set, &mut loads);
    }
    loads
}

pub fn add_load(grid: &Grid, width: u64, set: &Set, loads: &mut [u64]) {
    for &edge in set.iter().filter(|&&piece| !grid.is_via(piece)) {
        loads[edge] += grid.demand(width, edge);
    }
    loads[grid.edge_numbers()] += set.len() as u64;
}

/// Open edges with their capacities, and the wirelength with its budget where there is one.
pub fn resources(grid: &Grid, budget: Option<u64>) -> Vec<(usize, u64)> {
    let mut list: Vec<(usize, u64)> = grid.open_edges().into_iter().map(|edge| (edge, grid.capacity(edge))).collect();
    list.extend(budget.map(|pieces| (grid.edge_numbers(), pieces)));
    list
}

pub fn measure(design: &Design, sets: &[Set], budget: Option<u64>) -> Measure {
    let grid = &design.grid;
    let loads = loads(design, sets);
    let counted = grid.edges().into_iter().filter(|&edge| grid.kind(edge) != Kind::Wall);
    let overflow = counted.map(|edge| loads[edge].saturating_sub(grid.capacity(edge))).sum();
    let used = |(resource, capacity): (usize, u64)| Fraction::of(loads[resource].into(), capacity.into());
    let peak = resources(grid, budget).into_iter().map(used).reduce(|a, b| if b.is_above(&a) { b } else { a });
    Measure { overflow, wirelength: loads[grid.edge_numbers()], peak }
}
