//! The grid, its nets, and the reading of a design.

use crate::scan::{number, Reader};
use std::collections::{BTreeMap, BTreeSet};

pub const FARTHEST: i128 = 1 << 40;

#[derive(Clone, Copy, PartialEq, Eq, Debug)]
pub enum Kind {
    Open,
    Choked,
    Wall,
}

#[derive(Clone, Copy, PartialEq, Eq, Debug)]
pub enum Ground {
    Open,
    WithChoked,
}

/// Edges have their numbers, and a via has that of its vertex behind all edges.
pub type Piece = usize;

pub type Set = BTreeSet<Piece>;

#[derive(Clone, Default)]
pub struct Grid {
    pub cols: usize,
    pub rows: usize,
    pub layers: usize,
    pub vertical: Vec<u64>,
    pub horizontal: Vec<u64>,
    pub widths: Vec<u64>,
    pub spacings: Vec<u64>,
    pub corner: (i128, i128),
    pub tile: (i128, i128),
    /// The levels of edges that an adjustment names.
    pub levels: BTreeMap<Piece, u64>,
}

#[derive(Clone)]
pub struct Net {
    pub name: Vec<u8>,
    pub id: i128,
    pub width: u64,
    pub terminals: Vec<usize>,
}

#[derive(Clone)]
pub struct Design {
    pub grid: Grid,
    pub nets: Vec<Net>,
}

impl Grid {
    pub fn vertices(&self) -> usize {
        self.cols * self.rows * self.layers
    }

    pub fn edge_numbers(&self) -> usize {
        2 * self.vertices()
    }

    pub fn vertex(&self, col: usize, row: usize, layer: usize) -> usize {
        (layer * self.rows + row) * self.cols + col
    }

    /// Column, row and layer, all from 0.
    pub fn place(&self, vertex: usize) -> (usize, usize, usize) {
        (vertex % self.cols, vertex / self.cols % self.rows, vertex / self.cols / self.rows)
    }

    pub fn is_via(&self, piece: Piece) -> bool {
        piece >= self.edge_numbers()
    }

    pub fn via(&self, vertex: usize) -> Piece {
        self.edge_numbers() + vertex
    }

    /// The two ends of a piece; none of a number that leads out of the grid.
    pub fn ends(&self, piece: Piece) -> Option<(usize, usize)> {
        let from = if self.is_via(piece) { piece - self.edge_numbers() } else { piece / 2 };
        let (col, row, layer) = self.place(from);
        let (to, inside) = if self.is_via(piece) {
            (from + self.cols * self.rows, layer + 1 < self.layers)
        } else if piece % 2 == 0 {
            (from + 1, col + 1 < self.cols)
        } else {
            (from + self.cols, row + 1 < self.rows)
        };
        inside.then_some((from, to))
    }

    pub fn pieces(&self) -> Vec<Piece> {
        (0..3 * self.vertices()).filter(|&piece| self.ends(piece).is_some()).collect()
    }

    pub fn edges(&self) -> Vec<Piece> {
        (0..self.edge_numbers()).filter(|&edge| self.ends(edge).is_some()).collect()
    }

    pub fn layer_of(&self, edge: Piece) -> usize {
        self.place(edge / 2).2
    }

    fn first_capacity(&self, edge: Piece) -> u64 {
        let list = if edge % 2 == 0 { &self.horizontal } else { &self.vertical };
        list[self.layer_of(edge)]
    }

    pub fn capacity(&self, edge: Piece) -> u64 {
        self.levels.get(&edge).copied().unwrap_or_else(|| self.first_capacity(edge))
    }

    pub fn kind(&self, edge: Piece) -> Kind {
        if self.capacity(edge) > 0 {
            Kind::Open
        } else if self.first_capacity(edge) > 0 {
            Kind::Choked
        } else {
            Kind::Wall
        }
    }

    pub fn open_edges(&self) -> Vec<Piece> {
        self.edges().into_iter().filter(|&edge| self.kind(edge) == Kind::Open).collect()
    }

    pub fn demand(&self, width: u64, edge: Piece) -> u64 {
        let layer = self.layer_of(edge);
        width.max(self.widths[layer]) + self.spacings[layer]
    }

    pub fn greatest_spacing(&self) -> u64 {
        self.spacings.iter().copied().max().unwrap_or(0)
    }

    pub fn allows(&self, ground: Ground, piece: Piece) -> bool {
        self.is_via(piece)
            || match self.kind(piece) {
                Kind::Open => true,
                Kind::Choked => ground == Ground::WithChoked,
                Kind::Wall => false,
            }
    }

    pub fn allowed(&self, ground: Ground) -> Set {
        self.pieces().into_iter().filter(|&piece| self.allows(ground, piece)).collect()
    }

    /// The corner at the upper right.
    pub fn far_corner(&self) -> (i128, i128) {
        (self.corner.0 + self.cols as i128 * self.tile.0, self.corner.1 + self.rows as i128 * self.tile.1)
    }

    pub fn is_near(&self) -> bool {
        let far = self.far_corner();
        far.0 <= FARTHEST && far.1 <= FARTHEST
    }

    fn is_beside(&self, x: i128, y: i128) -> (bool, bool) {
        let far = self.far_corner();
        (x < self.corner.0 || x > far.0, y < self.corner.1 || y > far.1)
    }

    /// The vertex of a position and a layer that counts from 1; none outside the closed rectangle and the layers.
    pub fn vertex_at(&self, x: i128, y: i128, layer: i128) -> Option<usize> {
        let (beside_x, beside_y) = self.is_beside(x, y);
        if beside_x || beside_y || layer < 1 || layer > self.layers as i128 {
            return None;
        }
        let col = (((x - self.corner.0) / self.tile.0) as usize).min(self.cols - 1);
        let row = (((y - self.corner.1) / self.tile.1) as usize).min(self.rows - 1);
        Some(self.vertex(col, row, layer as usize - 1))
    }

    pub fn written_position(&self, vertex: usize) -> (i128, i128) {
        let (col, row, _) = self.place(vertex);
        let x = self.corner.0 + col as i128 * self.tile.0 + self.tile.0 / 2;
        (x, self.corner.1 + row as i128 * self.tile.1 + self.tile.1 / 2)
    }

    /// The piece between two vertices, where they are neighbours.
    pub fn piece_between(&self, a: usize, b: usize) -> Option<Piece> {
        let wanted = (a.min(b), a.max(b));
        [2 * wanted.0, 2 * wanted.0 + 1, self.via(wanted.0)].into_iter().find(|&piece| self.ends(piece) == Some(wanted))
    }

    /// Which vertices the pieces join to the given one.
    pub fn joined(&self, pieces: &Set, start: usize) -> BTreeSet<usize> {
        let mut neighbours: BTreeMap<usize, Vec<usize>> = BTreeMap::new();
        for (a, b) in pieces.iter().filter_map(|&piece| self.ends(piece)) {
            neighbours.entry(a).or_default().push(b);
            neighbours.entry(b).or_default().push(a);
        }
        let mut reached = BTreeSet::from([start]);
        let mut waiting = vec![start];
        while let Some(vertex) = waiting.pop() {
            let near = neighbours.get(&vertex).into_iter().flatten();
            waiting.extend(near.filter(|&&next| reached.insert(next)));
        }
        reached
    }

    /// The place of the first terminal that the pieces don't join to the first one.
    pub fn first_apart(&self, pieces: &Set, terminals: &[usize]) -> Option<usize> {
        let reached = self.joined(pieces, *terminals.first()?);
        terminals.iter().position(|vertex| !reached.contains(vertex))
    }

    /// The ground of some terminals, or the place of the first one that is cut off.
    pub fn ground(&self, terminals: &[usize]) -> Result<Ground, usize> {
        if self.first_apart(&self.allowed(Ground::Open), terminals).is_none() {
            return Ok(Ground::Open);
        }
        self.first_apart(&self.allowed(Ground::WithChoked), terminals).map_or(Ok(Ground::WithChoked), Err)
    }
}

/// The vertices without repeats, in the order in which they come first.
pub fn without_repeats(vertices: Vec<usize>) -> Vec<usize> {
    let mut seen = BTreeSet::new();
    vertices.into_iter().filter(|&vertex| seen.insert(vertex)).collect()
}

impl Design {
    pub fn position_of_id(&self, id: i128) -> Option<usize> {
        self.nets.iter().position(|net| net.id == id)
    }

    /// The grounds, or the line that names the first unreachable net.
    pub fn grounds(&self) -> Result<Vec<Ground>, String> {
        let of_net = |net: &Net| self.grid.ground(&net.terminals).map_err(|terminal| format!("refused 5 4 {} {terminal}\n", net.id));
        self.nets.iter().map(of_net).collect()
    }
}

/// How many nets need choked edges.
pub fn forced(grounds: &[Ground]) -> usize {
    grounds.iter().filter(|&&ground| ground == Ground::WithChoked).count()
}

/// The design of a text, or the line that refuses it.
pub fn read_design(text: &[u8]) -> Result<Design, String> {
    let mut reading = Reading { reader: Reader::over(text) };
    let mut grid = reading.header()?;
    let nets = reading.nets(&grid)?;
    reading.adjustments(&mut grid)?;
    Ok(Design { grid, nets })
}

struct Reading<'a> {
    reader: Reader<'a>,
}

/// A number and the place of its token.
type Placed = (usize, i128);

fn refused<T>(number: u32, at: usize) -> Result<T, String> {
    Err(format!("refused 3 {number} {at}\n"))
}

/// The place and the number, if that is from the least to the greatest.
fn limited(placed: Placed, number: u32, least: i128, greatest: i128) -> Result<i128, String> {
    let (at, value) = placed;
    if value < least || value > greatest {
        return refused(number, at);
    }
    Ok(value)
}

impl Reading<'_> {
    fn words(&mut self, wanted: &[&str]) -> Result<(), String> {
        for word in wanted {
            match self.reader.token() {
                Ok(token) if token.bytes == word.as_bytes() => {}
                Ok(token) => return Err(format!("refused 3 11 {} {word}\n", token.at)),
                Err(at) => return Err(format!("refused 3 11 {at} {word}\n")),
            }
        }
        Ok(())
    }

    fn number(&mut self) -> Result<Placed, String> {
        let token = self.reader.token().map_err(|at| format!("refused 3 11 {at} number\n"))?;
        match number(token.bytes) {
            None => Err(format!("refused 3 11 {} number\n", token.at)),
            Some(value) if value.abs() > FARTHEST => refused(12, token.at),
            Some(value) => Ok((token.at, value)),
        }
    }

    fn list(&mut self, words: &[&str], layers: usize, limit: i128, fault: u32) -> Result<Vec<u64>, String> {
        self.words(words)?;
        let mut list = Vec::new();
        for _ in 0..layers {
            let placed = self.number()?;
            list.push(limited(placed, fault, 0, limit)? as u64);
        }
        Ok(list)
    }

    fn header(&mut self) -> Result<Grid, String> {
        self.words(&["grid"])?;
        let (_, cols) = self.number()?;
        let (_, rows) = self.number()?;
        let (at, layers) = self.number()?;
        if cols < 1 || rows < 1 || layers < 1 || layers > 16 || cols * rows * layers > 1 << 23 {
            return refused(14, at);
        }
        let mut grid = Grid { cols: cols as usize, rows: rows as usize, layers: layers as usize, ..Grid::default() };
        grid.vertical = self.list(&["vertical", "capacity"], grid.layers, 1 << 18, 16)?;
        grid.horizontal = self.list(&["horizontal", "capacity"], grid.layers, 1 << 18, 16)?;
        grid.widths = self.list(&["minimum", "width"], grid.layers, 1023, 17)?;
        grid.spacings = self.spacings(&grid.widths)?;
        self.words(&["via", "spacing"])?;
        for _ in 0..layers {
            self.number()?;
        }
        grid.corner = (self.number()?.1, self.number()?.1);
        grid.tile.0 = limited(self.number()?, 15, 1, FARTHEST)?;
        grid.tile.1 = limited(self.number()?, 15, 1, FARTHEST)?;
        Ok(grid)
    }

    fn spacings(&mut self, widths: &[u64]) -> Result<Vec<u64>, String> {
        self.words(&["minimum", "spacing"])?;
        let mut list = Vec::new();
        for &width in widths {
            let (at, value) = self.number()?;
            limited((at, value), 17, 0, 1023)?;
            limited((at, value + i128::from(width)), 17, 1, 1023)?;
            list.push(value as u64);
        }
        Ok(list)
    }

    fn nets(&mut self, grid: &Grid) -> Result<Vec<Net>, String> {
        self.words(&["num", "net"])?;
        let count = limited(self.number()?, 18, 0, 1 << 22)?;
        let mut nets: Vec<Net> = Vec::new();
        let mut ids = BTreeSet::new();
        let mut pins_left = 1 << 24;
        for _ in 0..count {
            let name = self.reader.token().map_err(|at| format!("refused 3 11 {at} name\n"))?.bytes.to_vec();
            let (at, id) = self.number()?;
            limited((at, id), 12, 0, (1 << 32) - 1)?;
            if !ids.insert(id) {
                return Err(format!("refused 3 19 {at} {id}\n"));
            }
            let pins = limited(self.number()?, 18, 0, pins_left)?;
            pins_left -= pins;
            let width = limited(self.number()?, 17, 0, 1023 - grid.greatest_spacing() as i128)? as u64;
            let terminals = self.pins(grid, id, pins)?;
            nets.push(Net { name, id, width, terminals });
        }
        Ok(nets)
    }

    fn pins(&mut self, grid: &Grid, id: i128, count: i128) -> Result<Vec<usize>, String> {
        let mut vertices = Vec::new();
        for pin in 0..count {
            let (at, x) = self.number()?;
            if grid.is_beside(x, grid.corner.1).0 {
                return Err(format!("refused 3 20 {at} {id} {pin}\n"));
            }
            let (at, y) = self.number()?;
            if grid.is_beside(x, y).1 {
                return Err(format!("refused 3 20 {at} {id} {pin}\n"));
            }
            let (at, layer) = self.number()?;
            let vertex = grid.vertex_at(x, y, layer).ok_or_else(|| format!("refused 3 21 {at} {id} {pin}\n"))?;
            vertices.push(vertex);
        }
        Ok(without_repeats(vertices))
    }

    fn adjustments(&mut self, grid: &mut Grid) -> Result<(), String> {
        let count = match self.reader.token() {
            Err(_) => return Ok(()),
            Ok(token) => match number(token.bytes) {
                None => return Err(format!("refused 3 11 {} number\n", token.at)),
                Some(value) if value.abs() > FARTHEST => return refused(12, token.at),
                Some(value) => limited((token.at, value), 18, 0, 1 << 23)?,
            },
        };
        for index in 0..count {
            let mut six = Vec::new();
            for _ in 0..6 {
                six.push(self.number()?);
            }
            let ends = (adjusted_tile(grid, &six[..3]), adjusted_tile(grid, &six[3..]));
            let piece = match ends {
                (Some(a), Some(b)) => grid.piece_between(a, b),
                _ => None,
            };
            let piece = piece.ok_or_else(|| format!("refused 3 22 {} {index}\n", six[5].0))?;
            let level = limited(self.number()?, 16, 0, 1 << 18)? as u64;
            if !grid.is_via(piece) {
                grid.levels.insert(piece, level);
            }
        }
        Ok(())
    }
}

/// The vertex that three numbers of an adjustment name, where it is inside the grid.
fn adjusted_tile(grid: &Grid, three: &[Placed]) -> Option<usize> {
    let (col, row, layer) = (three[0].1, three[1].1, three[2].1);
    let inside = |value: i128, least: i128, count: usize| value >= least && value < least + count as i128;
    (inside(col, 0, grid.cols) && inside(row, 0, grid.rows) && inside(layer, 1, grid.layers))
        .then(|| grid.vertex(col as usize, row as usize, layer as usize - 1))
}
