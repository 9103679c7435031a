//! Cases of `congestion_map`: the table is determined, and so are the strokes, frames and lines of a picture.

use crate::certificate::Certificate;
use crate::design::{Grid, Kind, Piece, Set};
use crate::fraction::said;
use crate::inputs::{accept_blocks, accept_certificate, accept_design, accept_sets, ends, Accepted, Refusal};
use crate::judging::measure_lines;
use crate::programs::{same, word, Bench, Fault, Found, Word};
use crate::random::Random;
use crate::routes::{loads, measure};
use crate::texts::{expect_inputs, expect_refused, Output, Texts};
use crate::words::{asked_map, AskedMap};
use std::ops::Range;

const BORDERS: [u64; 11] = [0, 25, 50, 75, 100, 105, 110, 120, 135, 150, 200];

/// What all edges over a tile edge say together.
#[derive(Clone, Copy, Default)]
struct Cell {
    class: usize,
    overfull: bool,
    closed: bool,
    partly_closed: bool,
}

impl Cell {
    fn joined(self, other: Cell) -> Cell {
        Cell {
            class: self.class.max(other.class),
            overfull: self.overfull || other.overfull,
            closed: self.closed || other.closed,
            partly_closed: self.partly_closed || other.partly_closed,
        }
    }
}

/// A routed design, the layers that are shown, and a certificate whose prices are shown.
struct Shown {
    accepted: Accepted,
    sets: Vec<Set>,
    loads: Vec<u64>,
    layers: Range<usize>,
    cut: Option<Certificate>,
}

impl Shown {
    fn grid(&self) -> &Grid {
        &self.accepted.design.grid
    }

    /// The tile edges, row by row, at each tile the one along x before the one along y.
    fn tile_edges(&self) -> Vec<Piece> {
        let flat = 2 * self.grid().cols * self.grid().rows;
        (0..flat).filter(|&edge| self.grid().ends(edge).is_some()).collect()
    }

    fn edges_over(&self, tile_edge: Piece) -> Vec<Piece> {
        let per_layer = 2 * self.grid().cols * self.grid().rows;
        self.layers.clone().map(|layer| tile_edge + layer * per_layer).collect()
    }

    fn use_of(&self, edges: &[Piece]) -> (u64, u64) {
        edges.iter().fold((0, 0), |(load, capacity), &edge| (load + self.loads[edge], capacity + self.grid().capacity(edge)))
    }

    fn cell_of(&self, tile_edge: Piece) -> Cell {
        let edges = self.edges_over(tile_edge);
        let (load, capacity) = self.use_of(&edges);
        let choked = edges.iter().any(|&edge| self.grid().kind(edge) == Kind::Choked);
        Cell {
            class: BORDERS.iter().filter(|&&border| load > 0 && load * 100 > capacity * border).count(),
            overfull: edges.iter().any(|&edge| self.loads[edge] > self.grid().capacity(edge)),
            closed: choked && capacity == 0,
            partly_closed: choked && capacity > 0,
        }
    }

    /// How many tiles a side a cell stands for.
    fn tiles_a_side(&self) -> usize {
        self.grid().cols.max(self.grid().rows).div_ceil(2000)
    }

    /// Columns and rows of a map.
    fn cells_a_side(&self) -> (usize, usize) {
        (self.grid().cols.div_ceil(self.tiles_a_side()), self.grid().rows.div_ceil(self.tiles_a_side()))
    }

    /// A cell of a map that shows the tile edges of these axes.
    fn cell_at(&self, axes: &[usize], col: usize, row: usize) -> Cell {
        let (grid, tiles) = (self.grid(), self.tiles_a_side());
        let cols = col * tiles..grid.cols.min((col + 1) * tiles);
        let rows = row * tiles..grid.rows.min((row + 1) * tiles);
        let vertices = rows.flat_map(|row| cols.clone().map(move |col| grid.vertex(col, row, 0)));
        let edges = vertices.flat_map(|vertex| axes.iter().map(move |axis| 2 * vertex + axis));
        let inside = edges.filter(|&edge| grid.ends(edge).is_some());
        inside.fold(Cell::default(), |cell, edge| cell.joined(self.cell_of(edge)))
    }
}

fn accept(texts: &Texts, asked: &AskedMap) -> Result<Shown, Refusal> {
    let accepted = accept_design(&texts.design, false)?;
    let blocks = accept_blocks(&texts.routes)?;
    let cut = asked.cut.as_ref().map(|_| accept_certificate(&texts.certificate)).transpose()?;
    let sets = accept_sets(&accepted.design, &blocks)?;
    let open = accepted.design.grid.open_edges().len();
    if let Some(stated) = cut.as_ref().map(|cut| cut.prices.len()).filter(|&stated| stated != open) {
        return ends(1, format!("no 51 prices {stated} {open}\n"));
    }
    let count = accepted.design.grid.layers;
    if let Some(layer) = asked.layer.filter(|&layer| layer > count) {
        return ends(1, format!("no 53 {layer} {count}\n"));
    }
    let layers = asked.layer.map_or(0..count, |layer| layer - 1..layer);
    let loads = loads(&accepted.design, &sets);
    Ok(Shown { accepted, sets, loads, layers, cut })
}

fn drawn_options(random: &mut Random, bench: &Bench, is_picture: bool, may_cut: bool) -> Vec<Word> {
    let mut options: Vec<Vec<Word>> = Vec::new();
    if random.one_in(3) {
        options.push(vec![word("--layer"), word(random.choose(&[1, 1, 2, 2, 3, 5]))]);
    }
    if random.one_in(3) {
        options.push(vec![word(if is_picture { "--greater" } else { "--layers" })]);
    }
    if is_picture && may_cut && random.one_in(2) {
        options.push(vec![word("--cut"), bench.path("in.cert")]);
    }
    random.shuffle(&mut options);
    options.concat()
}

pub fn try_map(bench: &mut Bench, random: &mut Random) -> Found {
    let long = random.one_in(100);
    let texts = if long { Texts::long(random) } else { Texts::drawn(random) };
    texts.write(bench);
    let name = random.choose(&["map.svg", "map.csv"]);
    let out = Output::drawn(random, bench, name, &["in.gr", "in.routes"]);
    let source = if out.is_free && random.one_in(4) { "a <b> & 'c'\t\"d\" \u{e4}\u{fffe}\u{ffff}\u{1fffe}.gr" } else { "in.gr" };
    if let (Some(text), true) = (&texts.design, source != "in.gr") {
        bench.write(source, text);
    }
    let map = if out.word.ends_with(name.as_bytes()) { out.word.clone() } else { bench.path(&format!("no_folder/{name}")) };
    let mut words = vec![bench.path(source), bench.path("in.routes"), map];
    words.extend(drawn_options(random, bench, name == "map.svg", !long));
    let asked = asked_map(&words).ok_or_else(|| Fault::Differs("the model asks for nothing".to_string()))?;
    let shown = match accept(&texts, &asked) {
        Err(refusal) => return expect_refused(bench, "congestion_map", &words, refusal, &[&out]),
        Ok(shown) => shown,
    };
    if !out.is_free {
        bench.expect("congestion_map", &words, 7, b"refused 7\n")?;
        return expect_inputs(bench, &texts);
    }
    bench.expect("congestion_map", &words, 0, measure_lines(&shown.accepted, &shown.sets, None).as_bytes())?;
    if !asked.is_picture {
        return bench.expect_file(name, Some(table(&shown, asked.layers).as_bytes()));
    }
    if long {
        bench.look("congestion_map: cells of several tiles");
    }
    let picture = bench.read(name).ok_or_else(|| Fault::Differs("no picture".to_string()))?;
    check_picture(&shown, &asked, &String::from_utf8_lossy(&picture))
}

fn table(shown: &Shown, by_layers: bool) -> String {
    let layers = if by_layers { shown.layers.clone() } else { 0..0 };
    let head: String = layers.map(|layer| format!(",load_{0},capacity_{0}", layer + 1)).collect();
    let mut text = format!("column,row,direction,load,capacity{head}\n");
    for edge in shown.tile_edges() {
        let edges = shown.edges_over(edge);
        let (load, capacity) = shown.use_of(&edges);
        let (col, row, _) = shown.grid().place(edge / 2);
        let axis = if edge % 2 == 0 { "x" } else { "y" };
        let of_layer = |&edge: &Piece| format!(",{},{}", shown.loads[edge], shown.grid().capacity(edge));
        let tail: String = if by_layers { edges.iter().map(of_layer).collect() } else { String::new() };
        text += &format!("{col},{row},{axis},{load},{capacity}{tail}\n");
    }
    text
}

/// The strokes, or the frames, of all runs of covered cells.
fn path(shown: &Shown, axes: &[usize], covers: impl Fn(Cell) -> bool, written: impl Fn(usize, usize, usize) -> String) -> String {
    let (cols, rows) = shown.cells_a_side();
    let mut text = String::new();
    for row in 0..rows {
        let covered: Vec<bool> = (0..cols).map(|col| covers(shown.cell_at(axes, col, row))).collect();
        let begins = (0..cols).filter(|&col| covered[col] && (col == 0 || !covered[col - 1]));
        for col in begins {
            let count = covered[col..].iter().take_while(|&&is_covered| is_covered).count();
            text += &written(col, rows - 1 - row, count);
        }
    }
    text
}

/// The paths of a map in their order: the classes, closed and partly closed cells, the frames, and the lines of a cut.
fn paths(shown: &Shown, axes: &[usize], side: usize) -> Vec<String> {
    let stroke = |col: usize, row: usize, count: usize| format!("M{col} {row}h{count}");
    let frame = |col: usize, row: usize, count: usize| {
        let (width, height) = (count * side + 2, side + 2);
        format!("M{} {}h{width}v{height}h-{width}z", col * side, row * side)
    };
    let mut list: Vec<String> = (1..=BORDERS.len()).map(|class| path(shown, axes, |cell| cell.class == class, stroke)).collect();
    list.push(path(shown, axes, |cell| cell.closed, stroke));
    list.push(path(shown, axes, |cell| cell.partly_closed, stroke));
    list.push(path(shown, axes, |cell| cell.overfull, frame));
    list.extend(shown.cut.as_ref().map(|cut| cut_path(shown, cut, side)));
    list
}

fn cut_path(shown: &Shown, cut: &Certificate, side: usize) -> String {
    let grid = shown.grid();
    let prices = cut.price_list(&shown.accepted.design);
    let is_priced = |&edge: &Piece| shown.edges_over(edge).iter().any(|&edge| prices[edge] > 0);
    let line = |edge: Piece| {
        let (col, row, _) = grid.place(edge / 2);
        let top = (grid.rows - 1 - row) * side;
        if edge % 2 == 0 {
            format!("M{} {top}v{side}", (col + 1) * side)
        } else {
            format!("M{} {top}h{side}", col * side)
        }
    };
    shown.tile_edges().into_iter().filter(is_priced).map(line).collect()
}

/// What stands for a sign of a name in a text of XML.
fn allowed_sign(sign: char) -> char {
    match sign {
        '\0'..' ' => ' ',
        '\u{fffe}' | '\u{ffff}' => '\u{fffd}',
        _ => sign,
    }
}

fn without_entities(text: &str) -> String {
    [("&lt;", "<"), ("&gt;", ">"), ("&quot;", "\""), ("&apos;", "'"), ("&#39;", "'"), ("&amp;", "&")]
        .iter()
        .fold(text.to_string(), |text, (entity, sign)| text.replace(entity, sign))
}

fn between<'a>(text: &'a str, before: &str, after: &str) -> Option<&'a str> {
    text.split_once(before)?.1.split_once(after).map(|parts| parts.0)
}

fn check_picture(shown: &Shown, asked: &AskedMap, picture: &str) -> Found {
    let name = String::from_utf8_lossy(&asked.names[0]).into_owned();
    let allowed: String = name.chars().map(allowed_sign).collect();
    same("the title", between(picture, "<title>", "</title>").map(without_entities), Some(allowed))?;
    let measure = measure(&shown.accepted.design, &shown.sets, None);
    let numbers = format!(">overflow {}, wirelength {}, peak {}<", measure.overflow, measure.wirelength, said(measure.peak));
    same("the numbers of the picture", picture.contains(&numbers), true)?;
    let tiles = shown.tiles_a_side();
    let cells = if tiles > 1 { format!("; the fullest of {tiles} by {tiles} tiles in each cell") } else { String::new() };
    let layers = format!("on layers {} to {}{cells}<", shown.layers.start + 1, shown.layers.end);
    same("the layers of the picture", picture.contains(&layers), true)?;
    let side = between(picture, "scale(", ")").and_then(|side| side.parse().ok()).unwrap_or(0);
    let maps: &[&[usize]] = if asked.greater { &[&[0, 1]] } else { &[&[0], &[1]] };
    let wanted: Vec<String> = maps.iter().flat_map(|axes| paths(shown, axes, side)).collect();
    let lines = picture.lines().filter(|line| line.starts_with("<path"));
    let found: Vec<&str> = lines.filter_map(|line| between(line, " d=\"", "\"")).collect();
    for (place, wanted) in wanted.iter().enumerate() {
        same(&format!("path {place}"), found.get(place).copied(), Some(wanted.as_str()))?;
    }
    // the scale has two more, and one for a cut
    same("how many paths", found.len(), wanted.len() + 2 + usize::from(shown.cut.is_some()))
}
