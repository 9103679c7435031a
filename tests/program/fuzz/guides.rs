//! Cases of `guide`: its text is determined.

use crate::design::{Design, Set};
use crate::inputs::{accept_blocks, accept_design, accept_sets, Accepted, Refusal};
use crate::programs::{word, Bench, Found};
use crate::random::Random;
use crate::texts::{expect_inputs, expect_refused, Output, Texts};
use std::collections::BTreeSet;

/// First and last column, first and last row, and the layer.
type Rectangle = (usize, usize, usize, usize, usize);

/// The runs of tiles in one row of one layer, by first and last column.
fn runs_of_row(tiles: &BTreeSet<(usize, usize, usize)>, layer: usize, row: usize, cols: usize) -> Vec<(usize, usize)> {
    let has = |col: usize| tiles.contains(&(layer, row, col));
    let begins = (0..cols).filter(|&col| has(col) && (col == 0 || !has(col - 1)));
    begins.map(|col| (col, (col..cols).take_while(|&next| has(next)).last().expect("a tile"))).collect()
}

fn rectangles(design: &Design, tiles: &BTreeSet<usize>) -> Vec<Rectangle> {
    let grid = &design.grid;
    let places = |&vertex: &usize| {
        let (col, row, layer) = grid.place(vertex);
        (layer, row, col)
    };
    let tiles: BTreeSet<_> = tiles.iter().map(places).collect();
    let mut list: Vec<Rectangle> = Vec::new();
    for (layer, row) in (0..grid.layers).flat_map(|layer| (0..grid.rows).map(move |row| (layer, row))) {
        for (first, last) in runs_of_row(&tiles, layer, row, grid.cols) {
            let below = list.iter_mut().find(|other| (other.0, other.1, other.4) == (first, last, layer) && other.3 + 1 == row);
            match below {
                Some(rectangle) => rectangle.3 = row,
                None => list.push((first, last, row, row, layer)),
            }
        }
    }
    list.sort_by_key(|&(first, _, row, _, layer)| (layer, row, first));
    list
}

fn guides_text(accepted: &Accepted, sets: &[Set]) -> Vec<u8> {
    let grid = &accepted.design.grid;
    let border = |corner: i128, tile: i128, index: usize| corner + tile * index as i128;
    let mut text = Vec::new();
    for (net, set) in accepted.design.nets.iter().zip(sets) {
        let mut tiles: BTreeSet<usize> = net.terminals.iter().copied().collect();
        tiles.extend(set.iter().filter_map(|&piece| grid.ends(piece)).flat_map(|(a, b)| [a, b]));
        text.extend(&net.name);
        text.extend(format!(" {}\n(\n", net.id).bytes());
        for (first, last, low, high, layer) in rectangles(&accepted.design, &tiles) {
            let (x1, y1) = (border(grid.corner.0, grid.tile.0, first), border(grid.corner.1, grid.tile.1, low));
            let (x2, y2) = (border(grid.corner.0, grid.tile.0, last + 1), border(grid.corner.1, grid.tile.1, high + 1));
            text.extend(format!("{x1} {y1} {x2} {y2} {}\n", layer + 1).bytes());
        }
        text.extend(b")\n");
    }
    text
}

fn accept(texts: &Texts) -> Result<(Accepted, Vec<Set>), Refusal> {
    let accepted = accept_design(&texts.design, true)?;
    let blocks = accept_blocks(&texts.routes)?;
    let sets = accept_sets(&accepted.design, &blocks)?;
    Ok((accepted, sets))
}

pub fn try_guide(bench: &mut Bench, random: &mut Random) -> Found {
    let texts = Texts::drawn(random);
    texts.write(bench);
    let out = Output::drawn(random, bench, "out.guide", &["in.gr", "in.routes"]);
    let words = [word("guide"), bench.path("in.gr"), bench.path("in.routes"), out.word.clone()];
    let (accepted, sets) = match accept(&texts) {
        Err(refusal) => return expect_refused(bench, "grouter", &words, refusal, &[&out]),
        Ok(routed) => routed,
    };
    if !out.is_free {
        bench.expect("grouter", &words, 7, b"refused 7\n")?;
        return expect_inputs(bench, &texts);
    }
    bench.expect("grouter", &words, 0, format!("guides {}\n", accepted.design.nets.len()).as_bytes())?;
    bench.expect_file("out.guide", Some(&guides_text(&accepted, &sets)))
}
