//! Draws small designs, routes, certificates and edits as texts.

use crate::certificate::Certificate;
use crate::design::{read_design, Design, Grid, Ground, Piece, Set, FARTHEST};
use crate::fraction::Fraction;
use crate::inputs::Accepted;
use crate::prices::{price_vector, Prices, GREATEST_PRICE};
use crate::programs::{word, Word};
use crate::random::Random;
use crate::routes::{loads, segments, Point};

/// Lines of words.
pub type Lines = Vec<Vec<Word>>;

fn line(words: &str) -> Vec<Word> {
    words.split(' ').map(word).collect()
}

/// The text of some lines, at times with other blanks and other forms of the numbers.
pub fn text(random: &mut Random, lines: &Lines) -> Vec<u8> {
    let style = random.below(8);
    let mut text = Vec::new();
    for line in lines {
        for (place, token) in line.iter().enumerate() {
            if place > 0 {
                text.extend(blanks(random, style, b" "));
            }
            text.extend(number_form(random, style, token));
        }
        text.extend(blanks(random, style, b"\n"));
    }
    text
}

fn blanks(random: &mut Random, style: usize, plain: &[u8]) -> Vec<u8> {
    match style {
        0 => random.choose(&[&b" "[..], b"\n", b"\t", b"\r\n", b"  ", b" \n\n"]).to_vec(),
        1 if plain == b"\n" => b"\r\n".to_vec(),
        _ => plain.to_vec(),
    }
}

fn number_form(random: &mut Random, style: usize, token: &Word) -> Word {
    let is_number = token.iter().all(u8::is_ascii_digit);
    if style != 2 || !is_number || random.below(6) > 0 {
        return token.clone();
    }
    [random.choose(&["+", "0", "000", "+00", "-", "0000000000000000000000000000000000000000"]).as_bytes(), token].concat()
}

/// A small design, nearly always with nets whose terminals are joined by open or by choked edges.
pub fn design(random: &mut Random) -> Vec<u8> {
    let mut grid = sketch(random);
    let adjusted = adjust(random, &mut grid);
    let mut lines: Lines = vec![line(&format!("grid {} {} {}", grid.cols, grid.rows, grid.layers))];
    let lists = [
        ("vertical capacity", &grid.vertical),
        ("horizontal capacity", &grid.horizontal),
        ("minimum width", &grid.widths),
        ("minimum spacing", &grid.spacings),
    ];
    for (name, list) in lists {
        lines.push([line(name), list.iter().map(word).collect()].concat());
    }
    lines.push([line("via spacing"), (0..grid.layers).map(|_| word(random.between(-1, 2))).collect()].concat());
    lines.push(line(&format!("{} {} {} {}", grid.corner.0, grid.corner.1, grid.tile.0, grid.tile.1)));
    nets(random, &grid, &mut lines);
    if !adjusted.is_empty() || random.below(3) > 0 {
        lines.push(vec![word(adjusted.len())]);
        lines.extend(adjusted);
        lines.extend(random.one_in(20).then(|| line("and more ( that is ignored")));
    }
    text(random, &lines)
}

/// A grid of thousands of columns or rows with straight nets, and their routes.
pub fn long_design(random: &mut Random) -> (Vec<u8>, Vec<u8>) {
    let (long, short) = (random.choose(&[2001, 2999, 4001, 5000]), 1 + random.below(3));
    let turned = random.one_in(2);
    let (cols, rows) = if turned { (short, long) } else { (long, short) };
    let mut design = format!("grid {cols} {rows} 1 vertical capacity 3 horizontal capacity 3 minimum width 1 minimum spacing 1 ");
    let nets = 1 + random.below(12);
    design += &format!("via spacing 1 0 0 10 10 num net {nets}\n");
    let mut routes = String::new();
    for net in 0..nets {
        let (from, side) = (random.below(long), random.below(short));
        let to = (from + random.below(7)).min(long - 1);
        let shown = |along: usize| if turned { (10 * side + 5, 10 * along + 5) } else { (10 * along + 5, 10 * side + 5) };
        let (a, b) = (shown(from), shown(to));
        design += &format!("n {net} 2 1\n{} {} 1\n{} {} 1\n", a.0, a.1, b.0, b.1);
        routes += &format!("n {net}\n({},{},1)-({},{},1)\n!\n", a.0, a.1, b.0, b.1);
    }
    (design.into_bytes(), routes.into_bytes())
}

fn sketch(random: &mut Random) -> Grid {
    let mut grid = Grid { cols: 1 + random.below(5), rows: 1 + random.below(4), ..Grid::default() };
    if random.one_in(12) {
        (grid.cols, grid.rows) = random.choose(&[(9, 1), (1, 9), (7, 2), (6, 5)]);
    }
    grid.layers = random.choose(&[1, 1, 1, 2, 2, 2, 3, 4]);
    if random.one_in(60) {
        (grid.cols, grid.rows, grid.layers) = (1 + random.below(2), 1 + random.below(2), 16);
    }
    grid.tile = (random.choose(&[10, 10, 10, 1, 2, 3, 7, 1000]), random.choose(&[10, 10, 10, 1, 2, 3, 7, 1000]));
    grid.corner = (random.choose(&[0, 0, 0, 5, -10, -13]), random.choose(&[0, 0, 0, 5, -10, -13]));
    if random.one_in(15) {
        grid.corner.0 = random.choose(&[FARTHEST - 1, FARTHEST - 25, FARTHEST, -FARTHEST]);
    }
    if random.one_in(30) {
        grid.tile.1 = random.choose(&[FARTHEST, FARTHEST / 2, FARTHEST / 3]);
    }
    draw_capacities(random, &mut grid);
    let style = random.below(20);
    let sizes = |random: &mut Random| match style {
        0 => random.choose(&[(1023, 0), (0, 1023), (500, 523), (1, 1022)]),
        1..=8 => (random.below(4) as u64, 1 + random.below(2) as u64),
        _ => (1, 1),
    };
    (grid.widths, grid.spacings) = (0..grid.layers).map(|_| sizes(random)).unzip();
    grid
}

fn draw_capacities(random: &mut Random, grid: &mut Grid) {
    let style = random.below(4);
    let level = random.choose(&[1, 2, 2, 3, 4, 4, 5, 6, 8, 12, 20]);
    for layer in 0..grid.layers as u64 {
        let any = |random: &mut Random| random.choose(&[0, 0, 1, 2, 3, 4, 6, 8, 9, 262_144]);
        let (along_y, along_x) = match style {
            0 if grid.layers > 1 => (level * (layer % 2), level * ((layer + 1) % 2)),
            1 => (any(random), any(random)),
            _ => (level, level),
        };
        grid.vertical.push(along_y);
        grid.horizontal.push(along_x);
    }
}

/// Adjusts some edges, of which a part is named twice, and now and then names a via. Answers the lines.
fn adjust(random: &mut Random, grid: &mut Grid) -> Lines {
    let mut lines = Lines::new();
    let pieces = grid.pieces();
    let count = random.choose(&[0, 0, 0, 1, 1, 2, 3, 5, 9]);
    let mut adjusted: Vec<Piece> = (0..if pieces.is_empty() { 0 } else { count }).map(|_| random.choose(&pieces)).collect();
    let is_cut = random.one_in(5);
    if is_cut {
        adjusted.extend(edges_across(random, grid));
    }
    for piece in adjusted {
        let (from, to) = grid.ends(piece).expect("a piece");
        let (from, to) = if random.one_in(2) { (from, to) } else { (to, from) };
        let (a, b) = (grid.place(from), grid.place(to));
        let level = if is_cut && !random.one_in(30) { 0 } else { random.choose(&[0, 0, 0, 0, 1, 2, 3, 4, 8]) };
        lines.push(line(&format!("{} {} {} {} {} {} {level}", a.0, a.1, a.2 + 1, b.0, b.1, b.2 + 1)));
        if !grid.is_via(piece) {
            grid.levels.insert(piece, level);
        }
    }
    lines
}

/// The edges between two columns or two rows, without which the tiles on the one side are cut off from the others.
fn edges_across(random: &mut Random, grid: &Grid) -> Vec<Piece> {
    let (along_y, place) = (random.below(2), random.below(5));
    let leads_across = |&edge: &Piece| {
        let (col, row, _) = grid.place(edge / 2);
        edge % 2 == along_y && place == if along_y == 1 { row } else { col }
    };
    grid.edges().into_iter().filter(leads_across).collect()
}

fn nets(random: &mut Random, grid: &Grid, lines: &mut Lines) {
    // a worker reads the loads anew behind 32 nets
    let many = random.one_in(80).then(|| 31 + random.below(40) as u64);
    let count = many.unwrap_or_else(|| random.choose(&[0, 1, 1, 2, 2, 3, 3, 4, 5, 6, 8]));
    let first_id = if many.is_some() { 0 } else { random.choose(&[0, 0, 0, 7, 4_294_967_280]) };
    let step = 1 + random.below(2) as u64;
    let anywhere = random.one_in(8);
    let greatest_width = 1023 - grid.greatest_spacing();
    lines.push(line(&format!("num net {count}")));
    for net in 0..count {
        let pins = if random.one_in(60) { 12 } else { random.choose(&[2, 2, 2, 2, 2, 3, 3, 4, 5, 6, 7, 9, 1, 0]) };
        let width = match random.below(12) {
            0 => greatest_width,
            1..=4 => random.below(4) as u64,
            _ => 1,
        };
        let name = random.choose(&[&b"a"[..], b"n0", b"net_7", b"!", b"(1,1,1)", b"12", b"#", b"\xc3\xa4", b"\xff", b"-b"]);
        lines.push(vec![name.to_vec(), word(first_id + net * step), word(pins), word(width.min(greatest_width))]);
        pins_of(random, grid, pins, anywhere, lines);
    }
}

/// Pins as `x y layer`, all in tiles that may be joined, or anywhere.
fn pins_of(random: &mut Random, grid: &Grid, count: usize, anywhere: bool, lines: &mut Lines) {
    let start = random.below(grid.vertices());
    // most nets need no choked edge
    let ground = if random.one_in(3) { Ground::WithChoked } else { Ground::Open };
    let near: Vec<usize> = grid.joined(&grid.allowed(ground), start).into_iter().collect();
    for _ in 0..count {
        let vertex = if anywhere { random.below(grid.vertices()) } else { random.choose(&near) };
        let (x, y, layer) = point_in(random, grid, vertex);
        lines.push(line(&format!("{x} {y} {layer}")));
    }
}

/// A set that joins the net's terminals, in a few cases over choked edges or with pieces that aren't needed.
fn drawn_set(random: &mut Random, grid: &Grid, terminals: &[usize], ground: Ground) -> Set {
    let ground = if random.one_in(8) { Ground::WithChoked } else { ground };
    let allowed: Vec<(usize, u64)> = grid.allowed(ground).into_iter().map(|piece| (piece, 1 + random.below(9) as u64)).collect();
    let mut set = Set::new();
    let mut reached = terminals.first().map(|&first| vec![first]).unwrap_or_default();
    for &terminal in terminals.iter().skip(1) {
        let way = way_to(grid, &allowed, &reached, terminal);
        reached.extend(way.iter().filter_map(|&piece| grid.ends(piece)).flat_map(|(a, b)| [a, b]));
        set.extend(way);
    }
    if random.one_in(5) && !allowed.is_empty() {
        set.extend((0..1 + random.below(4)).map(|_| random.choose(&allowed).0));
    }
    set
}

/// A least way from one of some vertices to another vertex.
fn way_to(grid: &Grid, allowed: &[(usize, u64)], from: &[usize], to: usize) -> Vec<usize> {
    let mut numbers = vec![(u64::MAX / 2, None); grid.vertices()];
    from.iter().for_each(|&vertex| numbers[vertex].0 = 0);
    let mut changed = true;
    while changed {
        changed = false;
        for &(piece, weight) in allowed {
            let (a, b) = grid.ends(piece).expect("a piece");
            let (low, high) = if numbers[a].0 <= numbers[b].0 { (a, b) } else { (b, a) };
            if numbers[low].0 + weight < numbers[high].0 {
                numbers[high] = (numbers[low].0 + weight, Some((piece, low)));
                changed = true;
            }
        }
    }
    let mut way = Vec::new();
    let mut vertex = to;
    while let Some((piece, before)) = numbers[vertex].1 {
        way.push(piece);
        vertex = before;
    }
    way
}

pub fn drawn_sets(random: &mut Random, accepted: &Accepted) -> Vec<Set> {
    let design = &accepted.design;
    let nets = design.nets.iter().zip(&accepted.grounds);
    nets.map(|(net, &ground)| drawn_set(random, &design.grid, &net.terminals, ground)).collect()
}

/// Segments of a set, at times in other pieces, turned round, and more of them than are needed.
fn drawn_segments(random: &mut Random, grid: &Grid, set: &Set) -> Vec<(usize, usize)> {
    let plain = segments(grid, set);
    if random.one_in(3) {
        return plain;
    }
    let mut list = Vec::new();
    for (from, to) in plain {
        let (low, high) = (grid.place(from), grid.place(to));
        let on_way = |random: &mut Random| {
            let between = |random: &mut Random, a: usize, b: usize| a + random.below(b - a + 1);
            grid.vertex(between(random, low.0, high.0), between(random, low.1, high.1), between(random, low.2, high.2))
        };
        let middle = on_way(random);
        match random.below(6) {
            0 => list.extend([(from, middle), (middle, to)]),
            1 => list.extend([(from, to), (on_way(random), middle)]),
            2 => list.extend([(to, from), (middle, middle)]),
            _ => list.push((from, to)),
        }
    }
    if random.one_in(2) {
        random.shuffle(&mut list);
    }
    list
}

/// A position in the tile of a vertex.
fn point_in(random: &mut Random, grid: &Grid, vertex: usize) -> Point {
    let (col, row, layer) = grid.place(vertex);
    let within = |random: &mut Random, corner: i128, tile: i128, index: usize, count: usize| {
        let last = if index + 1 == count { tile } else { tile - 1 };
        let anywhere = random.between(0, last);
        let inside = random.choose(&[0, tile / 2, tile / 2, anywhere, anywhere, last]);
        (corner + index as i128 * tile + inside).min(FARTHEST)
    };
    let x = within(random, grid.corner.0, grid.tile.0, col, grid.cols);
    let y = within(random, grid.corner.1, grid.tile.1, row, grid.rows);
    (x, y, layer as i128 + 1)
}

struct DrawnBlock {
    name: Word,
    id: i128,
    segments: Vec<(Point, Point)>,
}

/// A route text of the sets, whatever its form, and now and then with a fault.
pub fn routes(random: &mut Random, design: &Design, sets: &[Set], faults: bool) -> Vec<u8> {
    let mut blocks = Vec::new();
    for (net, set) in design.nets.iter().zip(sets) {
        if net.terminals.len() < 2 && random.one_in(2) {
            continue;
        }
        let list = drawn_segments(random, &design.grid, set);
        let segments = list.iter().map(|&(a, b)| (point_in(random, &design.grid, a), point_in(random, &design.grid, b))).collect();
        blocks.push(DrawnBlock { name: net.name.clone(), id: net.id, segments });
    }
    if random.one_in(3) {
        random.shuffle(&mut blocks);
    }
    if faults && random.one_in(2) {
        spoil(random, &design.grid, &mut blocks);
    }
    blocks_text(random, &blocks)
}

/// One fault that is left to be found.
fn spoil(random: &mut Random, grid: &Grid, blocks: &mut Vec<DrawnBlock>) {
    if blocks.is_empty() {
        return;
    }
    let place = random.below(blocks.len());
    match random.below(8) {
        0 => drop(blocks.remove(place)),
        1 => blocks[place].id = random.choose(&[0, 1, 2, 99, 4_294_967_295]),
        2 => {
            let (name, id, segments) = (b"again".to_vec(), blocks[place].id, blocks[place].segments.clone());
            blocks.push(DrawnBlock { name, id, segments });
        }
        // a line from tile to tile, perhaps through walls
        3 | 4 => {
            let from = random.below(grid.vertices());
            let (col, row, layer) = grid.place(from);
            let along_x = grid.vertex(random.below(grid.cols), row, layer);
            let to = if random.one_in(2) { along_x } else { grid.vertex(col, random.below(grid.rows), layer) };
            let segment = (point_in(random, grid, from), point_in(random, grid, to));
            blocks[place].segments.push(segment);
        }
        _ => spoil_segment(random, grid, &mut blocks[place].segments),
    }
}

fn spoil_segment(random: &mut Random, grid: &Grid, segments: &mut Vec<(Point, Point)>) {
    if segments.is_empty() {
        segments.push(((grid.corner.0, grid.corner.1, 1), (grid.corner.0, grid.corner.1, 1)));
    }
    let place = random.below(segments.len());
    let far = grid.far_corner();
    let (from, to) = &mut segments[place];
    match random.below(9) {
        0 => from.0 = far.0 + 1,
        1 => from.0 = grid.corner.0 - 1,
        2 => to.1 = far.1 + 1,
        3 => to.1 = grid.corner.1 - 1,
        4 => from.2 = random.choose(&[0, -1, grid.layers as i128 + 1, grid.layers as i128]),
        5 => to.0 = far.0.min(FARTHEST),
        6 => from.1 = grid.corner.1,
        7 => to.2 = 1 + random.below(grid.layers) as i128,
        _ => drop(segments.remove(place)),
    }
}

fn blocks_text(random: &mut Random, blocks: &[DrawnBlock]) -> Vec<u8> {
    let style = random.below(8);
    let mut text = Vec::new();
    for block in blocks {
        let further = if random.one_in(12) { random.choose(&[" 9", " -1", " +0012"]) } else { "" };
        text.extend(&block.name);
        text.extend(format!(" {}{further}\n", block.id).bytes());
        for (from, to) in &block.segments {
            let segment = match style {
                0 => format!("( {} , {}\t,{} ) - (+{:02},{},{})", from.0, from.1, from.2, to.0.max(0), to.1, to.2),
                4 => format!("({:030},{},+{})-({},{:+042},{})", from.0, from.1, from.2.abs(), to.0, to.1, to.2),
                1 => format!("({},{},0{})\n-\n({},{},{})", from.0, from.1, from.2.abs(), to.0, to.1, to.2),
                _ => format!("({},{},{})-({},{},{})", from.0, from.1, from.2, to.0, to.1, to.2),
            };
            text.extend(segment.bytes());
            text.extend(if style == 2 { &b""[..] } else { b"\n" });
        }
        text.extend(if style == 3 { &b"!"[..] } else { b"!\r\n" });
    }
    text
}

fn drawn_prices(random: &mut Random, grid: &Grid) -> Prices {
    let style = random.below(6);
    let mut prices = vec![0; grid.edge_numbers() + 1];
    let one = random.choose(&[0, 1, 12_758, GREATEST_PRICE]);
    for edge in grid.open_edges() {
        prices[edge] = match style {
            0 => one,
            1 => random.choose(&[0, 0, 0, 1]),
            2 => random.choose(&[0, 1, 2, 3]),
            3 => random.choose(&[0, 1000, 2000, 2500]),
            _ => random.below(GREATEST_PRICE as usize + 1) as u64,
        };
    }
    prices[grid.edge_numbers()] = random.choose(&[0, 1, 100, GREATEST_PRICE]);
    prices
}

/// A certificate of accepted routes that is true, or in some cases nearly.
pub fn certificate(random: &mut Random, accepted: &Accepted, sets: &[Set], faults: bool) -> Certificate {
    let budget = random.one_in(3).then(|| random.choose(&[1, 2, 5, 9, 20, 1 << 42]));
    let mut prices = drawn_prices(random, &accepted.design.grid);
    if random.one_in(5) {
        prices = price_vector(&accepted.design.grid, &loads(&accepted.design, sets), budget, 1);
    }
    if budget.is_none() {
        prices[accepted.design.grid.edge_numbers()] = 0;
    }
    let mut certificate = Certificate::of(&accepted.design, &accepted.grounds, sets, &prices, budget);
    let has_resource = budget.is_some() || !certificate.prices.is_empty();
    if certificate.bound.is_none() && has_resource || random.one_in(4) {
        certificate.bound = has_resource.then_some(Fraction { num: 0, den: 1 });
    }
    if faults && random.one_in(2) {
        overstate(random, &mut certificate);
    }
    certificate
}

fn overstate(random: &mut Random, certificate: &mut Certificate) {
    let small = Fraction::of(random.below(7) as u128, 1 + random.below(7) as u128);
    let greatest = Fraction::of((1 << 70) - 1, random.choose(&[1, 3, (1 << 57) - 1, 1 << 57, 1 << 58]));
    let other = if random.one_in(4) { greatest } else { small };
    match random.below(12) {
        0 => certificate.nets += 1,
        1 => certificate.forced += 1,
        2 => certificate.overflow = certificate.overflow.wrapping_add(1),
        3 => certificate.wirelength = certificate.wirelength.saturating_sub(1),
        4 => certificate.peak = random.choose(&[None, Some(other)]),
        5 => certificate.bound = random.choose(&[None, Some(other)]),
        6 => drop(certificate.prices.pop()),
        7 => certificate.prices.push(1),
        8 if !certificate.prices.is_empty() => certificate.prices[0] = random.below(GREATEST_PRICE as usize) as u64,
        _ => {
            // a little above what the prices show
            let bound = certificate.bound.unwrap_or(other);
            certificate.bound = Some(Fraction::of(bound.num * 1000 + 1, bound.den * 1000));
        }
    }
}

pub fn certificate_text(random: &mut Random, certificate: &Certificate) -> Vec<u8> {
    let mut lines: Lines = certificate.lines().iter().map(|words| line(words)).collect();
    if random.one_in(6) {
        for fraction in lines.iter_mut().filter(|line| line[0] == b"peak" || line[0] == b"bound") {
            fraction[1] = unreduced(random, &fraction[1]);
        }
    }
    text(random, &lines)
}

/// The same value with other parts.
fn unreduced(random: &mut Random, token: &Word) -> Word {
    let shown = String::from_utf8_lossy(token).into_owned();
    let parts = shown.split_once('/').and_then(|(a, b)| Some((a.parse::<u128>().ok()?, b.parse::<u128>().ok()?)));
    let times = random.choose(&[1, 2, 3, 1 << 20, (1 << 40) + 1, 1 << 50]);
    parts.map_or(token.clone(), |(num, den)| word(format!("{}/{}", num * times, den * times)))
}

/// A text of edits of a design, some of which may not fit it.
pub fn edits(random: &mut Random, design_text: &[u8]) -> Vec<u8> {
    let Ok(design) = read_design(design_text) else { return b"edits 0".to_vec() };
    let grid = &design.grid;
    let mut ids: Vec<i128> = design.nets.iter().map(|net| net.id).collect();
    let count = random.choose(&[0, 1, 1, 1, 2, 2, 3, 4]);
    let mut lines: Lines = vec![line(&format!("edits {count}"))];
    for _ in 0..count {
        let id = if ids.is_empty() || random.one_in(12) { random.choose(&[3, 50, 99]) } else { random.choose(&ids) };
        match random.below(4) {
            0 => {
                ids.retain(|&other| other != id);
                lines.push(line(&format!("drop {id}")));
            }
            1 => {
                let new = (0..).find(|new| !ids.contains(new)).filter(|_| !random.one_in(10)).unwrap_or(id);
                ids.push(new);
                lines.push(line(&format!("add {} {new}", random.choose(&["edits", "new", "!", "12"]))));
                edit_pins(random, grid, &mut lines);
            }
            _ => {
                lines.push(line(&format!("change {id}")));
                edit_pins(random, grid, &mut lines);
            }
        }
    }
    text(random, &lines)
}

fn edit_pins(random: &mut Random, grid: &Grid, lines: &mut Lines) {
    let pins = random.choose(&[0, 1, 2, 2, 2, 2, 3, 3, 4, 5, 6, 8]);
    let width = random.choose(&[0, 1, 1, 1, 1, 2, 3, 1022, 1023]);
    lines.last_mut().expect("a line").extend([word(pins), word(width)]);
    let first = lines.len();
    let anywhere = random.one_in(8);
    pins_of(random, grid, pins, anywhere, lines);
    if pins > 0 && random.one_in(20) {
        let (pin, place) = (first + random.below(pins), random.below(3));
        lines[pin][place] = word(random.choose(&[-1, 0, 5, 1000, FARTHEST]));
    }
}
