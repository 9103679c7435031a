//! Draws a chip design in the ISPD 2008 contest's input format, always the same one for the same words.
//!
//!     rustc -O bench/draw_design.rs -o draw_design
//!     ./draw_design SIZE FILE [--easy|--hard] [--seed N]
//!
//! Net degrees, net lengths, blockages and capacities are like those of the contest's designs: most nets have two or three pins,
//! lengths and large degrees fall off by a power, pins lie in clusters, and macros block the lower layers. `--easy` leaves room for
//! all nets up to the size `large`; `giant` and `newblue7` have too little of it at some tiles. `--hard` draws more crowded clusters,
//! longer nets, and tiles that more nets have to leave than wires can.
//! Sizes are `tiny` to `giant` and the names of the contest's sixteen designs, whose grids, layers and numbers of nets they have.

use std::env;
use std::fs::File;
use std::io::{self, BufWriter, Write};
use std::process::ExitCode;

/// Tile width and height.
const TILE: i64 = 35;

/// A generator of random numbers (SplitMix64: Steele, Lea and Flood, 2014).
struct Random(u64);

impl Random {
    fn next(&mut self) -> u64 {
        self.0 = self.0.wrapping_add(0x9E37_79B9_7F4A_7C15);
        let mut z = self.0;
        z = (z ^ (z >> 30)).wrapping_mul(0xBF58_476D_1CE4_E5B9);
        z = (z ^ (z >> 27)).wrapping_mul(0x94D0_49BB_1331_11EB);
        z ^ (z >> 31)
    }

    /// From 0 to 1, without 1.
    fn unit(&mut self) -> f64 {
        (self.next() >> 11) as f64 / (1u64 << 53) as f64
    }

    fn below(&mut self, limit: usize) -> usize {
        (self.next() % limit as u64) as usize
    }

    /// The normal distribution (Box and Muller, 1958).
    fn normal(&mut self) -> f64 {
        let u = self.unit().max(1e-12);
        let v = self.unit();
        (-2.0 * u.ln()).sqrt() * (2.0 * std::f64::consts::PI * v).cos()
    }

    fn laplace(&mut self) -> f64 {
        let u = self.unit() - 0.5;
        -u.signum() * (1.0 - 2.0 * u.abs()).max(1e-12).ln()
    }
}

/// How large a design is, and how its nets are drawn.
#[derive(Clone, Copy)]
struct Size {
    cols: usize,
    rows: usize,
    layers: usize,
    nets: usize,
    /// The least length of a net in tiles, and the power by which longer ones are rarer.
    least_length: f64,
    power: f64,
    /// The capacity of an edge, or none where it follows from the nets' lengths.
    capacity: Option<u32>,
    most_pins: usize,
}

/// A size whose capacity follows from its nets.
const fn size(grid: (usize, usize, usize), nets: usize, length: (f64, f64), most_pins: usize) -> Size {
    Size {
        cols: grid.0,
        rows: grid.1,
        layers: grid.2,
        nets,
        least_length: length.0,
        power: length.1,
        capacity: None,
        most_pins,
    }
}

/// The size of this name. The contest's grids and numbers of nets are those that its results name.
fn size_of(name: &str) -> Option<Size> {
    let usual = (0.9, 1.0);
    let dense = (0.6, 1.3);
    Some(match name {
        "tiny" => size((32, 32, 4), 400, usual, 30),
        "small" => size((64, 64, 6), 5_000, usual, 150),
        "medium" => size((160, 160, 6), 40_000, usual, 600),
        "large" => Size {
            capacity: Some(70),
            ..size((324, 324, 6), 219_000, (1.2, 1.0), 1_500)
        },
        "huge" => size((640, 640, 8), 500_000, usual, 2_000),
        "giant" => size((403, 405, 8), 2_200_000, dense, 3_000),
        "adaptec1" => size((324, 324, 6), 219_794, usual, 2_000),
        "adaptec2" => size((424, 424, 6), 260_159, usual, 2_000),
        "adaptec3" => size((774, 779, 6), 466_295, usual, 3_000),
        "adaptec4" => size((774, 779, 6), 515_304, usual, 3_000),
        "adaptec5" => size((465, 468, 6), 867_441, dense, 3_000),
        "bigblue1" => size((227, 227, 6), 282_974, dense, 2_000),
        "bigblue2" => size((468, 471, 6), 576_816, usual, 3_000),
        "bigblue3" => size((555, 557, 8), 1_122_340, dense, 3_000),
        "bigblue4" => size((403, 405, 8), 2_228_903, dense, 3_000),
        "newblue1" => size((399, 399, 6), 331_663, usual, 2_000),
        "newblue2" => size((557, 463, 6), 463_213, usual, 3_000),
        "newblue3" => size((973, 1_256, 6), 551_667, usual, 3_000),
        "newblue4" => size((455, 458, 6), 636_195, usual, 3_000),
        "newblue5" => size((637, 640, 6), 1_257_555, dense, 3_000),
        "newblue6" => size((463, 464, 6), 1_286_452, dense, 3_000),
        "newblue7" => size((488, 490, 8), 2_635_625, dense, 3_000),
        _ => return None,
    })
}

impl Size {
    fn tiles(&self) -> usize {
        self.cols * self.rows
    }

    /// A place inside the chip, in tiles, that is as near to this one as the chip's borders allow.
    fn clamped(&self, x: f64, y: f64) -> (f64, f64) {
        (
            x.clamp(0.0, self.cols as f64 - 0.01),
            y.clamp(0.0, self.rows as f64 - 0.01),
        )
    }
}

/// A block of logic over the lower layers.
struct Macro {
    left: usize,
    low: usize,
    right: usize,
    high: usize,
}

impl Macro {
    fn holds(&self, col: usize, row: usize) -> bool {
        (self.left..self.right).contains(&col) && (self.low..self.high).contains(&row)
    }
}

/// The macros, and of each tile the kind of the macro above it, 1 to 3 by how much of the layers it takes, or 0.
struct Floor {
    macros: Vec<Macro>,
    kinds: Vec<u8>,
}

/// Macros over more than a quarter of the chip, with channels of two tiles between them.
fn draw_floor(size: &Size, random: &mut Random) -> Floor {
    let (width, height) = (size.cols as f64, size.rows as f64);
    let mut floor = Floor {
        macros: Vec::new(),
        kinds: vec![0; size.tiles()],
    };
    let mut covered = 0;
    for _ in 0..5_000 {
        if covered >= size.tiles() * 28 / 100 {
            break;
        }
        let big = random.unit();
        let across = ((width * (0.02 + 0.14 * big * big)) as usize).max(2);
        let up = ((height * (0.02 + 0.14 * random.unit() * big)) as usize).max(2);
        let left = random.below(size.cols - across);
        let low = random.below(size.rows - up);
        let cols = left.saturating_sub(2)..(left + across + 2).min(size.cols);
        let mut rows = low.saturating_sub(2)..(low + up + 2).min(size.rows);
        if rows.any(|row| cols.clone().any(|col| floor.kinds[row * size.cols + col] != 0)) {
            continue;
        }
        let kind = 1 + random.below(3) as u8;
        for row in low..low + up {
            floor.kinds[row * size.cols + left..row * size.cols + left + across].fill(kind);
        }
        covered += across * up;
        floor.macros.push(Macro {
            left,
            low,
            right: left + across,
            high: low + up,
        });
    }
    floor
}

impl Floor {
    /// A place of a pin near this one: inside the chip, by reflection at its borders, and near the border of a macro where it lies under
    /// one.
    fn place(&self, size: &Size, x: f64, y: f64, random: &mut Random) -> (f64, f64) {
        let (width, height) = (size.cols as f64, size.rows as f64);
        let (mut x, mut y) = (x, y);
        for _ in 0..3 {
            x = x.abs();
            y = y.abs();
            x = if x > width { 2.0 * width - x } else { x };
            y = if y > height { 2.0 * height - y } else { y };
        }
        let (x, y) = size.clamped(x, y);
        let (col, row) = (x as usize, y as usize);
        if self.kinds[row * size.cols + col] == 0 {
            return (x, y);
        }
        let Some(above) = self.macros.iter().find(|m| m.holds(col, row)) else {
            return (x, y);
        };
        let ways = [
            col - above.left,
            above.right - 1 - col,
            row - above.low,
            above.high - 1 - row,
        ];
        let side = (0..4).min_by_key(|&side| ways[side]).unwrap_or(0);
        let off = random.unit() * 1.6 - 0.6;
        let (x, y) = match side {
            0 => (above.left as f64 - off, y),
            1 => (above.right as f64 + off, y),
            2 => (x, above.low as f64 - off),
            _ => (x, above.high as f64 + off),
        };
        size.clamped(x, y)
    }
}

/// The number of a net's pins.
fn draw_degree(most: usize, random: &mut Random) -> usize {
    let u = random.unit();
    match u {
        _ if u < 0.560 => 2,
        _ if u < 0.735 => 3,
        _ if u < 0.815 => 4,
        _ if u < 0.860 => 5,
        _ if u < 0.9996 => {
            let degree = 6.0 * random.unit().max(1e-9).powf(-1.0 / 1.9);
            (degree as usize).min(most / 4).max(6)
        }
        _ => (most as f64 / 8.0 * 8f64.powf(random.unit())) as usize,
    }
}

/// A net: the positions of its pins.
type Net = Vec<(i64, i64)>;

/// A place, in tiles, as a position.
fn position(x: f64, y: f64) -> (i64, i64) {
    ((x * TILE as f64) as i64, (y * TILE as f64) as i64)
}

/// Where many pins lie: a place, and how far around it.
struct Cluster {
    x: f64,
    y: f64,
    spread: f64,
}

/// What the nets of a design are drawn by.
struct Drawing {
    size: Size,
    hard: bool,
    floor: Floor,
    clusters: Vec<Cluster>,
}

impl Drawing {
    fn draw(size: Size, hard: bool, random: &mut Random) -> Drawing {
        let floor = draw_floor(&size, random);
        let (width, height) = (size.cols as f64, size.rows as f64);
        let clusters = (0..6 + size.cols / 12)
            .map(|_| Cluster {
                x: random.unit() * width,
                y: random.unit() * height,
                spread: (0.02 + 0.06 * random.unit()) * width,
            })
            .collect();
        Drawing {
            size,
            hard,
            floor,
            clusters,
        }
    }

    /// Places that more nets have to leave than wires can; none where there is room.
    fn draw_hot_places(&self, random: &mut Random) -> Vec<(f64, f64)> {
        let count = if self.hard {
            (self.size.tiles() / 15_000).max(1)
        } else {
            0
        };
        (0..count)
            .map(|_| {
                let x = random.unit() * self.size.cols as f64;
                let y = random.unit() * self.size.rows as f64;
                self.floor.place(&self.size, x, y, random)
            })
            .collect()
    }

    /// The middle of a net: near a cluster, or anywhere.
    fn draw_middle(&self, random: &mut Random) -> (f64, f64) {
        let near = if self.hard { 0.5 } else { 0.3 };
        if random.unit() < near {
            let cluster = &self.clusters[random.below(self.clusters.len())];
            let x = cluster.x + cluster.spread * random.normal();
            (x, cluster.y + cluster.spread * random.normal())
        } else {
            let x = random.unit() * self.size.cols as f64;
            (x, random.unit() * self.size.rows as f64)
        }
    }

    fn draw_net(&self, random: &mut Random) -> Net {
        let degree = draw_degree(self.size.most_pins, random);
        if random.unit() < 0.17 {
            return self.draw_local(degree, random);
        }
        let longer = if self.hard { 1.15 } else { 1.0 };
        let length = self.size.least_length * longer * random.unit().max(1e-9).powf(-1.0 / self.size.power);
        let length = length.min(self.size.cols as f64 * 0.35) * (degree as f64 / 2.0).powf(0.12);
        self.draw_long(degree, length, random)
    }

    /// A net within one tile.
    fn draw_local(&self, degree: usize, random: &mut Random) -> Net {
        let (x, y) = self.draw_middle(random);
        let (x, y) = self.floor.place(&self.size, x, y, random);
        (0..degree)
            .map(|_| {
                let x = x.floor() + random.unit();
                position(x, y.floor() + random.unit())
            })
            .collect()
    }

    /// A net of about this length, whose pins lie in groups.
    fn draw_long(&self, degree: usize, length: f64, random: &mut Random) -> Net {
        let (x, y) = self.draw_middle(random);
        let count = if degree <= 4 {
            degree
        } else {
            (degree as f64).powf(0.72).ceil() as usize
        };
        let groups: Vec<(f64, f64)> = (0..count)
            .map(|_| {
                let x = x + length * random.laplace() * 0.75;
                (x, y + length * random.laplace() * 0.75)
            })
            .collect();
        let spread = 0.15 + 0.08 * length.min(8.0);
        (0..degree)
            .map(|pin| {
                let group = groups[if pin < count { pin } else { random.below(count) }];
                let x = group.0 + spread * random.normal();
                let y = group.1 + spread * random.normal();
                let (x, y) = self.floor.place(&self.size, x, y, random);
                position(x, y)
            })
            .collect()
    }

    /// The capacity of an edge, for nets whose boxes have these half perimeters in all.
    fn capacity(&self, half_perimeters: f64) -> u32 {
        self.size.capacity.unwrap_or_else(|| {
            let half_perimeters = if self.hard {
                half_perimeters / 1.15
            } else {
                half_perimeters
            };
            let edges = (self.size.tiles() * self.size.layers) as f64 * 0.80;
            let capacity = 2.0 * half_perimeters * 1.12 / edges / 0.27;
            ((capacity / 2.0).ceil() as u32 * 2).max(6)
        })
    }

    /// Moves the first pin of so many short nets near a place to it that its tile has too few exits.
    fn crowd(&self, nets: &mut [Net], place: (f64, f64), capacity: u32, random: &mut Random) {
        let (col, row) = (place.0 as i64, place.1 as i64);
        let exits = capacity as usize / 2 * self.size.layers * 2;
        let mut moved = 0;
        for _ in 0..nets.len() * 2 {
            if moved >= exits * 14 / 10 {
                break;
            }
            let net = &mut nets[random.below(nets.len())];
            let away = (net[0].0 / TILE - col).abs() + (net[0].1 / TILE - row).abs();
            if away > self.size.cols as i64 / 6 || away == 0 || net.len() > 3 {
                continue;
            }
            let x = col * TILE + random.below(TILE as usize) as i64;
            net[0] = (x, row * TILE + random.below(TILE as usize) as i64);
            moved += 1;
        }
    }

    /// What is left of the capacity of an edge on a layer between two tiles that these kinds of macros cover.
    fn level(&self, layer: usize, kinds: (u8, u8), capacity: u32, random: &mut Random) -> u32 {
        let border = kinds.0 != kinds.1;
        match (kinds.0.max(kinds.1), layer) {
            (0, _) | (_, 4..) => open_level(layer, capacity, random),
            (1, 0 | 1) | (2, 1) | (_, 0) => 0,
            (1, _) if border => capacity * 3 / 5,
            (1, _) => capacity / 5,
            (2, 2) | (3, 1) if !border => 0,
            (2, 3) => capacity * 2 / 5,
            _ => capacity / 2,
        }
    }
}

/// What pins and power leave of the capacity of an edge that no macro covers: they take some of every second edge on the lowest layer,
/// and of few above it.
fn open_level(layer: usize, capacity: u32, random: &mut Random) -> u32 {
    let (how_many, least, more) = if layer == 0 {
        (0.5, 0.45, 0.5)
    } else {
        (0.06, 0.6, 0.35)
    };
    if random.unit() < how_many {
        (f64::from(capacity) * (least + more * random.unit())) as u32
    } else {
        capacity
    }
}

/// The half perimeter of the box of a net's tiles.
fn half_perimeter(net: &Net) -> i64 {
    let extent = |along: fn(&(i64, i64)) -> i64| {
        let tiles = net.iter().map(|pin| along(pin) / TILE);
        tiles.clone().max().unwrap_or(0) - tiles.min().unwrap_or(0)
    };
    extent(|pin| pin.0) + extent(|pin| pin.1)
}

/// An adjustment: column, row and layer of a tile, whether its edge goes upwards, and the edge's level.
struct Adjustment {
    col: usize,
    row: usize,
    layer: usize,
    up: bool,
    level: u32,
}

fn draw_adjustments(drawing: &Drawing, capacity: u32, random: &mut Random) -> Vec<Adjustment> {
    let size = &drawing.size;
    let kind = |col: usize, row: usize| drawing.floor.kinds[row * size.cols + col];
    let mut adjustments = Vec::new();
    for tile in 0..size.tiles() * size.layers {
        let (layer, row, col) = (tile / size.tiles(), tile % size.tiles() / size.cols, tile % size.cols);
        let up = layer % 2 == 1;
        let (next_col, next_row) = if up { (col, row + 1) } else { (col + 1, row) };
        if next_col >= size.cols || next_row >= size.rows {
            continue;
        }
        let level = drawing.level(layer, (kind(col, row), kind(next_col, next_row)), capacity, random);
        if level != capacity {
            adjustments.push(Adjustment {
                col,
                row,
                layer,
                up,
                level,
            });
        }
    }
    adjustments
}

/// One number for each layer.
fn per_layer(layers: usize, number: impl Fn(usize) -> u32) -> String {
    (0..layers)
        .map(|layer| number(layer).to_string())
        .collect::<Vec<_>>()
        .join(" ")
}

fn write_design(
    out: &mut impl Write,
    size: &Size,
    capacity: u32,
    nets: &[Net],
    adjustments: &[Adjustment],
) -> io::Result<()> {
    let layers = size.layers;
    writeln!(out, "grid {} {} {}", size.cols, size.rows, layers)?;
    writeln!(
        out,
        "vertical capacity {}",
        per_layer(layers, |layer| if layer % 2 == 1 { capacity } else { 0 })
    )?;
    writeln!(
        out,
        "horizontal capacity {}",
        per_layer(layers, |layer| if layer % 2 == 0 { capacity } else { 0 })
    )?;
    for what in ["minimum width", "minimum spacing", "via spacing"] {
        writeln!(out, "{what} {}", per_layer(layers, |_| 1))?;
    }
    writeln!(out, "0 0 {TILE} {TILE}\n\nnum net {}", nets.len())?;
    for (id, net) in nets.iter().enumerate() {
        writeln!(out, "n{id} {id} {} 1", net.len())?;
        for (x, y) in net {
            writeln!(out, "{x} {y} 1")?;
        }
    }
    writeln!(out, "\n{}", adjustments.len())?;
    for Adjustment {
        col,
        row,
        layer,
        up,
        level,
    } in adjustments
    {
        let (next_col, next_row) = if *up { (*col, row + 1) } else { (col + 1, *row) };
        let layer = layer + 1;
        writeln!(out, "{col} {row} {layer} {next_col} {next_row} {layer} {level}")?;
    }
    out.flush()
}

/// What the words ask for.
struct Asked {
    size: Size,
    file: String,
    hard: bool,
    seed: u64,
}

fn asked(words: &[String]) -> Option<Asked> {
    let [name, file, options @ ..] = words else {
        return None;
    };
    let mut asked = Asked {
        size: size_of(name)?,
        file: file.clone(),
        hard: false,
        seed: 1,
    };
    let mut options = options.iter();
    while let Some(option) = options.next() {
        match option.as_str() {
            "--easy" => asked.hard = false,
            "--hard" => asked.hard = true,
            "--seed" => asked.seed = options.next()?.parse().ok()?,
            _ => return None,
        }
    }
    Some(asked)
}

fn draw(asked: &Asked) -> io::Result<()> {
    let size = asked.size;
    let kind = if asked.hard { 77 << 50 } else { 0 };
    let seed = asked.seed.wrapping_mul(0x123_4567) ^ (size.cols as u64) << 20 ^ size.nets as u64 ^ kind;
    let mut random = Random(seed);
    let drawing = Drawing::draw(size, asked.hard, &mut random);
    let hot = drawing.draw_hot_places(&mut random);
    let mut nets: Vec<Net> = (0..size.nets).map(|_| drawing.draw_net(&mut random)).collect();
    let length: i64 = nets.iter().map(half_perimeter).sum();
    let capacity = drawing.capacity(length as f64);
    for place in hot {
        drawing.crowd(&mut nets, place, capacity, &mut random);
    }
    let adjustments = draw_adjustments(&drawing, capacity, &mut random);
    let mut out = BufWriter::with_capacity(1 << 20, File::create(&asked.file)?);
    write_design(&mut out, &size, capacity, &nets, &adjustments)
}

fn main() -> ExitCode {
    let words: Vec<String> = env::args().skip(1).collect();
    let Some(asked) = asked(&words) else {
        eprintln!("usage: draw_design SIZE FILE [--easy|--hard] [--seed N]");
        return ExitCode::from(2);
    };
    match draw(&asked) {
        Ok(()) => ExitCode::SUCCESS,
        Err(error) => {
            eprintln!("{}: {error}", asked.file);
            ExitCode::FAILURE
        }
    }
}
