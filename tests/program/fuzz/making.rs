//! Cases of `make` and `trial`. The text is determined, and so is what `trial` says, since `route` says it too.

use crate::chacha::words;
use crate::programs::{same, word, Bench, Found, Word};
use crate::random::Random;

#[derive(Clone, Copy)]
struct Shape {
    cols: u64,
    rows: u64,
    layers: u64,
    nets: u64,
}

impl Shape {
    /// A shape and the words that ask for it.
    fn drawn(random: &mut Random, largest: u64) -> (Shape, Vec<Word>) {
        let drawn = |random: &mut Random, least: u64, greatest: u64| least + random.below((greatest - least) as usize + 1) as u64;
        let mut shape = Shape {
            cols: drawn(random, 2, largest),
            rows: drawn(random, 2, largest),
            layers: drawn(random, 2, 3),
            nets: drawn(random, 0, largest),
        };
        if random.one_in(20) {
            shape.layers = 8;
        }
        if largest > 9 && random.one_in(100) {
            (shape.cols, shape.rows, shape.nets) = (1024, drawn(random, 2, 1024), drawn(random, 0, 5000));
        }
        let options = [("--cols", shape.cols), ("--rows", shape.rows), ("--layers", shape.layers), ("--nets", shape.nets)];
        let mut pairs: Vec<[Word; 2]> = options.iter().map(|(name, value)| [word(name), word(value)]).collect();
        random.shuffle(&mut pairs);
        (shape, pairs.concat())
    }
}

/// Words of the stream of a made design, taken one after the other.
struct Stream {
    words: std::vec::IntoIter<u32>,
}

impl Stream {
    fn next(&mut self, modulo: u64) -> u64 {
        u64::from(self.words.next().expect("enough words")) % modulo
    }
}

fn made_text(seed: u64, shape: Shape) -> String {
    let Shape { cols, rows, layers, nets } = shape;
    let adjustments = cols * rows / 16;
    // at most seven pins of two words, and the word that says how many
    let enough = nets * 15 + adjustments * 3;
    let mut stream = Stream { words: words(seed, 1 << 32, enough as usize).into_iter() };
    let per_layer = |odd: u64, even: u64| -> String {
        (1..=layers).map(|layer| format!(" {}", if layer % 2 == 1 { odd } else { even })).collect()
    };
    let mut text = format!("grid {cols} {rows} {layers}\nvertical capacity{}\nhorizontal capacity{}\n", per_layer(0, 8), per_layer(8, 0));
    for name in ["minimum width", "minimum spacing", "via spacing"] {
        text += &format!("{name}{}\n", per_layer(1, 1));
    }
    text += &format!("0 0 10 10\nnum net {nets}\n");
    for net in 0..nets {
        text += &made_net(&mut stream, net, shape);
    }
    text += &format!("{adjustments}\n");
    for _ in 0..adjustments {
        let (col, row, level) = (stream.next(cols - 1), stream.next(rows), stream.next(8));
        text += &format!("{col} {row} 1 {} {row} 1 {level}\n", col + 1);
    }
    text
}

fn made_net(stream: &mut Stream, net: u64, shape: Shape) -> String {
    let pins = 2 + stream.next(6);
    let mut text = format!("n{net} {net} {pins} 1\n");
    for _ in 0..pins {
        let (x, y) = (stream.next(10 * shape.cols), stream.next(10 * shape.rows));
        text += &format!("{x} {y} 1\n");
    }
    text
}

fn drawn_seed(random: &mut Random) -> u64 {
    let any = random.word();
    random.choose(&[0, 1, 7, 1 << 32, u64::MAX, any, any, any])
}

pub fn try_make(bench: &mut Bench, random: &mut Random) -> Found {
    bench.write("old.gr", b"as it was");
    let seed = drawn_seed(random);
    let (mut shape, mut options) = Shape::drawn(random, 40);
    options.extend([word("--seed"), word(seed)]);
    let mut used_seed = seed;
    if random.one_in(30) {
        (shape, used_seed) = (Shape { cols: 16, rows: 16, layers: 4, nets: 200 }, 0);
        options.clear();
    }
    let name = random.choose(&["made.gr", "made.gr", "made.gr", "old.gr", "no_folder/made.gr"]);
    let words = [vec![word("make"), bench.path(name)], options].concat();
    if name.starts_with("no_folder") {
        return bench.expect("grouter", &words, 7, b"refused 7\n");
    }
    bench.expect("grouter", &words, 0, format!("made {} nets\n", shape.nets).as_bytes())?;
    bench.expect_file(name, Some(made_text(used_seed, shape).as_bytes()))
}

pub fn try_trial(bench: &mut Bench, random: &mut Random) -> Found {
    let seed = drawn_seed(random);
    let (shape, options) = Shape::drawn(random, 9);
    bench.write("in.gr", made_text(seed, shape).as_bytes());
    let route = [word("route"), bench.path("in.gr"), bench.path("routes"), bench.path("cert"), word("--seed"), word(seed)];
    let ran = bench.run("grouter", &route)?;
    same("the status of route", ran.status, 0)?;
    let shown = if random.one_in(5) { format!("{seed:020}") } else { seed.to_string() };
    let words = [vec![word("trial"), word(shown)], options].concat();
    bench.expect("grouter", &words, 0, &[ran.said, b"judge yes\n".to_vec()].concat())
}
