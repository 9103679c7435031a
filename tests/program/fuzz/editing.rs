//! Cases of `eco`. Refusals are determined. That each edit's set is a step is looked at edit by edit, by runs with the first ones.

use crate::design::{forced, without_repeats, Design, Grid, Net, Set, FARTHEST};
use crate::fraction::said;
use crate::inputs::{accept_routed, ends, given, Accepted, Refusal, Text};
use crate::prices::{check_step, price_vector};
use crate::programs::{differs, same, word, Bench, Fault, Found, Word};
use crate::random::Random;
use crate::routes::{loads, measure, routes_text, Point};
use crate::routing::written_sets;
use crate::scan::{number, Reader};
use crate::texts::{expect_inputs, expect_refused, Output, Texts};

#[derive(Clone)]
struct Edit {
    kind: Kind,
    id: i128,
    name: Word,
    pins: Vec<Point>,
    width: u64,
}

#[derive(Clone, Copy, PartialEq)]
enum Kind {
    Drop,
    Add,
    Change,
}

/// The edits of a text, or the place at which it can't be read.
fn read_edits(text: &[u8]) -> Result<Vec<Edit>, usize> {
    let mut reading = Reading { reader: Reader::over(text) };
    let head = reading.reader.token()?;
    if head.bytes != b"edits" {
        return Err(head.at);
    }
    let count = reading.number(0, 1 << 24)?;
    let mut edits = Vec::new();
    for _ in 0..count {
        edits.push(reading.edit()?);
    }
    match reading.reader.token() {
        Ok(token) => Err(token.at),
        Err(_) => Ok(edits),
    }
}

struct Reading<'a> {
    reader: Reader<'a>,
}

impl Reading<'_> {
    fn number(&mut self, least: i128, greatest: i128) -> Result<i128, usize> {
        let token = self.reader.token()?;
        number(token.bytes).filter(|value| (least..=greatest).contains(value)).ok_or(token.at)
    }

    fn edit(&mut self) -> Result<Edit, usize> {
        let token = self.reader.token()?;
        let kind = match token.bytes {
            b"drop" => Kind::Drop,
            b"add" => Kind::Add,
            b"change" => Kind::Change,
            _ => return Err(token.at),
        };
        let name = if kind == Kind::Add { self.reader.token()?.bytes.to_vec() } else { Vec::new() };
        let id = self.number(0, (1 << 32) - 1)?;
        let mut edit = Edit { kind, id, name, pins: Vec::new(), width: 0 };
        if kind != Kind::Drop {
            let count = self.number(0, 1 << 24)?;
            edit.width = self.number(0, 1023)? as u64;
            for _ in 0..count {
                let x = self.number(-FARTHEST, FARTHEST)?;
                let y = self.number(-FARTHEST, FARTHEST)?;
                edit.pins.push((x, y, self.number(-FARTHEST, FARTHEST)?));
            }
        }
        Ok(edit)
    }
}

fn edits_text(edits: &[Edit]) -> Vec<u8> {
    let mut text = format!("edits {}\n", edits.len()).into_bytes();
    for edit in edits {
        match edit.kind {
            Kind::Drop => text.extend(format!("drop {}\n", edit.id).bytes()),
            Kind::Add => text.extend([b"add ", edit.name.as_slice(), format!(" {} ", edit.id).as_bytes()].concat()),
            Kind::Change => text.extend(format!("change {} ", edit.id).bytes()),
        }
        if edit.kind != Kind::Drop {
            text.extend(format!("{} {}\n", edit.pins.len(), edit.width).bytes());
            edit.pins.iter().for_each(|(x, y, layer)| text.extend(format!("{x} {y} {layer}\n").bytes()));
        }
    }
    text
}

/// The net that an edit makes, or the fault with its field.
fn net_of_edit(grid: &Grid, edit: &Edit, name: &Word) -> Result<Net, (u32, String)> {
    let far = grid.far_corner();
    let beside = |&(x, y, _): &Point| x < grid.corner.0 || x > far.0 || y < grid.corner.1 || y > far.1;
    if let Some(pin) = edit.pins.iter().position(beside) {
        return Err((64, format!(" {pin}")));
    }
    let vertices: Vec<Option<usize>> = edit.pins.iter().map(|&(x, y, layer)| grid.vertex_at(x, y, layer)).collect();
    if let Some(pin) = vertices.iter().position(Option::is_none) {
        return Err((65, format!(" {pin}")));
    }
    if edit.width + grid.greatest_spacing() > 1023 {
        return Err((67, String::new()));
    }
    let terminals = without_repeats(vertices.into_iter().flatten().collect());
    grid.ground(&terminals).map_err(|terminal| (68, format!(" {terminal}")))?;
    Ok(Net { name: name.clone(), id: edit.id, width: edit.width, terminals })
}

/// The nets with an edit made on them, or the fault with its field.
fn edited_nets(grid: &Grid, nets: &[Net], edit: &Edit) -> Result<Vec<Net>, (u32, String)> {
    let mut nets = nets.to_vec();
    let place = nets.iter().position(|net| net.id == edit.id);
    match (edit.kind, place) {
        (Kind::Add, None) => nets.push(net_of_edit(grid, edit, &edit.name)?),
        (Kind::Add, Some(_)) => return Err((63, format!(" {}", edit.id))),
        (_, None) => return Err((62, format!(" {}", edit.id))),
        (Kind::Drop, Some(place)) => drop(nets.remove(place)),
        (Kind::Change, Some(place)) => nets[place] = net_of_edit(grid, edit, &nets[place].name)?,
    }
    Ok(nets)
}

/// The designs that the edits lead through, the given one first.
fn edited_designs(design: &Design, edits: &[Edit]) -> Result<Vec<Design>, Refusal> {
    let mut designs = vec![design.clone()];
    for (index, edit) in edits.iter().enumerate() {
        let last = &designs[index];
        let nets = edited_nets(&design.grid, &last.nets, edit)
            .or_else(|(number, field)| ends(9, format!("refused 9 {number} {index}{field}\n")))?;
        designs.push(Design { grid: design.grid.clone(), nets });
    }
    Ok(designs)
}

fn accept_edits(text: &Text) -> Result<Vec<Edit>, Refusal> {
    read_edits(given(text)?).or_else(|at| ends(4, format!("refused 4 61 {at}\n")))
}

struct Begun {
    sets: Vec<Set>,
    edits: Vec<Edit>,
    /// The designs that the edits lead through.
    designs: Vec<Design>,
}

fn accept(texts: &Texts) -> Result<Begun, Refusal> {
    let (accepted, sets) = accept_routed(&texts.design, &texts.routes)?;
    let edits = accept_edits(&texts.edits)?;
    let designs = edited_designs(&accepted.design, &edits)?;
    Ok(Begun { sets, edits, designs })
}

pub fn try_eco(bench: &mut Bench, random: &mut Random) -> Found {
    let texts = Texts::drawn(random);
    texts.write(bench);
    let out = Output::drawn(random, bench, "out.routes", &["in.gr", "in.routes", "in.edits"]);
    let words = words_of(bench, "in.edits", out.word.clone());
    let begun = match accept(&texts) {
        Err(refusal) => return expect_refused(bench, "grouter", &words, refusal, &[&out]),
        Ok(begun) => begun,
    };
    if !out.is_free {
        bench.expect("grouter", &words, 7, b"refused 7\n")?;
        return expect_inputs(bench, &texts);
    }
    let mut sets = begun.sets.clone();
    for count in 1..begun.edits.len() {
        bench.write("first.edits", &edits_text(&begun.edits[..count]));
        let out = bench.path("first.routes");
        let words = words_of(bench, "first.edits", out);
        sets = check_run(bench, &begun, count, &words, "first.routes", &sets).map_err(|what| after(count, what))?;
    }
    check_run(bench, &begun, begun.edits.len(), &words, "out.routes", &sets).map_err(|what| after(begun.edits.len(), what))?;
    Ok(())
}

fn after(count: usize, what: Fault) -> Fault {
    match what {
        Fault::Differs(what) => Fault::Differs(format!("after {count} edits: {what}")),
        other => other,
    }
}

fn words_of(bench: &Bench, edits: &str, out: Word) -> [Word; 5] {
    [word("eco"), bench.path("in.gr"), bench.path("in.routes"), bench.path(edits), out]
}

/// Runs the first edits, and looks that the last of them made a step from the sets before. Answers the new sets.
fn check_run(bench: &mut Bench, begun: &Begun, count: usize, words: &[Word], name: &str, before: &[Set]) -> Result<Vec<Set>, Fault> {
    let design = &begun.designs[count];
    let grounds = design.grounds()?;
    let accepted = Accepted { design: design.clone(), grounds };
    let ran = bench.run("grouter", words)?;
    same("the status", ran.status, 0)?;
    let text = bench.read(name).ok_or_else(|| Fault::Differs("no routes".to_string()))?;
    let sets = match count {
        // nothing was edited, so the sets are those of the routes whatever they are
        0 => before.to_vec(),
        _ => written_sets(&accepted, &text)?,
    };
    same("the routes", &text, &routes_text(design, &sets))?;
    if count > 0 {
        bench.look("eco: an edit was looked at");
        check_edit(&accepted, &begun.designs[count - 1], &begun.edits[count - 1], before, &sets)?;
    }
    same("the report", ran.lines(), report(&accepted, &sets, &begun.edits[..count]))?;
    Ok(sets)
}

fn check_edit(accepted: &Accepted, old: &Design, edit: &Edit, before: &[Set], sets: &[Set]) -> Found {
    let design = &accepted.design;
    let mut others = sets.to_vec();
    for (position, net) in design.nets.iter().enumerate() {
        if net.id != edit.id {
            let old_position = old.position_of_id(net.id).expect("a net that was there");
            same(&format!("the set of net {}", net.id), &sets[position], &before[old_position])?;
        } else {
            others[position] = Set::new();
        }
    }
    let Some(position) = design.position_of_id(edit.id) else { return Ok(()) };
    let prices = price_vector(&design.grid, &loads(design, &others), None, 16);
    check_step(&design.grid, &design.nets[position], accepted.grounds[position], &prices, &sets[position]).or_else(differs)
}

fn report(accepted: &Accepted, sets: &[Set], edits: &[Edit]) -> String {
    let design = &accepted.design;
    let measure = measure(design, sets, None);
    let is_routed = |net: &&Net| edits.iter().any(|edit| edit.kind != Kind::Drop && edit.id == net.id);
    let routed = design.nets.iter().filter(is_routed).count();
    let mut lines = format!("nets {}\nforced {}\n", design.nets.len(), forced(&accepted.grounds));
    lines += &format!("kept {}\nrouted {routed}\n", design.nets.len() - routed);
    lines + &format!("overflow {}\nwirelength {}\npeak {}\n", measure.overflow, measure.wirelength, said(measure.peak))
}
