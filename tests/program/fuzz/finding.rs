//! Cases of `unavoidable`. Which prices it finds is free; what it says of them is worked out again.

use crate::certificate::{read_certificate, Certificate};
use crate::design::{Grid, Ground, Kind, Net, Piece, Set};
use crate::fraction::{greatest_divisor, is_greater, said, Fraction};
use crate::inputs::{accept_judged, accept_routed, Judged, Refusal};
use crate::prices::{capacity_cost, design_bound, net_bounds, Prices};
use crate::programs::{differs, same, Bench, Fault, Found};
use crate::random::Random;
use crate::routes::{measure, written_segment};
use crate::routing::on_ground;
use crate::steiner::Weighted;
use crate::texts::{expect_inputs, expect_refused, Output, Texts};
use std::collections::BTreeSet;

/// What is begun with: the certificate that is given, or that of the routes alone.
fn accept(texts: &Texts, with_certificate: bool) -> Result<Judged, Refusal> {
    if with_certificate {
        return accept_judged(&texts.design, &texts.routes, &texts.certificate);
    }
    let (accepted, sets) = accept_routed(&texts.design, &texts.routes)?;
    let prices = vec![0; accepted.design.grid.edge_numbers() + 1];
    let mut certificate = Certificate::of(&accepted.design, &accepted.grounds, &sets, &prices, None);
    certificate.bound = (!certificate.prices.is_empty()).then_some(Fraction { num: 0, den: 1 });
    Ok(Judged { accepted, sets, certificate })
}

pub fn try_unavoidable(bench: &mut Bench, random: &mut Random) -> Found {
    let texts = Texts::drawn(random);
    texts.write(bench);
    let with_certificate = random.one_in(2);
    let opened = if with_certificate { &["in.gr", "in.routes", "in.cert"][..] } else { &["in.gr", "in.routes"] };
    let out = Output::drawn(random, bench, "new.cert", opened);
    let mut words = vec![bench.path("in.gr"), bench.path("in.routes")];
    words.extend(with_certificate.then(|| bench.path("in.cert")));
    words.push(out.word.clone());
    let judged = match accept(&texts, with_certificate) {
        Err(refusal) => return expect_refused(bench, "unavoidable", &words, refusal, &[&out]),
        Ok(judged) => judged,
    };
    if !out.is_free {
        bench.expect("unavoidable", &words, 7, b"refused 7\n")?;
        return expect_inputs(bench, &texts);
    }
    let ran = bench.run("unavoidable", &words)?;
    same("the status", ran.status, 0)?;
    let text = bench.read("new.cert").ok_or_else(|| Fault::Differs("no certificate".to_string()))?;
    let new = read_certificate(&text)?;
    same("the form of the certificate", &text, &new.text())?;
    let report = read_report(&judged, &ran.lines())?;
    check_certificate(&judged, &new, &report)?;
    if !report.bottleneck.is_empty() {
        bench.look("unavoidable: a greater bound was found");
    }
    check_overflow(bench, &judged, &report)
}

/// The numbers of a report, with price lists by edge number.
struct Report {
    bottleneck: Vec<(Piece, u64)>,
    overflow: u64,
    cut: Vec<(Piece, u64)>,
    lines: String,
}

/// The lines behind one that tells how many there are.
fn priced_edges(judged: &Judged, lines: &str, name: &str) -> Result<Vec<(Piece, u64)>, Fault> {
    let grid = &judged.accepted.design.grid;
    let is_written = |edge: Piece, segment: &str| written_segment(grid, grid.ends(edge).expect("an edge")) == segment;
    let edge_of = |segment: &str| grid.open_edges().into_iter().find(|&edge| is_written(edge, segment));
    let mut following = lines.lines().skip_while(|line| line.split(' ').next() != Some(name));
    let count = following.next().and_then(|line| line.split(' ').nth(1)?.parse::<usize>().ok());
    let mut list = Vec::new();
    for _ in 0..count.ok_or_else(|| Fault::Differs(format!("no `{name}`: {lines}")))? {
        let parts = following.next().and_then(|line| line.split_once(' '));
        let priced = parts.and_then(|(segment, price)| Some((edge_of(segment)?, price.parse().ok()?)));
        list.push(priced.ok_or_else(|| Fault::Differs(format!("a line of `{name}`: {lines}")))?);
    }
    Ok(list)
}

fn read_report(judged: &Judged, lines: &str) -> Result<Report, Fault> {
    let overflow = lines.lines().find_map(|line| line.strip_prefix("overflow ")?.parse().ok());
    Ok(Report {
        bottleneck: priced_edges(judged, lines, "bottleneck")?,
        overflow: overflow.ok_or_else(|| Fault::Differs(format!("no overflow: {lines}")))?,
        cut: priced_edges(judged, lines, "cut")?,
        lines: lines.to_string(),
    })
}

/// The report as it is to be written of what it names.
fn report_lines(judged: &Judged, bound: Option<Fraction>, report: &Report) -> String {
    let grid = &judged.accepted.design.grid;
    let shown = |list: &[(Piece, u64)]| -> String {
        list.iter().map(|&(edge, price)| format!("{} {price}\n", written_segment(grid, grid.ends(edge).expect("an edge")))).collect()
    };
    let mut lines = format!("bound {}\nbottleneck {}\n{}", said(bound), report.bottleneck.len(), shown(&report.bottleneck));
    lines += &format!("overflow {}\ncut {}\n{}", report.overflow, report.cut.len(), shown(&report.cut));
    lines += &format!("routes {}\n", measure(&judged.accepted.design, &judged.sets, None).overflow);
    lines + &judged.certificate.budget.map_or(String::new(), |(pieces, _)| format!("budget {pieces}\n"))
}

fn all_on_ground(judged: &Judged) -> bool {
    judged.sets.iter().enumerate().all(|(position, set)| on_ground(&judged.accepted, position, set))
}

fn check_certificate(judged: &Judged, new: &Certificate, report: &Report) -> Found {
    let (design, grounds) = (&judged.accepted.design, &judged.accepted.grounds);
    same("the report", report.lines.as_str(), &report_lines(judged, new.bound, report))?;
    if report.bottleneck.is_empty() {
        return same("the certificate", new, &judged.certificate);
    }
    let prices = new.price_list(design);
    let open = design.grid.open_edges().into_iter().map(|edge| (edge, prices[edge]));
    same("the bottleneck", &report.bottleneck, &open.filter(|&(_, price)| price > 0).collect())?;
    let budget = judged.certificate.pieces_to_keep();
    let bound = design_bound(design, grounds, &prices, None);
    let wanted = Certificate { bound, budget: budget.map(|pieces| (pieces, 0)), prices: new.prices.clone(), ..judged.certificate.clone() };
    same("the certificate", new, &wanted)?;
    same("a greater bound", is_greater(new.bound, judged.certificate.bound), true)?;
    same("an objection", new.objection(design, grounds, &judged.sets), None)?;
    let peak = measure(design, &judged.sets, None).peak;
    same("a bound above the peak", all_on_ground(judged) && is_greater(new.bound, peak), false)
}

fn check_overflow(bench: &mut Bench, judged: &Judged, report: &Report) -> Found {
    let (design, grounds) = (&judged.accepted.design, &judged.accepted.grounds);
    let rising = report.cut.windows(2).all(|pair| pair[0].0 < pair[1].0) && report.cut.iter().all(|&(_, price)| price > 0);
    same("a rising cut", rising, true)?;
    same("edges of a cut", report.cut.is_empty(), report.overflow == 0)?;
    let routes = measure(design, &judged.sets, None).overflow;
    if all_on_ground(judged) && report.overflow > routes {
        return differs(format!("overflow {} is unavoidable, and the routes have {routes}", report.overflow));
    }
    if report.cut.is_empty() {
        return Ok(());
    }
    let mut prices = vec![0; design.grid.edge_numbers() + 1];
    report.cut.iter().for_each(|&(edge, price)| prices[edge] = price);
    let by_bounds = too_much(net_bounds(design, grounds, &prices), capacity_cost(&design.grid, &prices, None), greatest_price(&prices));
    bench.look("unavoidable: overflow was shown");
    if by_bounds < report.overflow.into() {
        bench.look("unavoidable: overflow was shown that net bounds don't show");
    }
    let by_trees = shown_by_trees(judged, &prices);
    if by_bounds.max(by_trees) == report.overflow.into() {
        return Ok(());
    }
    differs(format!("overflow {}, where the cut shows {by_bounds} by net bounds and {by_trees} by trees", report.overflow))
}

/// What the nets cost above the capacities, divided and rounded up.
fn too_much(nets: u128, capacities: u128, divisor: u128) -> u128 {
    nets.saturating_sub(capacities).div_ceil(divisor)
}

fn greatest_price(prices: &Prices) -> u128 {
    prices.iter().copied().max().unwrap_or(0).into()
}

/// What a price list shows by the nets' trees, plainly and by whole wires.
fn shown_by_trees(judged: &Judged, prices: &Prices) -> u128 {
    let design = &judged.accepted.design;
    let nets = design.nets.iter().zip(&judged.accepted.grounds);
    let trees = nets.map(|(net, &ground)| tree_cost(&design.grid, net, ground, prices)).sum();
    let plainly = too_much(trees, capacity_cost(&design.grid, prices, None), greatest_price(prices));
    plainly.max(most_by_wires(judged, prices, trees))
}

/// What the cheapest tree costs that joins the net's places, of which eight at most are joined.
fn tree_cost(grid: &Grid, net: &Net, ground: Ground, prices: &Prices) -> u128 {
    let flat = Grid { layers: 1, ..grid.clone() };
    // from tile to tile on the cheapest layer that the net may use
    let cheapest = |tile_edge: Piece| {
        let over = (0..grid.layers).map(|layer| tile_edge + layer * flat.edge_numbers()).filter(|&edge| grid.allows(ground, edge));
        over.map(|edge| prices[edge] * grid.demand(net.width, edge)).min()
    };
    let links: Vec<(Piece, u64)> = flat.edges().into_iter().filter_map(|edge| Some((edge, cheapest(edge)?))).collect();
    let free: Set = links.iter().filter(|(_, cost)| *cost == 0).map(|&(edge, _)| edge).collect();
    // a place is known by its first tile
    let first_tile = |&vertex: &usize| flat.joined(&free, vertex % flat.vertices()).first().copied().expect("the tile itself");
    let places: Vec<usize> = net.terminals.iter().map(first_tile).collect::<BTreeSet<usize>>().into_iter().collect();
    let chosen = match places.len() {
        0..=8 => places,
        count => (0..8).map(|step| places[step * (count - 1) / 7]).collect(),
    };
    Weighted::of(&flat, links.into_iter()).least(&chosen).unwrap_or(0).into()
}

/// By wires of which each uses a multiple of an edge's unit: divided by the greatest price, with the capacities that this allows to
/// be lowered, and by what allows it at all edges.
fn most_by_wires(judged: &Judged, prices: &Prices, nets: u128) -> u128 {
    let design = &judged.accepted.design;
    let (grid, greatest) = (&design.grid, greatest_price(prices));
    let (mut plain_cost, mut lowered_cost, mut divisor) = (0, 0, greatest);
    for edge in grid.edges().into_iter().filter(|&edge| grid.kind(edge) == Kind::Open && prices[edge] > 0) {
        let unit = design.nets.iter().fold(0, |unit, net| greatest_divisor(unit, grid.demand(net.width, edge).into())).max(1);
        let (price, capacity) = (u128::from(prices[edge]), u128::from(grid.capacity(edge)));
        let rest = capacity % unit;
        let needed = (price * unit).div_ceil(unit - rest);
        plain_cost += price * (if needed <= greatest { capacity - rest } else { capacity });
        lowered_cost += price * (capacity - rest);
        divisor = divisor.max(needed);
    }
    too_much(nets, plain_cost, greatest).max(too_much(nets, lowered_cost, divisor))
}
