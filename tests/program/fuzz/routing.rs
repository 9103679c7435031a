//! Cases of `route`. Which routes it finds is free in part, so its promises are looked at: that all numbers are true of what it
//! wrote, and that one worker's sets are those of a sharing run and of rounds of repair.

use crate::certificate::{read_certificate, Certificate};
use crate::chacha::pick;
use crate::design::Set;
use crate::fraction::said;
use crate::inputs::{accept_design, Accepted};
use crate::prices::{check_step, price_table, price_vector, Prices};
use crate::programs::{differs, same, word, Bench, Fault, Found, Word};
use crate::random::Random;
use crate::routes::{accepted_sets, add_load, loads, measure, read_routes_within, routes_text};
use crate::texts::{expect_inputs, expect_refused, Output, Texts};

#[derive(Clone, Default)]
struct Settings {
    workers: Option<u64>,
    phases: Option<u64>,
    rounds: Option<u64>,
    seed: Option<u64>,
    budget: Option<u64>,
}

impl Settings {
    fn drawn(random: &mut Random) -> Settings {
        let mut settings = Settings::default();
        let some = |random: &mut Random, list: &[u64]| random.one_in(2).then(|| random.choose(list));
        settings.workers = some(random, &[1, 1, 2, 3, 4, 8]);
        settings.phases = some(random, &[1, 1, 2, 3, 5, 16]);
        settings.rounds = some(random, &[0, 1, 2, 3, 16]);
        settings.seed = some(random, &[0, 1, 7, 4_294_967_296, u64::MAX]);
        settings.budget = if random.one_in(2) { some(random, &[1, 2, 3, 5, 8, 13, 40, 1 << 42]) } else { None };
        settings
    }

    fn words(&self, random: &mut Random) -> Vec<Word> {
        let options = [
            ("--workers", self.workers),
            ("--phases", self.phases),
            ("--rounds", self.rounds),
            ("--seed", self.seed),
            ("--budget", self.budget),
        ];
        let padded = random.one_in(12);
        let shown = |value: u64| if padded { format!("{value:020}") } else { value.to_string() };
        let mut pairs: Vec<[Word; 2]> = options.iter().filter_map(|&(name, value)| Some([word(name), word(shown(value?))])).collect();
        random.shuffle(&mut pairs);
        pairs.concat()
    }
}

/// What a run of status 0 wrote.
pub struct Routed {
    pub sets: Vec<Set>,
    pub certificate: Certificate,
    rounded: u64,
    rounds: u64,
}

/// Reads routes as they are written, and looks that they are written so.
pub fn written_sets(accepted: &Accepted, text: &[u8]) -> Result<Vec<Set>, Fault> {
    let blocks = read_routes_within(text, 1 << 90).or_else(|at| differs(format!("the routes can't be read at {at}")))?;
    let sets = accepted_sets(&accepted.design, &blocks).or_else(|line| differs(format!("the routes: {line}")))?;
    if routes_text(&accepted.design, &sets) != text {
        return differs("the routes are of another form");
    }
    Ok(sets)
}

pub fn on_ground(accepted: &Accepted, position: usize, set: &Set) -> bool {
    set.iter().all(|&piece| accepted.design.grid.allows(accepted.grounds[position], piece))
}

fn value_of(lines: &str, name: &str) -> Result<u64, Fault> {
    let line = lines.lines().find_map(|line| line.strip_prefix(name)?.strip_prefix(' '));
    line.and_then(|value| value.parse().ok()).ok_or_else(|| Fault::Differs(format!("no `{name}` in `{lines}`")))
}

/// The report of such a run, whose two free numbers are taken as they stand.
fn report(accepted: &Accepted, routed: &Routed) -> String {
    let certificate = &routed.certificate;
    let mut lines = format!("nets {}\nforced {}\n", accepted.design.nets.len(), certificate.forced);
    lines += &format!("rounded {}\nrounds {}\n", routed.rounded, routed.rounds);
    lines += &format!("overflow {}\nwirelength {}\n", certificate.overflow, certificate.wirelength);
    lines += &format!("peak {}\nbound {}\n", said(certificate.peak), said(certificate.bound));
    lines + &certificate.budget.map_or(String::new(), |(pieces, _)| format!("budget {pieces}\n"))
}

/// Looks that what was written is true.
fn check_routed(bench: &Bench, accepted: &Accepted, settings: &Settings, lines: &str) -> Result<Routed, Fault> {
    let text = bench.read("routes").ok_or_else(|| Fault::Differs("no routes".to_string()))?;
    let sets = written_sets(accepted, &text)?;
    if !sets.iter().enumerate().all(|(position, set)| on_ground(accepted, position, set)) {
        return differs("a route leaves its ground");
    }
    let text = bench.read("cert").ok_or_else(|| Fault::Differs("no certificate".to_string()))?;
    let certificate = read_certificate(&text)?;
    let prices = certificate.price_list(&accepted.design);
    check_prices(&certificate)?;
    let wanted = Certificate::of(&accepted.design, &accepted.grounds, &sets, &prices, settings.budget);
    same("the certificate", &text, &wanted.text())?;
    if let (Some(bound), Some(peak)) = (certificate.bound, certificate.peak) {
        same("bound above peak", bound.is_above(&peak), false)?;
    }
    let routed = Routed { sets, certificate, rounded: value_of(lines, "rounded")?, rounds: value_of(lines, "rounds")? };
    same("the report", lines, report(accepted, &routed).as_str())?;
    let rounds = settings.rounds.unwrap_or(4);
    let ends_well = routed.rounds == rounds || routed.rounds < rounds && wanted.overflow == 0;
    same("the rounds", ends_well && wanted.overflow <= routed.rounded, true)?;
    Ok(routed)
}

/// Looks that the prices may be a price vector: all from the table, and the greatest its last.
fn check_prices(certificate: &Certificate) -> Found {
    let table = price_table();
    let all: Vec<u64> = certificate.prices.iter().copied().chain(certificate.budget.map(|(_, price)| price)).collect();
    if let Some(price) = all.iter().find(|price| !table.contains(price)) {
        return differs(format!("the price {price} is not in the table"));
    }
    match all.iter().max() {
        Some(&greatest) => same("the greatest price", greatest, table[255]),
        None => Ok(()),
    }
}

fn words_of(bench: &Bench, settings: &Settings, random: &mut Random) -> Vec<Word> {
    let names = vec![word("route"), bench.path("in.gr"), bench.path("routes"), bench.path("cert")];
    [names, settings.words(random)].concat()
}

fn run_route(bench: &mut Bench, random: &mut Random, accepted: &Accepted, settings: &Settings) -> Result<Routed, Fault> {
    let words = words_of(bench, settings, random);
    let ran = bench.run("grouter", &words)?;
    same("the status", ran.status, 0)?;
    check_routed(bench, accepted, settings, &ran.lines())
}

/// A case with its words and outputs.
struct Case {
    texts: Texts,
    settings: Settings,
    words: Vec<Word>,
    routes: Output,
    cert: Output,
    /// Whether both outputs are one file under two names.
    is_one_file: bool,
}

fn drawn_case(bench: &mut Bench, random: &mut Random) -> Case {
    let texts = Texts::drawn(random);
    texts.write(bench);
    let settings = Settings::drawn(random);
    let (routes, cert) = (Output::drawn(random, bench, "routes", &["in.gr"]), Output::drawn(random, bench, "cert", &["in.gr"]));
    let mut words = words_of(bench, &settings, random);
    (words[2], words[3]) = (routes.word.clone(), cert.word.clone());
    let is_one_file = routes.is_free && random.one_in(60);
    if is_one_file {
        words[3] = bench.path("./routes");
    }
    Case { texts, settings, words, routes, cert, is_one_file }
}

pub fn try_route(bench: &mut Bench, random: &mut Random) -> Found {
    let case = drawn_case(bench, random);
    if case.words[2] == case.words[3] {
        return Err(Fault::Skipped);
    }
    let accepted = match accept_design(&case.texts.design, false) {
        Err(refusal) => return expect_refused(bench, "grouter", &case.words, refusal, &[&case.routes, &case.cert]),
        Ok(accepted) => accepted,
    };
    if !case.routes.is_free || !case.cert.is_free || case.is_one_file {
        return expect_unwritten(bench, &accepted, &case);
    }
    if random.one_in(40) {
        bench.expect_unheard("grouter", &case.words, 7)?;
        return written_sets(&accepted, &bench.read("routes").unwrap_or_default()).map(drop);
    }
    if random.one_in(60) {
        return bench.expect_reporting_into("grouter", &case.words, "routes");
    }
    let ran = bench.run("grouter", &case.words)?;
    same("the status", ran.status, 0)?;
    let routed = check_routed(bench, &accepted, &case.settings, &ran.lines())?;
    if case.settings.workers.unwrap_or(1) > 1 {
        return Ok(());
    }
    if random.one_in(5) {
        check_phases(bench, random, &accepted, &case.settings, &routed)?;
    }
    if routed.rounds > 0 && random.one_in(2) {
        check_repair(bench, random, &accepted, case.settings, &routed)?;
    }
    Ok(())
}

/// A run of which an output can't be made: what is made before it is whole, and nothing else is touched.
fn expect_unwritten(bench: &mut Bench, accepted: &Accepted, case: &Case) -> Found {
    bench.expect("grouter", &case.words, 7, b"refused 7\n")?;
    if case.routes.is_free {
        written_sets(accepted, &bench.read("routes").unwrap_or_default())?;
    }
    case.cert.expect_untouched(bench)?;
    expect_inputs(bench, &case.texts)
}

/// Makes the phases of one worker visible by seeds that pick each of them, and looks that they are a sharing run and that the picked
/// sets are those of the seed.
fn check_phases(bench: &mut Bench, random: &mut Random, accepted: &Accepted, settings: &Settings, routed: &Routed) -> Found {
    let phases = settings.phases.unwrap_or(4);
    let mut unrepaired = Settings { rounds: Some(0), ..settings.clone() };
    let mut found: Vec<Vec<Option<Set>>> = vec![vec![None; accepted.design.nets.len()]; phases as usize];
    let first = run_route(bench, random, accepted, &unrepaired)?.sets;
    record_phases(&mut found, &first, settings.seed.unwrap_or(0), phases)?;
    for _ in 0..60 * phases {
        let seed = random.word();
        if !adds_nothing(&found, seed, phases) {
            unrepaired.seed = Some(seed);
            let picked = run_route(bench, random, accepted, &unrepaired)?;
            same("prices of another seed", &picked.certificate.prices, &routed.certificate.prices)?;
            record_phases(&mut found, &picked.sets, seed, phases)?;
        }
    }
    let known: Option<Vec<Vec<Set>>> = found.into_iter().map(|phase| phase.into_iter().collect()).collect();
    bench.look("route: all sets of a sharing run were seen");
    check_sharing(accepted, &known.ok_or(Fault::Skipped)?, settings.budget, &routed.certificate)
}

fn adds_nothing(found: &[Vec<Option<Set>>], seed: u64, phases: u64) -> bool {
    (0..found[0].len()).all(|position| found[pick(seed, position, phases)][position].is_some())
}

fn record_phases(found: &mut [Vec<Option<Set>>], sets: &[Set], seed: u64, phases: u64) -> Found {
    for (position, set) in sets.iter().enumerate() {
        let phase = pick(seed, position, phases);
        let known = found[phase][position].get_or_insert_with(|| set.clone());
        same(&format!("the set of phase {phase} at {position}"), set, known)?;
    }
    Ok(())
}

fn check_sharing(accepted: &Accepted, phases: &[Vec<Set>], budget: Option<u64>, certificate: &Certificate) -> Found {
    let design = &accepted.design;
    let mut seen = vec![0; design.grid.edge_numbers() + 1];
    for (phase, sets) in phases.iter().enumerate() {
        for (position, set) in sets.iter().enumerate() {
            let prices = price_vector(&design.grid, &seen, budget, 1);
            let net = &design.nets[position];
            check_step(&design.grid, net, accepted.grounds[position], &prices, set).map_err(|what| format!("phase {phase}: {what}"))?;
            add_load(&design.grid, net.width, set, &mut seen);
        }
    }
    let prices = price_vector(&design.grid, &seen, budget, 1);
    same("the price vector", certificate.price_list(design), prices)
}

/// Goes round by round as long as the result is that of the last round.
fn check_repair(bench: &mut Bench, random: &mut Random, accepted: &Accepted, mut settings: Settings, routed: &Routed) -> Found {
    let unrepaired = Settings { rounds: Some(0), ..settings.clone() };
    let mut before = run_route(bench, random, accepted, &unrepaired)?.sets;
    same("what was rounded", routed.rounded, measure(&accepted.design, &before, None).overflow)?;
    for rounds in 1..=settings.rounds.unwrap_or(4) {
        if measure(&accepted.design, &before, None).overflow == 0 {
            break;
        }
        settings.rounds = Some(rounds);
        let after = run_route(bench, random, accepted, &settings)?.sets;
        if after == before {
            break;
        }
        bench.look("route: a round of repair was seen");
        check_round(accepted, settings.budget, &before, &after).map_err(|what| format!("round {rounds}: {what}"))?;
        before = after;
    }
    Ok(())
}

fn check_round(accepted: &Accepted, budget: Option<u64>, before: &[Set], after: &[Set]) -> Result<(), String> {
    let design = &accepted.design;
    let loads_before = loads(design, before);
    let overfull: Set = design.grid.open_edges().into_iter().filter(|&edge| loads_before[edge] > design.grid.capacity(edge)).collect();
    let mut now = before.to_vec();
    for (position, net) in design.nets.iter().enumerate() {
        if before[position].is_disjoint(&overfull) {
            if before[position] != after[position] {
                return Err(format!("net {} was not to be repaired", net.id));
            }
            continue;
        }
        now[position] = Set::new();
        let prices: Prices = price_vector(&design.grid, &loads(design, &now), budget, 16);
        check_step(&design.grid, net, accepted.grounds[position], &prices, &after[position])?;
        now[position] = after[position].clone();
    }
    Ok(())
}
