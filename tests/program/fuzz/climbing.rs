//! Cases of `climb`. Where each turn's sets are the only least ones, all is determined; else the lists that are known are compared.

use crate::certificate::{read_certificate, Certificate};
use crate::fraction::{is_greater, said, Fraction};
use crate::inputs::{accept_judged, Judged};
use crate::prices::{design_bound, only_step, price_vector, Prices};
use crate::programs::{same, word, Bench, Fault, Found};
use crate::random::Random;
use crate::routes::{add_load, loads, resources};
use crate::texts::{expect_inputs, expect_refused, Output, Texts};

/// The price lists that are determined, that of the certificate first.
fn known_lists(judged: &Judged, turns: usize) -> Vec<Prices> {
    let design = &judged.accepted.design;
    let budget = judged.certificate.pieces_to_keep();
    let mut lists = vec![judged.certificate.price_list(design)];
    let mut seen = loads(design, &judged.sets);
    for turn in 1..=turns {
        let prices = price_vector(&design.grid, &seen, budget, 1);
        lists.push(prices.clone());
        let nets = design.nets.iter().zip(&judged.accepted.grounds);
        let steps: Option<Vec<_>> =
            if turn < turns { nets.map(|(net, &ground)| only_step(&design.grid, net, ground, &prices)).collect() } else { None };
        let Some(steps) = steps else { break };
        steps.iter().zip(&design.nets).for_each(|(set, net)| add_load(&design.grid, net.width, set, &mut seen));
    }
    lists
}

/// The certificate with the prices of a list and the bound that these show.
fn with_list(judged: &Judged, prices: &Prices) -> Certificate {
    let design = &judged.accepted.design;
    let old = &judged.certificate;
    let budget = old.pieces_to_keep();
    let shown = design_bound(design, &judged.accepted.grounds, prices, budget);
    let has_resource = !resources(&design.grid, budget).is_empty();
    Certificate {
        bound: shown.or(has_resource.then_some(Fraction { num: 0, den: 1 })),
        budget: budget.map(|pieces| (pieces, prices[design.grid.edge_numbers()])),
        prices: design.grid.open_edges().into_iter().map(|edge| prices[edge]).collect(),
        ..old.clone()
    }
}

pub fn try_climb(bench: &mut Bench, random: &mut Random) -> Found {
    let texts = Texts::drawn(random);
    texts.write(bench);
    let out = Output::drawn(random, bench, "new.cert", &["in.gr", "in.routes", "in.cert"]);
    let turns = random.choose(&[1, 1, 2, 2, 3, 4, 7, 16]);
    let mut words = vec![word("climb"), bench.path("in.gr"), bench.path("in.routes"), bench.path("in.cert"), out.word.clone()];
    if turns != 4 || random.one_in(2) {
        words.extend([word("--turns"), word(turns)]);
    }
    let judged = match accept_judged(&texts.design, &texts.routes, &texts.certificate) {
        Err(refusal) => return expect_refused(bench, "grouter", &words, refusal, &[&out]),
        Ok(judged) => judged,
    };
    if !out.is_free {
        bench.expect("grouter", &words, 7, b"refused 7\n")?;
        return expect_inputs(bench, &texts);
    }
    let ran = bench.run("grouter", &words)?;
    same("the status", ran.status, 0)?;
    let text = bench.read("new.cert").ok_or_else(|| Fault::Differs("no certificate".to_string()))?;
    check_climbed(bench, &judged, turns, &ran.lines(), &text)
}

fn check_climbed(bench: &mut Bench, judged: &Judged, turns: usize, lines: &str, text: &[u8]) -> Found {
    let new = read_certificate(text)?;
    let budget = judged.certificate.pieces_to_keep();
    let shown = |prices: &Prices| design_bound(&judged.accepted.design, &judged.accepted.grounds, prices, budget);
    let lists = known_lists(judged, turns);
    let bounds: Vec<_> = lists.iter().map(shown).collect();
    let best = (1..lists.len()).fold(0, |best, turn| if is_greater(bounds[turn], bounds[best]) { turn } else { best });
    let turn: usize = lines.lines().next().and_then(|line| line.strip_prefix("turn ")?.parse().ok()).unwrap_or(usize::MAX);
    same("the report", lines, format!("turn {turn}\nbound {}\n", said(new.bound)).as_str())?;
    same("a turn that there is", turn <= turns, true)?;
    if turns > 1 && lists.len() == turns + 1 {
        bench.look("climb: all price lists of several turns are determined");
    }
    if lists.len() == turns + 1 || turn < lists.len() {
        same("the turn", turn, best)?;
        return same("the certificate", text, &with_list(judged, &lists[best]).text());
    }
    let prices = new.price_list(&judged.accepted.design);
    same("the certificate", text, &with_list(judged, &prices).text())?;
    same("a greater bound", is_greater(new.bound, bounds[best]), true)
}
