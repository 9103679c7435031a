//! Cases of `reroute`: its promises, and that the number of workers changes nothing.

use crate::design::{forced, Set};
use crate::fraction::said;
use crate::inputs::{accept_blocks, accept_design, accept_some_sets, Accepted, Refusal};
use crate::programs::{differs, same, word, Bench, Fault, Found, Word};
use crate::random::Random;
use crate::routes::{lacks_block, measure};
use crate::routing::{on_ground, written_sets};
use crate::texts::{expect_inputs, expect_refused, Output, Texts};

/// The design and the sets that the routes give, where there are routes.
fn accept(texts: &Texts, with_routes: bool) -> Result<(Accepted, Vec<Option<Set>>), Refusal> {
    let accepted = accept_design(&texts.design, false)?;
    let mut sets = vec![None; accepted.design.nets.len()];
    if with_routes {
        let blocks = accept_blocks(&texts.routes)?;
        sets = accept_some_sets(&accepted.design, &blocks)?;
    }
    Ok((accepted, sets))
}

struct Options {
    words: Vec<Word>,
    rounds: u64,
}

fn drawn_options(random: &mut Random) -> Options {
    let mut options = Options { words: Vec::new(), rounds: 60 };
    if random.one_in(2) {
        options.rounds = random.choose(&[0, 0, 1, 2, 5, 20, 400]);
        options.words.extend([word("--rounds"), word(options.rounds)]);
    }
    for (name, list) in [("--passes", &[0, 1, 2, 16][..]), ("--seed", &[0, 1, 77, u64::MAX])] {
        if random.one_in(2) {
            options.words.extend([word(name), word(random.choose(list))]);
        }
    }
    options
}

pub fn try_reroute(bench: &mut Bench, random: &mut Random) -> Found {
    let texts = Texts::drawn(random);
    texts.write(bench);
    let with_routes = !random.one_in(4);
    let opened = if with_routes { &["in.gr", "in.routes"][..] } else { &["in.gr"] };
    let out = Output::drawn(random, bench, "new.routes", opened);
    let options = drawn_options(random);
    let mut names = vec![bench.path("in.gr")];
    names.extend(with_routes.then(|| bench.path("in.routes")));
    let words = [names.clone(), vec![out.word.clone()], options.words.clone()].concat();
    let (accepted, given) = match accept(&texts, with_routes) {
        Err(refusal) => return expect_refused(bench, "reroute", &words, refusal, &[&out]),
        Ok(accepted) => accepted,
    };
    if !out.is_free {
        bench.expect("reroute", &words, 7, b"refused 7\n")?;
        return expect_inputs(bench, &texts);
    }
    let ran = bench.run("reroute", &words)?;
    same("the status", ran.status, 0)?;
    let text = bench.read("new.routes").ok_or_else(|| Fault::Differs("no routes".to_string()))?;
    check_rerouted(&accepted, &given, &options, &ran.lines(), &text)?;
    if !ran.lines().contains("rerouted 0\n") {
        bench.look("reroute: given routes were changed");
    }
    if random.one_in(3) {
        bench.look("reroute: compared with more workers");
        let workers = 2 + random.below(7);
        let words = [names, vec![bench.path("same.routes")], options.words, vec![word("--workers"), word(workers)]].concat();
        bench.expect("reroute", &words, 0, &ran.said)?;
        bench.expect_file("same.routes", Some(&text))?;
    }
    Ok(())
}

fn check_rerouted(accepted: &Accepted, given: &[Option<Set>], options: &Options, lines: &str, text: &[u8]) -> Found {
    let design = &accepted.design;
    let sets = written_sets(accepted, text)?;
    for (position, set) in sets.iter().enumerate() {
        if given[position].as_ref() != Some(set) && !on_ground(accepted, position, set) {
            return differs(format!("the new set at {position} leaves its ground"));
        }
    }
    let lacking = design.nets.iter().zip(given).filter(|(net, set)| lacks_block(net, set)).count();
    let changed = given.iter().zip(&sets).filter(|(old, new)| old.as_ref().is_some_and(|old| old != *new)).count();
    let old: Vec<Set> = given.iter().cloned().map(Option::unwrap_or_default).collect();
    let (old, new) = (measure(design, &old, None), measure(design, &sets, None));
    if lacking == 0 && (new.overflow, new.wirelength) > (old.overflow, old.wirelength) {
        return differs(format!("worse: {new:?} after {old:?}"));
    }
    let rounds = lines.lines().find_map(|line| line.strip_prefix("rounds ")?.parse::<u64>().ok()).unwrap_or(u64::MAX);
    same("rounds that were asked for", rounds <= options.rounds, true)?;
    let mut wanted = format!("nets {}\nforced {}\n", design.nets.len(), forced(&accepted.grounds));
    wanted += &format!("routed {lacking}\nrerouted {changed}\nrounds {rounds}\n");
    wanted += &format!("overflow {}\nwirelength {}\npeak {}\n", new.overflow, new.wirelength, said(new.peak));
    wanted += &format!("given {} {}\n", old.overflow, old.wirelength);
    same("the report", lines, &wanted)
}
