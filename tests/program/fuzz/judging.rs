//! Cases of `measure` and `judge`: all that they say is determined.

use crate::design::{forced, Kind, Set};
use crate::fraction::said;
use crate::inputs::{accept_judged, accept_routed, Accepted, Refusal};
use crate::programs::{word, Bench, Fault, Found, Word};
use crate::random::Random;
use crate::routes::measure;
use crate::texts::{expect_refused, Texts};

/// How many nets use a choked edge beyond their ground.
pub fn beyond(accepted: &Accepted, sets: &[Set]) -> usize {
    let grid = &accepted.design.grid;
    let goes_beyond = |set: &Set, ground| {
        set.iter().any(|&piece| !grid.is_via(piece) && grid.kind(piece) == Kind::Choked && !grid.allows(ground, piece))
    };
    sets.iter().zip(&accepted.grounds).filter(|(set, &ground)| goes_beyond(set, ground)).count()
}

pub fn measure_lines(accepted: &Accepted, sets: &[Set], budget: Option<u64>) -> String {
    let measure = measure(&accepted.design, sets, budget);
    format!(
        "nets {}\nforced {}\nbeyond {}\noverflow {}\nwirelength {}\npeak {}\n",
        accepted.design.nets.len(),
        forced(&accepted.grounds),
        beyond(accepted, sets),
        measure.overflow,
        measure.wirelength,
        said(measure.peak)
    )
}

pub fn try_measure(bench: &mut Bench, random: &mut Random) -> Found {
    let texts = Texts::drawn(random);
    texts.write(bench);
    let words = [word("measure"), bench.path("in.gr"), bench.path("in.routes")];
    let found = accept_routed(&texts.design, &texts.routes);
    if random.one_in(40) {
        return expect_unheard(bench, &words, &found);
    }
    match found {
        Err(refusal) => expect_refused(bench, "grouter", &words, refusal, &[]),
        Ok((accepted, sets)) => bench.expect("grouter", &words, 0, measure_lines(&accepted, &sets, None).as_bytes()),
    }
}

pub fn try_judge(bench: &mut Bench, random: &mut Random) -> Found {
    let texts = Texts::drawn(random);
    texts.write(bench);
    let words = [word("judge"), bench.path("in.gr"), bench.path("in.routes"), bench.path("in.cert")];
    let found = accept_judged(&texts.design, &texts.routes, &texts.certificate);
    if random.one_in(40) {
        return expect_unheard(bench, &words, &found);
    }
    match found {
        Err(refusal) => expect_refused(bench, "grouter", &words, refusal, &[]),
        Ok(judged) => {
            let budget = judged.certificate.pieces_to_keep();
            let mut lines = "yes\n".to_string() + &measure_lines(&judged.accepted, &judged.sets, budget);
            lines += &format!("bound {}\n", said(judged.certificate.bound));
            lines += &budget.map_or(String::new(), |pieces| format!("budget {pieces}\n"));
            bench.expect("grouter", &words, 0, lines.as_bytes())
        }
    }
}

/// A run whose lines can't be written keeps its status, but for a report.
fn expect_unheard<T>(bench: &mut Bench, words: &[Word], found: &Result<T, Refusal>) -> Found {
    match found {
        Err(Refusal::TooLarge) => Err(Fault::Skipped),
        Err(Refusal::Ends(status, _)) => bench.expect_unheard("grouter", words, *status),
        Ok(_) => bench.expect_unheard("grouter", words, 7),
    }
}
