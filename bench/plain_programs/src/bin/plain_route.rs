//! `plain_route IN [--phases N] [--rounds N] [--workers N] [--budget N] [--seed N] [--no-bound] [--timing]`: what `grouter route`
//! does, without its texts. It prints overflow, wirelength, picked, rounds, peak and bound; with --timing the seconds of each stage
//! too. --no-bound leaves the bound out.

use command_runs::read_grounded;
use dual_bound::bound;
use gr_desk::RealDesk;
use plain_programs::{Clock, flag, number, say};
use plain_std::rt::HostRuntime;
use ripup_repair::repair;
use rounding_pick::round;
use routing_stages::{OpenGate, Settings};
use sharing_phases::share;
use tree_set::{Budget, measure_of};

fn main() {
    let words: Vec<String> = std::env::args().skip(1).collect();
    let settings = Settings {
        workers: number(&words, "--workers").unwrap_or(1) as u32,
        phases: number(&words, "--phases").unwrap_or(4) as u32,
        rounds: number(&words, "--rounds").unwrap_or(4) as u32,
        seed: number(&words, "--seed").unwrap_or(0),
        budget: number(&words, "--budget"),
    };
    let (rt, alloc) = (HostRuntime, HostRuntime.alloc());
    let mut clock = Clock::started(flag(&words, "--timing"));
    let input = read_grounded(alloc, &mut RealDesk::new(&rt), &words[0]).unwrap_or_else(|refusal| panic!("{refusal}"));
    let (design, grounds) = (&input.design, input.grounds.as_slice());
    clock.tell("reading, grounds");
    let shared = share(&rt, alloc, design, grounds, &settings, &OpenGate).unwrap();
    clock.tell("phases");
    let chosen = round(design, shared, settings.seed);
    let routed = repair(&rt, alloc, design, grounds, chosen, &settings, &OpenGate).unwrap();
    clock.tell("picking, repair");
    let mut measure = measure_of(alloc, design, routed.trees.list()).unwrap();
    if let Some(most) = settings.budget {
        measure = measure.with_budget(most);
    }
    say("picked", routed.rounded);
    say("rounds", routed.rounds);
    say("overflow", measure.overflow);
    say("wirelength", measure.wirelength);
    say("peak", measure.peak.map_or(0.0, |peak| peak.num as f64 / peak.den as f64));
    clock.tell("measuring");
    if flag(&words, "--no-bound") {
        return;
    }
    let edges = 2 * design.grid.size().vertices() as usize;
    let budget = settings.budget.map(|most| Budget { most, price: routed.prices[edges] });
    let found = bound(&rt, alloc, design, grounds, &routed.prices[..edges], budget).unwrap();
    say("bound", found.map_or(0.0, |bound| bound.num as f64 / bound.den as f64));
    clock.tell("bound");
}
