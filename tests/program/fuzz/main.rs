//! A differential fuzzer of the built programs: it draws small cases without end from a seed, runs the programs on them, and
//! compares every status, line and text with a plain model of its own, which knows docs/FORMATS.md and docs/MODEL.md alone.
//!
//!     rustc -O --edition 2021 -o fuzz tests/program/fuzz/main.rs
//!     ./fuzz SEED COUNT --programs FOLDER [--command NAME] [--threads N] [--case N] [--seconds N]
//!
//! FOLDER has the programs `grouter`, `reroute`, `unavoidable` and `congestion_map`, or is `crates`, where `rt ci` leaves them. COUNT
//! cases are tried, from case 0 on, or as many as `--seconds` allow; `--case` tries one alone, `--command` takes all cases for one
//! command. What is determined is compared exactly; where a choice is free the promises are looked at.
//!
//! It says a line for each difference, with the seed and the number of the case, and the folder that keeps the files and the command
//! lines. At the end it says how often which answer came, how many cases of each command were tried, how many were left out since the
//! model is too slow for them, how many differ, and the seconds. It fails where one differs.

mod certificate;
mod chacha;
mod climbing;
mod design;
mod draw;
mod editing;
mod finding;
mod fraction;
mod guides;
mod inputs;
mod judging;
mod making;
mod mapping;
mod mutate;
mod prices;
mod programs;
mod random;
mod rerouting;
mod routes;
mod routing;
mod scan;
mod steiner;
mod texts;
mod wording;
mod words;

use programs::{program_in, Bench, Fault, Found};
use random::Random;
use std::collections::{BTreeMap, BTreeSet};
use std::panic::{catch_unwind, AssertUnwindSafe};
use std::path::{Path, PathBuf};
use std::process::ExitCode;
use std::sync::atomic::{AtomicU64, Ordering};
use std::sync::Mutex;
use std::time::{Duration, Instant};

type Try = fn(&mut Bench, &mut Random) -> Found;

/// The commands with how often each is drawn.
const TRIES: [(&str, usize, Try); 12] = [
    ("measure", 12, judging::try_measure),
    ("judge", 18, judging::try_judge),
    ("route", 12, routing::try_route),
    ("make", 1, making::try_make),
    ("trial", 1, making::try_trial),
    ("eco", 12, editing::try_eco),
    ("climb", 8, climbing::try_climb),
    ("guide", 6, guides::try_guide),
    ("reroute", 12, rerouting::try_reroute),
    ("unavoidable", 8, finding::try_unavoidable),
    ("congestion_map", 8, mapping::try_map),
    ("words", 8, wording::try_words),
];

struct Plan {
    seed: u64,
    count: u64,
    programs: PathBuf,
    command: Option<String>,
    threads: u64,
    case: Option<u64>,
    end: Option<Instant>,
}

/// What was tried, by command, and what was answered.
#[derive(Default)]
struct Tally {
    tried: [Tried; TRIES.len()],
    answers: BTreeMap<String, u64>,
    looks: BTreeMap<&'static str, u64>,
}

/// What was tried of a command.
#[derive(Clone, Copy, Default)]
struct Tried {
    cases: u64,
    skipped: u64,
    different: u64,
}

fn main() -> ExitCode {
    let words: Vec<String> = std::env::args().skip(1).collect();
    let Some(plan) = read_plan(&words) else {
        eprintln!("usage: fuzz SEED COUNT --programs FOLDER [--command NAME] [--threads N] [--case N] [--seconds N]");
        return ExitCode::from(2);
    };
    let begun = Instant::now();
    let room = PathBuf::from(format!("/dev/shm/grouter_fuzz.{}", std::process::id()));
    let tally = Mutex::new(Tally::default());
    let next = AtomicU64::new(plan.case.unwrap_or(0));
    let ended = AtomicU64::new(0);
    let begun_cases: Vec<Mutex<(u64, Instant)>> = (0..plan.threads).map(|_| Mutex::new((0, begun))).collect();
    std::thread::scope(|scope| {
        for (thread, begun_case) in begun_cases.iter().enumerate() {
            let (plan, next, tally, ended, folder) = (&plan, &next, &tally, &ended, room.join(thread.to_string()));
            scope.spawn(move || {
                work(plan, next, tally, begun_case, folder);
                ended.fetch_add(1, Ordering::Relaxed);
            });
        }
        watch(&plan, &begun_cases, &ended);
    });
    drop(std::fs::remove_dir_all(&room));
    let tally = tally.into_inner().expect("no thread fails with the lock");
    summarize(&tally, begun.elapsed());
    if tally.tried.iter().any(|tried| tried.different > 0) {
        return ExitCode::FAILURE;
    }
    ExitCode::SUCCESS
}

fn read_plan(words: &[String]) -> Option<Plan> {
    let mut plan = Plan {
        seed: words.first()?.parse().ok()?,
        count: words.get(1)?.parse().ok()?,
        programs: PathBuf::new(),
        command: None,
        threads: 2,
        case: None,
        end: None,
    };
    for pair in words[2..].chunks(2) {
        let value = pair.get(1)?;
        match pair[0].as_str() {
            "--programs" => plan.programs = Path::new(value).canonicalize().ok()?,
            "--command" => plan.command = Some(value.clone()),
            "--threads" => plan.threads = value.parse().ok()?,
            "--case" => plan.case = Some(value.parse().ok()?),
            "--seconds" => plan.end = Some(Instant::now() + Duration::from_secs(value.parse().ok()?)),
            _ => return None,
        }
    }
    let is_known = plan.command.iter().all(|command| TRIES.iter().any(|(name, ..)| name == command));
    let are_there = ["grouter", "reroute", "unavoidable", "congestion_map"].iter().all(|name| program_in(&plan.programs, name).is_file());
    (is_known && are_there).then_some(plan)
}

/// Says which case takes longer than a minute, until all threads have ended.
fn watch(plan: &Plan, begun_cases: &[Mutex<(u64, Instant)>], ended: &AtomicU64) {
    let mut said = BTreeSet::new();
    while ended.load(Ordering::Relaxed) < plan.threads {
        std::thread::sleep(Duration::from_millis(50));
        for begun_case in begun_cases {
            let (case, begun) = *begun_case.lock().expect("no thread fails with the lock");
            if begun.elapsed() > Duration::from_secs(60) && said.insert(case) {
                println!("slow: seed {} case {case} has taken a minute", plan.seed);
            }
        }
    }
}

/// Takes case after case until all are tried.
fn work(plan: &Plan, next: &AtomicU64, tally: &Mutex<Tally>, begun_case: &Mutex<(u64, Instant)>, folder: PathBuf) {
    let mut bench = Bench::new(&plan.programs, folder);
    loop {
        let case = next.fetch_add(1, Ordering::Relaxed);
        let end = plan.case.map_or(plan.count, |only| only + 1);
        if case >= end || plan.end.is_some_and(|end| Instant::now() > end) {
            return;
        }
        *begun_case.lock().expect("no thread fails with the lock") = (case, Instant::now());
        let mut random = Random::of(plan.seed, case);
        let drawn = drawn_try(&mut random);
        let place = plan.command.as_ref().map_or(drawn, |command| TRIES.iter().position(|(name, ..)| name == command).unwrap_or(drawn));
        bench.begin();
        let tried = catch_unwind(AssertUnwindSafe(|| TRIES[place].2(&mut bench, &mut random)));
        let found = tried.unwrap_or_else(|_| Err(Fault::Differs("the model fails".to_string())));
        let found = found.and_then(|()| bench.unnamed_file().map_or(Ok(()), |name| Err(Fault::Differs(format!("nobody named {name}")))));
        if let Err(Fault::Differs(what)) = &found {
            tell(plan, &bench, case, TRIES[place].0, what);
        }
        let mut tally = tally.lock().expect("no thread fails with the lock");
        for (answer, count) in std::mem::take(&mut bench.answers) {
            *tally.answers.entry(answer).or_default() += count;
        }
        for (what, count) in std::mem::take(&mut bench.looks) {
            *tally.looks.entry(what).or_default() += count;
        }
        let of_command = &mut tally.tried[place];
        of_command.cases += 1;
        of_command.skipped += u64::from(matches!(found, Err(Fault::Skipped)));
        of_command.different += u64::from(matches!(found, Err(Fault::Differs(_))));
    }
}

fn drawn_try(random: &mut Random) -> usize {
    let mut left = random.below(TRIES.iter().map(|(_, share, _)| share).sum());
    let taken = |(_, share, _): &(&str, usize, Try)| {
        let is_taken = left < *share;
        left = left.saturating_sub(*share);
        is_taken
    };
    TRIES.iter().position(taken).unwrap_or(0)
}

/// Says a difference, and keeps the files of its case.
fn tell(plan: &Plan, bench: &Bench, case: u64, command: &str, what: &str) {
    let kept = std::env::temp_dir().join(format!("grouter_fuzz_{}_{case}", plan.seed));
    if let Err(error) = keep(bench, &kept, what) {
        println!("the files of case {case} can't be kept: {error}");
    }
    let short: String = what.chars().take(400).collect();
    println!("difference: seed {} case {case} --command {command}: {short}; files in {}", plan.seed, kept.display());
}

fn keep(bench: &Bench, kept: &Path, what: &str) -> std::io::Result<()> {
    std::fs::create_dir_all(kept)?;
    for file in std::fs::read_dir(&bench.folder)?.flatten() {
        std::fs::copy(file.path(), kept.join(file.file_name()))?;
    }
    std::fs::write(kept.join("what"), format!("{what}\n{}\n", bench.history.join("\n")))
}

fn summarize(tally: &Tally, seconds: Duration) {
    for (answer, count) in &tally.answers {
        println!("{answer}: {count}");
    }
    for (what, count) in &tally.looks {
        println!("{what}: {count}");
    }
    let mut all = Tried::default();
    for ((name, ..), tried) in TRIES.iter().zip(&tally.tried) {
        println!("{name}: {} cases, {} left out, {} different", tried.cases, tried.skipped, tried.different);
        all.cases += tried.cases;
        all.different += tried.different;
    }
    let runs: u64 = tally.answers.values().sum();
    println!("{} cases, {runs} runs, {} different, {:.1} seconds", all.cases, all.different, seconds.as_secs_f64());
}
