//! The files of a case: inputs, of which one may be spoilt or missing, and outputs, which may not be to be had.

use crate::draw;
use crate::inputs::{accept_design, accept_routed, Refusal, Text};
use crate::mutate::mutated;
use crate::programs::{Bench, Fault, Found, Word};
use crate::random::Random;

pub struct Texts {
    pub design: Text,
    pub routes: Text,
    pub certificate: Text,
    pub edits: Text,
}

impl Texts {
    /// Texts that may be spoilt.
    pub fn drawn(random: &mut Random) -> Texts {
        let mut texts = Texts::unspoilt(random);
        if random.one_in(60) {
            texts.exchange(random);
        }
        let spoilt = match random.below(4) {
            0 => &mut texts.design,
            1 => &mut texts.routes,
            2 => &mut texts.certificate,
            _ => &mut texts.edits,
        };
        match random.below(40) {
            0..=8 => *spoilt = spoilt.take().map(|text| mutated(random, &text)),
            9 => *spoilt = None,
            10 => *spoilt = Some(Vec::new()),
            _ => {}
        }
        texts
    }

    /// Puts one of the texts in the place of another one.
    fn exchange(&mut self, random: &mut Random) {
        let all = [&self.design, &self.routes, &self.certificate, &self.edits];
        let other = random.choose(&all).clone();
        *match random.below(4) {
            0 => &mut self.design,
            1 => &mut self.routes,
            2 => &mut self.certificate,
            _ => &mut self.edits,
        } = other;
    }

    /// A design with more tiles a side than a map has cells, and routes of it.
    pub fn long(random: &mut Random) -> Texts {
        let (design, routes) = draw::long_design(random);
        Texts { design: Some(design), routes: Some(routes), certificate: None, edits: None }
    }

    /// Texts of the right forms, in which what is said may be wrong.
    fn unspoilt(random: &mut Random) -> Texts {
        let faults = random.one_in(2);
        let design = draw::design(random);
        let edits = Some(draw::edits(random, &design));
        let design = Some(design);
        let Ok(accepted) = accept_design(&design, false) else {
            let routes = b"a 0 (5,5,1)-(15,5,1) !\n".to_vec();
            let certificate = b"grouter certificate 1 nets 0 forced 0 overflow 0 wirelength 0 peak none bound none prices 0".to_vec();
            return Texts { design, routes: Some(routes), certificate: Some(certificate), edits };
        };
        let sets = draw::drawn_sets(random, &accepted);
        let routes = Some(draw::routes(random, &accepted.design, &sets, faults));
        let found = accept_routed(&design, &routes).map_or(sets, |(_, found)| found);
        let certificate = draw::certificate(random, &accepted, &found, faults);
        let certificate = Some(draw::certificate_text(random, &certificate));
        Texts { design, routes, certificate, edits }
    }

    /// Writes them where they are to be found.
    pub fn write(&self, bench: &Bench) {
        let files = [("in.gr", &self.design), ("in.routes", &self.routes), ("in.cert", &self.certificate), ("in.edits", &self.edits)];
        for (name, text) in files {
            text.iter().for_each(|text| bench.write(name, text));
        }
    }
}

/// A name for an output, and what is there before the run.
pub struct Output {
    pub word: Word,
    name: &'static str,
    /// Whether a file can be made under the name.
    pub is_free: bool,
    before: Option<Vec<u8>>,
}

impl Output {
    /// The inputs that the command opens are named, since none of them may be made anew under another name.
    pub fn drawn(random: &mut Random, bench: &Bench, name: &'static str, opened: &[&str]) -> Output {
        let free = |before| Output { word: bench.path(name), name, is_free: true, before };
        let barred = |path: &str| Output { word: bench.path(path), name, is_free: false, before: None };
        let input = random.choose(opened);
        match random.below(60) {
            0 => barred("no_folder/new"),
            // a folder
            1 => barred("."),
            2 => barred(&format!("./{input}")),
            3 if bench.link(input, name, false) => Output { before: bench.read(input), ..barred(name) },
            4 if bench.link(input, name, true) => Output { before: bench.read(input), ..barred(name) },
            5..=9 => {
                bench.write(name, b"as it was\n");
                free(Some(b"as it was\n".to_vec()))
            }
            _ => free(None),
        }
    }

    /// That the file is as it was before the run.
    pub fn expect_untouched(&self, bench: &Bench) -> Found {
        bench.expect_file(self.name, self.before.as_deref())
    }
}

/// Compares a run that is refused with what it says, and looks that no output was touched.
pub fn expect_refused(bench: &mut Bench, program: &str, words: &[Word], refusal: Refusal, outputs: &[&Output]) -> Found {
    let Refusal::Ends(status, line) = refusal else { return Err(Fault::Skipped) };
    bench.expect(program, words, status, line.as_bytes())?;
    outputs.iter().try_for_each(|output| output.expect_untouched(bench))
}

/// Looks that the inputs are as they were.
pub fn expect_inputs(bench: &Bench, texts: &Texts) -> Found {
    bench.expect_file("in.gr", texts.design.as_deref())?;
    bench.expect_file("in.routes", texts.routes.as_deref())?;
    bench.expect_file("in.cert", texts.certificate.as_deref())?;
    bench.expect_file("in.edits", texts.edits.as_deref())
}
