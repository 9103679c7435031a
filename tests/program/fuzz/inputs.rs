//! What the programs read before they compute, in the order of work, and what refuses it.

use crate::certificate::{read_certificate, Certificate};
use crate::design::{read_design, Design, Grid, Ground, Set};
use crate::routes::{accepted_sets, read_routes, sets_of_blocks, Block};

/// The most vertices of which the plain model works out all in a moment, and of long grids, which are drawn for maps alone.
const LARGEST: usize = 300;
const LARGEST_OF_LONG: usize = 20_000;

/// Whether a map has cells of several tiles.
pub fn is_long(cols: usize, rows: usize) -> bool {
    cols.max(rows) > 2000
}

/// A status with its line, or that the design is too large for the model.
pub enum Refusal {
    Ends(i32, String),
    TooLarge,
}

pub struct Accepted {
    pub design: Design,
    pub grounds: Vec<Ground>,
}

/// The bytes of a file; none where there is no such file.
pub type Text = Option<Vec<u8>>;

pub fn ends<T>(status: i32, line: String) -> Result<T, Refusal> {
    Err(Refusal::Ends(status, line))
}

pub fn given(text: &Text) -> Result<&[u8], Refusal> {
    text.as_deref().map_or_else(|| ends(6, "refused 6\n".to_string()), Ok)
}

pub fn accept_design(text: &Text, has_to_be_near: bool) -> Result<Accepted, Refusal> {
    let design = read_design(given(text)?).or_else(|line| ends(3, line))?;
    if has_to_be_near && !design.grid.is_near() {
        return ends(3, "refused 3 23\n".to_string());
    }
    let Grid { cols, rows, .. } = design.grid;
    if design.grid.vertices() > if is_long(cols, rows) { LARGEST_OF_LONG } else { LARGEST } {
        return Err(Refusal::TooLarge);
    }
    let grounds = design.grounds().or_else(|line| ends(5, line))?;
    Ok(Accepted { design, grounds })
}

pub fn accept_blocks(text: &Text) -> Result<Vec<Block>, Refusal> {
    read_routes(given(text)?).or_else(|at| ends(4, format!("refused 4 31 {at}\n")))
}

pub fn accept_certificate(text: &Text) -> Result<Certificate, Refusal> {
    read_certificate(given(text)?).or_else(|line| ends(4, line))
}

pub fn accept_sets(design: &Design, blocks: &[Block]) -> Result<Vec<Set>, Refusal> {
    accepted_sets(design, blocks).or_else(|line| ends(1, line))
}

/// The sets of routes that may lack nets.
pub fn accept_some_sets(design: &Design, blocks: &[Block]) -> Result<Vec<Option<Set>>, Refusal> {
    sets_of_blocks(design, blocks).or_else(|line| ends(1, line))
}

/// A design, routes and a certificate that the judge accepts.
pub struct Judged {
    pub accepted: Accepted,
    pub sets: Vec<Set>,
    pub certificate: Certificate,
}

pub fn accept_routed(design: &Text, routes: &Text) -> Result<(Accepted, Vec<Set>), Refusal> {
    let accepted = accept_design(design, false)?;
    let blocks = accept_blocks(routes)?;
    let sets = accept_sets(&accepted.design, &blocks)?;
    Ok((accepted, sets))
}

pub fn accept_judged(design: &Text, routes: &Text, certificate: &Text) -> Result<Judged, Refusal> {
    let accepted = accept_design(design, false)?;
    let blocks = accept_blocks(routes)?;
    let certificate = accept_certificate(certificate)?;
    let sets = accept_sets(&accepted.design, &blocks)?;
    match certificate.objection(&accepted.design, &accepted.grounds, &sets) {
        Some(line) => ends(1, line),
        None => Ok(Judged { accepted, sets, certificate }),
    }
}
