//! Certificates: how they are written and read, and what can be objected to them.

use crate::design::{forced, Design, Ground, Set};
use crate::fraction::{said, Fraction};
use crate::prices::{design_bound, Prices, GREATEST_PRICE};
use crate::routes::{measure, resources};
use crate::scan::{digits, Reader, Token};

#[derive(Clone, PartialEq, Eq, Debug)]
pub struct Certificate {
    pub nets: u64,
    pub forced: u64,
    pub overflow: u64,
    pub wirelength: u64,
    pub peak: Option<Fraction>,
    pub bound: Option<Fraction>,
    /// The wirelength that is to be kept, and the price of a piece.
    pub budget: Option<(u64, u64)>,
    /// One price for each open edge.
    pub prices: Vec<u64>,
}

impl Certificate {
    pub fn lines(&self) -> Vec<String> {
        let version = if self.budget.is_some() { 2 } else { 1 };
        let mut lines = vec![
            format!("grouter certificate {version}"),
            format!("nets {}", self.nets),
            format!("forced {}", self.forced),
            format!("overflow {}", self.overflow),
            format!("wirelength {}", self.wirelength),
            format!("peak {}", said(self.peak)),
            format!("bound {}", said(self.bound)),
        ];
        lines.extend(self.budget.map(|(pieces, price)| format!("budget {pieces} {price}")));
        lines.push(format!("prices {}", self.prices.len()));
        lines.extend(self.prices.iter().map(u64::to_string));
        lines
    }

    pub fn text(&self) -> Vec<u8> {
        (self.lines().join("\n") + "\n").into_bytes()
    }

    pub fn pieces_to_keep(&self) -> Option<u64> {
        self.budget.map(|(pieces, _)| pieces)
    }

    /// The prices by edge number, with that of a piece.
    pub fn price_list(&self, design: &Design) -> Prices {
        let mut prices = vec![0; design.grid.edge_numbers() + 1];
        for (edge, &price) in design.grid.open_edges().into_iter().zip(&self.prices) {
            prices[edge] = price;
        }
        prices[design.grid.edge_numbers()] = self.budget.map_or(0, |(_, price)| price);
        prices
    }

    /// The certificate that is true of a design, of sets and of prices, with its bound at these.
    pub fn of(design: &Design, grounds: &[Ground], sets: &[Set], prices: &Prices, budget: Option<u64>) -> Self {
        let measure = measure(design, sets, budget);
        let bound = design_bound(design, grounds, prices, budget);
        Certificate {
            nets: design.nets.len() as u64,
            forced: forced(grounds) as u64,
            overflow: measure.overflow,
            wirelength: measure.wirelength,
            peak: measure.peak,
            bound,
            budget: budget.map(|pieces| (pieces, prices[design.grid.edge_numbers()])),
            prices: design.grid.open_edges().into_iter().map(|edge| prices[edge]).collect(),
        }
    }

    /// The first objection to the certificate of accepted routes.
    pub fn objection(&self, design: &Design, grounds: &[Ground], sets: &[Set]) -> Option<String> {
        let budget = self.pieces_to_keep();
        let measure = measure(design, sets, budget);
        if self.overflow != measure.overflow {
            return Some(format!("no 48 {} {}\n", self.overflow, measure.overflow));
        }
        if self.wirelength != measure.wirelength {
            return Some(format!("no 49 {} {}\n", self.wirelength, measure.wirelength));
        }
        if self.peak != measure.peak {
            return Some(format!("no 50 {} {}\n", said(self.peak), said(measure.peak)));
        }
        let counts = [
            ("nets", self.nets, design.nets.len()),
            ("forced", self.forced, forced(grounds)),
            ("prices", self.prices.len() as u64, design.grid.open_edges().len()),
        ];
        if let Some((what, stated, found)) = counts.into_iter().find(|&(_, stated, found)| stated != found as u64) {
            return Some(format!("no 51 {what} {stated} {found}\n"));
        }
        let found = design_bound(design, grounds, &self.price_list(design), budget);
        self.is_too_high(found, !resources(&design.grid, budget).is_empty())
            .then(|| format!("no 52 {} {}\n", said(self.bound), said(found)))
    }

    fn is_too_high(&self, found: Option<Fraction>, some_resource: bool) -> bool {
        match (self.bound, found) {
            (None, _) => some_resource,
            (Some(_), _) if !some_resource => true,
            (Some(stated), None) => stated.num > 0,
            (Some(stated), Some(found)) => stated.is_above(&found),
        }
    }
}

/// The certificate of a text, or the line that refuses it.
pub fn read_certificate(text: &[u8]) -> Result<Certificate, String> {
    let mut reading = Reading { reader: Reader::over(text) };
    reading.words(&["grouter", "certificate"])?;
    let version = reading.token()?;
    let with_budget = match version.bytes {
        b"1" => false,
        b"2" => true,
        _ => return refused(32, version.at),
    };
    let count = (1 << 32) - 1;
    let nets = reading.named("nets", 34, 0, count)?;
    let forced = reading.named("forced", 34, 0, count)?;
    let overflow = reading.named("overflow", 34, 0, (1 << 63) - 1)?;
    let wirelength = reading.named("wirelength", 34, 0, (1 << 63) - 1)?;
    let greatest_denominator = if with_budget { 1 << 58 } else { 1 << 57 };
    let peak = reading.fraction("peak", greatest_denominator)?;
    let bound = reading.fraction("bound", greatest_denominator)?;
    let mut budget = None;
    if with_budget {
        let pieces = reading.named("budget", 34, 1, 1 << 42)?;
        budget = Some((pieces, reading.limited(33, 0, GREATEST_PRICE.into())?));
    }
    let prices = reading.prices(count)?;
    Ok(Certificate { nets, forced, overflow, wirelength, peak, bound, budget, prices })
}

struct Reading<'a> {
    reader: Reader<'a>,
}

fn refused<T>(number: u32, at: usize) -> Result<T, String> {
    Err(format!("refused 4 {number} {at}\n"))
}

impl<'a> Reading<'a> {
    fn token(&mut self) -> Result<Token<'a>, String> {
        self.reader.token().or_else(|at| refused(32, at))
    }

    fn words(&mut self, wanted: &[&str]) -> Result<(), String> {
        for word in wanted {
            let token = self.token()?;
            if token.bytes != word.as_bytes() {
                return refused(32, token.at);
            }
        }
        Ok(())
    }

    fn limited(&mut self, fault: u32, least: i128, greatest: i128) -> Result<u64, String> {
        let token = self.token()?;
        match digits(token.bytes) {
            None => refused(32, token.at),
            Some(value) if value < least || value > greatest => refused(fault, token.at),
            Some(value) => Ok(value as u64),
        }
    }

    fn named(&mut self, name: &str, fault: u32, least: i128, greatest: i128) -> Result<u64, String> {
        self.words(&[name])?;
        self.limited(fault, least, greatest)
    }

    fn fraction(&mut self, name: &str, greatest_denominator: i128) -> Result<Option<Fraction>, String> {
        self.words(&[name])?;
        let token = self.token()?;
        if token.bytes == b"none" {
            return Ok(None);
        }
        let bar = token.bytes.iter().position(|&byte| byte == b'/');
        let parts = bar.and_then(|bar| digits(&token.bytes[..bar]).zip(digits(&token.bytes[bar + 1..])));
        match parts {
            None => refused(32, token.at),
            Some((num, den)) if num >= 1 << 70 || den == 0 || den > greatest_denominator => refused(34, token.at),
            Some((num, den)) => Ok(Some(Fraction::of(num as u128, den as u128))),
        }
    }

    fn prices(&mut self, count: i128) -> Result<Vec<u64>, String> {
        let count = self.named("prices", 34, 0, count)?;
        let mut prices = Vec::new();
        for _ in 0..count {
            prices.push(self.limited(33, 0, GREATEST_PRICE.into())?);
        }
        match self.reader.token() {
            Ok(token) => refused(32, token.at),
            Err(_) => Ok(prices),
        }
    }
}
