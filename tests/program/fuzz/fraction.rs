//! Fractions in lowest terms, and their order by cross products.

#[derive(Clone, Copy, PartialEq, Eq, Debug)]
pub struct Fraction {
    pub num: u128,
    pub den: u128,
}

impl Fraction {
    /// The denominator is positive.
    pub fn of(num: u128, den: u128) -> Self {
        let shared = greatest_divisor(num, den);
        Fraction { num: num / shared, den: den / shared }
    }

    /// With numerators below 2^70 and denominators of at most 2^58 the products fit.
    pub fn is_above(&self, other: &Fraction) -> bool {
        self.num * other.den > other.num * self.den
    }
}

pub fn greatest_divisor(a: u128, b: u128) -> u128 {
    if b == 0 {
        a
    } else {
        greatest_divisor(b, a % b)
    }
}

/// As a text has it.
pub fn said(fraction: Option<Fraction>) -> String {
    fraction.map_or("none".to_string(), |value| format!("{}/{}", value.num, value.den))
}

/// None is below every fraction.
pub fn is_greater(a: Option<Fraction>, b: Option<Fraction>) -> bool {
    match (a, b) {
        (Some(a), Some(b)) => a.is_above(&b),
        (Some(_), None) => true,
        _ => false,
    }
}
