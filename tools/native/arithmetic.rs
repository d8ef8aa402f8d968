//! Counts, spans and boxes: docs/ARITHMETIC.md.

use std::fmt::{self, Display};

pub const ONE: i64 = 65536;
pub const LARGEST_COUNT: i64 = 2147483647;
pub const MOST_VARIABLES: usize = 8;

/// Two counts, the lower at most the upper.
#[derive(Clone, Copy, PartialEq, Eq, Default)]
pub struct Span {
    pub lo: i64,
    pub hi: i64,
}

/// The result that holds every number; `?` hands it on, as every operation does.
#[derive(Clone, Copy)]
pub struct Open;

pub type Reach = Result<Span, Open>;

/// No number, or no point of a box.
pub struct Empty;

impl Span {
    pub fn of(count: i64) -> Span {
        Span { lo: count, hi: count }
    }

    /// Of ends in order, which may have passed the counts.
    #[inline(always)]
    fn between(lo: i64, hi: i64) -> Reach {
        if -LARGEST_COUNT <= lo && hi <= LARGEST_COUNT {
            Ok(Span { lo, hi })
        } else {
            Err(Open)
        }
    }

    #[inline(always)]
    pub fn plus(self, other: Span) -> Reach {
        Span::between(self.lo + other.lo, self.hi + other.hi)
    }

    #[inline(always)]
    pub fn minus(self, other: Span) -> Reach {
        Span::between(self.lo - other.hi, self.hi - other.lo)
    }

    #[inline(always)]
    pub fn times(self, other: Span) -> Reach {
        let (ac, ad) = (self.lo * other.lo, self.lo * other.hi);
        let (bc, bd) = (self.hi * other.lo, self.hi * other.hi);
        let least = ac.min(ad).min(bc.min(bd));
        let greatest = ac.max(ad).max(bc.max(bd));
        Span::between(least >> 16, (greatest + (ONE - 1)) >> 16)
    }

    /// For exponents from 1. One factor after another: a square of squares rounds elsewhere.
    #[inline(always)]
    pub fn power(self, exponent: u8) -> Reach {
        (1..exponent).try_fold(self, |power, _| power.times(self))
    }

    /// Over a positive divisor the lower end gives the least quotient, and its sign says by
    /// which end of the divisor; the upper end likewise. So two divisions do for four.
    pub fn over(self, divisor: Span) -> Reach {
        let (dividend, divisor) = match divisor {
            positive if positive.lo > 0 => (self, positive),
            negative if negative.hi < 0 => (self.negated(), negative.negated()),
            _ => return Err(Open),
        };
        let (lo, hi) = (dividend.lo * ONE, dividend.hi * ONE);
        let least = lo.div_euclid(if lo < 0 { divisor.lo } else { divisor.hi });
        let greatest = -(-hi).div_euclid(if hi < 0 { divisor.hi } else { divisor.lo });
        Span::between(least, greatest)
    }

    fn negated(self) -> Span {
        Span { lo: -self.hi, hi: -self.lo }
    }

    pub fn meet(self, other: Span) -> Result<Span, Empty> {
        let (lo, hi) = (self.lo.max(other.lo), self.hi.min(other.hi));
        if lo <= hi { Ok(Span { lo, hi }) } else { Err(Empty) }
    }

    pub fn holds_zero(self) -> bool {
        self.lo <= 0 && 0 <= self.hi
    }

    pub fn width(self) -> i64 {
        self.hi - self.lo
    }
}

impl Display for Span {
    fn fmt(&self, f: &mut fmt::Formatter) -> fmt::Result {
        write!(f, "{}..{}", self.lo, self.hi)
    }
}

/// The sum from 0 on, in the given order.
#[inline(always)]
pub fn sum(mut reaches: impl Iterator<Item = Reach>) -> Reach {
    reaches.try_fold(Span::of(0), |sum, reach| sum.plus(reach?))
}

/// A box: one span for each variable, in the first places.
#[derive(Clone, Copy, PartialEq, Eq, Default)]
pub struct Region {
    pub spans: [Span; MOST_VARIABLES],
}

impl Region {
    /// The lower and the upper half; they share the lower middle.
    pub fn split(&self, variable: usize) -> (Region, Region) {
        let Span { lo, hi } = self.spans[variable];
        let middle = (lo + hi) >> 1;
        let (mut lower, mut upper) = (*self, *self);
        lower.spans[variable].hi = middle;
        upper.spans[variable].lo = middle;
        (lower, upper)
    }
}
