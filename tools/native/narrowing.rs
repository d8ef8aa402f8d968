//! Verdicts and contractors: docs/ENCLOSURES.md, docs/CONTRACTORS.md.

use crate::arithmetic::{Empty, MOST_VARIABLES, Open, Reach, Region, Span, sum};
use crate::sheet::{Asked, MOST_TERMS, Row, Sheet, Term};

pub const MOST_ROUNDS: usize = 4;

#[derive(Clone, Copy, PartialEq, Eq)]
pub enum Verdict {
    Met,
    Broken,
    Unsure,
}

/// Whether a contractor changed the box.
#[derive(Clone, Copy, PartialEq, Eq)]
pub enum Change {
    Narrowed,
    Same,
}

impl Asked {
    fn judge(self, span: Span) -> Verdict {
        let (met, broken) = match self {
            Asked::AtLeast(lo) => (lo <= span.lo, span.hi < lo),
            Asked::AtMost(hi) => (span.hi <= hi, hi < span.lo),
            Asked::Between(Span { lo, hi }) => {
                (lo <= span.lo && span.hi <= hi, span.hi < lo || hi < span.lo)
            }
        };
        match (met, broken) {
            (true, _) => Verdict::Met,
            (_, true) => Verdict::Broken,
            _ => Verdict::Unsure,
        }
    }
}

pub fn row_span(terms: &[Term], region: &Region) -> Reach {
    sum(terms.iter().map(|term| term.over(region)))
}

/// A variable that occurs in a row, whose value is slope · variable + the other terms.
struct Occurrence {
    variable: usize,
    /// The row's terms by their places: those that hold the variable, and the others.
    holding: Vec<usize>,
    others: Vec<usize>,
    /// The terms that hold the variable, with one power of it taken off.
    slope: Vec<Term>,
}

impl Occurrence {
    fn of(variable: usize, terms: &[Term]) -> Option<Occurrence> {
        let (holding, others): (Vec<usize>, Vec<usize>) =
            (0..terms.len()).partition(|&k| terms[k].holds(variable));
        let slope: Vec<Term> = holding.iter().map(|&k| terms[k].without_one(variable)).collect();
        (!slope.is_empty()).then_some(Occurrence { variable, holding, others, slope })
    }

    /// (target − others) / slope.
    fn solved(&self, target: Span, values: &[Reach], region: &Region) -> Reach {
        let slope = row_span(&self.slope, region)?;
        if slope.holds_zero() {
            return Err(Open);
        }
        let others = sum(self.others.iter().map(|&k| values[k]))?;
        target.minus(others)?.over(slope)
    }
}

/// A row, sorted by each variable that occurs in it.
struct SortedRow {
    asked: Asked,
    terms: Vec<Term>,
    occurrences: Vec<Occurrence>,
}

impl SortedRow {
    fn of(row: &Row) -> SortedRow {
        let occurrences = (0..MOST_VARIABLES).filter_map(|j| Occurrence::of(j, &row.terms));
        SortedRow { asked: row.asked, terms: row.terms.clone(), occurrences: occurrences.collect() }
    }

    fn judge(&self, region: &Region) -> Verdict {
        match row_span(&self.terms, region) {
            Ok(span) => self.asked.judge(span),
            Err(Open) => Verdict::Unsure,
        }
    }

    /// What the row asks for, closed by the row's own end where it asks for one end only.
    fn target(&self, values: &[Reach]) -> Result<Reach, Empty> {
        let row = || sum(values.iter().copied());
        let target = match self.asked {
            Asked::AtLeast(lo) => row().map(|Span { hi, .. }| Span { lo, hi }),
            Asked::AtMost(hi) => row().map(|Span { lo, .. }| Span { lo, hi }),
            Asked::Between(span) => Ok(span),
        };
        match target {
            Ok(Span { lo, hi }) if lo > hi => Err(Empty),
            target => Ok(target),
        }
    }

    /// Each term is worked out once, and again when a variable of it has been narrowed.
    fn narrow(&self, region: &mut Region) -> Result<Change, Empty> {
        let mut places = [Err(Open); MOST_TERMS];
        let values = &mut places[..self.terms.len()];
        for (value, term) in values.iter_mut().zip(&self.terms) {
            *value = term.over(region);
        }
        let mut change = Change::Same;
        for occurrence in &self.occurrences {
            let Ok(target) = self.target(values)? else { continue };
            let Ok(solved) = occurrence.solved(target, values, region) else { continue };
            let span = &mut region.spans[occurrence.variable];
            let narrowed = span.meet(solved)?;
            if narrowed == *span {
                continue;
            }
            *span = narrowed;
            change = Change::Narrowed;
            for &k in &occurrence.holding {
                values[k] = self.terms[k].over(region);
            }
        }
        Ok(change)
    }
}

pub struct System {
    variables: usize,
    tolerance: i64,
    rows: Vec<SortedRow>,
}

impl System {
    pub fn of(sheet: &Sheet) -> System {
        System {
            variables: sheet.variables.len(),
            tolerance: sheet.tolerance,
            rows: sheet.rows.iter().map(SortedRow::of).collect(),
        }
    }

    pub fn judge(&self, region: &Region) -> Verdict {
        let mut verdict = Verdict::Met;
        for row in &self.rows {
            match row.judge(region) {
                Verdict::Met => {}
                Verdict::Broken => return Verdict::Broken,
                Verdict::Unsure => verdict = Verdict::Unsure,
            }
        }
        verdict
    }

    /// The Gauss-Seidel pass.
    pub fn pass(&self, region: &mut Region) -> Result<Change, Empty> {
        let mut change = Change::Same;
        for row in &self.rows {
            if row.narrow(region)? == Change::Narrowed {
                change = Change::Narrowed;
            }
        }
        Ok(change)
    }

    /// Until 4 over then of row test and pass, and the verdict on the box that this leaves.
    /// A round that changes nothing has judged that box with its row test; and no pass narrows
    /// a met box, since it keeps every point that meets all rows.
    pub fn narrow_and_judge(&self, region: &mut Region) -> Verdict {
        for _ in 0..MOST_ROUNDS {
            match self.judge(region) {
                Verdict::Unsure => {}
                certain => return certain,
            }
            match self.pass(region) {
                Err(Empty) => return Verdict::Broken,
                Ok(Change::Same) => return Verdict::Unsure,
                Ok(Change::Narrowed) => {}
            }
        }
        self.judge(region)
    }

    /// The widest variable, of several the lowest number, if it is wider than the tolerance.
    pub fn widest(&self, region: &Region) -> Option<usize> {
        let mut widest = 0;
        for variable in 1..self.variables {
            if region.spans[variable].width() > region.spans[widest].width() {
                widest = variable;
            }
        }
        (region.spans[widest].width() > self.tolerance).then_some(widest)
    }
}
