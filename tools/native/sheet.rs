//! Reading a sheet: docs/SHEET.md, docs/REFUSALS.md.

use crate::arithmetic::{LARGEST_COUNT, MOST_VARIABLES, Reach, Region, Span};
use std::fmt::{self, Display};

pub const MOST_BYTES: usize = 4096;
pub const MOST_TERMS: usize = 12;
const MOST_ROWS: usize = 16;
const MOST_DEGREE: usize = 4;
const TERM_PLACES: usize = 64;

/// A refusal's number and place.
#[derive(Clone, Copy)]
pub struct Refusal {
    number: u8,
    place: usize,
}

impl Display for Refusal {
    fn fmt(&self, f: &mut fmt::Formatter) -> fmt::Result {
        let reader = match self.number {
            2 | 3 | 5 => "FIELD",
            _ => "SHEET",
        };
        write!(f, "REFUSED {} AT {} IN {reader}", self.number, self.place)
    }
}

#[derive(Clone, Copy, PartialEq, Eq)]
pub enum Tag {
    Variable,
    Tolerance,
    Row,
    Term,
    End,
}

impl Tag {
    fn of(byte: u8) -> Option<Tag> {
        match byte {
            1 => Some(Tag::Variable),
            2 => Some(Tag::Row),
            3 => Some(Tag::Term),
            4 => Some(Tag::Tolerance),
            9 => Some(Tag::End),
            _ => None,
        }
    }

    fn allows_length(self, length: usize, variables: usize) -> bool {
        match self {
            Tag::Variable => (13..=20).contains(&length),
            Tag::Tolerance => length == 4,
            Tag::Row => length == 5 || length == 9,
            Tag::Term => length == 4 + variables,
            Tag::End => length == 0,
        }
    }

    fn may_follow(self, last: Option<Tag>) -> bool {
        match last {
            None => self == Tag::Variable,
            Some(Tag::Variable) => matches!(self, Tag::Variable | Tag::Tolerance),
            Some(Tag::Tolerance) => self == Tag::Row,
            Some(Tag::Row) => self == Tag::Term,
            Some(Tag::Term) => matches!(self, Tag::Term | Tag::Row | Tag::End),
            Some(Tag::End) => false,
        }
    }
}

pub struct Field<'a> {
    pub place: usize,
    pub tag: Tag,
    pub bytes: &'a [u8],
}

impl<'a> Field<'a> {
    fn read(sheet: &'a [u8], place: usize, variables: usize) -> Result<Field<'a>, Refusal> {
        let refused = |number| Refusal { number, place };
        let [tag, high, low, behind @ ..] = &sheet[place..] else {
            return Err(refused(2));
        };
        let length = usize::from(u16::from_be_bytes([*high, *low]));
        if behind.len() < length {
            return Err(refused(2));
        }
        let tag = Tag::of(*tag).ok_or(refused(3))?;
        if !tag.allows_length(length, variables) {
            return Err(refused(5));
        }
        Ok(Field { place, tag, bytes: &sheet[place..place + 3 + length] })
    }

    pub fn content(&self) -> &'a [u8] {
        &self.bytes[3..]
    }

    /// The signed number in the four bytes from `offset` of the content.
    pub fn number(&self, offset: usize) -> i64 {
        let bytes = self.content()[offset..].first_chunk().expect("the length is checked");
        i64::from(i32::from_be_bytes(*bytes))
    }

    fn count(&self, offset: usize) -> Result<i64, BadValue> {
        match self.number(offset) {
            number if number >= -LARGEST_COUNT => Ok(number),
            _ => Err(BadValue),
        }
    }
}

/// A value out of its range: refusal 6.
struct BadValue;

pub struct Variable {
    pub name: String,
    pub span: Span,
    pub nominal: i64,
}

impl Variable {
    fn read(field: &Field) -> Result<Variable, BadValue> {
        let span = Span { lo: field.count(0)?, hi: field.count(4)? };
        let nominal = field.count(8)?;
        let name = &field.content()[12..];
        if !(span.lo <= nominal && nominal <= span.hi && name.iter().all(is_name_byte)) {
            return Err(BadValue);
        }
        Ok(Variable { name: name.iter().copied().map(char::from).collect(), span, nominal })
    }
}

pub fn is_name_byte(byte: &u8) -> bool {
    byte.is_ascii_uppercase() || byte.is_ascii_digit()
}

fn read_tolerance(field: &Field) -> Result<i64, BadValue> {
    match field.number(0) {
        tolerance if tolerance >= 1 => Ok(tolerance),
        _ => Err(BadValue),
    }
}

/// What a row's value must be.
#[derive(Clone, Copy)]
pub enum Asked {
    AtLeast(i64),
    AtMost(i64),
    Between(Span),
}

impl Asked {
    fn read(field: &Field) -> Result<Asked, BadValue> {
        match (field.content()[0], field.content().len()) {
            (1, 5) => Ok(Asked::AtLeast(field.count(1)?)),
            (2, 5) => Ok(Asked::AtMost(field.count(1)?)),
            (3, 9) => match (field.count(1)?, field.count(5)?) {
                (lo, hi) if lo <= hi => Ok(Asked::Between(Span { lo, hi })),
                _ => Err(BadValue),
            },
            _ => Err(BadValue),
        }
    }
}

/// A variable to a power of at least 1.
#[derive(Clone, Copy, Default)]
struct Factor {
    variable: usize,
    exponent: u8,
}

/// A coefficient and the variables that occur with it, lowest number first: power 0 changes no
/// product, so it is left out.
#[derive(Clone, Copy)]
pub struct Term {
    coefficient: i64,
    factors: [Factor; MOST_DEGREE],
    occurring: usize,
}

impl Term {
    fn new(coefficient: i64, factors: impl Iterator<Item = Factor>) -> Term {
        let mut term = Term { coefficient, factors: Default::default(), occurring: 0 };
        for factor in factors.filter(|factor| factor.exponent > 0) {
            term.factors[term.occurring] = factor;
            term.occurring += 1;
        }
        term
    }

    fn read(field: &Field) -> Result<Term, BadValue> {
        let coefficient = field.count(0)?;
        let exponents = &field.content()[4..];
        if exponents.iter().map(|&exponent| usize::from(exponent)).sum::<usize>() > MOST_DEGREE {
            return Err(BadValue);
        }
        let factors = exponents.iter().enumerate();
        let factors = factors.map(|(variable, &exponent)| Factor { variable, exponent });
        Ok(Term::new(coefficient, factors))
    }

    fn factors(&self) -> &[Factor] {
        &self.factors[..self.occurring]
    }

    pub fn holds(&self, variable: usize) -> bool {
        self.factors().iter().any(|factor| factor.variable == variable)
    }

    /// The term with one power of the variable taken off.
    pub fn without_one(&self, variable: usize) -> Term {
        let lowered = |factor: &Factor| Factor {
            variable: factor.variable,
            exponent: factor.exponent - u8::from(factor.variable == variable),
        };
        Term::new(self.coefficient, self.factors().iter().map(lowered))
    }

    pub fn over(&self, region: &Region) -> Reach {
        self.factors().iter().try_fold(Span::of(self.coefficient), |product, factor| {
            product.times(region.spans[factor.variable].power(factor.exponent)?)
        })
    }

    /// Of a term that is closed over a box around the nominals, so nothing passes the counts.
    pub fn nominal(&self, nominals: &[i64]) -> i64 {
        self.factors().iter().fold(self.coefficient, |product, factor| {
            let nominal = nominals[factor.variable];
            let power = (1..factor.exponent).fold(nominal, |power, _| (power * nominal) >> 16);
            (product * power) >> 16
        })
    }
}

pub struct Row {
    pub asked: Asked,
    pub terms: Vec<Term>,
}

#[derive(Default)]
pub struct Sheet {
    pub variables: Vec<Variable>,
    pub tolerance: i64,
    pub rows: Vec<Row>,
}

impl Sheet {
    /// `list` is shown each field that the field reader gives, also one that is then refused,
    /// and what was read before it.
    pub fn read(bytes: &[u8], mut list: impl FnMut(&Field, &Sheet)) -> Result<Sheet, Refusal> {
        if bytes.len() > MOST_BYTES {
            return Err(Refusal { number: 1, place: MOST_BYTES });
        }
        let mut sheet = Sheet::default();
        let (mut place, mut last) = (0, None);
        while last != Some(Tag::End) {
            let field = Field::read(bytes, place, sheet.variables.len())?;
            list(&field, &sheet);
            sheet.add(&field, last).map_err(|number| Refusal { number, place })?;
            place += field.bytes.len();
            last = Some(field.tag);
        }
        if place < bytes.len() {
            return Err(Refusal { number: 10, place });
        }
        if sheet.terms() > TERM_PLACES {
            return Err(Refusal { number: 9, place });
        }
        Ok(sheet)
    }

    fn add(&mut self, field: &Field, last: Option<Tag>) -> Result<(), u8> {
        if !field.tag.may_follow(last) {
            return Err(4);
        }
        if self.is_full_for(field.tag) {
            return Err(7);
        }
        match field.tag {
            Tag::Variable => {
                let variable = Variable::read(field).map_err(|BadValue| 6)?;
                if self.variables.iter().any(|before| before.name == variable.name) {
                    return Err(8);
                }
                self.variables.push(variable);
            }
            Tag::Tolerance => self.tolerance = read_tolerance(field).map_err(|BadValue| 6)?,
            Tag::Row => {
                let asked = Asked::read(field).map_err(|BadValue| 6)?;
                self.rows.push(Row { asked, terms: Vec::new() });
            }
            Tag::Term => {
                let term = Term::read(field).map_err(|BadValue| 6)?;
                self.rows.last_mut().expect("a term follows a row").terms.push(term);
            }
            Tag::End => {}
        }
        Ok(())
    }

    fn is_full_for(&self, tag: Tag) -> bool {
        match tag {
            Tag::Variable => self.variables.len() == MOST_VARIABLES,
            Tag::Row => self.rows.len() == MOST_ROWS,
            Tag::Term => self.rows.last().is_some_and(|row| row.terms.len() == MOST_TERMS),
            Tag::Tolerance | Tag::End => false,
        }
    }

    pub fn terms(&self) -> usize {
        self.rows.iter().map(|row| row.terms.len()).sum()
    }

    pub fn starting_box(&self) -> Region {
        let mut region = Region::default();
        for (span, variable) in region.spans.iter_mut().zip(&self.variables) {
            *span = variable.span;
        }
        region
    }
}
