//! An explanation in words: the lines of the program `explain`.
use core::fmt;

use crate::camera::Mlx90640;
use crate::explanation::{Entry, Explanation, Failure, Part};
use crate::refusal::Table;

/// The numbers that 16 bits hold.
const LEAST: i32 = -32768;
const MOST: i32 = 32767;

/// A line with a name and what it stands for, if it is there.
fn line(f: &mut fmt::Formatter<'_>, name: &str, what: Option<impl fmt::Display>) -> fmt::Result {
    match what {
        Some(what) => writeln!(f, "{name} {what}"),
        None => Ok(()),
    }
}

impl fmt::Display for Part {
    fn fmt(&self, f: &mut fmt::Formatter<'_>) -> fmt::Result {
        let Self { address, high, low, raw, value, scale, term } = self;
        write!(f, "address {address:#06X} bits {high}..{low} raw {raw} value {value} scale {scale} term {term}")
    }
}

impl fmt::Display for Entry {
    fn fmt(&self, f: &mut fmt::Formatter<'_>) -> fmt::Result {
        match self {
            Self::Whole(number) => write!(f, "{number}"),
            Self::Fraction(number) => write!(f, "{:08X}", number.to_bits()),
        }
    }
}

impl fmt::Display for Explanation {
    fn fmt(&self, f: &mut fmt::Formatter<'_>) -> fmt::Result {
        self.asked(f)?;
        line(f, "average", Some(self.average))?;
        line(f, "row", self.row)?;
        line(f, "after_row", self.after_row)?;
        line(f, "column", self.column)?;
        line(f, "after_column", self.after_column)?;
        line(f, "remainder", self.remainder)?;
        self.sum(f)?;
        match (self.failure, self.numerator) {
            (None, numerator) => {
                line(f, "numerator", numerator)?;
                line(f, "exponent", self.exponent)?;
                line(f, "entry", self.entry)
            }
            (Some(Failure::Row), _) => term_outside(f, "row", self.row),
            (Some(Failure::Column), _) => term_outside(f, "column", self.column),
            (Some(Failure::Remainder), _) => term_outside(f, "remainder", self.remainder),
            (Some(Failure::Sum), numerator) => self.sum_outside(f, numerator.unwrap_or(0)),
        }
    }
}

impl Explanation {
    /// The refusal, if there is one, and what is explained.
    fn asked(&self, f: &mut fmt::Formatter<'_>) -> fmt::Result {
        if let Some(found) = self.found {
            writeln!(f, "refused {} {} {}", found.number(), self.table.number(), self.pixel)?;
        }
        let table = match self.table {
            Table::Offset => "offset",
            Table::Alpha => "alpha",
            Table::Kta => "k_ta",
        };
        writeln!(f, "table {table}")?;
        let (row, column) = (self.pixel / Mlx90640::WIDTH, self.pixel % Mlx90640::WIDTH);
        writeln!(f, "pixel {} row {row} column {column}", self.pixel)
    }

    /// The parts that are added to the average.
    fn added(&self) -> impl Iterator<Item = Part> {
        [self.row, self.column, self.remainder].into_iter().flatten()
    }

    fn sum(&self, f: &mut fmt::Formatter<'_>) -> fmt::Result {
        let sum = match self.numerator {
            Some(sum) => sum,
            None => return Ok(()),
        };
        write!(f, "sum {}", self.average.term)?;
        for Part { term, .. } in self.added() {
            let sign = if term < 0 { '-' } else { '+' };
            write!(f, " {sign} {}", term.unsigned_abs())?;
        }
        writeln!(f, " = {sum}")
    }

    fn sum_outside(&self, f: &mut fmt::Formatter<'_>, sum: i32) -> fmt::Result {
        write!(f, "The final sum {sum} is outside {LEAST}..{MOST}. Its fields stand in words ")?;
        write!(f, "{:#06X}", self.average.address)?;
        let last = self.added().count();
        for (number, Part { address, .. }) in (1..).zip(self.added()) {
            let between = if number == last { " and" } else { "," };
            write!(f, "{between} {address:#06X}")?;
        }
        let (way, by) = if sum > MOST { ("lower", sum - MOST) } else { ("higher", LEAST - sum) };
        writeln!(f, "; a sum {way} by {by} would fit.")
    }
}

/// What is said of a term that is outside 16 bits.
fn term_outside(f: &mut fmt::Formatter<'_>, name: &str, part: Option<Part>) -> fmt::Result {
    let Part { address, high, low, value, scale, term, .. } = match part {
        Some(part) => part,
        None => return Ok(()),
    };
    // As many fields on either side of zero have a term inside.
    let fields = (MOST + 1).checked_shr(scale.into()).unwrap_or(0);
    write!(f, "The {name}'s term {term} is outside {LEAST}..{MOST}. ")?;
    write!(f, "Its field, bits {high}..{low} of word {address:#06X}, holds {value}; ")?;
    writeln!(f, "at scale {scale} a field from {} to {} would fit.", -fields, fields - 1)
}
