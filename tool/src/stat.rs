//! `fungal show --stat`: what the values of a variable come to.

use crate::failure::Failure;
use crate::plot;
use crate::values::{as_f64, Shown, Stored};
use fungalcove::{DataType, Value, Variable};
use std::io::{self, Write};

pub fn print(out: &mut impl Write, mut stored: Stored) -> Result<(), Failure> {
    let variable = *stored.variable();
    if variable.data_type() == DataType::Char {
        writeln!(out, "values {}", variable.len())?;
        writeln!(out, "characters have no smallest or largest; --values shows them")?;
        return Ok(());
    }
    let mut tally = Tally { fill: fill_value(&variable), ..Tally::default() };
    let ended = stored.each(0..variable.records(), |value| {
        tally.add(value);
        Ok(())
    });
    tally.write(out, &variable)?;
    ended
}

/// The value that stands for none. Where the attribute is not as the convention has it, it is some other thing.
fn fill_value(variable: &Variable) -> Option<Value> {
    let attribute = variable.attribute("_FillValue")?;
    let fits = attribute.data_type() == variable.data_type() && attribute.len() == 1;
    attribute.values().get(0).filter(|_| fits)
}

/// What was found so far.
#[derive(Default)]
struct Tally {
    fill: Option<Value>,
    values: u64,
    fills: u64,
    nans: u64,
    /// How many are neither.
    numbers: u64,
    smallest: Option<Value>,
    largest: Option<Value>,
    whole: i128,
    real: Sum,
    /// The first values; none where one is left out.
    first: Vec<Option<Value>>,
}

impl Tally {
    fn add(&mut self, value: Value) {
        let is_fill = self.fill.map_or(false, |fill| same(fill, value));
        let is_nan = as_f64(value).is_nan();
        self.values += 1;
        self.fills += u64::from(is_fill);
        self.nans += u64::from(is_nan);
        let kept = if is_fill || is_nan { None } else { Some(value) };
        if self.first.len() < plot::COLUMNS {
            self.first.push(kept);
        }
        if let Some(value) = kept {
            self.add_number(value);
        }
    }

    fn add_number(&mut self, value: Value) {
        self.numbers += 1;
        if self.smallest.map_or(true, |smallest| as_f64(value) < as_f64(smallest)) {
            self.smallest = Some(value);
        }
        if self.largest.map_or(true, |largest| as_f64(value) > as_f64(largest)) {
            self.largest = Some(value);
        }
        match value {
            Value::Byte(value) => self.whole += i128::from(value),
            Value::Char(value) => self.whole += i128::from(value),
            Value::Short(value) => self.whole += i128::from(value),
            Value::Int(value) => self.whole += i128::from(value),
            Value::Float(value) => self.real.add(value.into()),
            Value::Double(value) => self.real.add(value),
        }
    }

    fn write(&self, out: &mut impl Write, variable: &Variable) -> io::Result<()> {
        match variable.len() {
            all if all == self.values => writeln!(out, "values {}", all)?,
            all => writeln!(out, "values {} of {}", self.values, all)?,
        }
        if self.fill.is_some() {
            writeln!(out, "fill values {}", left_out(self.fills))?;
        }
        if matches!(variable.data_type(), DataType::Float | DataType::Double) {
            writeln!(out, "NaN {}", left_out(self.nans))?;
        }
        match (self.smallest, self.largest) {
            (Some(smallest), Some(largest)) => {
                writeln!(out, "numbers {}", self.numbers)?;
                writeln!(out, "smallest {}", Shown(smallest))?;
                writeln!(out, "largest {}", Shown(largest))?;
                writeln!(out, "mean {}", Shown(Value::Double(self.mean())))?;
                plot::write(out, &self.first)
            }
            _ => writeln!(out, "no number among them, so no smallest, largest or mean"),
        }
    }

    /// Of one type, so that one of the two sums is 0.
    fn mean(&self) -> f64 {
        self.whole as f64 / self.numbers as f64 + self.real.shared(self.numbers)
    }
}

/// Whether two values of one type have the same bits or are both NaN.
fn same(a: Value, b: Value) -> bool {
    let (a, b) = (as_f64(a), as_f64(b));
    a.to_bits() == b.to_bits() || (a.is_nan() && b.is_nan())
}

fn left_out(count: u64) -> String {
    format!("{}{}", count, if count > 0 { ", left out" } else { "" })
}

/// From here on doubles are added up apart, since their sum might pass the largest double.
const HUGE: f64 = 1e250;
/// What such ones are made smaller by: a power of two, which changes no digit of them.
const SMALLER: f64 = (1u128 << 100) as f64;

/// A sum of many doubles, for their mean.
#[derive(Default)]
struct Sum {
    usual: Compensated,
    huge: Compensated,
}

impl Sum {
    fn add(&mut self, value: f64) {
        if value.abs() < HUGE {
            self.usual.add(value);
        } else {
            self.huge.add(value / SMALLER);
        }
    }

    fn shared(&self, count: u64) -> f64 {
        self.usual.total() / count as f64 + self.huge.total() / count as f64 * SMALLER
    }
}

/// Neumaier's sum: what each addition loses is kept, and added at the end.
#[derive(Default)]
struct Compensated {
    sum: f64,
    lost: f64,
}

impl Compensated {
    fn add(&mut self, value: f64) {
        let sum = self.sum + value;
        let (larger, smaller) = if self.sum.abs() < value.abs() { (value, self.sum) } else { (self.sum, value) };
        self.lost += (larger - sum) + smaller;
        self.sum = sum;
    }

    fn total(&self) -> f64 {
        // where a value is infinite so is the sum, and what was lost is no number
        if self.sum.is_finite() {
            self.sum + self.lost
        } else {
            self.sum
        }
    }
}
