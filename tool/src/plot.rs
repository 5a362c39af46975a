//! A small plot of values in plain characters.

use crate::values::{as_f64, Shown};
use fungalcove::Value;
use std::io::{self, Write};

/// So many values are plotted at most, each in a column of its own.
pub const COLUMNS: usize = 60;
const ROWS: usize = 8;

/// Plots values, with the largest and the smallest at the left. One that is left out is a gap; an infinite one stands at the
/// edge, as `^` or `v`. Where all are the same a single row says so.
pub fn write(out: &mut impl Write, values: &[Option<Value>]) -> io::Result<()> {
    let finite = || values.iter().flatten().copied().filter(|value| as_f64(*value).is_finite());
    let smallest = finite().min_by(|a, b| as_f64(*a).total_cmp(&as_f64(*b)));
    let largest = finite().max_by(|a, b| as_f64(*a).total_cmp(&as_f64(*b)));
    let (smallest, largest) = match (smallest, largest) {
        (Some(smallest), Some(largest)) => (smallest, largest),
        _ => return writeln!(out, "\nno plot: no finite number among the first {} values", values.len()),
    };
    let scale = Scale::new(as_f64(smallest), as_f64(largest));
    let (top, bottom) = (Shown(largest).to_string(), Shown(smallest).to_string());
    let width = top.len().max(bottom.len());
    writeln!(out, "\nthe first {} values:", values.len())?;
    for row in (0..scale.rows).rev() {
        let label = match row {
            _ if row + 1 == scale.rows => &top,
            0 => &bottom,
            _ => "",
        };
        let marks: String = values.iter().map(|value| scale.mark(value.map(as_f64), row)).collect();
        writeln!(out, "{:>width$} |{}", label, marks.trim_end(), width = width)?;
    }
    Ok(())
}

/// What the rows stand for; they count from below.
struct Scale {
    low: f64,
    high: f64,
    rows: usize,
}

impl Scale {
    fn new(low: f64, high: f64) -> Scale {
        Scale { low, high, rows: if low == high { 1 } else { ROWS } }
    }

    /// What a value's column has in a row.
    fn mark(&self, value: Option<f64>, row: usize) -> char {
        match value {
            Some(value) if value == f64::INFINITY && row + 1 == self.rows => '^',
            Some(value) if value == f64::NEG_INFINITY && row == 0 => 'v',
            Some(value) if value.is_finite() && row == self.row(value) => '*',
            _ => ' ',
        }
    }

    fn row(&self, value: f64) -> usize {
        // the distance of two doubles may be more than a double holds; that of their halves is not
        let unit = if (self.high - self.low).is_finite() { 1.0 } else { 0.5 };
        let share = (value * unit - self.low * unit) / (self.high * unit - self.low * unit);
        // in a single row the share is no number, which becomes 0
        (share * (self.rows - 1) as f64).round() as usize
    }
}
