//! Lines of what is printed.

/// The most that ours may take.
#[derive(Clone, Copy)]
pub enum Most {
    /// Nothing is asked.
    Open,
    /// So many times what stands beside it.
    Ratio(f64),
    /// So many microseconds.
    Micros(f64),
}

impl Most {
    /// What is asked on the host, and what in a guest.
    pub const fn of(host: Most, guest: Most) -> Most {
        if cfg!(target_arch = "wasm32") {
            guest
        } else {
            host
        }
    }
}

/// The head of a table: what, whose microseconds stand beside ours, what ours are.
pub fn head(what: &str, other: &str, ours: &str) {
    println!("\n{what:30} {other:>10} {ours:>10} {:>7} {:>8}", "ratio", "at most");
}

/// A line of a table, in microseconds; `over` where ours takes more than it may.
pub fn line(name: &str, other: Option<f64>, ours: f64, most: Most) {
    let ratio = other.map(|other| ours / other);
    let (allowed, over) = match (most, ratio) {
        (Most::Ratio(most), Some(ratio)) => (format!("{most:.2}"), ratio > most),
        (Most::Micros(most), _) => (format!("{most:.2} us"), ours > most),
        _ => (String::new(), false),
    };
    let verdict = if over { "  over" } else { "" };
    let line = format!("{name:30} {} {ours:10.3} {} {allowed:>8}{verdict}", number(other, 10), number(ratio, 7));
    println!("{}", line.trim_end());
}

fn number(n: Option<f64>, width: usize) -> String {
    n.map_or(" ".repeat(width), |n| format!("{n:width$.3}"))
}
