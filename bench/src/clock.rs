//! Ways to do one thing, timed by turns.

use std::time::Instant;

/// How often a thing is timed.
#[derive(Clone, Copy)]
pub struct Clock {
    /// A time is the median of so many runs.
    pub runs: usize,
    /// The thing is done so many times in a run; a time is that of one.
    pub turns: usize,
}

impl Clock {
    /// The microseconds of both, after a run of each that is not counted.
    pub fn against(self, mut theirs: impl FnMut(), mut ours: impl FnMut()) -> (f64, f64) {
        self.micros(&mut theirs);
        self.micros(&mut ours);
        let both = |_| (self.micros(&mut theirs), self.micros(&mut ours));
        let (a, b): (Vec<f64>, Vec<f64>) = (0..self.runs).map(both).unzip();
        (median(a), median(b))
    }

    /// The microseconds of one thing, with nothing beside it.
    pub fn alone(self, ours: impl FnMut()) -> f64 {
        self.against(|| (), ours).1
    }

    fn micros(self, f: &mut impl FnMut()) -> f64 {
        let start = Instant::now();
        (0..self.turns).for_each(|_| f());
        start.elapsed().as_secs_f64() * 1e6 / self.turns as f64
    }
}

fn median(mut times: Vec<f64>) -> f64 {
    times.sort_by(f64::total_cmp);
    times[times.len() / 2]
}

/// The value, by a way that the compiler can't follow: what made it is not left out, and nothing is known of it afterwards.
/// `std::hint::black_box` is younger than the guest's compiler.
#[inline(never)]
pub fn opaque<T: Copy>(value: T) -> T {
    // SAFETY: a reference may be read from, and a copy of a `Copy` value is a value.
    unsafe { std::ptr::read_volatile(&value) }
}
