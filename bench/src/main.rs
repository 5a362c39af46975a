//! bench [RUNS]: the times of the crate `fungalcove`, beside plain Rust loops and, on the host, netcdf3. Each time is the median of
//! RUNS runs, 301 if not said. What both sides give is compared in the same run.

mod by_value;
mod clock;
mod element;
mod header;
mod headers;
mod kind;
mod record;
mod sample;
#[cfg(not(target_arch = "wasm32"))]
mod stack;
mod table;
#[cfg(not(target_arch = "wasm32"))]
mod theirs;
mod whole;
mod widen;
mod write;

fn main() {
    let runs = std::env::args().nth(1).map_or(301, |runs| runs.parse().expect("a number of runs"));
    let simd = if cfg!(target_feature = "simd128") { ", simd128 on both sides" } else { "" };
    println!("{}{simd}, medians of {runs} runs", std::env::consts::ARCH);
    header::measure(runs);
    write::measure(runs);
    widen::measure(runs);
    element::measure(runs);
    record::measure(runs);
    whole::measure(runs);
    #[cfg(not(target_arch = "wasm32"))]
    on_host(runs);
}

/// netcdf3 is not built for the guest, whose stack can't be painted either: it has one thread.
#[cfg(not(target_arch = "wasm32"))]
fn on_host(runs: usize) {
    theirs::records(runs);
    theirs::whole(runs);
    stack::measure();
}
