//! Measures the proved implementation beside this one: runs, reading, checking
//! and writing, of small, usual and the largest inputs. Both do everything in
//! turn, and their answers and memory must agree.

mod checks;
#[path = "../library/mod.rs"]
mod library;
mod measure;
mod programs;
mod readings;
mod runs;
mod writes;

use measure::Times;

const ROUNDS: usize = 15;

fn main() {
    println!("{ROUNDS} rounds, both in turn; ratio: the time of proved by that of Rust");
    heading("ns a step, n");
    runs::all().iter().map(runs::measure).for_each(|measured| print(&measured, Measured::ns));
    heading("reading, MB/s (bytes)");
    readings::all().iter().map(readings::measure).for_each(|it| print(&it, Measured::speed));
    let checks: Vec<Measured> = checks::all().iter().map(checks::measure).collect();
    heading("checking, µs (bytes of texts)");
    checks.iter().for_each(|measured| print(measured, Measured::micros));
    heading("checking, MB/s (bytes of texts)");
    checks.iter().for_each(|measured| print(measured, Measured::speed));
    heading("writing, µs (bytes of memory)");
    writes::all().iter().map(writes::measure).for_each(|it| print(&it, Measured::micros));
}

/// What both took for so many calls, each of which goes through `size` steps
/// or bytes.
pub struct Measured {
    name: String,
    times: usize,
    size: usize,
    proved: Times,
    rust: Times,
}

impl Measured {
    /// Nanoseconds for each of the size.
    fn ns(&self, seconds: f64) -> f64 {
        seconds * 1e9 / (self.times * self.size) as f64
    }

    /// Microseconds a call.
    fn micros(&self, seconds: f64) -> f64 {
        seconds * 1e6 / self.times as f64
    }

    /// Millions of the size in a second.
    fn speed(&self, seconds: f64) -> f64 {
        (self.times * self.size) as f64 / 1e6 / seconds
    }
}

fn heading(what: &str) {
    println!();
    println!("{:<40} {:^17}  {:^17}  {:^27}", "", "proved", "Rust", "ratio");
    let (figures, ratios) = ("    best   median", "  best median lowest highest");
    println!("{what:<40} {figures}  {figures}  {ratios}");
}

fn print(measured: &Measured, figure: fn(&Measured, f64) -> f64) {
    let Measured { name, proved, rust, .. } = measured;
    let of = |seconds| figure(measured, seconds);
    let pair = |times: &Times| format!("{:>8.2} {:>8.2}", of(times.best()), of(times.median()));
    let ratios = proved.ratios(rust);
    let best = proved.best() / rust.best();
    println!(
        "{name:<40} {}  {}  {best:>6.2} {:>6.2} {:>6.2} {:>7.2}",
        pair(proved),
        pair(rust),
        ratios.median(),
        ratios.best(),
        ratios.worst(),
    );
}
