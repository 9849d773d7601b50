//! Nanoseconds of the proved operations beside plain Rust on the same inputs, in one run.

mod index;
mod listing;
mod place;
mod runs;
mod translation;

use std::hint::black_box;
use std::time::Instant;

const SEED: u64 = 0x2B13_4309_95A6_4002;
const ROUNDS: usize = 40;
/// At least so many instructions, words, bytes or calls in a round.
const UNITS: usize = 16384;

/// How often the inputs, which have so many units together, come in a round.
fn turns(units: usize) -> usize {
    (UNITS / units).max(1)
}

/// The time of a round, in nanoseconds: every input as often as said.
fn round<T, A>(turns: usize, inputs: &[T], run: &mut impl FnMut(&T) -> A) -> f64 {
    let start = Instant::now();
    let inputs = inputs.iter().cycle().take(turns * inputs.len());
    inputs.for_each(|input| drop(black_box(run(input))));
    start.elapsed().as_nanos() as f64
}

/// A row: the least time of a round, in nanoseconds a unit, of each side; the two take turns.
/// A round has every input at least once, and all inputs together have so many units.
fn row<T, A, B>(
    name: &str,
    (units, unit): (usize, &str),
    inputs: &[T],
    mut proved: impl FnMut(&T) -> A,
    mut plain: impl FnMut(&T) -> B,
) {
    let turns = turns(units);
    let mut least = (f64::MAX, f64::MAX);
    for _ in 0..ROUNDS {
        least.0 = least.0.min(round(turns, inputs, &mut proved));
        least.1 = least.1.min(round(turns, inputs, &mut plain));
    }
    let all = (turns * units) as f64;
    let (one, other) = (least.0 / all, least.1 / all);
    println!("{name:36} {one:9.2} {other:9.2} ns a {unit:12} {:6.2}", one / other);
}

/// A row of the library alone, where no plain Rust does the same.
fn alone<T, A>(
    name: &str,
    (units, unit): (usize, &str),
    inputs: &[T],
    mut proved: impl FnMut(&T) -> A,
) {
    let turns = turns(units);
    let rounds = (0..ROUNDS).map(|_| round(turns, inputs, &mut proved));
    let one = rounds.fold(f64::MAX, f64::min) / (turns * units) as f64;
    println!("{name:36} {one:9.2} {:9} ns a {unit:12}", "");
}

fn main() {
    if oracle::CHECKED {
        eprintln!(
            "bench: emuko's Rust is measured without its checks: cargo run --profile measure"
        );
        std::process::exit(2)
    }
    println!("{:36} {:>9} {:>9} {:17} {:>6}", "", "proved", "plain", "", "ratio");
    translation::rows();
    runs::rows();
    place::rows();
    listing::rows();
    index::rows();
}
