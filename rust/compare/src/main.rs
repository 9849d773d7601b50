//! The proved operations compared with their references on inputs drawn from a seed; the README says which.

mod a64;
mod blocks;
mod helpers;
mod index;
mod listing;
mod place;
mod rv64;
mod soak;
mod translate;
mod zbb;

use draw::{Case, Random};
use hilofanur::{Guest, Host};
use std::time::{Duration, Instant};
use zbb::Zbb;

const USE: &str = "use: compare [soak | ROW] COUNT [SEED]";
/// How many differences are printed.
const SHOWN: u64 = 10;

/// An operation and its reference.
trait Compared {
    const NAME: &'static str;
    /// What can come of a case.
    const OUTCOMES: &'static [&'static str];
    /// With at least so many cases every outcome must have been met.
    const ENOUGH: u64 = 10_000;
    /// One case: its outcome, or what differs.
    fn compare(&mut self, random: &mut Random) -> Result<usize, String>;
    /// What else must have been met, and was not.
    fn missed(&self) -> Vec<String> {
        Vec::new()
    }
    /// What was met of Zbb, where guests are drawn: some block, and every instruction.
    fn zbb(&self) -> Option<&Zbb> {
        None
    }
}

/// The question as the library takes it.
fn question(case: &Case) -> (Guest<'_>, Host) {
    let Case { guest: ref bytes, pc, limit, ignore_ebreak, slot_offset, helpers, .. } = *case;
    let [memory_helper, helper32, helper16] = helpers;
    (
        Guest { bytes, pc, limit, ignore_ebreak },
        Host { slot_offset, memory_helper, helper32, helper16 },
    )
}

/// Which rows, how many cases each, and their seed.
struct Asked {
    /// The one of this name, or every row.
    row: Option<String>,
    count: u64,
    seed: u64,
}

/// Compares the cases, with a line of progress now and then. True if none differs; nothing if the row is not asked for.
fn run<T: Compared + Default>(asked: &Asked) -> Option<bool> {
    if asked.row.as_ref().is_some_and(|row| row != T::NAME) {
        return None;
    }
    let &Asked { count, seed, .. } = asked;
    let (mut operation, mut random) = (T::default(), Random(seed));
    let mut met = vec![0u64; T::OUTCOMES.len()];
    let mut differences = 0;
    let mut shown = Instant::now();
    for case in 0..count {
        match operation.compare(&mut random) {
            Ok(outcome) => met[outcome] += 1,
            Err(text) => {
                differences += 1;
                if differences <= SHOWN {
                    println!("{}: case {case}: {text}", T::NAME);
                }
            }
        }
        if case % 4096 == 0 && shown.elapsed() > Duration::from_secs(5) {
            println!("{}: {case} of {count} cases, {differences} differences", T::NAME);
            shown = Instant::now();
        }
    }
    let mut outcomes: Vec<String> =
        T::OUTCOMES.iter().zip(&met).map(|(name, number)| format!("{name} {number}")).collect();
    outcomes.extend(operation.zbb().map(|zbb| format!("in all with Zbb {}", zbb.blocks())));
    println!("{}: {}", T::NAME, outcomes.join(", "));
    let missed = if count >= T::ENOUGH { missed(&operation, &met) } else { Vec::new() };
    if !missed.is_empty() {
        println!("{}: never met: {}", T::NAME, missed.join(", "));
    }
    println!("{}: {count} cases, differences {differences}", T::NAME);
    Some(differences == 0 && missed.is_empty())
}

/// The outcomes that were not met, and what else the row misses.
fn missed<T: Compared>(operation: &T, met: &[u64]) -> Vec<String> {
    let outcomes = T::OUTCOMES.iter().zip(met).filter(|(_, &met)| met == 0);
    let mut missed: Vec<String> = outcomes.map(|(name, _)| name.to_string()).collect();
    missed.extend(operation.missed());
    missed.extend(operation.zbb().map_or(vec![], Zbb::missed));
    missed
}

/// The rows that are asked for, if there are any; true if nothing differs.
fn rows(asked: &Asked) -> Option<bool> {
    let rows = [
        run::<translate::Translate>(asked),
        run::<place::Place>(asked),
        run::<rv64::Rv64>(asked),
        run::<a64::A64>(asked),
        run::<listing::Listing>(asked),
        run::<index::Index>(asked),
        run::<blocks::Blocks>(asked),
        run::<helpers::Helpers>(asked),
    ];
    let same: Vec<bool> = rows.into_iter().flatten().collect();
    (!same.is_empty()).then_some(!same.contains(&false))
}

/// What the arguments ask for: a row's name or `soak`, a number of cases, a seed.
fn asked() -> Option<Asked> {
    let mut arguments = std::env::args().skip(1).peekable();
    let row = arguments.next_if(|argument| argument.parse::<u64>().is_err());
    let numbers: Option<Vec<u64>> = arguments.map(|argument| argument.parse().ok()).collect();
    match numbers.as_deref() {
        Some(&[count]) => Some(Asked { row, count, seed: 1 }),
        Some(&[count, seed]) => Some(Asked { row, count, seed }),
        _ => None,
    }
}

fn main() {
    let same = asked().and_then(|asked| match asked.row.as_deref() {
        Some("soak") => Some(soak::soak(asked.count, asked.seed)),
        _ => rows(&asked),
    });
    std::process::exit(match same {
        Some(true) => 0,
        Some(false) => 1,
        None => {
            eprintln!("{USE}");
            2
        }
    })
}
