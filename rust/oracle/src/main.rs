//! The oracle's commands; the README says what each does.

use draw::guest::Guests;
use draw::Random;
use oracle::{program, record, rows, rules};
use std::io::{Read, Write};
use std::path::Path;

const USE: &str =
    "use: oracle translate < INPUT | rows | record ROOT | check ROOT | fuzz COUNT [SEED]";

/// Ends the program if there is a difference.
fn none_differs(wrong: &[String]) {
    if wrong.is_empty() {
        return;
    }
    for line in wrong.iter().take(20) {
        eprintln!("oracle: {line}");
    }
    eprintln!("oracle: {} differ", wrong.len());
    std::process::exit(1)
}

fn translate() {
    let mut input = Vec::new();
    std::io::stdin().read_to_end(&mut input).expect("standard input");
    std::io::stdout().write_all(program::run(&input).as_bytes()).expect("standard output");
}

fn check_rows() {
    let (asked, wrong) = rows::check();
    none_differs(&wrong);
    println!("oracle: {asked} rows of document 01 and of Zbb as they must be");
    let (asked, wrong) = rules::check();
    none_differs(&wrong);
    println!("oracle: {asked} instructions and places by document 01's rules as the Rust has them");
}

fn write_files(root: &Path) {
    for (name, bytes) in record::files() {
        std::fs::write(root.join(name), &bytes).expect(name);
        println!("oracle: {name}, {} bytes", bytes.len());
    }
}

fn check_files(root: &Path) {
    let mut wrong = Vec::new();
    for (name, bytes) in record::files() {
        match std::fs::read(root.join(name)) {
            Err(error) => wrong.push(format!("{name}: {error}")),
            Ok(found) if found != bytes => {
                let at = found.iter().zip(&bytes).take_while(|(a, b)| a == b).count();
                let lengths = (found.len(), bytes.len());
                wrong
                    .push(format!("{name}: byte {at} is the first to differ; lengths {lengths:?}"));
            }
            Ok(_) => println!("oracle: {name} as the Rust has it, {} bytes", bytes.len()),
        }
    }
    none_differs(&wrong);
}

/// Random blocks by document 01's rules; a panic of the source ends the run.
fn fuzz(count: usize, seed: u64) {
    let mut random = Random(seed);
    let guests = Guests::default();
    let mut wrong = Vec::new();
    let (mut instructions, mut longest) = (0, 0);
    for _ in 0..count {
        let mut case = guests.case(&mut random);
        if random.below(3) == 0 {
            case.room = random.below(256);
        }
        match rules::compare(&case) {
            Ok(answer) => {
                instructions += answer.count as u64;
                longest = longest.max(answer.length);
            }
            Err(text) => wrong.push(text),
        }
    }
    none_differs(&wrong);
    println!("oracle: {count} blocks, {instructions} instructions, longest block {longest} bytes");
}

fn main() {
    let arguments: Vec<String> = std::env::args().skip(1).collect();
    let arguments: Vec<&str> = arguments.iter().map(String::as_str).collect();
    match arguments[..] {
        ["translate"] => translate(),
        ["rows"] => check_rows(),
        ["record", root] => write_files(Path::new(root)),
        ["check", root] => check_files(Path::new(root)),
        ["fuzz", count] => fuzz(count.parse().expect(USE), 1),
        ["fuzz", count, seed] => fuzz(count.parse().expect(USE), seed.parse().expect(USE)),
        _ => {
            eprintln!("{USE}");
            std::process::exit(2)
        }
    }
}
