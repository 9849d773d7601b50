//! The example `dispatcher`, run on the guest programs beside it and on short raw binaries; its modules' own tests.

#[allow(dead_code)]
#[path = "../examples/dispatcher/main.rs"]
mod example;

use hilofanur::Refusal;
use std::path::{Path, PathBuf};
use std::process::{Command, Output};

const CENTROID: &str = include_str!("../examples/centroid/output.txt");
const PATCH: &str = concat!(env!("CARGO_MANIFEST_DIR"), "/examples/patch/patch");
const PATCHED: &str = include_str!("../examples/patch/output.txt");
const HITS: &str = concat!(env!("CARGO_MANIFEST_DIR"), "/examples/hits/hits");
const COUNTED: &str = include_str!("../examples/hits/output.txt");

fn dispatcher(arguments: &[&str]) -> Output {
    let deps = std::env::current_exe().unwrap();
    let example = deps.parent().unwrap().with_file_name("examples").join("dispatcher");
    Command::new(&example)
        .args(arguments)
        .output()
        .expect("cargo test without a filter builds the example")
}

fn lines(output: &Output) -> Vec<String> {
    String::from_utf8_lossy(&output.stdout).lines().map(str::to_string).collect()
}

fn starting<'a>(lines: &'a [String], start: &str) -> Vec<&'a str> {
    lines.iter().filter_map(|line| line.strip_prefix(start)).collect()
}

/// The decimal numbers of the one line that starts so.
fn numbers(lines: &[String], start: &str) -> Vec<u64> {
    let found = starting(lines, start);
    assert_eq!(found.len(), 1, "{start}: {lines:?}");
    let digits = found[0].split(|c: char| !c.is_ascii_digit());
    digits.filter_map(|digits| digits.parse().ok()).collect()
}

/// A guest program: the same text as under qemu-riscv64, and no difference.
fn as_recorded(arguments: &[&str], recorded: &str) -> Vec<String> {
    let output = dispatcher(arguments);
    let lines = lines(&output);
    assert_eq!(starting(&lines, "guest: "), recorded.lines().collect::<Vec<_>>());
    assert_eq!(starting(&lines, "differences: "), ["0"]);
    assert_eq!(lines.last().unwrap(), "exit status of the guest: 0");
    assert!(output.status.success());
    lines
}

/// Bytes of the program's longest block, which is at 10252.
const LONGEST: usize = 320;

/// In a store that holds all blocks none is dropped. In a small one blocks are dropped and translated again, the
/// smaller the more often, and what is run stays the same.
#[test]
fn stores() {
    let whole = as_recorded(&[], CENTROID);
    let blocks = numbers(&whole, "blocks: ")[0];
    let run = numbers(&whole, "run: ");
    let [returned, after, loads, stores, _] = numbers(&whole, "stops: ")[..] else {
        panic!("{whole:?}")
    };
    assert_eq!((returned, after), (run[0], loads + stores));
    assert!(loads >= 1_000 && stores >= 100, "{loads} loads, {stores} stores");
    assert_eq!(numbers(&whole, "index: "), [blocks, run[0] - blocks, 0]);
    for (store, least) in [(8_192, 10), (1_024, 1_000), (LONGEST, 5_000)] {
        let lines = as_recorded(&["--store", &store.to_string()], CENTROID);
        assert_eq!(numbers(&lines, "fences: "), [0, 0]);
        assert_eq!(numbers(&lines, "run: "), run);
        assert_eq!(numbers(&lines, "stops: "), numbers(&whole, "stops: "));
        let [placed, found, dropped] = numbers(&lines, "index: ")[..] else { panic!("{lines:?}") };
        assert_eq!((placed, placed + found), (numbers(&lines, "blocks: ")[0], run[0]), "{store}");
        assert!(dropped >= least && placed >= blocks, "{store}: {dropped} dropped");
        // Those that are kept have their room in the store; the shortest block has three words.
        let kept = placed - dropped;
        assert!(kept >= 1 && 12 * kept <= store as u64, "{store}: {kept} kept");
    }
}

/// Bytes of the longest block of the program that patches itself, which is at 101de.
const LONGEST_PATCHED: usize = 244;

/// The program that patches its loop: each FENCE.I empties the index, and the new loop is run; in small stores too.
#[test]
fn patched() {
    let fences = PATCHED.lines().count() as u64;
    let run = numbers(&as_recorded(&[PATCH], PATCHED), "run: ");
    for store in [1 << 20, 1_024, LONGEST_PATCHED] {
        let lines = as_recorded(&["--store", &store.to_string(), PATCH], PATCHED);
        assert_eq!(numbers(&lines, "run: "), run);
        let [placed, found, dropped] = numbers(&lines, "index: ")[..] else { panic!("{lines:?}") };
        let [fenced, emptied] = numbers(&lines, "fences: ")[..] else { panic!("{lines:?}") };
        assert_eq!(fenced, fences);
        assert_eq!(placed + fenced, numbers(&lines, "blocks: ")[0], "{store}");
        assert_eq!(placed + found + fenced, run[0], "{store}");
        // Each emptying finds a block, and after the last one some are left.
        assert!(emptied >= fences && dropped + emptied < placed, "{store}: {emptied} emptied");
        assert_eq!(dropped == 0, store == 1 << 20, "{store}: {dropped} dropped");
    }
}

/// Bytes of the longest block of the program with Zbb, which is at 101d0.
const LONGEST_HITS: usize = 748;

/// The program that is built with Zbb: the same text and no difference, in a store that holds all blocks and in one
/// that holds the longest.
#[test]
fn with_zbb() {
    let whole = as_recorded(&[HITS], COUNTED);
    let blocks = numbers(&whole, "blocks: ")[0];
    let run = numbers(&whole, "run: ");
    assert!(run[1] > 90_000, "{run:?}");
    assert_eq!(numbers(&whole, "index: "), [blocks, run[0] - blocks, 0]);
    let lines = as_recorded(&["--store", &LONGEST_HITS.to_string(), HITS], COUNTED);
    assert_eq!(numbers(&lines, "run: "), run);
    assert!(numbers(&lines, "index: ")[2] >= 10_000);
}

/// Where the index is kept, the old loop is run, and the instruction after the first FENCE.I; both runs differ.
#[test]
fn kept() {
    let area = |gain: u64| 64_755 * gain;
    let recorded = |gain: u64| {
        let (before, after) = (area(gain - 1), area(gain));
        format!("calibration {}, gain {gain}: area {before} before, {after} after", gain - 1)
    };
    let old = |gain: u64| {
        let area = area(1);
        format!("calibration 1, gain {gain}: area {area} before, {area} after")
    };
    let all = |line: &dyn Fn(u64) -> String| (2..=6).map(line).collect::<Vec<_>>();
    assert_eq!(PATCHED.lines().collect::<Vec<_>>(), all(&recorded));
    let output = dispatcher(&["--keep", PATCH]);
    let lines = lines(&output);
    assert_eq!(starting(&lines, "guest: "), all(&old));
    assert_eq!(numbers(&lines, "fences: "), [5, 0]);
    let differences = starting(&lines, "  DIFFERENCE ");
    assert_eq!(numbers(&lines, "differences: "), [differences.len() as u64]);
    // Each pass of the old loop, five times after a patch and four times before the next, and the number four times.
    assert_eq!(differences.len(), 16 * 9 + 4);
    assert_eq!(lines.last().unwrap(), "exit status of the guest: 5");
    assert_eq!(output.status.code(), Some(1));
}

/// A store that is shorter than a block, and arguments that are no store or no option.
#[test]
fn arguments_that_do_not_do() {
    let refused = |at| {
        let text = Refusal::CodeLength.to_string();
        format!("dispatcher: place at {at}: {text}\n")
    };
    let cases: [(&[&str], &str); 8] = [
        (&["--store", "316"], &refused("10252")),
        (&["--store", "0"], &refused("100e8")),
        (&["--store", "240", PATCH], &refused("101de")),
        (&["--store", "744", HITS], &refused("101d0")),
        (&["--keep", "--stores", "316"], "dispatcher: --stores is no option\n"),
        (&["--store"], "dispatcher: --store wants a number of bytes\n"),
        (&["--store", "1k"], "dispatcher: 1k is no number of bytes up to 268435456\n"),
        (
            &["--store", "268435457"],
            "dispatcher: 268435457 is no number of bytes up to 268435456\n",
        ),
    ];
    for (arguments, error) in cases {
        let output = dispatcher(arguments);
        assert_eq!(String::from_utf8_lossy(&output.stderr), error);
        assert_eq!(output.status.code(), Some(1), "{arguments:?}");
    }
}

fn raw(name: &str, code: &[u32]) -> PathBuf {
    let path = Path::new(env!("CARGO_TARGET_TMPDIR")).join(name);
    let bytes: Vec<u8> = code.iter().flat_map(|word| word.to_le_bytes()).collect();
    std::fs::write(&path, bytes).unwrap();
    path
}

#[test]
fn raw_binaries() {
    // addi a0, x0, 5; addi a7, x0, 93; ecall
    let exit = raw("exit", &[0x0050_0513, 0x05D0_0893, 0x73]);
    let output = dispatcher(&[exit.to_str().unwrap()]);
    assert_eq!(lines(&output).last().unwrap(), "exit status of the guest: 5");
    assert!(!output.status.success());
    // From the second instruction on, at another base: a0 is 0.
    let output = dispatcher(&[exit.to_str().unwrap(), "80000004", "80000000"]);
    assert_eq!(lines(&output).last().unwrap(), "exit status of the guest: 0");
    assert!(output.status.success());
}

/// The first block is listed: two C.NOP, and the end of the block.
#[test]
fn listing() {
    // Two c.nop; ecall
    let nops = raw("nops", &[0x0001_0001, 0x73]);
    let output = dispatcher(&[nops.to_str().unwrap()]);
    let expected = [
        "  block at 10000: 2 guest instructions, 4 words",
        "    00000000 d2800080 movz x0, #4, lsl #0",
        "    00000004 f2a00020 movk x0, #1, lsl #16",
        "    00000008 d2800041 movz x1, #2, lsl #0",
        "    0000000c d65f03c0 ret x30",
    ];
    assert_eq!(lines(&output)[1..6], expected);
    assert!(output.status.success());
}

/// FENCE goes on; FENCE.I ends its block, which is listed, run and translated again when its turn comes.
#[test]
fn fences() {
    // addi a0, x0, 2; fence; fence.i; addi a0, a0, -1; bne a0, x0, to fence; ecall
    let code = [0x0020_0513, 0x0FF0_000F, 0x0000_100F, 0xFFF5_0513, 0xFE05_1AE3, 0x73];
    let path = raw("fences", &code);
    let output = dispatcher(&[path.to_str().unwrap()]);
    let lines = lines(&output);
    let blocks = [
        "10000: 3 guest instructions, 8 words, the last FENCE.I",
        "1000c: 2 guest instructions, 17 words",
        "10004: 2 guest instructions, 4 words, the last FENCE.I",
        "1000c: 2 guest instructions, 17 words",
    ];
    assert_eq!(starting(&lines, "  block at "), blocks);
    assert_eq!(numbers(&lines, "index: "), [2, 0, 0]);
    assert_eq!(numbers(&lines, "fences: "), [2, 1]);
    assert_eq!(starting(&lines, "differences: "), ["0"]);
    assert!(output.status.success());
}

#[test]
fn what_is_not_served() {
    // csrr a0, cycle; ld a0, 0(x0); amoadd.w a0, a1, (sp); zeros; a jump out of memory
    let cases: [(&str, &[u32], &str); 5] = [
        ("csr", &[0x13, 0xC000_2573], "c0002573 at 10004 is not covered"),
        ("load", &[0x13, 0x0000_3503], "3503 at 10004: 8 bytes at 0 are not in memory"),
        ("amo", &[0x13, 0x00B1_252F], "b1252f at 10004: not served"),
        ("zeros", &[], "0 at 10000 is not covered"),
        (
            "jump",
            &[0x0000_0067],
            "translate at 0: refused 4: the first instruction lacks a halfword",
        ),
    ];
    for (name, code, error) in cases {
        let path = raw(name, code);
        let output = dispatcher(&[path.to_str().unwrap()]);
        let text = String::from_utf8_lossy(&output.stderr);
        assert!(text.contains(error), "{name}: {text}");
        assert_eq!(output.status.code(), Some(1), "{name}");
    }
}
