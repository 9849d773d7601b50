//! Translate beside emuko's `compile_native_block`.

use crate::{alone, row, SEED};
use draw::class::{first, Class};
use draw::guest::Guests;
use draw::marked::{DIV, HELPERS, LONG_PC as PC};
use draw::marked_zbb::CPOPW;
use draw::zbb::plain_straight;
use draw::{Case, Random, LONGEST};
use hilofanur::{boundary, Guest, Host};
use oracle::{expected, translate, Answer};
use std::hint::black_box;

const LIMIT: u32 = 64;
const HOST: Host =
    Host { slot_offset: 0, memory_helper: HELPERS[0], helper32: HELPERS[1], helper16: HELPERS[2] };

pub fn rows() {
    let (guests, mut random) = (Guests::default(), Random(SEED));
    let mut blocks = |length: usize, number: usize| -> Vec<Vec<u8>> {
        (0..number).map(|_| guests.plain_block(&mut random, length)).collect()
    };
    let (long, short) = (blocks(64, 256), blocks(8, 2048));
    let (nine, sixteen) = (blocks(9, 2048), blocks(16, 1024));
    measure("Translate, 64 DIV", (64, LIMIT), &[DIV.repeat(64)]);
    measure("Translate, 256 blocks of 64", (64, LIMIT), &long);
    measure("Translate, 2048 blocks of 8", (8, LIMIT), &short);
    measure("Translate, 2048 blocks of 9", (9, LIMIT), &nine);
    measure("Translate, 1024 blocks of 16", (16, LIMIT), &sixteen);
    measure("Translate, 4 blocks of 64", (64, LIMIT), &long[..4]);
    measure("Translate, 4 blocks of 8", (8, LIMIT), &short[..4]);
    let single: Vec<Vec<u8>> = (0..4096).map(|_| guests.plain_single(&mut random)).collect();
    measure("Translate, 4096 single instructions", (1, LIMIT), &single);
    measure("Translate, 64 C.NOP", (64, LIMIT), &[[1, 0].repeat(64)]);
    let fenced: Vec<Vec<u8>> = (0..2048).map(|_| guests.plain_fenced(&mut random, 8)).collect();
    measure("Translate, 2048 blocks of 8, FENCE.I", (8, 8), &fenced);
    measure_real("Translate, the guests' own blocks", &[CENTROID, PATCH]);
    let mut zbb = |length: usize, number: usize| -> Vec<Vec<u8>> {
        (0..number).map(|_| plain_straight(&mut random, length)).collect()
    };
    measure_alone("Translate, 64 CPOPW", 64, &[CPOPW.repeat(64)]);
    measure_alone("Translate, 256 blocks of 64, Zbb", 64, &zbb(64, 256));
    measure_alone("Translate, 2048 blocks of 8, Zbb", 8, &zbb(8, 2048));
    measure_alone("Translate, 4096 single ones of Zbb", 1, &zbb(1, 4096));
    let blocks = real_compared(&[HITS]);
    let (name, mut output) = ("Translate, the Zbb guest's own blocks", vec![0; LONGEST]);
    alone(name, (blocks.len(), "block"), &blocks, |(bytes, pc)| {
        proved_at(bytes, *pc, black_box(&mut output))
    });
}

/// The guests of the example dispatchers. The Rust does not take the third one's Zbb.
const CENTROID: &[u8] = include_bytes!("../../hilofanur/examples/centroid/centroid");
const PATCH: &[u8] = include_bytes!("../../hilofanur/examples/patch/patch");
const HITS: &[u8] = include_bytes!("../../hilofanur/examples/hits/hits");

/// The sections of an ELF64 file that have code: their addresses and bytes.
fn code(file: &[u8]) -> Vec<(u64, &[u8])> {
    let number = |at: usize, size: usize| {
        file[at..][..size].iter().rev().fold(0, |number, &byte| number << 8 | u64::from(byte))
    };
    let heads = (0..number(60, 2)).map(|n| (number(40, 8) + 64 * n) as usize);
    let executable = heads.filter(|head| number(head + 8, 8) & 4 != 0);
    let part = |at: usize| (number(at + 24, 8) as usize, number(at + 32, 8) as usize);
    executable.map(|head| (number(head + 16, 8), &file[part(head).0..][..part(head).1])).collect()
}

/// The blocks of a guest, each from where the one before it ends: their bytes, at most 256, and their PCs.
fn real(file: &[u8]) -> Vec<(Vec<u8>, u64)> {
    let (mut found, mut output) = (vec![], vec![0; LONGEST]);
    for (address, bytes) in code(file) {
        let mut at = 0;
        while let Some((class, size)) = first(&bytes[at..], false) {
            let window = &bytes[at..bytes.len().min(at + 256)];
            if class == Class::Uncovered {
                at += size;
                continue;
            }
            found.push((window.to_vec(), address + at as u64));
            for _ in 0..proved_at(window, address + at as u64, &mut output).count {
                at += first(&bytes[at..], false).map_or(0, |(_, size)| size);
            }
        }
    }
    found
}

/// The blocks of the guests, each as it must be.
fn real_compared(files: &[&[u8]]) -> Vec<(Vec<u8>, u64)> {
    let blocks: Vec<_> = files.iter().flat_map(|file| real(file)).collect();
    let (mut one, mut other) = (vec![0; LONGEST], vec![0; LONGEST]);
    for (bytes, pc) in &blocks {
        let answer = proved_at(bytes, *pc, &mut one);
        assert_eq!(answer, expected(&Case { pc: *pc, ..Case::new(bytes, LIMIT) }, &mut other));
        assert!(answer.refusal == 0 && one == other);
    }
    blocks
}

fn measure_real(name: &str, files: &[&[u8]]) {
    let blocks = real_compared(files);
    let (mut one, mut other) = (vec![0; LONGEST], vec![0; LONGEST]);
    row(
        name,
        (blocks.len(), "block"),
        &blocks,
        |(bytes, pc)| proved_at(bytes, *pc, black_box(&mut one)),
        |(bytes, pc)| {
            translate(bytes, *pc, LIMIT, false, HOST.slot_offset, HELPERS, black_box(&mut other))
        },
    );
}

fn proved(bytes: &[u8], output: &mut [u8]) -> Answer {
    proved_at(bytes, PC, output)
}

fn proved_at(bytes: &[u8], pc: u64, output: &mut [u8]) -> Answer {
    let guest = Guest { bytes, pc, limit: LIMIT, ignore_ebreak: false };
    let a = boundary::translate(&guest, &HOST, output);
    Answer { refusal: a.refusal, length: a.length, count: a.count, end: a.end }
}

fn plain(bytes: &[u8], limit: u32, output: &mut [u8]) -> Answer {
    translate(bytes, PC, limit, false, HOST.slot_offset, HELPERS, output)
}

/// Compares the blocks with what they must be: each has so many instructions.
fn compare(count: usize, blocks: &[Vec<u8>]) {
    let (mut one, mut other) = (vec![0; LONGEST], vec![0; LONGEST]);
    for block in blocks {
        let answer = proved(block, &mut one);
        assert_eq!((answer.refusal, answer.count as usize), (0, count));
        assert_eq!(answer, expected(&Case { pc: PC, ..Case::new(block, LIMIT) }, &mut other));
        assert!(one == other);
    }
}

/// Compares, then measures the library alone: the Rust does not take Zbb.
fn measure_alone(name: &str, count: usize, blocks: &[Vec<u8>]) {
    compare(count, blocks);
    let mut output = vec![0; LONGEST];
    let units = (count * blocks.len(), "instruction");
    alone(name, units, blocks, |block| proved(block, black_box(&mut output)));
}

/// Compares what both answer, then measures. The Rust is asked at the limit given: it does not end a block by FENCE.I.
fn measure(name: &str, (count, limit): (usize, u32), blocks: &[Vec<u8>]) {
    compare(count, blocks);
    let (mut one, mut other) = (vec![0; LONGEST], vec![0; LONGEST]);
    for block in blocks {
        let (answer, asked) = (proved(block, &mut one), plain(block, limit, &mut other));
        assert_eq!(answer, Answer { end: answer.end, ..asked });
    }
    row(
        name,
        (count * blocks.len(), "instruction"),
        blocks,
        |block| proved(block, black_box(&mut one)),
        |block| plain(block, limit, black_box(&mut other)),
    );
}
