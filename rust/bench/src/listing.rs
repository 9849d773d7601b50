//! The listing beside two plain writers: one of plain, exact pushes, one by `write!`.

use crate::runs::translation;
use crate::{row, SEED};
use draw::guest::Guests;
use draw::listing::plain_words;
use draw::zbb::plain_straight;
use draw::Random;
use hilofanur::{boundary, LONGEST_LINE};
use std::hint::black_box;
use steppers::{list, list_fmt, ListAnswer};

pub fn rows() {
    let mut random = Random(SEED);
    let (long, short) = (translations(&mut random, 64, 256), translations(&mut random, 8, 2048));
    measure("List, 256 blocks of 64", &long);
    measure("List, 2048 blocks of 8", &short);
    measure("List, 4 blocks of 64", &long[..4]);
    measure("List, 4 blocks of 8", &short[..4]);
    let zbb = (0..256).map(|_| translation(&plain_straight(&mut random, 64)));
    measure("List, 256 blocks of 64, Zbb", &zbb.collect::<Vec<_>>());
    let mut words = |length, number| -> Vec<Vec<u8>> {
        (0..number).map(|_| plain_words(&mut random, length)).collect()
    };
    let (long, short) = (words(400, 40), words(16, 1024));
    measure("List, 40 times 400 words", &long);
    measure("List, 1024 times 16 words", &short);
    measure("List, 1 times 400 words", &long[..1]);
    measure("List, 4 times 16 words", &short[..4]);
    row(
        "List, no word",
        (1, "call"),
        &[()],
        |()| proved(black_box(&[]), &mut []),
        |()| list(black_box(&[]), &mut []),
    );
}

/// The words of so many blocks of `length` guest instructions.
fn translations(random: &mut Random, length: usize, number: usize) -> Vec<Vec<u8>> {
    let guests = Guests::default();
    (0..number).map(|_| translation(&guests.plain_block(random, length))).collect()
}

fn proved(block: &[u8], output: &mut [u8]) -> ListAnswer {
    let a = boundary::list(block, output);
    ListAnswer { refusal: a.refusal, length: a.length, offset: a.offset }
}

/// Compares what all three answer, then measures each plain writer's rows.
fn measure(name: &str, blocks: &[Vec<u8>]) {
    let mut exact = Vec::new();
    for block in blocks {
        let room = block.len() / 4 * LONGEST_LINE;
        let [mut one, mut other, mut third] = [(); 3].map(|()| vec![0; room]);
        let answer = list(block, &mut one);
        assert_eq!(answer.refusal, 0);
        assert_eq!((answer, answer), (proved(block, &mut other), list_fmt(block, &mut third)));
        assert!(one == other && one == third);
        exact.push((block, answer.length as usize));
    }
    let ample: Vec<(&Vec<u8>, usize)> =
        blocks.iter().map(|block| (block, block.len() / 4 * LONGEST_LINE)).collect();
    beside(name, &ample, list);
    beside(&format!("{name}, exact"), &exact, list);
    beside(&format!("{name}, write!"), &ample, list_fmt);
}

/// The library beside a plain writer, each block into as many bytes as stand beside it.
fn beside(
    name: &str,
    blocks: &[(&Vec<u8>, usize)],
    plain: impl Fn(&[u8], &mut [u8]) -> ListAnswer,
) {
    let words = blocks.iter().map(|(block, _)| block.len() / 4).sum();
    let most = blocks.iter().map(|&(_, room)| room).max().unwrap_or(0);
    let (mut one, mut other) = (vec![0; most], vec![0; most]);
    row(
        name,
        (words, "word"),
        blocks,
        |&(block, room)| proved(block, black_box(&mut one[..room])),
        |&(block, room)| plain(block, black_box(&mut other[..room])),
    );
}
