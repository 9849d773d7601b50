//! Place beside a checked `copy_from_slice`.

use crate::{row, SEED};
use draw::Random;
use hilofanur::boundary::{self, PlaceAnswer};

pub fn rows() {
    for length in [64, 1024, 7448] {
        place(length);
    }
}

fn plain_place(store: &mut [u8], used: u64, code: &[u8]) -> PlaceAnswer {
    if used > store.len() as u64 {
        return PlaceAnswer { refusal: 7, ..PlaceAnswer::default() };
    }
    let start = (used as usize).next_multiple_of(4);
    match store.get_mut(start..).and_then(|rest| rest.get_mut(..code.len())) {
        None => PlaceAnswer { refusal: 8, ..PlaceAnswer::default() },
        Some(room) => {
            room.copy_from_slice(code);
            PlaceAnswer { refusal: 0, start: start as u64, used: (start + code.len()) as u64 }
        }
    }
}

/// Code of `length` bytes into a store of 64 KiB.
fn place(length: usize) {
    let mut random = Random(SEED);
    let code = random.bytes(length);
    let mut store = vec![0; 0x1_0000];
    let mut plain_store = store.clone();
    let used: Vec<u64> = (0..4096).map(|_| random.below(store.len() - length - 3) as u64).collect();
    for &used in &used {
        let answer = boundary::place(&mut store, used, &code);
        assert_eq!(answer.refusal, 0);
        assert_eq!(answer, plain_place(&mut plain_store, used, &code));
    }
    assert!(store == plain_store);
    row(
        &format!("Place, {length} bytes"),
        (length * used.len(), "byte"),
        &used,
        |&used| boundary::place(&mut store, used, &code),
        |&used| plain_place(&mut plain_store, used, &code),
    );
}
