//! The store through the binding: its numbers are the header's, a run ends, and no cut gives a third image.

#![forbid(unsafe_code)]

use tillerclover::store::{current, length, next, put, Error, Step, MARKS};

const N: usize = 40;

fn image(seed: u8) -> Vec<u8> {
    (0..N as u8).map(|i| i.wrapping_mul(7) ^ seed).collect()
}

/// A device without faults.
fn whole(store: &mut [u8], image: &[u8]) -> usize {
    put(store, image, |_, byte| Ok::<u8, ()>(byte)).expect("it is stored")
}

#[test]
fn the_headers_numbers() {
    let path = concat!(env!("CARGO_MANIFEST_DIR"), "/include/tillerclover_store.h");
    let text = std::fs::read_to_string(path).expect("the header");
    for (name, number) in [("MARKS", MARKS), ("DONE", 0), ("WRITE", 1), ("UNFIT", 2)] {
        assert!(text.contains(&format!("TILLERCLOVER_STORE_{name} = {number}")), "{name}");
    }
    assert!(text.contains("(2 * (n) + TILLERCLOVER_STORE_MARKS)"));
}

#[test]
fn every_cut() {
    let (old, new) = (image(1), image(2));
    let mut store = vec![0xff; length(N)];
    whole(&mut store, &old);
    let (mut from, mut writes) = (0, 0);
    while let Step::Write { place, byte } = next(&store, &new, from) {
        for value in 0..=255 {
            let mut left = store.clone();
            left[place] = value;
            let found = current(&left, N).expect("an image");
            assert!(found == old || (found == new && place >= 2 * N), "place {place}, value {value}");
        }
        store[place] = byte;
        (from, writes) = (place + 1, writes + 1);
    }
    assert_eq!((current(&store, N), writes), (Some(&new[..]), N + 1));
    assert_eq!(whole(&mut store, &new), 0);
}

#[test]
fn faults() {
    let mut store = vec![0; length(N) + 1];
    assert!(matches!(put(&mut store, &image(3), |_, _| Ok::<u8, ()>(0)), Err(Error::Unfit)));
    assert_eq!((next(&store, &image(3), 0), current(&store, N)), (Step::Unfit, None));
    assert_eq!(current(&store, usize::MAX), None);
    store.pop();
    let before = current(&store, N).expect("an image").to_vec();
    let worn = put(&mut store, &image(3), |_, _| Ok::<u8, ()>(0x55));
    assert!(matches!(worn, Err(Error::Worn(writes)) if writes == N + 1));
    assert_eq!(current(&store, N), Some(&before[..]));
    let failed = put(&mut store, &image(3), |_, _| Err("no power"));
    assert_eq!(failed.expect_err("a fault").to_string(), "the image cannot be stored: no power");
}
