//! Tests of the vector file and its form.

use super::*;
use crate::answers::OF_RECORDS;
use crate::files::{Converted, File};

/// Reads the file as another program would.
fn replay(mut bytes: &[u8]) -> [usize; 6] {
    let mut current: Option<TableBytes> = None;
    let mut queue = QueueBytes::empty();
    let mut defaults = Defaults::none();
    let (mut records, mut checks, mut tested, mut converted, mut hand_ins, mut takes) = (0, 0, 0, 0, 0, 0);
    let mut take = |count: usize| {
        let (taken, rest) = bytes.split_at_checked(count)?;
        bytes = rest;
        Some(taken)
    };
    let number = |pair: &[u8]| pair[0] as usize * 256 + pair[1] as usize;
    while let Some(tag) = take(1) {
        match tag[0] {
            tag @ (TABLES | CHECK) => {
                let mut tables = [0; SIZE];
                tables[..CREDENTIALS.start].copy_from_slice(take(CREDENTIALS.start).unwrap());
                for start in [CREDENTIALS.start, ACCESSES.start] {
                    let length = number(take(2).unwrap());
                    tables[start..start + length].copy_from_slice(take(length).unwrap());
                }
                if tag == CHECK {
                    assert_eq!(Some(tables), current);
                    checks += 1;
                }
                current = Some(tables);
            }
            tag @ (QUEUE | CHECK_QUEUE) => {
                let length = number(take(2).unwrap());
                let queue_bytes = QueueBytes::from_bytes(take(length).unwrap());
                if tag == CHECK_QUEUE {
                    assert_eq!(queue_bytes, queue);
                }
                queue = queue_bytes;
            }
            tag @ (RECORD | HAND_IN | TAKE) => {
                let clock = if tag == HAND_IN { 0 } else { u32::from_be_bytes(take(4).unwrap().try_into().unwrap()) };
                let length = if tag == TAKE { 0 } else { number(take(2).unwrap()) };
                let record = take(length).unwrap();
                let capacity = if tag == HAND_IN { 0 } else { number(take(2).unwrap()) };
                let call = match tag {
                    RECORD => Call::Judge,
                    HAND_IN => Call::HandIn,
                    _ => Call::Take,
                };
                let case =
                    Case { call, clock, capacity, defaults: defaults.clone(), ..Case::new(&current.unwrap(), record) };
                let outcome = judge(&Case { queue, ..case });
                if tag == HAND_IN {
                    assert_eq!(take(1).unwrap(), [outcome.response.answer]);
                    hand_ins += 1;
                } else {
                    assert_eq!(take(2).unwrap(), [outcome.response.answer, outcome.response.permission]);
                    let start = number(take(2).unwrap());
                    let length = number(take(2).unwrap());
                    assert_eq!(length, outcome.response.payload.len());
                    assert_eq!(start, if length == 0 { 0 } else { 4 });
                    let length = number(take(2).unwrap());
                    assert!(length <= capacity);
                    let places = take(2).unwrap();
                    assert_eq!(places[0] as usize, outcome.response.store.start);
                    assert_eq!(places[1] as usize, outcome.response.store.len());
                    assert_eq!(take(8).unwrap(), outcome.response.links.to_be_bytes());
                    assert_eq!(take(1).unwrap()[0] as usize, outcome.response.link_count());
                    assert_eq!(take(length).unwrap(), outcome.response.reply);
                }
                if tag == TAKE {
                    let length = number(take(2).unwrap());
                    assert_eq!(take(length).unwrap(), outcome.taken);
                    takes += 1;
                }
                records += usize::from(tag == RECORD);
                let (tables, queue_bytes) = outcome.after();
                current = Some(tables);
                queue = queue_bytes;
            }
            DEFAULTS => {
                for list in [&mut defaults.default_creds, &mut defaults.default_aces] {
                    let length = take(1).unwrap()[0];
                    *list = take(length.into()).unwrap().to_vec();
                }
            }
            LIST => {
                let length = number(take(2).unwrap());
                let Tested { answer, row } = test(take(length).unwrap());
                assert_eq!(take(2).unwrap(), [answer, row as u8]);
                tested += 1;
            }
            OLDER => {
                let length = number(take(2).unwrap());
                let bytes = take(length).unwrap().to_vec();
                let capacity = number(take(2).unwrap());
                let made = Converted::expected(&File { bytes, capacity });
                assert_eq!(take(1).unwrap(), [made.answer]);
                assert_eq!(number(take(2).unwrap()), made.length);
                assert_eq!(take(made.length).unwrap(), &made.buffer[..made.length]);
                converted += 1;
            }
            tag => panic!("tag {tag}"),
        }
    }
    [records, checks, tested, converted, hand_ins, takes]
}

#[test]
fn the_file_holds_what_it_says() {
    for (seed, limit, often) in [(1, 399_999, 12), (2, LEAST, 1), (3, LEAST, 1)] {
        let vectors = Vectors::build(seed, limit);
        assert!(vectors.bytes.len() <= limit, "{}", vectors.bytes.len());
        let Vectors { records, checks, tested, converted, hand_ins, takes, .. } = vectors;
        assert_eq!(replay(&vectors.bytes), [records, checks, tested, converted, hand_ins, takes]);
        assert_eq!(Vectors::build(seed, limit).bytes, vectors.bytes);
        for answer in OF_RECORDS {
            let count = vectors.histogram.answers[answer as usize];
            assert!(count >= often, "answer {answer}: {count}");
        }
    }
}
