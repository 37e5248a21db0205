//! Tests of the file of queries and its form.

use super::*;

/// How many entries of each tag there are, as another program would read them.
fn tags(mut bytes: &[u8]) -> [usize; 7] {
    let mut counts = [0; 7];
    while let [tag, high, low, rest @ ..] = bytes {
        counts[usize::from(*tag)] += 1;
        bytes = &rest[usize::from(u16::from_be_bytes([*high, *low]))..];
    }
    assert!(bytes.is_empty());
    counts
}

#[test]
fn the_file_holds_what_it_says() {
    for seed in 1..4 {
        let queries = Queries::build(seed);
        assert!(queries.bytes.len() < 170_000, "{}", queries.bytes.len());
        let [.., senders, steps, currents, runs] = tags(&queries.bytes);
        assert_eq!(senders as u64, queries.questions.total());
        assert_eq!([steps, currents, runs], [queries.steps, queries.currents, queries.runs]);
        assert!(queries.questions.reasons.iter().all(|&count| count > 10), "{}", queries.questions);
        assert_eq!(Queries::build(seed).bytes, queries.bytes);
    }
}

#[test]
fn every_kind_of_step_comes() {
    let mut counts = [0; 3];
    let mut bytes = &Queries::build(1).bytes[..];
    while let [tag, high, low, rest @ ..] = bytes {
        if *tag == STEP {
            counts[usize::from(rest[8])] += 1;
        }
        bytes = &rest[usize::from(u16::from_be_bytes([*high, *low]))..];
    }
    assert!(counts.iter().all(|&count| count > 30), "{counts:?}");
}
