//! The input of the run program: records after their clocks and lengths. The first few
//! runs are of a kind each.

use super::*;

/// The input of one run; the first few are of a kind each.
pub fn run_input(seed: u64, run: u64) -> Vec<u8> {
    let mut random = Random::part(seed, 0x0100_0000 + run);
    let random = &mut random;
    let mut input = Vec::new();
    match run {
        0 => {}
        1 => input.push(0),
        2 => input = examples::worked_run(),
        3 => input = vec![0; FRONT],
        4 => input = vec![0; RUN_MAX],
        5 => input = vec![0; RUN_MAX + 1000],
        6 => input = vec![0xFF; RUN_MAX + 1000],
        7 => input = vec![0, 0, 0, 0, 0, 4],
        8 => {
            // The longest length that is all there.
            input = vec![0; RUN_MAX];
            input[4..FRONT].copy_from_slice(&((RUN_MAX - FRONT) as u16).to_be_bytes());
        }
        9..=16 => {
            // A record that ends at, before or after the last byte that counts.
            fill_run(random, &mut input, RUN_MAX - 2000);
            let end = RUN_MAX + run as usize - 14;
            let length = end - input.len() - FRONT;
            append(&mut input, 0, &vec![0; length]);
            fill_run(random, &mut input, RUN_MAX + 300);
        }
        // A clock, cut short or with no whole length, alone and after a record.
        17..=21 => input = random.bytes(run as usize - 16),
        22..=26 => {
            append(&mut input, 9, &[0x22, 0, 0, 0]);
            input.extend(random.bytes(run as usize - 21));
        }
        27..=34 => {
            // Lengths around the two limits of a record.
            for length in [0, 1, 2, 3, 4, 5, 255, 256, 257, 258, 300, 1000] {
                let mut record = random.bytes(length);
                if length >= HEADER_SIZE {
                    record[..HEADER_SIZE].copy_from_slice(&[0x20, random.pick(&[0x00, 0x40, 0x80, 0xC0]), 0, 0]);
                }
                append(&mut input, second(random), &record);
            }
            input.truncate(input.len() - (run as usize - 27) * 150);
        }
        _ => {
            let bytes = match random.below(20) {
                0 => random.between(RUN_MAX - 2000, RUN_MAX + 3000),
                1..=6 => random.between(2000, 8000),
                _ => random.between(0, 2000),
            };
            fill_run(random, &mut input, bytes);
            match random.below(8) {
                0 => {
                    let more = random.between(1, FRONT - 1);
                    input.extend(random.bytes(more));
                }
                1 => input.truncate(random.below(input.len() + 1)),
                2 => {
                    let length = random.between(1, 300);
                    append(&mut input, 0, &vec![0x40; length]);
                    input.truncate(input.len() - random.between(1, length));
                }
                3 => input.extend(random.next().to_be_bytes()),
                _ => {}
            }
        }
    }
    input
}

/// Appends records that make sense to the run so far, up to about this length.
pub(super) fn fill_run(random: &mut Random, input: &mut Vec<u8>, bytes: usize) {
    let mut tables = fresh_bytes();
    let style =
        random.weighted(&[(60, Style::Purposeful), (25, Style::Mixed), (13, Style::Damaged), (2, Style::Noise)]);
    while input.len() < bytes {
        let clock = clock(random, &tables);
        let record = match random.below(100) {
            0 => Vec::new(),
            1 => vec![0x22; random.between(257, 400)],
            _ => record(random, style, &tables, clock),
        };
        tables = judge(&Case { clock, ..Case::new(&tables, &record) }).tables;
        append(input, clock, &record);
    }
}

/// The bytes of a clock and a length.
pub(super) const FRONT: usize = 6;

pub(super) fn append(input: &mut Vec<u8>, clock: u32, record: &[u8]) {
    input.extend(clock.to_be_bytes());
    input.extend((record.len() as u16).to_be_bytes());
    input.extend(record);
}
