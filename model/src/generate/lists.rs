//! Default lists (U5), each good or bad by itself. The ways to be bad are those of the
//! paper.

use super::*;

/// Default lists, each good or bad by itself.
pub fn defaults(random: &mut Random) -> Defaults {
    if random.chance(15) {
        return Defaults::none();
    }
    let mut credentials = default_list(random, credential, &spoil::CREDENTIAL_FAULTS);
    if random.chance(3) {
        // In the form of a body without an authority.
        let rows = random.between(1, DEFAULTS_MAX);
        credentials = (0..rows).flat_map(|_| credential(random, &[]).short_body()).collect();
    }
    let mut accesses = default_list(random, access, &spoil::ACCESS_FAULTS);
    if random.chance(3) {
        // In the form of a body without a period.
        let rows = random.between(1, DEFAULTS_MAX);
        accesses = (0..rows).flat_map(|_| access(random, &[]).short_body()).collect();
    }
    Defaults { default_creds: credentials, default_aces: accesses }
}

pub(super) fn default_list<R: Row>(
    random: &mut Random,
    draw: fn(&mut Random, &[u16]) -> R,
    faults: &[spoil::RowFault],
) -> Vec<u8> {
    let rows = |random: &mut Random, count| {
        let mut rows: Vec<R> = Vec::new();
        for _ in 0..count {
            let held: Vec<u16> = rows.iter().map(Row::number).collect();
            rows.push(draw(random, &held));
        }
        join(&rows)
    };
    let some = random.between(1, DEFAULTS_MAX);
    match random.below(26) {
        0 | 1 => Vec::new(),
        // More rows than two, up to more than the table has.
        2 | 3 => {
            let count = match random.below(4) {
                0 => random.between(DEFAULTS_MAX + 1, R::CAPACITY + 1),
                _ => DEFAULTS_MAX + 1,
            };
            rows(random, count)
        }
        // Forbidden rows.
        4 | 5 => {
            let mut list = rows(random, some);
            let place = random.below(some) * R::BODY_SIZE;
            let (_, fault) = random.pick(faults);
            fault(&mut list[place..place + R::BODY_SIZE], random);
            list
        }
        6 => {
            // An unused row.
            let mut list = rows(random, some);
            let place = random.below(some) * R::BODY_SIZE;
            list[place..place + R::BODY_SIZE].fill(0);
            list
        }
        // A number twice.
        7 | 8 => {
            let mut list = rows(random, DEFAULTS_MAX);
            list.copy_within(..2, R::BODY_SIZE);
            list
        }
        // Other lengths.
        9 => {
            let mut list = rows(random, some);
            list.truncate(list.len() - random.between(1, R::BODY_SIZE - 1));
            list
        }
        10 => {
            let mut list = rows(random, some);
            let more = random.between(1, R::BODY_SIZE - 1);
            list.extend(random.bytes(more));
            list
        }
        // Two faults, or none known.
        11 => {
            let length = random.pick(&[1, 2, 3]) * R::BODY_SIZE;
            random.bytes(length)
        }
        12 => {
            let mut list = rows(random, some);
            let place = random.below(list.len());
            list[place] ^= 1 << random.below(8);
            list
        }
        _ => rows(random, some),
    }
}
