//! Waiting records (U13): hand-ins, takes, rows that change beside them, and check 1 of
//! the queue.

use super::records::header_records;
use super::*;

/// A queue with a record for the weight of each of these owners, in their order.
fn occupied(last: Option<Seat>, owners: &[Seat]) -> Queue {
    let record = |owner: Seat| compose(Verb::Update, WEIGHT, owner, &owner.to_be_bytes());
    Queue { last, slots: owners.iter().map(|&owner| Slot { owner, record: record(owner) }).collect() }
}

/// The owners of slots that these tables have.
fn seats(tables: &Tables) -> Vec<Seat> {
    [UNAUTHENTICATED].into_iter().chain(tables.credentials.iter().map(Row::number)).collect()
}

/// A take with this queue.
fn take(tables: &Tables, queue: QueueBytes) -> Group {
    Group { call: Call::Take, queue, ..Group::new("takes", tables, vec![Vec::new()]) }
}

/// Every header handed in, with no slot occupied, with some and with all; records
/// of every length.
pub(super) fn hand_ins(groups: &mut Vec<Group>) {
    let stages = stages();
    for tables in [&stages[0], &stages[3]] {
        let owners = seats(tables);
        for taken in [0, owners.len() / 2, owners.len()] {
            let queue = occupied(Some(OWNER), &owners[..taken]).bytes();
            let group = Group::new("hand-ins", tables, header_records());
            groups.push(Group { call: Call::HandIn, queue, ..group });
        }
    }
    let lengths = |sender| {
        (0..=300).map(move |length| {
            let mut record = compose(Verb::Update, WEIGHT, sender, &[0x5A; 300]);
            record.truncate(length);
            record
        })
    };
    for queue in [Queue::empty(), occupied(None, &[HAULIER])] {
        let records = lengths(0).chain(lengths(FOREMAN)).chain(lengths(HAULIER)).collect();
        let group = Group::new("hand-ins", &stages[3], records);
        groups.push(Group { call: Call::HandIn, queue: queue.bytes(), ..group });
    }
    // The last free slot of full tables.
    let credentials = (1..=24).map(|number| credential(number, uuid(0x22))).collect();
    let full = Tables { credentials, ..owned(State::Rfnop) };
    let owners = seats(&full);
    for free in 0..owners.len() {
        let others: Vec<Seat> = owners.iter().copied().filter(|&owner| owner != owners[free]).collect();
        let records = owners.iter().map(|&owner| compose(Verb::Update, WEIGHT, owner, &[0x77; 252])).collect();
        let group = Group::new("hand-ins", &full, records);
        groups.push(Group { call: Call::HandIn, queue: occupied(None, &others).bytes(), ..group });
    }
}

/// Every choice of occupied slots with every round, in two orders of hand-in; full
/// tables with only one slot occupied, all but one, and all.
pub(super) fn takes(groups: &mut Vec<Group>) {
    let tables = stages().swap_remove(3);
    let owners = seats(&tables);
    for choice in 0..1 << owners.len() {
        let chosen: Vec<Seat> =
            (0..owners.len()).filter(|owner| choice >> owner & 1 == 1).map(|at| owners[at]).collect();
        let turned: Vec<Seat> = chosen.iter().rev().copied().collect();
        for last in [None, Some(MISSING)].into_iter().chain(owners.iter().copied().map(Some)) {
            groups.push(take(&tables, occupied(last, &chosen).bytes()));
            groups.push(take(&tables, occupied(last, &turned).bytes()));
        }
    }
    // Nothing waits, in each state.
    for tables in stages() {
        for last in [None, Some(MISSING)].into_iter().chain(seats(&tables).into_iter().map(Some)) {
            groups.push(take(&tables, occupied(last, &[]).bytes()));
        }
    }
    let credentials = (0..24).map(|row| credential(0x0300 - row, uuid(0x22))).collect();
    let full = Tables { credentials, accesses: vec![access(1, AUTH, MAY_ALL, STAR, &[])], ..owned(State::Rfnop) };
    let owners = seats(&full);
    for (at, &owner) in owners.iter().enumerate() {
        let others: Vec<Seat> = owners.iter().copied().filter(|&other| other != owner).collect();
        for last in [None, Some(MISSING), Some(owner), Some(owners[at * 7 % 25]), Some(owners[(at + 24) % 25])] {
            groups.push(take(&full, occupied(last, &[owner]).bytes()));
            groups.push(take(&full, occupied(last, &others).bytes()));
            groups.push(take(&full, occupied(last, &owners).bytes()));
        }
    }
}

/// The cases worked out by hand, each by a record that waited.
pub(super) fn examples_taken(groups: &mut Vec<Group>) {
    for example in examples::all() {
        let Ok(tables) = Tables::read(&example.tables) else {
            continue;
        };
        if receive(&tables, &example.record).is_err() {
            continue;
        }
        let owner = seat(&example.record);
        let order = seats(&tables);
        let others: Vec<Seat> = order.iter().copied().filter(|&other| other != owner).collect();
        // The turn is its owner's.
        let at = order.iter().position(|&other| other == owner).unwrap_or(0);
        let last = at.checked_sub(1).map(|before| order[before]);
        // Alone, and after others that came first.
        for owners in [&[][..], &others] {
            let mut queue = occupied(last, owners);
            queue.slots.push(Slot { owner, record: example.record.clone() });
            groups.push(Group {
                clock: Some(example.clock),
                capacity: Some(example.capacity),
                defaults: Some(Defaults::none()),
                ..take(&tables, queue.bytes())
            });
        }
    }
}

/// Rows stored and deleted and tables cleared while records wait, by a record
/// that comes and by one that waited, with every round.
pub(super) fn rows_beside_queue(groups: &mut Vec<Group>, random: &mut Random) {
    for state in [State::Rfotm, State::Rfpro, State::Sreset] {
        let mut tables = stages().swap_remove(state as usize);
        tables.credentials.push(credential(0x0100, uuid(0x22)));
        let owners = seats(&tables);
        let mut records = vec![
            compose(Verb::Delete, CRED, OWNER, &[]),
            compose(Verb::Delete, ACL2, OWNER, &[]),
            compose(Verb::Delete, CRED, OWNER, &[0x22; 16]),
            compose(Verb::Delete, CRED, OWNER, &[0x11; 16]),
            compose(Verb::Delete, CRED, OWNER, &[0x55; 16]),
            compose(Verb::Update, PSTAT, OWNER, &target_body(RESET)),
            compose(Verb::Update, PSTAT, OWNER, &target_body(RFPRO)),
            compose(Verb::Retrieve, CRED, OWNER, &[]),
        ];
        for &number in owners[1..].iter().chain(&[MISSING, 0x0200]) {
            records.push(compose(Verb::Delete, CRED, OWNER, &number.to_be_bytes()));
            records.push(compose(Verb::Update, CRED, OWNER, &credential(number, uuid(0x44)).bytes()));
        }
        for last in [None, Some(MISSING), Some(0x0200)].into_iter().chain(owners.iter().copied().map(Some)) {
            for queue in [owners.clone(), vec![HAULIER], vec![UNAUTHENTICATED, FOREMAN]] {
                let queue_bytes = occupied(last, &queue).bytes();
                let group = Group::new("rows beside waiting", &tables, records.clone());
                groups.push(Group { queue: queue_bytes, defaults: Some(generate::defaults(random)), ..group });
            }
        }
        // The device owner's slot comes after the unauthenticated one.
        for record in &records {
            for others in [vec![], seats(&tables)] {
                let others: Vec<Seat> = others.into_iter().filter(|&owner| owner != OWNER).collect();
                let mut queue = occupied(Some(UNAUTHENTICATED), &others);
                queue.slots.insert(others.len() / 2, Slot { owner: OWNER, record: record.clone() });
                groups.push(take(&tables, queue.bytes()));
            }
        }
    }
}

/// Each condition of a sound queue broken by itself.
pub(super) fn queue_soundness(groups: &mut Vec<Group>, random: &mut Random) {
    let mut add = |tables: &Tables, bytes: &[u8], call| {
        let record = if call == Call::Take { vec![] } else { compose(Verb::Retrieve, WEIGHT, OWNER, &[1]) };
        let queue = QueueBytes::from_bytes(bytes);
        groups.push(Group { call, queue, ..Group::new("waiting soundness", tables, vec![record]) });
    };
    // Every fault, with tables of many kinds.
    for (_, fault) in QUEUE_FAULTS {
        for _ in 0..25 {
            let tables = generate::any_sound(random);
            let mut queue_bytes = generate::queue(random, &tables).bytes().whole();
            if fault(&mut queue_bytes, random) {
                Call::ALL.into_iter().for_each(|call| add(&tables, &queue_bytes, call));
            }
        }
    }
    // Every value of the first four bytes, and of those before a record's body.
    let tables = stages().swap_remove(3);
    let good = occupied(Some(HAULIER), &[FOREMAN, HAULIER]).bytes().whole();
    for place in (0..4).chain(SLOTS.start..SLOTS.start + 11) {
        for value in 0..=255 {
            let mut queue_bytes = good.clone();
            queue_bytes[place] = value;
            add(&tables, &queue_bytes, Call::ALL[usize::from(value) % 3]);
        }
    }
    // A byte set anywhere else.
    for (place, call) in (SLOTS.start + 11..queue::SIZE).zip(Call::ALL.into_iter().cycle()) {
        let used = place < SLOTS.start + 2 * SLOT_SIZE;
        if used || place % 5 == 0 {
            let mut queue_bytes = good.clone();
            queue_bytes[place] ^= 1 << (place % 8);
            add(&tables, &queue_bytes, call);
        }
    }
    // A record of each slot in each other slot.
    let full = occupied(None, &seats(&tables)).bytes().whole();
    for one in 0..4 {
        for other in 0..4 {
            let mut queue_bytes = full.clone();
            let slots = [one, other].map(|slot| SLOTS.start + slot * SLOT_SIZE);
            let record = |slot: usize| slots[slot] + SLOT_RECORD..slots[slot] + SLOT_SIZE;
            queue_bytes[record(1)].copy_from_slice(&full[record(0)]);
            Call::ALL.into_iter().for_each(|call| add(&tables, &queue_bytes, call));
        }
    }
    // Nothing wrong, for contrast.
    for _ in 0..200 {
        let tables = generate::any_sound(random);
        let queue_bytes = generate::queue(random, &tables).bytes().whole();
        Call::ALL.into_iter().for_each(|call| add(&tables, &queue_bytes, call));
    }
}
