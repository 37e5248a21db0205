//! Tests of the queue: its bytes, the turns, and what is dropped.

use super::*;
use crate::answers::{LIST_NOT_SOUND, NOTHING_WAITING, NOT_SOUND, NO_ROOM, OCCUPIED, PERMITTED};
use crate::case::{Call, Case, Seen};
use crate::defaults::Defaults;
use crate::directory::{ACL2, CRED, DISPLAY, PSTAT, ROLES, TARE, WEIGHT};
use crate::examples::{self, access, asserted, credential, owned, uuid, ANON, AUTH};
use crate::generate;
use crate::hex;
use crate::random::Random;
use crate::record::{compose, target_body, Verb, MAY_ALL, MAY_NOTIFY, MAY_RETRIEVE};
use crate::rules::{judge, Outcome};
use crate::tables::{Access, Period, State, TableBytes, RESET, RFNOP};
use crate::texts::Listed;

/// In service, with the owner in row 5 and partners in rows 9, 3 and 7, in this
/// order. Everybody may use the weight.
fn yard() -> Tables {
    let mut tables = owned(State::Rfnop);
    for number in [9, 3, 7] {
        tables.credentials.push(credential(number, uuid(number as u8)));
    }
    tables.accesses = vec![access(1, AUTH, MAY_ALL, 0, &[WEIGHT]), access(2, ANON, MAY_ALL, 0, &[WEIGHT])];
    tables
}

/// A terminal whose records are handed in, taken and judged.
struct Terminal {
    tables: TableBytes,
    queue: QueueBytes,
    clock: u32,
}

impl Terminal {
    fn new(tables: &Tables) -> Terminal {
        Terminal { tables: tables.bytes(), queue: QueueBytes::empty(), clock: 0 }
    }

    fn call(&mut self, call: Call, record: &[u8]) -> Outcome {
        let (queue, clock) = (self.queue.clone(), self.clock);
        let outcome = judge(&Case { call, queue, clock, ..Case::new(&self.tables, record) });
        (self.tables, self.queue) = outcome.clone().after();
        outcome
    }

    /// The answer to a hand-in.
    fn hand_in(&mut self, record: &[u8]) -> u8 {
        let tables = self.tables;
        let outcome = self.call(Call::HandIn, record);
        assert_eq!(self.tables, tables);
        let response = outcome.response;
        assert_eq!((response.permission, &response.payload, response.reply.len()), (0, &(0..0), 0));
        assert_eq!((&response.store, response.links), (&(0..0), 0));
        assert!(outcome.taken.is_empty());
        response.answer
    }

    fn take(&mut self) -> Outcome {
        self.call(Call::Take, &[])
    }

    /// The owner of the slot that a take frees, and its answer.
    fn taken(&mut self) -> (Option<Seat>, u8) {
        let outcome = self.take();
        ((!outcome.taken.is_empty()).then(|| seat(&outcome.taken)), outcome.response.answer)
    }

    fn judge(&mut self, record: &[u8]) -> u8 {
        self.call(Call::Judge, record).response.answer
    }

    fn queue(&self) -> Queue {
        let tables = Tables::read(&self.tables).expect("sound");
        Queue::read(&self.queue, &tables).expect("sound")
    }

    /// The owners of occupied slots, in order of hand-in.
    fn owners(&self) -> Vec<Seat> {
        self.queue().slots.iter().map(|slot| slot.owner).collect()
    }
}

/// A record for the weight of this owner.
fn weigh(owner: Seat) -> Vec<u8> {
    compose(Verb::Update, WEIGHT, owner, &[owner as u8, 0x77])
}

#[test]
fn the_bytes_by_hand() {
    assert_eq!((SLOT_SIZE, CAPACITY, SLOTS.len()), (260, 25, 25 * 260));
    let mut terminal = Terminal::new(&yard());
    assert_eq!(terminal.hand_in(&weigh(9)), PERMITTED);
    let mut expected = vec![0; 6504];
    expected[0] = 1;
    expected[4..14].copy_from_slice(&hex::literal("0009 0006 52000009 0977"));
    assert_eq!(terminal.queue.whole(), expected);
    assert_eq!(terminal.hand_in(&weigh(0)), PERMITTED);
    expected[0] = 2;
    expected[264..274].copy_from_slice(&hex::literal("0000 0006 42000000 0077"));
    assert_eq!(terminal.queue.whole(), expected);
    // The unauthenticated slot comes first; the other record moves up.
    let outcome = terminal.take();
    assert_eq!(
        (outcome.response.answer, outcome.response.permission, outcome.response.payload),
        (PERMITTED, MAY_ALL, 4..6)
    );
    assert_eq!(outcome.taken, weigh(0));
    expected[0] = 1;
    expected[1] = 1;
    expected[264..274].fill(0);
    assert_eq!(terminal.queue.whole(), expected);
    assert_eq!(terminal.take().taken, weigh(9));
    let mut expected = vec![0; 6504];
    expected[..4].copy_from_slice(&[0, 1, 0, 9]);
    assert_eq!(terminal.queue.whole(), expected);
    // Nothing is left, and nothing changes.
    let outcome = terminal.take();
    assert_eq!((outcome.response.answer, outcome.response.permission, outcome.taken.len()), (NOTHING_WAITING, 0, 0));
    assert_eq!(terminal.queue.whole(), expected);
    assert_eq!(terminal.tables, yard().bytes());
}

#[test]
fn hand_ins_are_tested_by_1_to_7_and_26() {
    let mut terminal = Terminal::new(&yard());
    let before = terminal.queue.clone();
    for (record, answer) in [
        ("52 00 00", 2),
        ("B2 00 00 09", 3),
        ("52 01 00 09", 4),
        ("52 00 00 00", 5),
        ("42 00 00 09", 5),
        ("51 40 00 09", 6),
        ("52 00 00 08", 7),
    ] {
        assert_eq!(terminal.hand_in(&hex::literal(record)), answer);
        assert_eq!(terminal.queue, before);
    }
    assert_eq!(terminal.hand_in(&[0x52; 257]), 2);
    assert_eq!(terminal.hand_in(&compose(Verb::Update, WEIGHT, 9, &[7; 252])), 0);
    assert_eq!(terminal.hand_in(&weigh(9)), OCCUPIED);
    // What they could be refused for later is not looked at: 16, 8, 9, 10.
    assert_eq!(terminal.hand_in(&compose(Verb::Update, DISPLAY, 3, &[])), PERMITTED);
    assert_eq!(terminal.hand_in(&compose(Verb::Update, TARE, 0, &[])), PERMITTED);
    assert_eq!(terminal.hand_in(&compose(Verb::Create, ROLES, 7, &[])), PERMITTED);
    assert_eq!(terminal.hand_in(&compose(Verb::Update, PSTAT, 5, &[0xFF; 9])), 0);
    assert_eq!(terminal.owners(), [9, 3, 0, 7, 5]);
    // 1 to 7 come before 26.
    for (record, answer) in [("52 01 00 09", 4), ("51 40 00 09", 6), ("53 80 00 09", 26)] {
        assert_eq!(terminal.hand_in(&hex::literal(record)), answer);
    }
    let answers: Vec<(Option<Seat>, u8)> = (0..6).map(|_| terminal.taken()).collect();
    assert_eq!(answers, [(Some(0), 16), (Some(5), 10), (Some(9), 0), (Some(3), 16), (Some(7), 8), (None, 27)]);
}

#[test]
fn takes_go_round() {
    let mut terminal = Terminal::new(&yard());
    for owner in [7, 3, 0, 9, 5] {
        assert_eq!(terminal.hand_in(&weigh(owner)), PERMITTED);
    }
    // A partner who floods waits like the others.
    let mut order = Vec::new();
    for _ in 0..12 {
        order.extend(terminal.taken().0);
        terminal.hand_in(&weigh(9));
    }
    assert_eq!(order, [0, 5, 9, 3, 7, 9, 9, 9, 9, 9, 9, 9]);
    for owner in [3, 0, 7] {
        terminal.hand_in(&weigh(owner));
    }
    let order: Vec<Seat> = (0..4).filter_map(|_| terminal.taken().0).collect();
    assert_eq!(order, [3, 7, 0, 9]);
}

#[test]
fn the_turn_by_hand() {
    let tables = yard();
    let turn = |last, owners: &[Seat]| {
        let slots = owners.iter().map(|&owner| Slot { owner, record: weigh(owner) }).collect();
        Queue { last, slots }.turn(&tables)
    };
    assert_eq!(turn(None, &[]), None);
    assert_eq!(turn(Some(9), &[]), None);
    // Reset: from the unauthenticated slot through the rows.
    for last in [None, Some(8), Some(0x0900)] {
        assert_eq!(turn(last, &[7, 3, 9, 5, 0]), Some(0));
        assert_eq!(turn(last, &[7, 3, 9, 5]), Some(5));
        assert_eq!(turn(last, &[7, 3]), Some(3));
    }
    assert_eq!(turn(Some(0), &[7, 3, 0]), Some(3));
    assert_eq!(turn(Some(0), &[0]), Some(0));
    assert_eq!(turn(Some(5), &[7, 5, 0]), Some(7));
    assert_eq!(turn(Some(9), &[0, 5, 9]), Some(0));
    assert_eq!(turn(Some(3), &[5, 9, 3]), Some(5));
    assert_eq!(turn(Some(7), &[9, 5, 0, 7]), Some(0));
    assert_eq!(turn(Some(7), &[9, 7]), Some(9));
    assert_eq!(turn(Some(7), &[7]), Some(7));
}

#[test]
fn a_refused_take_empties_its_place() {
    let mut tables = yard();
    tables.state = State::Rfpro;
    let mut terminal = Terminal::new(&tables);
    let slots = [
        (0, compose(Verb::Update, PSTAT, 0, &[0x60]), 8),
        (5, compose(Verb::Update, PSTAT, 5, &[0x40]), 12),
        (9, weigh(9), 11),
        (3, compose(Verb::Delete, ROLES, 3, &[]), 8),
        (7, compose(Verb::Retrieve, DISPLAY, 7, &[]), 16),
    ];
    for (_, record, _) in &slots {
        assert_eq!(terminal.hand_in(record), 0);
    }
    for (owner, record, answer) in slots {
        let left = terminal.owners().len() - 1;
        let outcome = terminal.take();
        assert_eq!((outcome.response.answer, outcome.response.permission, outcome.response.payload), (answer, 0, 0..0));
        // The whole record, with no payload.
        assert_eq!(outcome.taken, record);
        assert_eq!((terminal.owners().len(), terminal.queue().last), (left, Some(owner)));
        assert_eq!(terminal.tables, tables.bytes());
    }
    // A reply that does not fit, too.
    let read = compose(Verb::Retrieve, ACL2, 5, &[]);
    assert_eq!(terminal.hand_in(&read), 0);
    let short = Case { call: Call::Take, capacity: 87, ..Case::new(&terminal.tables, &[]) };
    let seen = Case { queue: terminal.queue.clone(), ..short }.expected();
    assert_eq!((seen.answer, seen.reply, seen.taken), (NO_ROOM, 0, 4));
    assert_eq!(seen.record[..4], read);
    assert!(seen.record.len() == 256 && seen.record[4..].iter().all(|&byte| byte == 0));
    assert_eq!(seen.queue, Queue { last: Some(5), slots: vec![] }.bytes());
    assert_eq!(terminal.take().response.reply.len(), 88);
}

#[test]
fn the_clock_is_that_of_the_take() {
    let mut tables = yard();
    let period = Period { first: 10, last: 20 };
    tables.accesses = vec![Access { period, ..access(1, AUTH, 4, 0, &[8]) }];
    tables.credentials[1].asserted = vec![asserted(1, 7, 30)];
    tables.accesses.push(access(2, examples::role(1, 7), MAY_NOTIFY, 0, &[WEIGHT]));
    for (clock, answer, permission) in [(9, 8, 0), (10, 0, 20), (20, 0, 20), (21, 8, 0), (31, 8, 0)] {
        let mut terminal = Terminal { clock: 15, ..Terminal::new(&tables) };
        assert_eq!(terminal.hand_in(&weigh(9)), PERMITTED);
        terminal.clock = clock;
        let outcome = terminal.take();
        assert_eq!((outcome.response.answer, outcome.response.permission), (answer, permission), "{clock}");
    }
}

#[test]
fn a_record_that_waited_is_judged_as_any() {
    let mut compared = 0;
    for example in examples::all() {
        let direct = judge(&example.case());
        let Ok(tables) = Tables::read(&example.tables) else {
            continue;
        };
        if receive(&tables, &example.record).is_err() {
            continue;
        }
        compared += 1;
        let slots = vec![Slot { owner: seat(&example.record), record: example.record.clone() }];
        let queue = Queue { last: None, slots }.bytes();
        let taken = judge(&Case { call: Call::Take, record: vec![], queue, ..example.case() });
        assert_eq!(taken.taken, example.record);
        let owner = seat(&example.record);
        let left = Tables::read(&taken.tables).expect("sound");
        let reset = taken.response.answer == PERMITTED && left == Tables::fresh() && example.record.len() == 5;
        // The round goes on after the owner, unless its row is gone.
        let last = match owner {
            _ if reset => None,
            UNAUTHENTICATED => Some(owner),
            _ => left.credential(owner).map(Row::number),
        };
        assert_eq!(taken.queue, Queue { last, slots: vec![] }.bytes());
        let quiet = |outcome| Outcome { taken: vec![], queue: QueueBytes::empty(), ..outcome };
        assert_eq!(quiet(taken), quiet(direct));
    }
    assert!(compared > 150, "{compared}");
}

/// The owner's terminal in RFPRO, with every slot occupied, and the owner taken
/// last.
fn occupied(last: Option<Seat>) -> Terminal {
    let mut tables = yard();
    tables.state = State::Rfpro;
    let slots = [3, 0, 7, 5, 9].map(|owner| Slot { owner, record: weigh(owner) }).to_vec();
    Terminal { queue: Queue { last, slots }.bytes(), ..Terminal::new(&tables) }
}

#[test]
fn a_deleted_row_takes_its_record_along() {
    for last in [None, Some(0), Some(9), Some(7), Some(99)] {
        let mut terminal = occupied(last);
        assert_eq!(terminal.judge(&compose(Verb::Delete, CRED, 5, &[0, 9])), PERMITTED);
        assert_eq!(terminal.owners(), [3, 0, 7, 5]);
        // The round is reset when its row went, or was not there.
        assert_eq!(terminal.queue().last, last.filter(|&last| last != 9 && last != 99));
        // One that comes back does not bring it along.
        assert_eq!(terminal.judge(&compose(Verb::Update, CRED, 5, &credential(9, uuid(9)).bytes())), PERMITTED);
        assert_eq!(terminal.owners(), [3, 0, 7, 5]);
        assert_eq!(terminal.queue().last, last.filter(|&last| last != 9 && last != 99));
    }
    // By subject, and all.
    let mut terminal = occupied(Some(3));
    assert_eq!(terminal.judge(&compose(Verb::Delete, CRED, 5, &[3; 16])), 0);
    assert_eq!((terminal.owners(), terminal.queue().last), (vec![0, 7, 5, 9], None));
    for (last, left) in [(None, None), (Some(0), Some(0)), (Some(7), None), (Some(5), None)] {
        let mut terminal = occupied(last);
        assert_eq!(terminal.judge(&compose(Verb::Delete, CRED, 5, &[])), PERMITTED);
        assert_eq!((terminal.owners(), terminal.queue().last), (vec![0], left));
    }
    // Access rows have none.
    let mut terminal = occupied(Some(3));
    let before = terminal.queue.clone();
    assert_eq!(terminal.judge(&compose(Verb::Delete, ACL2, 5, &[])), PERMITTED);
    assert_eq!(terminal.queue, before);
}

#[test]
fn a_number_that_is_not_held_is_not_revived() {
    let mut terminal = occupied(Some(99));
    let before = terminal.queue.clone();
    // It stays as it is while no row comes or goes.
    for record in [
        compose(Verb::Retrieve, CRED, 5, &[]),
        compose(Verb::Update, CRED, 5, &credential(9, uuid(0x99)).bytes()),
        compose(Verb::Update, ACL2, 5, &access(9, ANON, MAY_RETRIEVE, 0, &[WEIGHT]).bytes()),
        compose(Verb::Delete, CRED, 5, &[0, 99]),
    ] {
        terminal.judge(&record);
        assert_eq!(terminal.queue, before);
    }
    assert_eq!(terminal.judge(&compose(Verb::Update, CRED, 5, &credential(99, uuid(0x99)).bytes())), PERMITTED);
    assert_eq!(terminal.queue().last, None);
    assert_eq!(terminal.judge(&compose(Verb::Update, CRED, 5, &credential(98, uuid(0x98)).bytes())), PERMITTED);
    assert_eq!(terminal.hand_in(&weigh(98)), PERMITTED);
    assert_eq!(terminal.taken().0, Some(0));
    // A row that comes while the owner taken last is known changes nothing.
    let mut terminal = occupied(Some(7));
    let before = terminal.queue.clone();
    assert_eq!(terminal.judge(&compose(Verb::Update, CRED, 5, &credential(99, uuid(0x99)).bytes())), PERMITTED);
    assert_eq!(terminal.queue, before);
}

#[test]
fn a_replaced_row_keeps_its_record() {
    let mut terminal = occupied(Some(9));
    let before = terminal.queue.clone();
    assert_eq!(terminal.judge(&compose(Verb::Update, CRED, 5, &credential(9, uuid(0x99)).bytes())), PERMITTED);
    assert_eq!(terminal.queue, before);
    // All else keeps the queue, permitted or not.
    for record in [
        compose(Verb::Retrieve, CRED, 5, &[]),
        compose(Verb::Update, ACL2, 5, &access(9, ANON, MAY_RETRIEVE, 0, &[WEIGHT]).bytes()),
        compose(Verb::Update, PSTAT, 5, &target_body(RFNOP)),
        compose(Verb::Update, WEIGHT, 9, &[1]),
        compose(Verb::Delete, CRED, 5, &[0, 99]),
        vec![],
    ] {
        terminal.judge(&record);
        assert_eq!(terminal.queue, before);
    }
}

#[test]
fn a_cleared_terminal_holds_nothing() {
    for last in [None, Some(0), Some(9)] {
        for defaults in [Defaults::none(), Defaults::of(&yard().credentials[1..3], &[])] {
            let Terminal { tables, queue, .. } = occupied(last);
            let record = compose(Verb::Update, PSTAT, 5, &target_body(RESET));
            let case = Case { queue, defaults, ..Case::new(&tables, &record) };
            let outcome = judge(&case);
            assert_eq!((outcome.response.answer, outcome.queue), (PERMITTED, QueueBytes::empty()));
            assert_eq!(outcome.tables, case.defaults.fresh().bytes());
        }
    }
    // Even where the tables stay the same.
    let defaults = Defaults::of(&[credential(9, uuid(9))], &[]);
    let fresh = defaults.fresh();
    let slots = vec![Slot { owner: 9, record: weigh(9) }, Slot { owner: 0, record: weigh(0) }];
    let queue = Queue { last: Some(9), slots }.bytes();
    let record = compose(Verb::Update, PSTAT, 0, &target_body(RESET));
    let outcome = judge(&Case { queue, defaults, ..Case::new(&fresh.bytes(), &record) });
    assert_eq!(
        (outcome.response.answer, outcome.tables, outcome.queue),
        (PERMITTED, fresh.bytes(), QueueBytes::empty())
    );
    // By a record that waited: its own slot and round go as well.
    let mut terminal = occupied(Some(7));
    terminal.take();
    assert_eq!(terminal.queue().last, Some(0));
    assert_eq!(terminal.hand_in(&compose(Verb::Update, PSTAT, 0, &target_body(RESET))), PERMITTED);
    let mut terminal = occupied(Some(0));
    let reset = compose(Verb::Update, PSTAT, 5, &target_body(RESET));
    terminal.queue = Queue { last: Some(0), slots: vec![Slot { owner: 5, record: reset }] }.bytes();
    assert_eq!(terminal.taken(), (Some(5), 0));
    assert_eq!((terminal.queue, terminal.tables), (QueueBytes::empty(), Tables::fresh().bytes()));
}

#[test]
fn a_taken_record_deletes_its_own_row() {
    let mut terminal = occupied(Some(0));
    let delete = compose(Verb::Delete, CRED, 5, &[0, 5]);
    let slots = vec![Slot { owner: 9, record: weigh(9) }, Slot { owner: 5, record: delete.clone() }];
    terminal.queue = Queue { last: Some(0), slots }.bytes();
    let outcome = terminal.take();
    assert_eq!((outcome.response.answer, &outcome.taken), (0, &delete));
    assert_eq!((terminal.owners(), terminal.queue().last), (vec![9], None));
    // One that deletes another's row leaves the round after its own.
    let mut terminal = occupied(Some(0));
    let delete = compose(Verb::Delete, CRED, 5, &[0, 9]);
    let slots = vec![Slot { owner: 9, record: weigh(9) }, Slot { owner: 5, record: delete }];
    terminal.queue = Queue { last: Some(0), slots }.bytes();
    assert_eq!(terminal.taken(), (Some(5), 0));
    assert_eq!((terminal.owners(), terminal.queue().last), (vec![], Some(5)));
}

#[test]
fn queues_that_are_not_sound() {
    let tables = yard();
    let slots = [9, 0, 3].map(|owner| Slot { owner, record: weigh(owner) }).to_vec();
    let good = Queue { last: Some(9), slots }.bytes().whole();
    let error = |change: &dyn Fn(&mut Vec<u8>)| {
        let mut bytes = good.clone();
        change(&mut bytes);
        Queue::read(&QueueBytes::from_bytes(&bytes), &tables).err()
    };
    assert_eq!(error(&|_| {}), None);
    assert_eq!(error(&|bytes| bytes[0] = 26), Some(Error::Count));
    assert_eq!(error(&|bytes| bytes[0] = 255), Some(Error::Count));
    assert_eq!(error(&|bytes| bytes[0] = 25), Some(Error::Record));
    assert_eq!(error(&|bytes| bytes[0] = 2), Some(Error::Unused));
    assert_eq!(error(&|bytes| bytes[0] = 0), Some(Error::Unused));
    assert_eq!(error(&|bytes| bytes[1] = 2), Some(Error::Round));
    assert_eq!(error(&|bytes| bytes[1] = 0), Some(Error::Round));
    assert_eq!(error(&|bytes| bytes[1..4].fill(0)), None);
    // Any number, held or not.
    for number in [[0, 0], [0, 8], [9, 0], [0xFF, 0xFF]] {
        assert_eq!(error(&|bytes| bytes[2..4].copy_from_slice(&number)), None);
    }
    assert_eq!(error(&|bytes| bytes[5] = 7), Some(Error::Record));
    assert_eq!(error(&|bytes| bytes[11] = 7), Some(Error::Record));
    // From another partner in both: sound, unless its slot is occupied.
    assert_eq!(error(&|bytes| (bytes[5], bytes[11]) = (7, 7)), None);
    assert_eq!(error(&|bytes| (bytes[5], bytes[11]) = (8, 8)), Some(Error::Record));
    assert_eq!(error(&|bytes| (bytes[5], bytes[11]) = (3, 3)), Some(Error::SeatTwice));
    assert_eq!(error(&|bytes| bytes[7] = 5), Some(Error::Unused));
    assert_eq!(error(&|bytes| bytes[7] = 7), None);
    assert_eq!(error(&|bytes| bytes[6] = 1), Some(Error::Record));
    assert_eq!(error(&|bytes| bytes[8] = 0xB2), Some(Error::Record));
    assert_eq!(error(&|bytes| bytes[263] = 1), Some(Error::Unused));
    assert_eq!(error(&|bytes| bytes[6503] = 1), Some(Error::Unused));
    // Every call is refused then, and nothing changes; so is the text.
    let mut bytes = good.clone();
    bytes[263] = 1;
    let queue = QueueBytes::from_bytes(&bytes);
    for call in Call::ALL {
        let case = Case { call, queue: queue.clone(), ..Case::new(&tables.bytes(), &weigh(7)) };
        let outcome = judge(&case);
        assert_eq!((outcome.response.answer, outcome.taken.len()), (NOT_SOUND, 0));
        assert_eq!((outcome.tables, outcome.queue), (case.tables, case.queue));
    }
    let case = Case { queue, ..Case::new(&tables.bytes(), &[]) };
    assert_eq!(Listed::expected(&case).answer, LIST_NOT_SOUND);
    assert_eq!(Listed::expected(&Case { queue: QueueBytes::from_bytes(&good), ..case }).answer, PERMITTED);
    // Rows that are gone make it not sound.
    let fewer = Tables { credentials: tables.credentials[..2].to_vec(), ..tables.clone() };
    assert_eq!(Queue::read(&QueueBytes::from_bytes(&good), &fewer), Err(Error::Record));
}

#[test]
fn a_sound_queue_is_read_as_it_was_written() {
    let mut random = Random::new(81);
    let mut full = 0;
    for _ in 0..2000 {
        let tables = generate::any_sound(&mut random);
        let queue = generate::queue(&mut random, &tables);
        let queue_bytes = queue.bytes();
        assert_eq!(queue_bytes.whole().len(), 6504);
        assert_eq!(QueueBytes::from_bytes(&queue_bytes.whole()), queue_bytes);
        let back = Queue::read(&queue_bytes, &tables).expect("sound");
        assert_eq!(back.bytes(), queue_bytes);
        assert_eq!(back, queue);
        full += usize::from(queue.slots.len() == CAPACITY);
    }
    assert!(full > 20, "{full}");
}

#[test]
fn clock_room_and_lists_do_not_matter_to_a_hand_in() {
    let mut random = Random::new(82);
    for _ in 0..2000 {
        let tables = generate::any_sound(&mut random);
        let queue = generate::queue(&mut random, &tables).bytes();
        let tables = tables.bytes();
        let record = generate::record(&mut random, generate::Style::Mixed, &tables, 0);
        let case = Case { call: Call::HandIn, queue, ..Case::new(&tables, &record) };
        let defaults = generate::defaults(&mut random);
        let other = Case { clock: random.next() as u32, capacity: random.below(99), defaults, ..case.clone() };
        assert_eq!(judge(&case), judge(&other));
        // Nor does the record to a take.
        let take = Case { call: Call::Take, ..case.clone() };
        assert_eq!(judge(&take), judge(&Case { record: vec![], ..take.clone() }));
    }
}

#[test]
fn a_record_is_judged_within_25_takes() {
    let mut random = Random::new(83);
    let mut longest = 0;
    for _ in 0..150 {
        let mut tables = generate::full_sound(&mut random);
        tables.state = State::Rfnop;
        tables.device_owner = Some(uuid(0xEE));
        let queue = generate::queue(&mut random, &tables);
        let numbers: Vec<Seat> = tables.credentials.iter().map(Row::number).chain([0]).collect();
        // Security records are left out: these may add or remove rows.
        let harmless = |record: &[u8]| Header::read(record).resource >= WEIGHT;
        let slots = queue.slots.into_iter().filter(|slot| harmless(&slot.record)).collect();
        let mut terminal = Terminal::new(&tables);
        terminal.queue = Queue { slots, ..queue }.bytes();
        let mut due: Vec<(Seat, usize)> = terminal.owners().into_iter().map(|owner| (owner, 0)).collect();
        for _ in 0..400 {
            if random.chance(60) {
                let owner = random.pick(&numbers);
                if terminal.hand_in(&weigh(owner)) == 0 {
                    due.push((owner, 0));
                }
                continue;
            }
            due.iter_mut().for_each(|(_, takes)| *takes += 1);
            if let (Some(owner), _) = terminal.taken() {
                let at = due.iter().position(|&(waits, _)| waits == owner).expect("waits");
                longest = longest.max(due.swap_remove(at).1);
            }
            assert!(due.iter().all(|&(_, takes)| takes < 25));
        }
    }
    assert!((20..=25).contains(&longest), "{longest}");
}

#[test]
fn no_record_is_lost_doubled_or_altered() {
    let mut random = Random::new(84);
    let (mut taken, mut dropped) = (0, 0);
    for _ in 0..300 {
        let tables = generate::any_sound(&mut random);
        let mut terminal = Terminal::new(&tables);
        let mut waits: Vec<Vec<u8>> = Vec::new();
        for _ in 0..60 {
            let clock = generate::clock(&mut random, &terminal.tables);
            terminal.clock = clock;
            let record = generate::record(&mut random, generate::Style::Purposeful, &terminal.tables, clock);
            match random.below(5) {
                0 | 1 => {
                    if terminal.hand_in(&record) == 0 {
                        waits.push(record);
                    }
                }
                2 | 3 => {
                    let outcome = terminal.take();
                    if !outcome.taken.is_empty() {
                        let at = waits.iter().position(|record| *record == outcome.taken).expect("handed in");
                        waits.remove(at);
                        taken += 1;
                    }
                }
                _ => {
                    terminal.judge(&record);
                }
            }
            // Orphaned ones are dropped, and all by a clear.
            let held: Vec<Vec<u8>> = terminal.queue().slots.into_iter().map(|slot| slot.record).collect();
            let tables = Tables::read(&terminal.tables).expect("sound");
            dropped += waits.len() - held.len();
            for gone in waits.iter().filter(|record| !held.contains(record)) {
                let owner = seat(gone);
                assert!(held.is_empty() || tables.credential(owner).is_none() && owner != 0);
            }
            waits.retain(|record| held.contains(record));
            assert_eq!(waits, held);
        }
    }
    assert!(taken > 1500 && dropped > 50, "{taken} {dropped}");
}

#[test]
fn the_queue_changes_no_other_outcome() {
    let mut random = Random::new(85);
    for _ in 0..4000 {
        let tables = generate::any_sound(&mut random);
        let queue = generate::queue(&mut random, &tables).bytes();
        let tables = tables.bytes();
        let clock = generate::clock(&mut random, &tables);
        let record = generate::record(&mut random, generate::Style::Mixed, &tables, clock);
        let alone = Case { clock, ..Case::new(&tables, &record) };
        let beside = judge(&Case { queue, ..alone.clone() });
        assert_eq!(Outcome { queue: QueueBytes::empty(), ..beside }, judge(&alone));
    }
}

#[test]
fn what_a_caller_sees() {
    let mut terminal = Terminal::new(&yard());
    let case = |call, terminal: &Terminal, record: &[u8]| Case {
        call,
        queue: terminal.queue.clone(),
        ..Case::new(&terminal.tables, record)
    };
    let seen: Seen = case(Call::HandIn, &terminal, &weigh(9)).expected();
    assert_eq!((seen.answer, seen.taken, seen.record.len()), (PERMITTED, 0, 0));
    terminal.hand_in(&weigh(9));
    let seen = case(Call::Take, &terminal, &[]).expected();
    assert_eq!((seen.answer, seen.permission, seen.payload, seen.taken), (PERMITTED, MAY_ALL, 4..6, 6));
    assert_eq!(seen.record, [&weigh(9)[..], &[0; 250]].concat());
    terminal.take();
    let seen = case(Call::Take, &terminal, &[]).expected();
    assert_eq!((seen.answer, seen.payload, seen.taken, seen.record), (NOTHING_WAITING, 0..0, 0, vec![0; 256]));
}
