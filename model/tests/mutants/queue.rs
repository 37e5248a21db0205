//! Mutants of the queue: hand-ins, takes, the round, and what is dropped.

use model::answers::*;
use model::bits::be16;
use model::case::{Call, Case, Seen};
use model::directory::CRED;
use model::queue::{
    seat, Queue, QueueBytes, Seat, CAPACITY, COUNT, SLOTS, SLOT_LENGTH, SLOT_OWNER, SLOT_RECORD, SLOT_SIZE,
    UNAUTHENTICATED,
};
use model::record::{Header, HEADER_SIZE, RECORD_MAX};
use model::tables::{Credential, Row, Tables, CREDENTIAL_COUNT, NUMBER, STATE};

use super::decisions::{is_reset, refused, update_of};
use Mutant::*;

/// A mutant, by what it does otherwise than the rules.
pub enum Mutant {
    /// What it makes of a case, given what is right.
    Any(&'static str, fn(&Case, Seen) -> Seen),
    /// It gives another answer, and nothing else, for a right one: first the right
    /// one.
    Answer(&'static str, u8, u8),
    /// It makes something else of a take that hands a record out.
    Taken(&'static str, fn(&Case, Seen) -> Seen),
    /// It leaves another queue: the tables and the queue before, the queue after.
    Leaves(&'static str, fn(&Tables, &Queue, &mut Queue)),
    /// It takes the record of another owner.
    Takes(&'static str, fn(&Tables, &Queue) -> Option<Seat>),
    /// It takes a queue for sound that is so once these bytes are mended.
    Mends(&'static str, fn(&mut [u8])),
}

impl Mutant {
    /// What it makes of a case, given what is right.
    pub fn run(&self, case: &Case, right: Seen) -> Seen {
        match *self {
            Any(_, run) => run(case, right),
            Answer(_, from, to) if right.answer == from => refused(to, case),
            Taken(_, run) if takes(case, &right) => run(case, right),
            Answer(..) | Taken(_, _) => right,
            Leaves(_, change) => leaving(case, right, change),
            Takes(_, choose) => taken_from(case, right, choose),
            Mends(_, mend) => mended(case, right, mend),
        }
    }

    /// What it does, for a sentence that begins with "a mutant that".
    pub fn name(&self) -> &'static str {
        let (Any(name, ..) | Answer(name, ..) | Taken(name, ..) | Leaves(name, ..) | Takes(name, ..) | Mends(name, ..)) =
            self;
        name
    }
}

/// The tables and the queue, when all is sound.
fn sound(case: &Case) -> Option<(Tables, Queue)> {
    let tables = Tables::read(&case.tables).ok()?;
    let queue = Queue::read(&case.queue, &tables).ok()?;
    Some((tables, queue))
}

fn leaving(case: &Case, right: Seen, change: impl Fn(&Tables, &Queue, &mut Queue)) -> Seen {
    let after = Case { tables: right.tables, queue: right.queue.clone(), ..case.clone() };
    let (Some((tables, before)), Some((_, mut after))) = (sound(case), sound(&after)) else {
        return right;
    };
    change(&tables, &before, &mut after);
    Seen { queue: after.bytes(), ..right }
}

/// Whether a take hands a record out.
fn takes(case: &Case, right: &Seen) -> bool {
    case.call == Call::Take && right.taken > 0
}

/// The owners in the order of the round.
fn round_of(tables: &Tables) -> Vec<Seat> {
    [UNAUTHENTICATED].into_iter().chain(tables.credentials.iter().map(Row::number)).collect()
}

fn taken_from(case: &Case, right: Seen, choose: fn(&Tables, &Queue) -> Option<Seat>) -> Seen {
    if !takes(case, &right) {
        return right;
    }
    let (tables, queue) = sound(case).expect("taken");
    let Some(owner) = choose(&tables, &queue).filter(|&owner| queue.occupied(owner)) else {
        return right;
    };
    let order = round_of(&tables);
    let at = order.iter().position(|&other| other == owner).expect("an owner");
    let last = at.checked_sub(1).map(|before| order[before]);
    Case { queue: Queue { last, ..queue }.bytes(), ..case.clone() }.expected()
}

/// The first owner with a record, of some.
fn first_of(owners: impl IntoIterator<Item = Seat>, queue: &Queue) -> Option<Seat> {
    owners.into_iter().find(|&owner| queue.occupied(owner))
}

/// Whether a credential row went.
fn rows_gone(case: &Case, right: &Seen) -> bool {
    sound(case).is_some() && right.tables[CREDENTIAL_COUNT] < case.tables[CREDENTIAL_COUNT]
}

/// Whether the tables hold the owner.
fn known(tables: &Tables, owner: Seat) -> bool {
    owner == UNAUTHENTICATED || tables.credential(owner).is_some()
}

fn mended(case: &Case, right: Seen, mend: fn(&mut [u8])) -> Seen {
    if right.answer != NOT_SOUND || Tables::read(&case.tables).is_err() {
        return right;
    }
    let mut bytes = case.queue.whole();
    mend(&mut bytes);
    let other = Case { queue: QueueBytes::from_bytes(&bytes), ..case.clone() }.expected();
    Seen { queue: right.queue, ..other }
}

/// The queue stays as it is.
fn unchanged(case: &Case, right: Seen) -> Seen {
    Seen { queue: case.queue.clone(), ..right }
}

/// What a record gets that is judged, where its hand-in is accepted.
fn judged(case: &Case, right: &Seen) -> Option<Seen> {
    let accepted = case.call == Call::HandIn && right.answer == PERMITTED;
    accepted.then(|| Case { call: Call::Judge, ..case.clone() }.expected())
}

pub const TABLE: &[Mutant] = &[
    Any("enqueues nothing", |case, right| if case.call == Call::HandIn { unchanged(case, right) } else { right }),
    Any("permits at the hand-in", |case, right| match judged(case, &right) {
        Some(judged) => Seen { permission: judged.permission, payload: judged.payload, ..right },
        None => right,
    }),
    Any("judges at the hand-in", |case, right| match judged(case, &right) {
        Some(judged) if judged.answer != PERMITTED => refused(judged.answer, case),
        _ => right,
    }),
    Any("changes the tables at the hand-in", |case, right| match judged(case, &right) {
        Some(judged) => Seen { tables: judged.tables, ..right },
        None => right,
    }),
    Any("looks for no row at the hand-in", |case, right| match case.call {
        Call::HandIn if right.answer == NO_CREDENTIAL => refused(PERMITTED, case),
        _ => right,
    }),
    Answer("never says 26", OCCUPIED, PERMITTED),
    Any("keeps the newer of two records", |case, right| match (right.answer, sound(case)) {
        (OCCUPIED, Some((_, mut queue))) => {
            let owner = seat(&case.record);
            let slot = queue.slots.iter_mut().find(|slot| slot.owner == owner).expect("occupied");
            slot.record = case.record.clone();
            Seen { queue: queue.bytes(), ..refused(PERMITTED, case) }
        }
        _ => right,
    }),
    Any("has a slot for each record", |case, right| match (right.answer, sound(case)) {
        (OCCUPIED, Some((_, queue))) if queue.slots.len() < CAPACITY => refused(PERMITTED, case),
        _ => right,
    }),
    Any("says 26 once anybody waits", |case, right| match (case.call, right.answer) {
        (Call::HandIn, PERMITTED) if case.queue.trimmed().first().is_some_and(|&count| count > 0) => {
            refused(OCCUPIED, case)
        }
        _ => right,
    }),
    Any("says 26 before 7", |case, right| match sound(case) {
        Some((_, queue))
            if case.call == Call::HandIn
                && matches!(right.answer, NO_VERB..=UNKNOWN_RESOURCE)
                && queue.occupied(seat(&case.record)) =>
        {
            refused(OCCUPIED, case)
        }
        _ => right,
    }),
    Leaves("puts a new record first", |_, before, after| {
        if after.slots.len() > before.slots.len() {
            after.slots.rotate_right(1);
        }
    }),
    Answer("never says 27", NOTHING_WAITING, PERMITTED),
    Any("says 27 before 1", |case, right| match case.call {
        Call::Take if right.answer == NOT_SOUND && case.queue == QueueBytes::empty() => refused(NOTHING_WAITING, case),
        _ => right,
    }),
    Any("moves the round when nothing waits", |case, right| match right.answer {
        NOTHING_WAITING => leaving(case, right, |_, _, after| after.last = Some(UNAUTHENTICATED)),
        _ => right,
    }),
    Taken("never moves the round", |case, right| leaving(case, right, |_, before, after| after.last = before.last)),
    Takes("takes the record that came first", |_, queue| queue.slots.first().map(|slot| slot.owner)),
    Takes("takes the record that came last", |_, queue| queue.slots.last().map(|slot| slot.owner)),
    Takes("resets every round", |tables, queue| first_of(round_of(tables), queue)),
    Takes("begins at the owner taken last", |_, queue| first_of(queue.last, queue)),
    Takes("takes unauthenticated senders last", |tables, queue| first_of(round_of(tables).into_iter().skip(1), queue)),
    Takes("goes by the numbers of rows", |tables, queue| {
        let mut order = round_of(tables);
        order.sort();
        let last = queue.last.and_then(|last| order.iter().position(|&owner| owner == last));
        order.rotate_left(last.map_or(0, |last| last + 1));
        first_of(order, queue)
    }),
    Takes("goes round the other way", |tables, queue| {
        let mut order = round_of(tables);
        let last = queue.last.and_then(|last| order.iter().position(|&owner| owner == last));
        order.rotate_left(last.unwrap_or(0));
        first_of(order.into_iter().rev(), queue)
    }),
    Taken(
        "keeps a record that it refuses",
        |case, right| if right.answer != PERMITTED { unchanged(case, right) } else { right },
    ),
    Taken("keeps a record whose reply does not fit", |case, right| {
        if right.answer == NO_ROOM {
            unchanged(case, right)
        } else {
            right
        }
    }),
    Taken("frees no slot", unchanged),
    Taken("hands out no record that it refuses", |_, right| match right.answer {
        PERMITTED => right,
        _ => Seen { taken: 0, record: vec![0; RECORD_MAX], ..right },
    }),
    Taken("hands out the payload alone", |_, mut right| {
        right.record.rotate_left(HEADER_SIZE);
        right.record[RECORD_MAX - HEADER_SIZE..].fill(0);
        right.taken -= HEADER_SIZE;
        right
    }),
    Taken("gives a refused record a payload", |_, right| match right.answer {
        PERMITTED => right,
        _ => Seen { payload: HEADER_SIZE..right.taken, ..right },
    }),
    Taken("leaves the bytes after the record as they are", |_, mut right| {
        right.record[right.taken..].fill(0x5B);
        right
    }),
    Any("judges at another clock than the take's", |case, right| match case.call {
        Call::Take => Case { clock: 0, ..case.clone() }.expected(),
        _ => right,
    }),
    Taken("closes up with the last slot", |case, right| {
        let owner = seat(&right.record);
        leaving(case, right, |_, before, after| {
            if after.slots.len() + 1 == before.slots.len() {
                let at = before.slots.iter().position(|slot| slot.owner == owner).expect("waited");
                after.slots = before.slots.clone();
                after.slots.swap_remove(at);
            }
        })
    }),
    Any("keeps orphaned records", |case, right| match case.call {
        Call::Judge if rows_gone(case, &right) => unchanged(case, right),
        _ => right,
    }),
    Any("drops the record of a replaced row", |case, right| match update_of(CRED, case, &right) {
        Some(body)
            if case.call == Call::Judge && right.answer == PERMITTED && body.len() >= Credential::SHORT_BODY_SIZE =>
        {
            let owner = be16(&body[NUMBER]);
            leaving(case, right, |_, _, after| after.slots.retain(|slot| slot.owner != owner))
        }
        _ => right,
    }),
    Any("keeps the queue at a reset", |case, right| match case.call {
        Call::Judge if is_reset(case, &right) => unchanged(case, right),
        _ => right,
    }),
    Any("keeps the round of a deleted row", |case, right| {
        match rows_gone(case, &right) && right.tables[STATE] == case.tables[STATE] {
            true => leaving(case, right, |_, before, after| after.last = before.last),
            false => right,
        }
    }),
    Any("resets the round for every deleted row", |case, right| match rows_gone(case, &right) {
        true => leaving(case, right, |_, _, after| after.last = None),
        false => right,
    }),
    Any("keeps the round of an unknown owner when rows come", |case, right| match case.call {
        Call::Judge => leaving(case, right, |tables, before, after| {
            let stale = before.last.is_some_and(|last| !known(tables, last));
            if stale && !before.slots.is_empty() && after.last.is_none() {
                after.last = before.last;
            }
        }),
        _ => right,
    }),
    Any("resets the round of an unknown owner", |case, right| match right.answer {
        NOT_SOUND => right,
        _ => leaving(case, right, |tables, _, after| after.last = after.last.filter(|&last| known(tables, last))),
    }),
    Any("takes the round of an unknown owner for not sound", |case, right| match sound(case) {
        Some((tables, Queue { last: Some(last), .. })) if !known(&tables, last) => refused(NOT_SOUND, case),
        _ => right,
    }),
    Mends("does not look at the queue for 1", |bytes| bytes.fill(0)),
    Mends("does not look after the records", |bytes| {
        let used = SLOTS.start + usize::from(bytes[COUNT]).min(CAPACITY) * SLOT_SIZE;
        bytes[used..].fill(0);
        for slot in bytes[SLOTS].chunks_exact_mut(SLOT_SIZE) {
            let length = usize::from(be16(&slot[SLOT_LENGTH]));
            if let Some(unused) = slot[SLOT_RECORD..].get_mut(length..) {
                unused.fill(0);
            }
        }
    }),
    Mends("takes a record in another's slot for sound", |bytes| {
        for slot in bytes[SLOTS].chunks_exact_mut(SLOT_SIZE) {
            let owner = Header::read(&slot[SLOT_RECORD..]).credential;
            slot[SLOT_OWNER].copy_from_slice(&owner.to_be_bytes());
        }
    }),
];
