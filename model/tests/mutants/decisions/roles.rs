//! Mutants of asserted roles: who may assert one, what becomes of the row, where a
//! role fits, and what is replied.

use model::answers::*;
use model::case::Seen;
use model::directory::CRED;
use model::record::{Verb, HEADER_SIZE, MAY_ALL};
use model::tables::{Asserted, Credential, Row, Tables, CREDENTIALS, CREDENTIAL_COUNT, NUMBER, RFNOP, STATE};

use super::Mutant::{self, *};
use super::{
    asserts_role, permitted_by, reads_roles, refused, row_of, row_of_mut, to_roles, update_of, with_reply, ON_ROLES,
};

/// The size of the row owner, at the front of other replies.
const OWNER: usize = 16;

const RETRIEVE: u8 = Verb::Retrieve as u8;
const UPDATE: u8 = Verb::Update as u8;
const DELETE: u8 = Verb::Delete as u8;
const OBSERVE: u8 = Verb::Observe as u8;

/// Puts a role instead of an equal one, or at the end.
fn put(roles: &mut Vec<Asserted>, asserted: Asserted) {
    match roles.iter().position(|earlier| earlier.role == asserted.role) {
        Some(at) => roles[at] = asserted,
        None => roles.push(asserted),
    }
}

/// Drops the roles that have expired.
fn drop_expired(roles: &mut Vec<Asserted>, clock: u32) {
    roles.retain(|earlier| earlier.in_force(clock));
}

/// The roles of a row that are in force.
fn in_force(row: &Credential, clock: u32) -> Vec<Asserted> {
    row.asserted.iter().filter(|asserted| asserted.in_force(clock)).copied().collect()
}

/// The places of asserted roles, as bytes of a row.
const FIRST_ROLE: std::ops::Range<usize> = Asserted::ROLE;
const SECOND_ROLE: std::ops::Range<usize> = Asserted::SIZE..Asserted::SIZE + Asserted::ROLE.end;
const FIRST_NUMBER: std::ops::Range<usize> = Asserted::ROLE_NUMBER;
const SECOND_NUMBER: std::ops::Range<usize> =
    Asserted::SIZE + Asserted::ROLE_NUMBER.start..Asserted::SIZE + Asserted::ROLE_NUMBER.end;

pub const TABLE: &[Mutant] = &[
    ToRoles("does not know the roles", UNKNOWN_RESOURCE, |_, _, _, _| true),
    ToRoles("grants partners nothing on the roles", NOT_PERMITTED, |_, right, _, _| right.permission == ON_ROLES),
    Any("grants everybody 6 on the roles", |case, right| match to_roles(case, &right) {
        Some((header, _)) if right.answer == NOT_PERMITTED && matches!(header.verb, RETRIEVE | UPDATE | OBSERVE) => {
            Seen { permission: ON_ROLES, ..refused(PERMITTED, case) }
        }
        _ => right,
    }),
    Any("grants partners all on the roles", |case, right| match to_roles(case, &right) {
        Some((_, Some(_))) if right.answer == PERMITTED => Seen { permission: MAY_ALL, ..right },
        _ => right,
    }),
    Any("grants 6 and no other bit on the roles", |case, right| match to_roles(case, &right) {
        Some((_, Some(_))) if right.answer == PERMITTED => Seen { permission: ON_ROLES, ..right },
        _ => right,
    }),
    ToRoles("offers DELETE of the roles", PERMITTED, |_, right, header, _| {
        right.answer == NOT_OFFERED && header.verb == DELETE
    }),
    ToRoles("gives the roles a row owner", WRONG_STATE, |case, right, header, _| {
        right.answer == MALFORMED && header.verb == UPDATE && case.record.len() == HEADER_SIZE + OWNER
    }),
    Any("stores role 0", |case, right| match to_roles(case, &right) {
        Some((header, _))
            if right.answer == MALFORMED
                && header.verb == UPDATE
                && case.record.len() == HEADER_SIZE + Asserted::SIZE =>
        {
            let mut other = case.clone();
            other.record[HEADER_SIZE..][Asserted::ROLE_NUMBER].copy_from_slice(&[0, 1]);
            other.expected()
        }
        _ => right,
    }),
    ToRoles("takes a role in every state", PERMITTED, |_, right, _, row| right.answer == WRONG_STATE && row.is_some()),
    ToRoles("takes a role from nobody", PERMITTED, |_, right, _, row| right.answer == WRONG_STATE && row.is_none()),
    ToRoles("says 8 to nobody who asserts a role", NOT_PERMITTED, |_, right, _, row| {
        right.answer == WRONG_STATE && row.is_none()
    }),
    ToRoles("says 11 before 10 to who asserts a role", WRONG_STATE, |case, right, header, _| {
        right.answer == MALFORMED && header.verb == UPDATE && case.tables[STATE] != RFNOP
    }),
    Any("refuses a role that has expired", |case, right| match asserts_role(case, &right) {
        Some((_, asserted)) if !asserted.in_force(case.clock) => refused(MALFORMED, case),
        _ => right,
    }),
    Answer("never says 22", ROLES_FULL, PERMITTED),
    Answer("says 14 for 22", ROLES_FULL, FULL),
    Asserts("drops the oldest role for a third", |roles, asserted, clock| {
        drop_expired(roles, clock);
        put(roles, asserted);
        if roles.len() > Asserted::CAPACITY {
            roles.remove(0);
        }
    }),
    Any("holds one role", |case, right| match asserts_role(case, &right) {
        Some((row, asserted)) if in_force(&row, case.clock).iter().any(|other| other.role != asserted.role) => {
            refused(ROLES_FULL, case)
        }
        _ => right,
    }),
    Asserts("counts expired roles for 22", |roles, asserted, clock| {
        if roles.len() < Asserted::CAPACITY || roles.iter().any(|earlier| earlier.role == asserted.role) {
            drop_expired(roles, clock);
        }
        put(roles, asserted);
    }),
    Asserts("removes no expired role", |roles, asserted, clock| {
        if roles.len() == Asserted::CAPACITY {
            drop_expired(roles, clock);
        }
        put(roles, asserted);
    }),
    Asserts("removes roles in their last second", |roles, asserted, clock| {
        roles.retain(|earlier| clock < earlier.last);
        put(roles, asserted);
    }),
    Asserts("keeps the place of an equal role that has expired", |roles, asserted, clock| {
        roles.retain(|earlier| earlier.in_force(clock) || earlier.role == asserted.role);
        put(roles, asserted);
    }),
    Asserts("puts an equal role at the end", |roles, asserted, clock| {
        roles.retain(|earlier| earlier.in_force(clock) && earlier.role != asserted.role);
        roles.push(asserted);
    }),
    Asserts("puts a new role first", |roles, asserted, clock| {
        drop_expired(roles, clock);
        match roles.iter().any(|earlier| earlier.role == asserted.role) {
            true => put(roles, asserted),
            false => roles.insert(0, asserted),
        }
    }),
    Asserts("keeps the later of two last seconds", |roles, asserted, clock| {
        drop_expired(roles, clock);
        let earlier = roles.iter().find(|earlier| earlier.role == asserted.role);
        let last = earlier.map_or(asserted.last, |earlier| earlier.last.max(asserted.last));
        put(roles, Asserted { last, ..asserted });
    }),
    Asserts("takes roles of one number for equal", |roles, asserted, clock| {
        drop_expired(roles, clock);
        match roles.iter().position(|earlier| earlier.role.number == asserted.role.number) {
            Some(at) => roles[at] = asserted,
            None => roles.push(asserted),
        }
    }),
    Any("writes another sender's row", |case, mut right| {
        if let (Some((row, _)), PERMITTED) = (asserts_role(case, &right), right.answer) {
            let mut rows = case.tables[CREDENTIALS].chunks(Credential::ROW_SIZE);
            let at = rows.position(|other| other[NUMBER] == row.number.to_be_bytes()).expect("there");
            let other = (at + 1) % usize::from(case.tables[CREDENTIAL_COUNT]);
            let roles = |row: usize| {
                let start = CREDENTIALS.start + row * Credential::ROW_SIZE;
                start + Credential::ASSERTED.start..start + Credential::ASSERTED.end
            };
            let new = right.tables[roles(at)].to_vec();
            right.tables = case.tables;
            right.tables[roles(other)].copy_from_slice(&new);
        }
        right
    }),
    Any("keeps roles when the row is replaced", |case, mut right| {
        let stores = |body: &&[u8]| body.len() >= Credential::SHORT_BODY_SIZE;
        if let Some(body) = update_of(CRED, case, &right).filter(stores).filter(|_| right.answer == PERMITTED) {
            if let Some(before) = row_of::<Credential>(&case.tables[CREDENTIALS], body) {
                let row = row_of_mut::<Credential>(&mut right.tables[CREDENTIALS], body).expect("stored");
                row[Credential::ASSERTED].copy_from_slice(&before[Credential::ASSERTED]);
            }
        }
        right
    }),
    Any("removes expired roles when they are read", |case, right| match reads_roles(case, &right) {
        Some(row) if right.answer == PERMITTED => {
            let mut tables = Tables::read(&case.tables).expect("sound");
            let caller_row = tables.credentials.iter_mut().find(|other| other.number == row.number);
            drop_expired(&mut caller_row.expect("there").asserted, case.clock);
            Seen { tables: tables.bytes(), ..right }
        }
        _ => right,
    }),
    Fits("fits a role a second too long", |roles| {
        roles.iter_mut().for_each(|role| role.last = role.last.saturating_add(1))
    }),
    Fits("fits a role a second too short", |roles| {
        // In second 0 it has expired at once.
        roles.retain(|role| role.last > 0);
        roles.iter_mut().for_each(|role| role.last -= 1);
    }),
    Fits("fits a role for ever", |roles| roles.iter_mut().for_each(|role| role.last = u32::MAX)),
    Fits("fits no asserted role", Vec::clear),
    Fits("fits the first asserted role", |roles| roles.truncate(1)),
    Fits("fits the last asserted role", |roles| drop(roles.drain(..roles.len().saturating_sub(1)))),
    Any("fits an asserted role in place of the stored one", |case, right| {
        permitted_by(case, right, |tables| {
            for row in &mut tables.credentials {
                row.role = row.role.filter(|_| in_force(row, case.clock).is_empty());
            }
        })
    }),
    Replies("replies with expired roles", |row, _| row.asserted.clone()),
    Replies("replies with roles before their last second", |row, clock| {
        row.asserted.iter().filter(|role| clock < role.last).copied().collect()
    }),
    Replies("replies with the newest role first", |row, clock| in_force(row, clock).into_iter().rev().collect()),
    Replies("replies with the stored role as well", |row, clock| {
        let stored = row.role.map(|role| Asserted { role, last: u32::MAX });
        stored.into_iter().chain(in_force(row, clock)).collect()
    }),
    Any("replies with a row owner before the roles", |case, right| match reads_roles(case, &right) {
        Some(row) => {
            let roles = in_force(&row, case.clock).iter().flat_map(Asserted::bytes).collect();
            with_reply(case, right.permission.max(ON_ROLES), &[vec![0; OWNER], roles].concat())
        }
        None => right,
    }),
    Any("replies with both places as they are", |case, right| match reads_roles(case, &right) {
        Some(row) => with_reply(case, right.permission.max(ON_ROLES), &row.stored()[Credential::ASSERTED]),
        None => right,
    }),
    Any("replies with roles among the credentials", |case, right| {
        let of_credentials = case.record.len() == HEADER_SIZE && case.record[1] == CRED << 6;
        if !of_credentials || right.reply < OWNER {
            return right;
        }
        let rows = Tables::read(&case.tables).expect("sound").credentials;
        let reply = [right.buffer[..OWNER].to_vec(), rows.iter().flat_map(Row::stored).collect()].concat();
        with_reply(case, right.permission, &reply)
    }),
    Overlooks("takes equal roles for sound", |roles| {
        roles[FIRST_ROLE] == roles[SECOND_ROLE] && roles[FIRST_NUMBER] != [0, 0]
    }),
    Overlooks("takes the second role without the first for sound", |roles| {
        roles[..Asserted::SIZE] == [0; Asserted::SIZE]
    }),
    Overlooks("takes bytes without a role for sound", |roles| {
        roles[FIRST_NUMBER] == [0, 0] || roles[SECOND_NUMBER] == [0, 0]
    }),
];
