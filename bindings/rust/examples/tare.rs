//! Sets a terminal up, and lets a haulier tare: `cargo run --example tare`.

use std::error::Error;

use tillerclover::{
    doxm_body, pstat_body, record, Ace, Cred, Permission, Resource, Set, State, Subject, Terminal, Uuid,
};
use tillerclover::{Verb, ANYONE};

/// Judges a record that must pass; a refusal ends the program.
fn must(yard: &mut Terminal, record: &[u8]) -> Result<(), Box<dyn Error>> {
    let response = yard.judge(0, record);
    match response.answer.is_permitted() {
        true => Ok(()),
        false => Err(response.answer.into()),
    }
}

fn main() -> Result<(), Box<dyn Error>> {
    const OWNER: u16 = 5;
    const HAULIER: u16 = 7;
    let owner: Uuid = "11111111-1111-1111-1111-111111111111".parse()?;
    let haulier: Uuid = "22222222-2222-2222-2222-222222222222".parse()?;
    let mut yard = Terminal::new();

    // While nobody owns the terminal, anyone may set it up.
    for (number, subject) in [(OWNER, owner), (HAULIER, haulier)] {
        let row = Cred { number, subject, ..Cred::default() };
        must(&mut yard, &record(Verb::UPDATE, Resource::CRED, ANYONE, &row.body()))?;
    }
    let row = Ace {
        number: 1,
        subject: Subject::Uuid(haulier),
        permission: "RU".parse()?,
        resources: Set::of(&[Resource::TARE]),
        ..Ace::default()
    };
    must(&mut yard, &record(Verb::UPDATE, Resource::ACL2, ANYONE, &row.body()))?;
    must(&mut yard, &record(Verb::UPDATE, Resource::DOXM, ANYONE, &doxm_body(owner)))?;
    for state in [State::RFPRO, State::RFNOP] {
        must(&mut yard, &record(Verb::UPDATE, Resource::PSTAT, OWNER, &pstat_body(state)))?;
    }

    for (resource, body) in [(Resource::TARE, "lorry"), (Resource::ZERO, "")] {
        let response = yard.judge(0, &record(Verb::UPDATE, resource, HAULIER, body.as_bytes()));
        println!("UPDATE {resource}: {}, {:?} passed on", response.answer, String::from_utf8_lossy(&response.payload));
        let permitted = resource == Resource::TARE;
        assert_eq!(
            response.permission,
            if permitted { Permission::RETRIEVE | Permission::UPDATE } else { Permission::NONE }
        );
    }
    Ok(())
}
