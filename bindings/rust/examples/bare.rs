//! A decision without an allocator, as on a bare board: only its printing needs
//! more. `cargo run --no-default-features --example bare`.

use tillerclover::{interface, record_in, Defaults, Resource, State, Tables, Verb, Waiting, ANYONE};

/// The device state as the library tells it to anyone, or none where it refuses.
fn state_of(tables: &mut Tables, waiting: &mut Waiting, clock: u32) -> Option<State> {
    let (mut buffer, mut reply) = ([0; 4], [0; interface::REPLY_MAX]);
    let record = record_in(&mut buffer, Verb::RETRIEVE, Resource::PSTAT, ANYONE, &[])?;
    let outcome = interface::judge(tables, waiting, Defaults::default(), clock, record, &mut reply);
    outcome.answer.is_permitted().then(|| State(reply[0] >> 5))
}

fn main() {
    let (mut tables, mut waiting) = (Tables::default(), Waiting::FRESH);
    interface::fresh(&mut tables, &mut waiting, Defaults::default());
    let state = state_of(&mut tables, &mut waiting, 0);
    println!("a new terminal is in {state:?} and holds {} credential rows", tables.ncreds);
    assert_eq!(state, Some(State::RFOTM));
}
