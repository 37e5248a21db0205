//! Hands records in and takes them in turn: `cargo run --example turns`.

use tillerclover::{record, Answer, Cred, Resource, Terminal, Uuid, Verb, ANYONE};

fn main() {
    let mut yard = Terminal::new();
    let row = Cred { number: 7, subject: Uuid([7; 16]), ..Cred::default() };
    let stored = yard.judge(0, &record(Verb::UPDATE, Resource::CRED, ANYONE, &row.body()));
    assert!(stored.answer.is_permitted());

    // Each sender has one place.
    for sender in [7, ANYONE, 7] {
        let read = record(Verb::RETRIEVE, Resource::PSTAT, sender, &[]);
        println!("hand in of sender {sender}: {}", yard.hand_in(&read));
    }
    // Takes go round, from the unauthenticated senders' place on.
    loop {
        let (taken, response) = yard.take(0);
        if response.answer == Answer::NOTHING_WAITING {
            break;
        }
        println!("taken {taken:02x?}: {}, {} bytes of reply", response.answer, response.reply.len());
    }
}
