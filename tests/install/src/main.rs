//! A program outside the repository, over the binding and the installed archive: a new terminal, and a record that it refuses.

use tillerclover::{record, Answer, Resource, Terminal, Verb, ANYONE};

fn main() {
    let answer = Terminal::new().judge(0, &record(Verb::RETRIEVE, Resource::WEIGHT, ANYONE, &[])).answer;
    println!("answer {}, {answer}", answer.number());
    assert_eq!(answer, Answer::NOT_PERMITTED);
}
