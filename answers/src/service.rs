//! Whether a terminal serves: whether anything is weighed in its state, and whether
//! anybody can still change it. Both are questions to the library.

use tillerclover::{
    record, Ace, Answer, Connection, Permission, Resource, Set, Subject, Terminal, Verb, Waiting, ANYONE,
};

/// What locked out means.
pub const LOCKED_OUT: &str =
    "nobody can change an owner, the state or a row any more, and only clearing the terminal helps: no \
credential row is an owner's, and no access row lets anybody";

/// Whether nobody can change an owner, the state or a row, whatever he sends: all senders together are isolated.
pub fn locked_out(terminal: &Terminal) -> bool {
    let numbers = terminal.tables.creds().into_iter().map(|row| row.number);
    terminal.isolated(&[ANYONE].into_iter().chain(numbers).collect::<Vec<u16>>()).is_isolated()
}

/// Whether a change locks everybody out.
pub fn locks_out(before: &Terminal, after: &Terminal) -> bool {
    !locked_out(before) && locked_out(after)
}

/// Whether the state keeps anything from being weighed: it refuses the weight to one who may read it.
pub fn is_idle(terminal: &Terminal) -> bool {
    let row = Ace {
        number: 1,
        subject: Subject::Connection(Connection::ANON_CLEAR),
        permission: Permission::RETRIEVE,
        resources: Set::of(&[Resource::WEIGHT]),
        ..Ace::default()
    };
    let mut open = Terminal { waiting: Waiting::FRESH, ..terminal.clone() };
    open.tables.set_aces(&[row]);
    open.ask(0, &record(Verb::RETRIEVE, Resource::WEIGHT, ANYONE, &[])).answer == Answer::WRONG_STATE
}

/// What is to be reported after a change: that it locks everybody out, and that nothing is weighed.
pub fn notes(before: &Terminal, after: &Terminal) -> Vec<String> {
    let locked = locks_out(before, after).then(|| format!("from now on {LOCKED_OUT}"));
    let idle = is_idle(after).then(|| {
        let state = after.tables.state();
        format!("the state is {state}: nothing is weighed until it is {}", tillerclover::State::RFNOP)
    });
    locked.into_iter().chain(idle).collect()
}

#[cfg(test)]
mod tests {
    use super::*;
    use tillerclover::{Cred, State, Uuid};

    /// In normal operation, owned by the partner of credential 5, and with partner 7.
    fn owned() -> Terminal {
        let mut terminal = Terminal::new();
        let row = |number: u8| Cred { number: number.into(), subject: Uuid([number; 16]), ..Cred::default() };
        terminal.tables.set_creds(&[row(5), row(7)]);
        terminal.tables.set_owner(Uuid([5; 16]));
        terminal.tables.state = State::RFNOP.number();
        terminal
    }

    #[test]
    fn nobody_is_left() {
        let before = owned();
        let mut after = before.clone();
        assert!(!locked_out(&before) && !locked_out(&Terminal::new()));
        after.tables.set_creds(&before.tables.creds()[1..]);
        assert!(locked_out(&after) && locks_out(&before, &after) && !locks_out(&after, &after));
        // A row that lets a partner change the rows is a way back.
        let open = Ace {
            number: 1,
            subject: Subject::Uuid(Uuid([7; 16])),
            permission: Permission::UPDATE,
            resources: Set::of(&[Resource::CRED]),
            ..Ace::default()
        };
        after.tables.set_aces(&[open]);
        assert!(!locked_out(&after));
        after.tables.state = 9;
        assert!(!locked_out(&after), "tables that are not sound");
    }

    #[test]
    fn states_in_which_nothing_is_weighed() {
        let mut terminal = owned();
        assert!(!is_idle(&terminal));
        for state in [State::RFPRO, State::SRESET] {
            terminal.tables.state = state.number();
            assert!(is_idle(&terminal), "{state}");
            assert_eq!(notes(&terminal, &terminal).len(), 1);
        }
        assert!(is_idle(&Terminal::new()));
    }
}
