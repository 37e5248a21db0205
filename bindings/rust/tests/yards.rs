//! The questions of yards through the binding: its numbers are the header's, and each answer comes as the library gives it.

#![forbid(unsafe_code)]

use tillerclover::yards::{identified, identity, isolated, Isolation, IDENTITY};
use tillerclover::{interface, Ace, Cred, Defaults, Permission, Resource, Set, State, Subject, Tables, Uuid, Waiting};

fn yard() -> Tables {
    let row = |number: u8| Cred { number: number.into(), subject: Uuid([number; 16]), ..Cred::default() };
    let mut tables = Tables::default();
    interface::fresh(&mut tables, &mut Waiting::FRESH.clone(), Defaults::default());
    tables.set_creds(&[row(5), row(7), row(8)]);
    tables.set_owner(Uuid([5; 16]));
    tables.state = State::RFNOP.0;
    tables
}

#[test]
fn the_headers_numbers() {
    let path = concat!(env!("CARGO_MANIFEST_DIR"), "/include/tillerclover_yards.h");
    let text = std::fs::read_to_string(path).expect("the header");
    for (name, isolation) in [
        ("ISOLATED", Isolation::Isolated),
        ("ISOLATION_ODD_LENGTH", Isolation::OddLength),
        ("ISOLATION_NOT_SOUND", Isolation::NotSound),
        ("ISOLATION_NO_OWNER", Isolation::NoOwner),
        ("ISOLATION_NAMES_OWNER", Isolation::NamesOwner { entry: 0 }),
        ("ISOLATION_MAY_ALTER", Isolation::MayAlter { entry: 0, row: 0 }),
    ] {
        assert!(text.contains(&format!("TILLERCLOVER_{name} = {}", isolation.number())), "{name}");
        assert_eq!(Isolation::from_words(isolation.number().into(), 0, 0), Some(isolation), "{name}");
    }
    assert!(text.contains(&format!("#define TILLERCLOVER_IDENTITY UINT64_C({IDENTITY})")));
    assert_eq!((identity(), identified()), (IDENTITY, true));
    assert_eq!(Isolation::from_words(6, 1, 1), None);
}

#[test]
fn each_answer() {
    let mut tables = yard();
    assert_eq!(isolated(&tables, &[0, 7, 0, 8, 0, 0, 1, 200]), Isolation::Isolated);
    assert_eq!(isolated(&tables, &[0, 7, 0, 8, 0, 5]), Isolation::NamesOwner { entry: 3 });
    let row = Ace {
        number: 9,
        subject: Subject::Uuid(Uuid([8; 16])),
        permission: Permission::DELETE,
        resources: Set::of(&[Resource::ACL2]),
        ..Ace::default()
    };
    tables.set_aces(&[Ace { number: 1, resources: Set::of(&[Resource::TARE]), ..row }, row]);
    assert_eq!(isolated(&tables, &[0, 7, 0, 8]), Isolation::MayAlter { entry: 2, row: 2 });
    assert_eq!(isolated(&tables, &[0, 7]), Isolation::Isolated);
    tables.set_owner(Uuid::NIL);
    tables.state = State::RFOTM.0;
    assert_eq!(isolated(&tables, &[0, 7]), Isolation::NoOwner);
    assert_eq!(isolated(&tables, &[]), Isolation::Isolated);
    tables.state = 9;
    assert_eq!(isolated(&tables, &[]), Isolation::NotSound);
    assert_eq!(isolated(&tables, &[7]), Isolation::OddLength);
}

#[test]
fn words() {
    for isolation in [Isolation::Isolated, Isolation::NoOwner, Isolation::NamesOwner { entry: 4 }] {
        assert_eq!(isolation.is_isolated(), isolation.to_string() == "isolated");
    }
    let text = Isolation::MayAlter { entry: 4, row: 2 }.to_string();
    assert_eq!(text, "entry 4 may be given create, update or delete on a security resource by access row 2");
}
