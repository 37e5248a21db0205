//! Tests of the options on a command line.

use super::*;

fn read(arguments: &[&str]) -> Result<Options, String> {
    let program = Program { name: "p", help: "", valued: &["--seed", "--records"], flags: &["--trace"], free: 1 };
    program.read(arguments.iter().map(OsString::from))
}

#[test]
fn good_arguments() {
    let options = read(&["--seed", "4", "file", "--trace", "--records=9"]).unwrap();
    assert_eq!(options.text("--seed"), Some("4"));
    assert_eq!(options.text("--records"), Some("9"));
    assert_eq!(options.free(0), Some("file"));
    assert!(options.flag("--trace"));
    assert!(read(&["--help", "--nonsense"]).unwrap().help);
}

#[test]
fn bad_arguments() {
    assert_eq!(read(&["--sed", "4"]).unwrap_err(), "there is no option --sed");
    assert_eq!(read(&["--seed"]).unwrap_err(), "--seed needs a value");
    assert_eq!(read(&["--seed", "1", "--seed", "2"]).unwrap_err(), "--seed is given twice");
    assert_eq!(read(&["a", "b"]).unwrap_err(), "nothing is known of the argument 'b'");
    assert_eq!(read(&["--trace=1"]).unwrap_err(), "--trace takes no value");
}
