//! The lock on a file of tables, as another process sees it.

#![forbid(unsafe_code)]

use std::fs;
use std::path::{Path, PathBuf};
use std::process::Command;
use std::sync::Mutex;
use std::time::Duration;

use tool::error::Kind;
use tool::lock::Locked;

const TRY: &str = "
import fcntl, struct, sys
try:
    fcntl.fcntl(open(sys.argv[1], 'r+b'), fcntl.F_SETLK, struct.pack('hhqqi', fcntl.F_WRLCK, 0, 0, 0, 0))
except OSError:
    sys.exit(1)
";

/// One test after the other: a process that is being started holds the locks of the other test for a moment.
static ALONE: Mutex<()> = Mutex::new(());

/// Whether a terminal could take the file now.
fn free(path: &Path) -> bool {
    Command::new("python3").args(["-c", TRY]).arg(path).status().expect("python3").success()
}

fn file(name: &str) -> PathBuf {
    let path = Path::new(env!("CARGO_TARGET_TMPDIR")).join(name);
    fs::write(&path, "old").expect("a file");
    path
}

#[test]
fn the_lock_is_held_until_the_file_is_replaced() {
    let _alone = ALONE.lock();
    let path = file("held");
    let locked = Locked::open(&path, Duration::ZERO).expect("a lock");
    assert!(!free(&path));
    assert_eq!(locked.read(), Ok(b"old".to_vec()));
    assert!(!free(&path), "reading dropped the lock");
    locked.replace(b"new", true).expect("a new file");
    assert!(free(&path));
    assert_eq!(fs::read(&path).ok(), Some(b"new".to_vec()));
    assert_eq!(fs::read(path.with_file_name("held~")).ok(), Some(b"old".to_vec()));
}

#[test]
fn a_second_run_is_refused() {
    let _alone = ALONE.lock();
    let path = file("twice");
    let first = Locked::open(&path, Duration::ZERO).expect("a lock");
    let error = Locked::open(&path, Duration::from_millis(50)).expect_err("no second lock");
    assert_eq!((error.kind, error.process), (Kind::InUse, Some(std::process::id())));
    drop(first);
    Locked::open(&path, Duration::ZERO).expect("a lock");
}
