//! A file that is about to change, locked: against other runs of this command,
//! which are waited for, and against a running terminal, which is not.

use std::fs::{self, File, OpenOptions};
use std::io::{self, Read, Seek, Write};
use std::os::unix::fs::MetadataExt;
use std::path::{Path, PathBuf};
use std::thread;
use std::time::{Duration, Instant};

use crate::error::{name, plain, unreadable, Error, Kind};
use crate::store::not_standard;
use crate::system::{lock_among_tools, lock_record, record_holder, Lock};

/// How often a lock is asked for again.
const PAUSE: Duration = Duration::from_millis(20);
/// So often a file is opened that others keep replacing.
const ATTEMPTS: usize = 1000;
/// Who waits no longer gets no message.
const PATIENCE: Duration = Duration::from_millis(300);

/// How long others were waited for.
struct Waiting {
    begun: Instant,
    wait: Duration,
    told: bool,
}

/// A locked file. No other descriptor of it may be closed while it lives: that would drop the record lock.
#[derive(Debug)]
pub struct Locked {
    file: File,
    /// As it was named on the command line.
    pub path: PathBuf,
    /// Why it may not be written.
    pub unwritable: Option<String>,
}

impl Locked {
    /// Locks a file, waiting so long for other runs of this command. One that a terminal uses is an error.
    pub fn open(path: &Path, wait: Duration) -> Result<Locked, Error> {
        not_standard(path)?;
        let unread = |error: io::Error| unreadable(path, &error);
        let mut waiting = Waiting { begun: Instant::now(), wait, told: false };
        for _ in 0..ATTEMPTS {
            let locked = Locked::opened(path).map_err(unread)?;
            locked.wait_for_tools(&mut waiting)?;
            // A file that is no longer at the path was replaced: by a writer that was waited for, or by a terminal's store.
            let free = locked.is_at_path().map_err(unread)? && locked.free_of_terminals()?;
            if free && locked.is_at_path().map_err(unread)? {
                return Ok(locked);
            }
        }
        let message = "in use by another process; nothing was changed";
        Err(Error { kind: Kind::InUse, ..Error::of(path, message) })
    }

    /// For writing where that is allowed; otherwise for records that change nothing.
    fn opened(path: &Path) -> io::Result<Locked> {
        match OpenOptions::new().read(true).write(true).open(path) {
            Ok(file) => Ok(Locked { file, path: path.into(), unwritable: None }),
            Err(error) if error.kind() == io::ErrorKind::IsADirectory => Err(error),
            Err(error) => Ok(Locked { file: File::open(path)?, path: path.into(), unwritable: Some(plain(&error)) }),
        }
    }

    fn wait_for_tools(&self, waiting: &mut Waiting) -> Result<(), Error> {
        loop {
            match lock_among_tools(&self.file) {
                Err(error) => return Err(unreadable(&self.path, &error)),
                Ok(Lock::Held | Lock::Unsupported) => return Ok(()),
                Ok(Lock::Refused) => {}
            }
            let process = self.tool_holder();
            let past = waiting.begun.elapsed();
            if past >= waiting.wait {
                let by = process.map_or(String::new(), |number| format!(" (process {number})"));
                let waited = waiting.wait.as_secs();
                let message =
                    format!("another tillerclover{by} is changing it; waited {waited} s; nothing was changed");
                return Err(Error { kind: Kind::InUse, process, ..Error::of(&self.path, message) });
            }
            if past >= PATIENCE && !waiting.told {
                let by = process.map_or("another tillerclover".into(), |number| format!("process {number}"));
                let _ = writeln!(io::stderr(), "tillerclover: {}: waiting for {by}", name(&self.path));
                waiting.told = true;
            }
            thread::sleep(PAUSE);
        }
    }

    /// Takes the record lock. False where it was refused, and nobody holds it any more: the file may be replaced by now.
    fn free_of_terminals(&self) -> Result<bool, Error> {
        let unread = |error: io::Error| unreadable(&self.path, &error);
        let refused = match self.unwritable {
            Some(_) => false,
            None => lock_record(&self.file).map_err(unread)? == Lock::Refused,
        };
        let holder = match refused || self.unwritable.is_some() {
            true => record_holder(&self.file).map_err(unread)?,
            false => None,
        };
        let Some(number) = holder else { return Ok(!refused) };
        let process = (number != 0).then_some(number);
        let by = process.map_or("another process".into(), |number| format!("process {number}"));
        let message =
            format!("in use by {by}; nothing was changed; 'tillerclover record' writes what can be sent to it instead");
        Err(Error { kind: Kind::InUse, process, ..Error::of(&self.path, message) })
    }

    /// Whether it is still the file that the path names.
    fn is_at_path(&self) -> io::Result<bool> {
        let (own, there) = (self.file.metadata()?, fs::metadata(&self.path)?);
        Ok((own.dev(), own.ino()) == (there.dev(), there.ino()))
    }

    /// The run of this command that holds the file, where the system tells it.
    fn tool_holder(&self) -> Option<u32> {
        let own = self.file.metadata().ok()?;
        let locks = fs::read_to_string("/proc/locks").ok()?;
        holder(&locks, own.dev(), own.ino())
    }

    /// The file's metadata.
    pub fn metadata(&self) -> io::Result<fs::Metadata> {
        self.file.metadata()
    }

    /// At most that many bytes from its beginning.
    pub fn bytes(&self, most: u64) -> io::Result<Vec<u8>> {
        let mut bytes = Vec::new();
        let mut file = &self.file;
        file.rewind()?;
        file.take(most).read_to_end(&mut bytes)?;
        Ok(bytes)
    }
}

/// The process of the line of /proc/locks that is about this file.
fn holder(locks: &str, device: u64, inode: u64) -> Option<u32> {
    let (major, minor) = (device >> 8 & 0xfff | device >> 32 & !0xfff, device & 0xff | device >> 12 & !0xff);
    let place = format!("{major:02x}:{minor:02x}:{inode}");
    let mut lines = locks.lines().map(|line| line.split_whitespace().collect::<Vec<_>>());
    let line = lines.find(|words| words.get(1) == Some(&"FLOCK") && words.get(5) == Some(&place.as_str()))?;
    line.get(4)?.parse().ok()
}

#[cfg(test)]
mod tests {
    use super::*;

    #[test]
    fn the_holder_is_found_among_all_locks() {
        let locks = "1: POSIX  ADVISORY  WRITE 17 08:01:99 0 EOF\n\
                     2: FLOCK  ADVISORY  WRITE 18 08:01:98 0 EOF\n\
                     3: FLOCK  ADVISORY  WRITE 19 08:01:99 0 EOF\n\
                     3: -> FLOCK  ADVISORY  WRITE 20 08:01:99 0 EOF\n";
        let device = 8 << 8 | 1;
        assert_eq!(holder(locks, device, 99), Some(19));
        assert_eq!(holder(locks, device, 97), None);
    }
}
