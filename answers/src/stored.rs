//! The bytes of a file of tables: which form they have, what is in them, and
//! whether mark and checksum are right. Stores are read and written by the library.

use std::convert::Infallible;
use std::path::Path;

use tillerclover::{store, Given, Tables, Terminal, Waiting, FORMAT};

use crate::error::Error;

/// What a file of tables holds.
#[derive(Clone, Copy, Debug, PartialEq, Eq)]
pub enum Form {
    /// Only the tables: 2,172 bytes.
    Tables,
    /// The tables and the queue: 8,676 bytes.
    Memory,
    /// The same as the example terminal keeps it, with its mark before and a checksum after: 8,688 bytes.
    Terminal,
    /// A store of the tables: 4,352 bytes, or more with padding.
    Store,
    /// A store of the tables and the queue: 17,360 bytes, or more with padding.
    StoreMemory,
}

/// With the version of the format, as the example terminal writes it.
const MARK: [u8; 8] = [b't', b'i', b'l', b'l', b'e', b'r', b'0' + FORMAT / 10, b'0' + FORMAT % 10];
const BOTH: usize = Tables::SIZE + Waiting::SIZE;
/// Images in a store may be padded to pages of at most that many bytes.
const LARGEST_PAGE: usize = 4096;

impl Form {
    /// All forms.
    pub const ALL: [Form; 5] = [Form::Tables, Form::Memory, Form::Terminal, Form::Store, Form::StoreMemory];

    /// How it is called on the command line.
    pub fn name(self) -> &'static str {
        match self {
            Form::Tables => "tables",
            Form::Memory => "memory",
            Form::Terminal => "terminal",
            Form::Store => "store",
            Form::StoreMemory => "store-memory",
        }
    }

    /// How many bytes such a file has, without padding.
    pub fn length(self) -> usize {
        match self {
            Form::Terminal => MARK.len() + BOTH + 4,
            Form::Store | Form::StoreMemory => store::length(self.image()),
            _ => self.image(),
        }
    }

    /// How many of them are tables and the queue.
    fn image(self) -> usize {
        match self {
            Form::Tables | Form::Store => Tables::SIZE,
            _ => BOTH,
        }
    }

    /// Whether the form has room for records that wait.
    fn has_waiting(self) -> bool {
        self.image() == BOTH
    }

    /// The form of a file, where it has one.
    pub fn of(bytes: &[u8]) -> Option<Form> {
        let plain = [Form::Tables, Form::Memory, Form::Terminal];
        let plain = plain.into_iter().find(|form| form.length() == bytes.len());
        plain.or_else(|| Store::of(bytes).map(|store| store.form))
    }
}

/// The bytes of a store, as a device holds them.
#[derive(Clone, Debug, PartialEq, Eq)]
pub struct Store {
    form: Form,
    /// The whole file.
    bytes: Vec<u8>,
    /// How long each of its two images is, with the padding.
    image: usize,
}

impl Store {
    /// The store in a file's bytes: of one of the two forms, with images that are padded to pages, and perhaps with bytes of
    /// one value after it. Where several could be, the one whose tables are sound.
    fn of(bytes: &[u8]) -> Option<Store> {
        let all = [Form::Store, Form::StoreMemory].into_iter().flat_map(|form| {
            let images = pages().map(move |page| form.image().next_multiple_of(page));
            images.map(move |image| Store { form, bytes: bytes.to_vec(), image })
        });
        let mut fitting: Vec<Store> = all.filter(Store::fits).collect();
        fitting.dedup();
        let place = fitting.iter().position(|store| store.terminal(Given::default()).is_sound()).unwrap_or(0);
        (place < fitting.len()).then(|| fitting.swap_remove(place))
    }

    /// One that was never written, and then holds the fresh terminal.
    fn new(form: Form) -> Store {
        Store { form, bytes: vec![0xff; form.length()], image: form.image() }
    }

    /// Whether the file is long enough, and what comes after the store has one value.
    fn fits(&self) -> bool {
        let after = self.bytes.get(store::length(self.image)..);
        after.is_some_and(|after| [0, 0xff].iter().any(|value| after.iter().all(|byte| byte == value)))
    }

    fn parts(&self) -> &[u8] {
        &self.bytes[..store::length(self.image)]
    }

    /// The current image, by the library.
    fn current(&self) -> &[u8] {
        store::current(self.parts(), self.image).expect("a store of this length")
    }

    /// Where the current image begins.
    fn start(&self) -> usize {
        self.current().as_ptr() as usize - self.bytes.as_ptr() as usize
    }

    fn terminal(&self, defaults: Given) -> Terminal {
        terminal(self.form, self.current(), defaults)
    }

    fn damage(&self) -> Option<String> {
        let padding = &self.current()[self.form.image()..];
        let place = padding.iter().position(|byte| *byte != 0)?;
        let place = self.start() + self.form.image() + place;
        Some(format!("damaged: byte {place}, which is padding after the current image, is not zero"))
    }

    /// The bytes after the image is stored, as the library writes it.
    fn with(&self, image: &[u8]) -> Vec<u8> {
        let (mut bytes, length) = (self.bytes.clone(), store::length(self.image));
        let mut padded = image.to_vec();
        padded.resize(self.image, 0);
        store::put(&mut bytes[..length], &padded, |_, byte| Ok::<u8, Infallible>(byte))
            .expect("a device without faults");
        bytes
    }
}

/// No padding, and pages to which images are padded.
fn pages() -> impl Iterator<Item = usize> {
    [1].into_iter().chain((3..).map(|power| 1 << power).take_while(|page| *page <= LARGEST_PAGE))
}

/// The tables at the beginning of these bytes, and the queue after them.
fn terminal(form: Form, bytes: &[u8], defaults: Given) -> Terminal {
    let (tables, rest) = bytes.split_at(Tables::SIZE);
    let mut waiting = Waiting::FRESH;
    if form.has_waiting() {
        waiting.bytes.copy_from_slice(&rest[..Waiting::SIZE]);
    }
    Terminal { tables: Tables::from_bytes(tables.try_into().expect("the tables' length")), waiting, defaults }
}

/// A file of tables, read.
#[derive(Clone, Debug, PartialEq, Eq)]
pub struct Stored {
    /// Its form.
    pub form: Form,
    /// What is in it.
    pub terminal: Terminal,
    /// What is wrong with mark, checksum or padding.
    pub damage: Option<String>,
    /// The store that it was read from.
    store: Option<Store>,
}

impl Stored {
    /// A terminal that is to be stored in a form.
    pub fn new(form: Form, terminal: Terminal) -> Stored {
        let store = matches!(form, Form::Store | Form::StoreMemory).then(|| Store::new(form));
        Stored { form, terminal, damage: None, store }
    }

    /// The tables in a file's bytes that are to be judged on: a damaged file is none.
    pub fn whole(path: &Path, bytes: &[u8], defaults: Given) -> Result<Stored, Error> {
        let stored = Stored::of(bytes, defaults).map_err(|error| Error::of(path, error))?;
        match &stored.damage {
            Some(damage) => Err(Error::of(path, damage)),
            None => Ok(stored),
        }
    }

    /// The tables in a file's bytes, damaged or not.
    pub fn of(bytes: &[u8], defaults: Given) -> Result<Stored, String> {
        let Some(form) = Form::of(bytes) else {
            let [tables, memory, terminal, store, stores] = Form::ALL.map(Form::length);
            return Err(format!(
                "ends at byte {}; a file of tables has {tables} bytes, {memory} with what waits, or {terminal} with mark \
                 and checksum; a store of them {store} or {stores}, or more with padding",
                bytes.len()
            ));
        };
        if let Some(store) = Store::of(bytes).filter(|store| store.form == form) {
            let (terminal, damage) = (store.terminal(defaults), store.damage());
            return Ok(Stored { form, terminal, damage, store: Some(store) });
        }
        let start = if form == Form::Terminal { MARK.len() } else { 0 };
        let terminal = terminal(form, &bytes[start..], defaults);
        Ok(Stored { form, terminal, damage: damage(form, bytes), store: None })
    }

    /// What the spare image of a store holds, which a terminal does not read; none where it is blank.
    pub fn spare(&self) -> Option<Terminal> {
        let store = self.store.as_ref()?;
        let start = if store.start() == 0 { store.image } else { 0 };
        let spare = &store.bytes[start..start + store.image];
        let blank = [0, 0xff].iter().any(|value| spare.iter().all(|byte| byte == value));
        (!blank).then(|| terminal(store.form, spare, self.terminal.defaults.clone()))
    }

    /// The same file with a fresh terminal and nothing of what it held: a store is written as if it was blank.
    pub fn cleared(&self, defaults: Given) -> Stored {
        let blank = |store: &Store| {
            let mut store = store.clone();
            let length = store::length(store.image);
            store.bytes[..length].fill(0xff);
            store
        };
        let store = self.store.as_ref().map(blank);
        Stored { form: self.form, terminal: Terminal::with_defaults(defaults), damage: None, store }
    }

    /// Where the tables begin in the file.
    pub fn start(&self) -> usize {
        match &self.store {
            Some(store) => store.start(),
            None if self.form == Form::Terminal => MARK.len(),
            None => 0,
        }
    }

    /// Whether records wait that the form has no room for.
    pub fn loses_waiting(&self) -> bool {
        !self.form.has_waiting() && self.terminal.waiting.count() > 0
    }

    /// The file's bytes.
    pub fn bytes(&self) -> Vec<u8> {
        let tables = self.terminal.tables.to_bytes();
        let waiting: &[u8] = if self.form.has_waiting() { &self.terminal.waiting.bytes } else { &[] };
        let image = [&tables[..], waiting].concat();
        if let Some(store) = &self.store {
            return store.with(&image);
        }
        if self.form != Form::Terminal {
            return image;
        }
        let mut bytes = [&MARK[..], &image].concat();
        bytes.extend(crc32fast::hash(&bytes).to_le_bytes());
        bytes
    }
}

fn damage(form: Form, bytes: &[u8]) -> Option<String> {
    if form != Form::Terminal {
        return None;
    }
    let (before, sum) = bytes.split_at(bytes.len() - 4);
    if !before.starts_with(&MARK) {
        let place = MARK.iter().zip(before).position(|(one, other)| one != other).unwrap_or_default();
        let mark = String::from_utf8_lossy(&MARK);
        return Some(format!("damaged, or of another version: the mark '{mark}' is wrong at byte {place}"));
    }
    let fits = crc32fast::hash(before).to_le_bytes() == *sum;
    (!fits).then(|| format!("damaged: the checksum at byte {} does not fit the bytes before it", before.len()))
}

/// A text without the mark that some editors put before it.
pub fn without_mark(text: &[u8]) -> &[u8] {
    text.strip_prefix("\u{feff}".as_bytes()).unwrap_or(text)
}

#[cfg(test)]
mod tests {
    use super::*;

    #[test]
    fn every_form_comes_back() {
        for form in Form::ALL {
            let stored = Stored::new(form, Terminal::new());
            let bytes = stored.bytes();
            assert_eq!(bytes.len(), form.length());
            let again = Stored::of(&bytes, Given::default()).expect("its own bytes");
            assert_eq!((again.form, &again.terminal, &again.damage), (form, &stored.terminal, &None));
            assert_eq!(again.bytes(), bytes, "what is stored already is written as it is");
        }
    }

    #[test]
    fn damage_is_found() {
        let bytes = Stored::new(Form::Terminal, Terminal::new()).bytes();
        for place in [0, 7, 8, 20, 8683, 8684, 8687] {
            let mut turned = bytes.clone();
            turned[place] ^= 4;
            assert!(Stored::of(&turned, Given::default()).unwrap().damage.is_some(), "byte {place}");
        }
    }

    /// A store with images of this length, and bytes after it.
    fn padded(form: Form, image: usize, after: &[u8]) -> Vec<u8> {
        let bytes = [vec![0xff; store::length(image)], after.to_vec()].concat();
        let store = Store { form, bytes, image };
        let fresh = Terminal::new();
        let whole = [&fresh.tables.to_bytes()[..], &fresh.waiting.bytes].concat();
        store.with(&whole[..form.image()])
    }

    #[test]
    fn stores_with_padding() {
        for (form, image, after) in [
            (Form::Store, 2176, vec![]),
            (Form::Store, 2560, vec![]),
            (Form::StoreMemory, 8704, vec![]),
            (Form::StoreMemory, 12288, vec![]),
            (Form::Store, 2172, vec![0xff; 8192 - 4352]),
            (Form::Store, 2172, vec![0; 32768 - 4352]),
            (Form::StoreMemory, 8676, vec![0xff; 32768 - 17360]),
            (Form::StoreMemory, 8704, vec![0; 32768 - 17416]),
        ] {
            let bytes = padded(form, image, &after);
            let mut stored = Stored::of(&bytes, Given::default()).expect("a store");
            assert_eq!(
                (stored.form, stored.damage.as_ref(), stored.terminal.is_sound()),
                (form, None, true),
                "{image}"
            );
            // A change is written next to the current image, and only it and a mark.
            stored.terminal.tables.set_owner(tillerclover::Uuid([5; 16]));
            stored.terminal.tables.state = tillerclover::State::RFPRO.number();
            let written = stored.bytes();
            let start = stored.start();
            assert_eq!(
                written[start..start + image],
                bytes[start..start + image],
                "the current image was written over"
            );
            assert_eq!((written.len(), &written[store::length(image)..]), (bytes.len(), &after[..]));
            let again = Stored::of(&written, Given::default()).expect("a store");
            assert_eq!((again.form, again.terminal == stored.terminal), (form, true), "{image}");
            assert_ne!(again.start(), start);
        }
        let mut bytes = padded(Form::Store, 2176, &[]);
        let start = Stored::of(&bytes, Given::default()).unwrap().start();
        bytes[start + 2173] = 1;
        assert!(Stored::of(&bytes, Given::default()).unwrap().damage.unwrap().contains("padding"));
        let mut bytes = padded(Form::Store, 2172, &[0xff; 64]);
        bytes[4360] = 7;
        assert!(Stored::of(&bytes, Given::default()).is_err(), "neither a store nor anything else");
    }
}
