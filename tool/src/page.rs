//! `page`: the page of the release with a file of tables in it, so that the office
//! gets one attachment.

use std::path::{Path, PathBuf};
use std::{env, fs};

use answers::report::{Report, Status};
use answers::stored::Stored;
use clap::ArgMatches;
use serde_json::json;

use crate::arguments::{file, force, path};
use crate::error::{name, unreadable, Error};
use crate::{names, store};

/// Where the page has room for tables. Nothing else in it is the same.
const EMPTY: &str = "<script type=\"text/plain\" id=\"tables\"></script>";
/// Where a release has the page, seen from the folder of the command.
const PLACES: [&str; 2] = ["../share/tillerclover/tillerclover.html", "../tillerclover.html"];

/// `page FILE -o PAGE`.
pub fn page(arguments: &ArgMatches) -> Result<Report, Error> {
    let (tables, new) = (file(arguments, "FILE"), file(arguments, "output"));
    let bytes = store::read(tables)?;
    Stored::whole(tables, &bytes, Default::default())?;
    let from = path(arguments, "page").map_or_else(of_release, |page| Ok(page.to_path_buf()))?;
    let page = fs::read_to_string(&from).map_err(|error| unreadable(&from, &error))?;
    let names =
        names::file_for(path(arguments, "names"), Some(tables)).map(|file| store::read_text(&file)).transpose()?;
    let page = filled(&page, tables, &[Some(&bytes[..]), names.as_deref().map(str::as_bytes)])
        .ok_or_else(|| Error::of(&from, "is no page of this release"))?;
    store::write(new, page.as_bytes(), force(arguments))?;
    let json = json!({ "page": new.display().to_string(), "bytes": page.len(), "file": tables.display().to_string() });
    let text = format!("{}: written, with {} in it; it is a copy\n", name(new), name(tables));
    Ok(Report::new(text, json, Status::Yes).after_change(new))
}

fn of_release() -> Result<PathBuf, Error> {
    let own = env::current_exe().ok().and_then(|program| Some(program.parent()?.to_path_buf()));
    let found = own.and_then(|folder| PLACES.iter().map(|place| folder.join(place)).find(|page| page.is_file()));
    found.ok_or_else(|| Error::new("the page of the release is not beside the command: name it by --page"))
}

/// The page with the tables' name in it, their bytes and the yard's names. None where it has no room for them, or room twice.
fn filled(page: &str, tables: &Path, parts: &[Option<&[u8]>]) -> Option<String> {
    let (before, after) = page.split_once(EMPTY)?;
    let parts: Vec<String> = parts.iter().flatten().map(|bytes| format!("\n{}", base64(bytes))).collect();
    let inside = format!("{}{}", plain_name(tables), parts.concat());
    (!after.contains(EMPTY)).then(|| format!("{before}{}{after}", EMPTY.replace("></", &format!(">{inside}</"))))
}

/// A name that ends no element of a page, whatever the file is called.
fn plain_name(path: &Path) -> String {
    let name = path.file_name().unwrap_or_default().to_string_lossy();
    let plain = |letter: char| if letter.is_ascii_alphanumeric() || "._- ".contains(letter) { letter } else { '_' };
    name.chars().map(plain).collect()
}

fn base64(bytes: &[u8]) -> String {
    const LETTERS: &[u8; 64] = b"ABCDEFGHIJKLMNOPQRSTUVWXYZabcdefghijklmnopqrstuvwxyz0123456789+/";
    let mut text = String::new();
    for three in bytes.chunks(3) {
        let word = three.iter().fold(0u32, |word, byte| word << 8 | u32::from(*byte)) << (8 * (3 - three.len()));
        for place in 0..4 {
            let letter = LETTERS[(word >> (18 - 6 * place) & 63) as usize];
            text.push(if place > three.len() { '=' } else { letter.into() });
        }
    }
    text
}

#[cfg(test)]
mod tests {
    use super::*;

    #[test]
    fn bytes_as_letters() {
        for (bytes, text) in
            [("", ""), ("f", "Zg=="), ("fo", "Zm8="), ("foo", "Zm9v"), ("foob", "Zm9vYg=="), ("fooba", "Zm9vYmE=")]
        {
            assert_eq!(base64(bytes.as_bytes()), text);
        }
        assert_eq!(base64(&[0xff, 0xef, 0xbe]), "/+++");
    }

    #[test]
    fn a_name_ends_no_element() {
        let page = format!("<p>{EMPTY}</p>");
        let said = filled(&page, Path::new("/yard/<\u{2f}script><b>.tables"), &[Some(b"foo"), None]).unwrap();
        assert_eq!(said, "<p><script type=\"text/plain\" id=\"tables\">script__b_.tables\nZm9v</script></p>");
        assert!(filled(&page, Path::new("a"), &[Some(b"foo"), Some(b"foob")])
            .unwrap()
            .contains(">a\nZm9v\nZm9vYg==</"));
        assert_eq!(filled("<p></p>", Path::new("a"), &[]), None);
        assert_eq!(filled(&format!("{EMPTY}{EMPTY}"), Path::new("a"), &[]), None);
    }
}
