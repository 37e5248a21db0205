//! Which tool this is, and which library it asks.

use std::sync::OnceLock;

use serde_json::{json, Value};
use tillerclover::{FORMAT, INTERFACE_MAJOR, INTERFACE_MINOR};

/// The SHA-256 of the archive that is linked.
pub const ARCHIVE: &str = env!("TILLERCLOVER_ARCHIVE_SHA256");
/// What `rt version` said when the tool was built, or that it was not there.
pub const TOOLCHAIN: &str = env!("TILLERCLOVER_TOOLCHAIN");

/// Tool, library interface, table format, toolchain and archive, a line each.
pub fn long() -> &'static str {
    static LONG: OnceLock<String> = OnceLock::new();
    LONG.get_or_init(|| {
        format!(
            "{}\nlibrary interface  {INTERFACE_MAJOR}.{INTERFACE_MINOR}\ntable format       {FORMAT:02}\n\
             toolchain          {TOOLCHAIN}\nlibterminal.a      sha256 {ARCHIVE}",
            env!("CARGO_PKG_VERSION")
        )
    })
}

/// The same for programs.
pub fn json() -> Value {
    json!({
        "version": env!("CARGO_PKG_VERSION"),
        "interface": format!("{INTERFACE_MAJOR}.{INTERFACE_MINOR}"),
        "format": FORMAT,
        "toolchain": TOOLCHAIN,
        "archive": ARCHIVE,
    })
}

/// The same in a line.
pub fn line() -> String {
    format!(
        "tillerclover {}, library interface {INTERFACE_MAJOR}.{INTERFACE_MINOR}, table format {FORMAT:02}, libterminal.a sha256 {ARCHIVE}",
        env!("CARGO_PKG_VERSION")
    )
}
