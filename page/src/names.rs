//! What the page needs to know of the library and the command before it asks: names,
//! the order of the checks, lengths and fields. The script has no list of its own.

use answers::stored::Form;
use answers::{matrix, parse};
use serde_json::{json, Map, Value};
use tillerclover::{yards, FORMAT, INTERFACE_MAJOR, INTERFACE_MINOR};
use tillerclover::{Ace, Answer, Cred, Permission, Resource, State, Verb, Waiting};

/// What page/build.sh says of the build: the sum of the archive that was proved, the sum of the one for WebAssembly, the toolchain,
/// and the digest of the calls at random on the machine that built it.
const BUILT: [(&str, Option<&str>); 4] = [
    ("archive", option_env!("TILLERCLOVER_ARCHIVE_SHA256")),
    ("wasm_archive", option_env!("TILLERCLOVER_WASM_SHA256")),
    ("toolchain", option_env!("TILLERCLOVER_TOOLCHAIN")),
    ("digest", option_env!("TILLERCLOVER_DIGEST")),
];

/// The names that the page offers, which are the library's.
pub fn names() -> Value {
    let built: Map<String, Value> = BUILT.iter().map(|(name, value)| (name.to_string(), json!(value))).collect();
    json!({
        "identified": yards::identified(),
        "interface": format!("{INTERFACE_MAJOR}.{INTERFACE_MINOR}"),
        "format": FORMAT,
        "built": built,
        "resources": Resource::ALL.iter().map(|resource| resource_json(*resource)).collect::<Vec<_>>(),
        "verbs": Verb::ALL.iter().map(Verb::to_string).collect::<Vec<_>>(),
        "letters": Permission::ALL.to_string(),
        "states": State::ALL.iter().map(State::to_string).collect::<Vec<_>>(),
        "checks": Answer::CHECKS.iter().map(|check| json!({ "number": check.number(), "words": check.to_string() })).collect::<Vec<_>>(),
        "lengths": Form::ALL.map(Form::length),
        "capacity": { "credentials": Cred::CAPACITY, "access_control_entries": Ace::CAPACITY, "waiting": Waiting::CAPACITY },
        "last_second": u32::MAX,
    })
}

fn resource_json(resource: Resource) -> Value {
    let fields: Map<String, Value> =
        Verb::ALL.iter().map(|&verb| (verb.to_string(), json!(parse::fields(verb, resource)))).collect();
    json!({
        "number": resource.number(),
        "name": resource.to_string(),
        "short": matrix::short_name(resource),
        "plain": plain(resource),
        "security": resource.is_security(),
        "fields": fields,
    })
}

/// What a resource is, for somebody who knows the yard and not the standard.
fn plain(resource: Resource) -> &'static str {
    match resource {
        Resource::DOXM => "who owns the terminal",
        Resource::PSTAT => "the terminal's state",
        Resource::CRED => "the partners' credentials",
        Resource::ACL2 => "the access rows",
        Resource::ROLES => "the roles that a partner takes on",
        Resource::WEIGHT => "the weight on the plate",
        Resource::TARE => "the tare of a lorry",
        Resource::ZERO => "the scale set to zero",
        Resource::TICKET => "the weighing ticket",
        Resource::LAMP => "the lamp at the plate",
        Resource::CALIB => "the calibration",
        Resource::DISPLAY => "the driver's display",
        Resource::YARD => "what the yard offers",
        _ => "",
    }
}
