//! The command line: what the subcommands take, and what they are for.

use std::ffi::{OsStr, OsString};
use std::path::PathBuf;

use answers::stored::Form;
use clap::builder::{PossibleValue, TypedValueParser};
use clap::{value_parser, Arg, ArgAction, Command};
use tillerclover::{Resource, Verb};

use crate::help::{EXIT, EXPECT, LINES, MAKE, RECORDS};
use crate::version;

/// The whole command line.
pub fn command() -> Command {
    Command::new("tillerclover")
        .version(env!("CARGO_PKG_VERSION"))
        .long_version(version::long())
        .propagate_version(true)
        .about("Tables, records and lists of a weighbridge terminal in words. The proved library decides.")
        .after_help(EXIT)
        .subcommand_required(true)
        .arg_required_else_help(true)
        .arg(flag("json", "Write JSON for programs, errors too").global(true).display_order(901))
        .arg(
            option(
                "tz",
                "ZONE",
                "The zone of times: a name such as Europe/Berlin, or an offset such as +02:00; without it \
                TILLERCLOVER_TZ or TZ, or UTC",
            )
            .global(true)
            .display_order(902),
        )
        .arg(
            option(
                "names",
                "FILE",
                "The yard's names, one to a line; without it those of a file FILE.names beside the tables",
            )
            .value_parser(value_parser!(PathBuf))
            .global(true)
            .display_order(903),
        )
        .arg(
            option("color", "WHEN", "Colours; auto is where a terminal shows them and NO_COLOR is not set")
                .value_parser(["auto", "always", "never"])
                .default_value("auto")
                .global(true)
                .display_order(904),
        )
        .subcommands([new(), judge(), hand_in(), take(), undo(), fresh(), clear()])
        .subcommand(group("defaults", "Write a build's default rows as bytes", [default_creds(), default_aces()]))
        .subcommands([show(), seasons(), who(), rights(), why(), page(), isolated(), yards(), diff()])
        .subcommand(group(
            "list",
            "Test, make, convert and load lists of access rows, write the office's text",
            [list_check(), list_convert(), list_make(), list_load(), list_text()],
        ))
        .subcommand(group(
            "journal",
            "Judge a terminal's journal again, show it, and ask what held at a moment of it",
            [journal_check(), journal_show(), journal_why(), journal_tables()],
        ))
        .subcommands([record(), decode(), run(), test(), completions(), man()])
}

/// A command of commands.
fn group<const N: usize>(name: &'static str, about: &'static str, parts: [Command; N]) -> Command {
    Command::new(name).about(about).subcommand_required(true).arg_required_else_help(true).subcommands(parts)
}

fn new() -> Command {
    let new = Command::new("new").about("Write the tables of a new terminal").arg(file()).arg(form());
    changes(defaults(new.arg(force())))
}

fn form() -> Arg {
    let form = "The tables alone (2,172 bytes), with what waits (8,676), with mark and checksum (8,688), or a store of the first two \
                (4,352 and 17,360)";
    option("form", "FORM", form).value_parser(Form::ALL.map(Form::name)).default_value(Form::Terminal.name())
}

fn judge() -> Command {
    let judge = Command::new("judge").about("Judge records one after the other and write the tables back");
    let all = flag("all", "All records or none: after a refusal nothing is written, and the rest is not judged");
    stores(defaults(recorded(judge).arg(all).after_help(format!("{RECORDS}{LINES}"))))
}

fn hand_in() -> Command {
    let hand_in = Command::new("hand-in").about("Hand records in, to wait for their turn").arg(file()).arg(records());
    stores(defaults(hand_in.after_help(format!("{RECORDS}{LINES}"))))
}

fn take() -> Command {
    let take = Command::new("take")
        .about("Take the record whose turn it is, and judge it")
        .arg(file())
        .arg(Arg::new("COUNT").value_parser(value_parser!(u16)).default_value("1").help("So many takes"))
        .arg(clock());
    stores(defaults(take))
}

fn undo() -> Command {
    Command::new("undo")
        .about("Put back the file that the last change kept, and say what changed")
        .arg(file())
        .arg(wait())
}

fn fresh() -> Command {
    let record = "Add a line for each file to this one, .csv or .jsonl: serial, date, library, default rows, sum of the image, verdict";
    let serial = "The serial number of the terminal; without it the file's name is";
    let fresh = Command::new("fresh")
        .about("Whether files hold what a new terminal of this build holds, and nothing else")
        .arg(files("Files with tables, or folders of them"))
        .arg(option("record", "FILE", record).value_parser(value_parser!(PathBuf)))
        .arg(option("serial", "TEXT", serial).requires("record"));
    defaults(fresh.arg(wait()))
}

fn clear() -> Command {
    let clear = Command::new("clear")
        .about("Write a new terminal over what files hold, and keep nothing of it: no backup, and no image in a store")
        .arg(files("Files with tables, or folders of them"));
    defaults(clear.arg(wait()))
}

fn default_creds() -> Command {
    default_rows(Command::new("creds").about("Write default credential rows as bytes: at most two of 23"))
}

fn default_aces() -> Command {
    default_rows(Command::new("aces").about("Write default access rows as bytes: at most two of 36"))
}

fn default_rows(command: Command) -> Command {
    let command = command
        .arg(path_argument("FROM", "Rows in words, one to a line"))
        .arg(path_argument("NEW", "The file to write"))
        .arg(force());
    changes(command)
}

fn show() -> Command {
    Command::new("show")
        .about(
            "Show tables: state, owners, rows, what waits, and why they are not sound; of many files whether they are",
        )
        .arg(files("Files with tables, or folders of them"))
        .arg(clock())
}

fn seasons() -> Command {
    let within = "Show those alone that end within this time, such as 30d; status 1 where no row renews one";
    Command::new("seasons")
        .about("The seasons of access rows: over, ending, to come, renewed")
        .arg(file())
        .arg(option("within", "TIME", within))
        .arg(clock())
}

fn record() -> Command {
    let bytes = "Write the bytes themselves, one record after the other";
    let coap =
        "Write a line for libcoap's client, which sends it to this address; its key is asked of the variable KEY";
    Command::new("record")
        .about("Write records in words as hexadecimal digits, as bytes, or as a line that sends them")
        .arg(records())
        .arg(flag("bytes", bytes).conflicts_with("coap"))
        .arg(option("coap", "HOST", coap))
        .after_help(RECORDS)
}

fn decode() -> Command {
    Command::new("decode")
        .about("Write records of hexadecimal digits in words")
        .arg(Arg::new("HEX").required(true).num_args(1..).help("Records, each in quotes or without spaces"))
}

fn who() -> Command {
    Command::new("who")
        .about("Who may do something with a resource, by which row or right, and who could by asserting a role")
        .arg(completed("VERB", verbs).help("CREATE, RETRIEVE, UPDATE, DELETE or OBSERVE"))
        .arg(completed("RESOURCE", resources).help("/weight, /tare, /oic/sec/acl2, .."))
        .arg(file())
        .arg(clock())
}

fn rights() -> Command {
    let html = "Write one page with the same, the tables and the state, to print and file; - is standard output";
    let yard = "Have the isolation of this yard on the page too; may be given several times";
    changes(
        Command::new("rights")
            .about("What each sender may do with each resource, as a table of letters")
            .arg(file())
            .arg(clock())
            .arg(option("html", "PAGE", html).value_parser(value_parser!(PathBuf)))
            .arg(option("yard", "NAME=LIST", yard).action(ArgAction::Append).requires("html"))
            .arg(absent().requires("yard"))
            .arg(force()),
    )
}

fn page() -> Command {
    let page = "Another page than the one of the release, beside the command";
    changes(
        Command::new("page")
            .about("Write the release's page with a copy of these tables in it, to be opened in a browser")
            .arg(file())
            .arg(
                option("output", "PAGE", "The page to write")
                    .short('o')
                    .required(true)
                    .value_parser(value_parser!(PathBuf)),
            )
            .arg(option("page", "PAGE", page).value_parser(value_parser!(PathBuf)))
            .arg(force()),
    )
}

fn why() -> Command {
    let without = "Also say what would change without the access row of this number";
    let with = "Also say what would change if this record, in quotes, had been judged before";
    defaults(recorded(Command::new("why").about("Explain what a record gets, and change nothing")))
        .arg(option("without", "ROW", without).value_parser(value_parser!(u16)).action(ArgAction::Append))
        .arg(option("with", "RECORD", with).action(ArgAction::Append))
        .after_help(RECORDS)
}

fn isolated() -> Command {
    Command::new("isolated")
        .about("Whether partners are isolated: whatever they send changes nothing for anybody else")
        .arg(file())
        .arg(Arg::new("LIST").required(true).help("Credential numbers, ranges as 7-12 and names between commas, or all-but and these; clear is anybody in clear"))
        .arg(absent())
}

fn yards() -> Command {
    Command::new("yards")
        .about("Whether the partners of each yard are isolated, and who of no yard could end it")
        .arg(file())
        .arg(Arg::new("YARD").required(true).num_args(1..).value_name("NAME=LIST").help("A yard, such as north=7,8,9"))
        .arg(absent())
}

fn absent() -> Arg {
    flag("absent", "Ask also of partners that have no credential row")
}

fn diff() -> Command {
    Command::new("diff")
        .about("Compare files of tables: rows field by field, owners, state, asserted roles, what waits")
        .arg(path_argument("A", "The first file of tables, or a folder of them"))
        .arg(
            path_argument(
                "B",
                "The second, or all that are compared with the first; of a folder the files of the same names",
            )
            .num_args(1..),
        )
}

fn list_check() -> Command {
    Command::new("check")
        .about("Test lists before they are loaded: rows of 36 bytes")
        .arg(files("Lists, or folders of them"))
}

fn list_convert() -> Command {
    let convert = Command::new("convert")
        .about("Make a list of an older terminal's: rows of 25 bytes")
        .arg(path_argument("OLD", "The older terminal's list"))
        .arg(path_argument("NEW", "The list to write"))
        .arg(force());
    changes(convert)
}

fn list_make() -> Command {
    let make = Command::new("make")
        .about("Make a list of words or of the office's JSON, and hold it to what the library writes of it")
        .arg(path_argument("FROM", "The office's JSON, a table of CSV, or rows in words, one to a line"))
        .arg(path_argument("NEW", "The list to write"))
        .arg(force())
        .after_help(MAKE);
    changes(make)
}

fn list_load() -> Command {
    let number = Arg::new("NUMBER").required(true);
    let load = Command::new("load")
        .about("Test a list, then judge its rows as the owner's records on tables: all of them or none")
        .arg(path_argument("LIST", "The list, or the office's JSON"))
        .arg(path_argument("TABLES", "The file with the tables"))
        .arg(Arg::new("as").value_parser(["as"]).required(true).help("The word as"))
        .arg(number.help("The owner's credential number or name"))
        .arg(flag("replace", "Delete all access rows first"))
        .arg(clock());
    stores(defaults(load))
}

fn list_text() -> Command {
    Command::new("text")
        .about("Write the access list as the office's JSON")
        .arg(path_argument("FILE", "Tables, or a list of rows of 36 bytes"))
        .arg(flag("seasons", "Write rows with a season too, with first and last: an extension of this command"))
        .arg(flag("csv", "Write all rows as a table for spreadsheets").conflicts_with("seasons"))
}

fn journal_check() -> Command {
    Command::new("check")
        .about("Follow the chain of a journal, and judge every answer again; each difference is named")
        .arg(journal_files())
}

fn journal_show() -> Command {
    Command::new("show")
        .about("Show the entries of a journal in words, with what they changed")
        .arg(journal_files())
        .arg(option("sender", "NUMBER", "Those of this credential number or name alone; clear is anybody in clear"))
        .arg(option("from", "TIME", "From this time on"))
        .arg(option("to", "TIME", "Up to this time, and of a date to its end"))
        .arg(flag("changes", "Those alone that changed the tables"))
}

fn journal_why() -> Command {
    Command::new("why")
        .about("Explain what the record in a line got, on the tables of that moment")
        .arg(path_argument("FILE", "The file of the journal"))
        .arg(Arg::new("LINE").required(true).value_parser(value_parser!(u64).range(1..)).help("The line of the file"))
}

fn journal_tables() -> Command {
    let output = option("output", "FILE", "The file to write").short('o').value_parser(value_parser!(PathBuf));
    let tables = Command::new("tables")
        .about("Write the tables as they were at a time")
        .arg(path_argument("FILE", "The file of the journal"))
        .arg(option("at", "TIME", "The time, by the clock of the terminal's machine").required(true))
        .arg(output.required(true))
        .arg(form())
        .arg(force());
    changes(tables)
}

fn journal_files() -> Arg {
    files("Files of one journal, or folders of them; they are read in the order that they number themselves")
}

fn run() -> Command {
    let about = "Run records from fresh tables, each with its clock and length, as the run program does";
    let tables = "Begin with the tables of this file, which stays as it is";
    defaults(Command::new("run").about(about))
        .arg(path_argument("FILE", "The run; - is standard input"))
        .arg(flag("whole", "Read more than the run program's 32,768 bytes"))
        .arg(flag("lines", "The run is a text, one record to a line, as `judge FILE -` takes them"))
        .arg(option("tables", "TABLES", tables).value_parser(value_parser!(PathBuf)))
        .arg(clock().help("The clock of lines that name none"))
}

fn test() -> Command {
    Command::new("test")
        .about("Test a yard's expectations: what records get at a clock, in a file of TOML")
        .arg(files("Files of expectations, or folders of them"))
        .arg(flag("watch", "Test again whenever a file changes, until the command is ended"))
        .after_help(EXPECT)
}

fn completions() -> Command {
    let shells = ["bash", "elvish", "fish", "powershell", "zsh"];
    Command::new("completions")
        .about("Write a script that completes this command's words in a shell")
        .arg(Arg::new("SHELL").required(true).value_parser(shells).help("The shell"))
}

fn man() -> Command {
    Command::new("man")
        .about("Write a page of the manual, for man -l")
        .arg(Arg::new("COMMAND").num_args(0..).help("The subcommand that the page is of, such as list make"))
}

/// A subcommand on tables with records.
fn recorded(command: Command) -> Command {
    command.arg(file()).arg(records()).arg(clock())
}

fn records() -> Arg {
    Arg::new("RECORD")
        .required(true)
        .num_args(1..)
        .value_parser(Words(|| [verbs(), resources(), states()].concat()))
        .hide_possible_values(true)
        .help("Records in words or hexadecimal digits")
}

/// An argument that takes any text, with words that a shell may complete it to.
fn completed(name: &'static str, words: fn() -> Vec<&'static str>) -> Arg {
    let parser = Words(words).map(|word| word.to_string_lossy().into_owned());
    Arg::new(name).required(true).value_parser(parser).hide_possible_values(true)
}

fn verbs() -> Vec<&'static str> {
    Verb::ALL.iter().filter_map(|verb| verb.name()).collect()
}

fn resources() -> Vec<&'static str> {
    Resource::ALL.iter().filter_map(|resource| resource.name()).collect()
}

/// The fields that set a state.
fn states() -> Vec<&'static str> {
    vec!["state=RESET", "state=RFOTM", "state=RFPRO", "state=RFNOP", "state=SRESET"]
}

/// Any text, and the words that a shell may complete it to.
#[derive(Clone)]
struct Words(fn() -> Vec<&'static str>);

impl TypedValueParser for Words {
    type Value = OsString;

    fn parse_ref(&self, _: &Command, _: Option<&Arg>, value: &OsStr) -> Result<OsString, clap::Error> {
        Ok(value.into())
    }

    fn possible_values(&self) -> Option<Box<dyn Iterator<Item = PossibleValue> + '_>> {
        Some(Box::new((self.0)().into_iter().map(PossibleValue::new)))
    }
}

/// A subcommand that replaces a file.
fn changes(command: Command) -> Command {
    command.arg(flag("no-backup", "Do not keep the old file as FILE~")).arg(wait())
}

/// A subcommand that changes tables.
fn stores(command: Command) -> Command {
    changes(command)
        .arg(flag("dry-run", "Write nothing, and lock nothing"))
        .arg(flag("force", "Write tables that nobody could change any more, too"))
}

fn wait() -> Arg {
    option("wait", "SECONDS", "So long another tillerclover that changes the file is waited for")
        .value_parser(value_parser!(u64))
        .default_value("10")
}

fn clock() -> Arg {
    option(
        "clock",
        "TIME",
        "The terminal's clock: seconds, 2026-07-01, 2026-07-01T06:00, 2026-07-01T06:00+02:00 or now",
    )
    .default_value("now")
}

fn defaults(command: Command) -> Command {
    let one = |name, help| option(name, "ROWS", help).value_parser(value_parser!(PathBuf));
    command
        .arg(one("default-creds", "A file with the build's default credential rows, at most two of 23 bytes"))
        .arg(one("default-aces", "A file with the build's default access rows, at most two of 36 bytes"))
}

fn file() -> Arg {
    path_argument("FILE", "The file with the tables")
}

fn files(help: &'static str) -> Arg {
    path_argument("FILE", help).num_args(1..)
}

fn path_argument(name: &'static str, help: &'static str) -> Arg {
    Arg::new(name).required(true).value_parser(value_parser!(PathBuf)).help(help)
}

fn force() -> Arg {
    flag("force", "Replace a file that is there")
}

fn option(name: &'static str, value: &'static str, help: &'static str) -> Arg {
    Arg::new(name).long(name).value_name(value).help(help)
}

fn flag(name: &'static str, help: &'static str) -> Arg {
    Arg::new(name).long(name).action(ArgAction::SetTrue).help(help)
}

#[cfg(test)]
mod tests {
    #[test]
    fn the_command_line_holds_together() {
        super::command().debug_assert();
    }
}
