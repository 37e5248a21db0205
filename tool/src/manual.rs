//! `completions` and `man`: scripts for shells and pages of the manual, both made
//! from the command's own definition.

use answers::parse::did_you_mean;
use clap::{Arg, Command};
use clap_complete::Shell;

use crate::command::command;
use crate::error::Error;

/// The completion script of a shell.
pub fn completions(shell: &str) -> Result<String, Error> {
    let shell: Shell = shell.parse().map_err(Error::new)?;
    let mut script = Vec::new();
    clap_complete::generate(shell, &mut command(), "tillerclover", &mut script);
    let script = String::from_utf8(script).map_err(|_| Error::new("the script is no text"))?;
    let whole = match shell {
        Shell::Bash => script + BASH_NAMES,
        Shell::Fish => script + &fish_words() + FISH_NAMES,
        Shell::Zsh => in_zsh(&script),
        _ => script,
    };
    Ok(whole.replace("NAMES_OF_LINES", LINES))
}

/// What the generator leaves out for fish: the words of arguments without an option.
fn fish_words() -> String {
    let words = |command: &Command| -> Option<String> {
        let all = command.get_positionals().flat_map(|argument| argument.get_possible_values());
        let all: Vec<String> = all.map(|value| value.get_name().into()).collect();
        let when = format!("__fish_seen_subcommand_from {}", command.get_name());
        (!all.is_empty()).then(|| format!("complete -c tillerclover -n '{when}' -a '{}'\n", all.join(" ")))
    };
    command().get_subcommands().filter_map(words).collect()
}

/// The script of zsh ends with a call of its function. The names are added by another one of that name, which calls it.
fn in_zsh(script: &str) -> String {
    let body = script.trim_end();
    let body = body.strip_suffix("_tillerclover \"$@\"").unwrap_or(body);
    format!("{body}{ZSH_NAMES}")
}

/// What sed makes of the lines of a file of names: the names, with - for spaces.
const LINES: &str = "'s/(^| )#.*//; s/^(role +)?[0-9@]+ +([0-9a-fA-F-]{32,36} +)?//; s/ +$//; s/ +/-/g; /./p'";

/// What bash completes in addition to the command's own words: the names of the files of names in the folder.
const BASH_NAMES: &str = r#"
_tillerclover_and_names() {
    _tillerclover "$@"
    local word=${COMP_WORDS[COMP_CWORD]} name
    local end=${word##*[=,]}
    [ -n "$end" ] || return 0
    while read -r name; do
        [[ ${name,,} != "${end,,}"* ]] || COMPREPLY+=("${word%"$end"}$name")
    done < <(sed -nE NAMES_OF_LINES -- *.names 2>/dev/null)
}
complete -F _tillerclover_and_names -o bashdefault -o default tillerclover
"#;

/// The same for zsh.
const ZSH_NAMES: &str = r#"
functions[_tillerclover_words]=$functions[_tillerclover]
_tillerclover() {
    local -a names
    local insert=$compstate[insert] list=$compstate[list]
    _tillerclover_words "$@"
    local result=$?
    names=(${(f)"$(sed -nE NAMES_OF_LINES -- *.names(N) 2>/dev/null </dev/null)"})
    compset -P '*[=,]'
    [[ -n $PREFIX ]] && (( $#names )) && compadd -M 'm:{a-zA-Z}={A-Za-z}' -a names && {
        # what was said of the argument keeps nothing from being inserted
        compstate[insert]=$insert compstate[list]=$list result=0
    }
    return $result
}
_tillerclover "$@"
"#;

/// The same for fish.
const FISH_NAMES: &str = r#"
function __tillerclover_names
    set -l files *.names
    set -l before (string match -r '^.*[=,]' -- (commandline -ct))
    test (count $files) -gt 0; and sed -nE NAMES_OF_LINES -- $files 2>/dev/null | string replace -r '^' "$before"
end
complete -c tillerclover -n 'not __fish_use_subcommand' -a '(__tillerclover_names)' -d 'name'
"#;

/// The page of the whole command, or of one of its subcommands: `list make`.
pub fn page(names: &[String]) -> Result<String, Error> {
    let mut whole = command();
    whole.build();
    let mut found = &whole;
    for name in names {
        found = found.find_subcommand(name).ok_or_else(|| {
            let known: Vec<String> = found.get_subcommands().map(|one| one.get_name().into()).collect();
            let near = did_you_mean(name, &known);
            Error::new(format!("no command '{name}'{near}; there are {}", known.join(", ")))
        })?;
    }
    Ok(manual(found, &[&["tillerclover".to_string()], names].concat()))
}

/// Text that roff takes as it is.
fn plain(text: &str) -> String {
    let escaped = text.replace('\\', "\\e").replace('-', "\\-");
    let line = |line: &str| if line.starts_with(['.', '\'']) { format!("\\&{line}\n") } else { format!("{line}\n") };
    escaped.lines().map(line).collect()
}

fn manual(command: &Command, names: &[String]) -> String {
    let name = names.join("-");
    let about = command.get_about().map(|about| about.to_string()).unwrap_or_default();
    let mut page =
        format!(".TH {} 1\n.SH NAME\n{} \\- {}", name.to_uppercase(), name.replace('-', "\\-"), plain(&about));
    page += &format!(".SH SYNOPSIS\n{}", plain(&synopsis(command, names)));
    page += &section("ARGUMENTS", command.get_positionals().filter(|argument| !argument.is_hide_set()).map(argument));
    page += &section("OPTIONS", command.get_opts().map(option).chain(flags(command)));
    let commands = command.get_subcommands().filter(|one| one.get_name() != "help");
    page += &section(
        "COMMANDS",
        commands.map(|one| {
            (one.get_name().to_string(), one.get_about().map(|about| about.to_string()).unwrap_or_default())
        }),
    );
    if let Some(after) = command.get_after_help() {
        page += &format!(".SH NOTES\n.nf\n{}.fi\n", plain(&after.to_string()));
    }
    page
}

fn synopsis(command: &Command, names: &[String]) -> String {
    let positionals = command.get_positionals().map(|argument| match argument.is_required_set() {
        true => argument.get_id().to_string(),
        false => format!("[{}]", argument.get_id()),
    });
    let rest = if command.has_subcommands() { vec!["COMMAND".into()] } else { positionals.collect::<Vec<String>>() };
    format!("{} [OPTIONS] {}", names.join(" "), rest.join(" "))
}

/// Entries below a heading, where there are any.
fn section(title: &str, entries: impl Iterator<Item = (String, String)>) -> String {
    let entries: String =
        entries.map(|(term, what)| format!(".TP\n\\fB{}\\fR\n{}", term.replace('-', "\\-"), plain(&what))).collect();
    match entries.is_empty() {
        true => String::new(),
        false => format!(".SH {title}\n{entries}"),
    }
}

fn help(argument: &Arg) -> String {
    let help = argument.get_help().map(|help| help.to_string()).unwrap_or_default();
    let defaults: Vec<String> =
        argument.get_default_values().iter().map(|value| value.to_string_lossy().into()).collect();
    match defaults.is_empty() || !argument.get_action().takes_values() {
        true => help,
        false => format!("{help} (default: {})", defaults.join(" ")),
    }
}

fn argument(argument: &Arg) -> (String, String) {
    (argument.get_id().to_string(), help(argument))
}

fn option(argument: &Arg) -> (String, String) {
    let value =
        argument.get_value_names().and_then(|names| names.first()).map(|name| name.to_string()).unwrap_or_default();
    (format!("--{} {value}", argument.get_long().unwrap_or_default()), help(argument))
}

fn flags(command: &Command) -> impl Iterator<Item = (String, String)> + '_ {
    let flags = command.get_arguments().filter(|one| !one.is_positional() && !one.get_action().takes_values());
    flags.map(|one| (format!("--{}", one.get_long().unwrap_or_default()), help(one)))
}
