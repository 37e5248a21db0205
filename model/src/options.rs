//! Arguments of the programs.

use std::env;
use std::ffi::OsString;
use std::fmt::Display;
use std::process::exit;

/// What a program is called with.
pub struct Program {
    pub name: &'static str,
    pub help: &'static str,
    /// Options that take a value.
    pub valued: &'static [&'static str],
    /// Options without a value.
    pub flags: &'static [&'static str],
    /// How many arguments there may be without a name.
    pub free: usize,
}

#[derive(Debug, Default)]
pub struct Options {
    values: Vec<(String, String)>,
    flags: Vec<String>,
    free: Vec<String>,
    help: bool,
}

impl Program {
    /// The arguments of this process. Prints the help, or says what is wrong
    /// with them, and ends.
    pub fn options(&self) -> Options {
        match self.read(env::args_os().skip(1)) {
            Ok(options) if options.help => {
                print!("{}", self.help);
                exit(0);
            }
            Ok(options) => options,
            Err(fault) => self.stop(format!("{fault}; see {} --help", self.name)),
        }
    }

    /// Says why the program can't go on, and ends with 2.
    pub fn stop(&self, fault: impl Display) -> ! {
        eprintln!("{}: {fault}", self.name);
        exit(2);
    }

    /// The value of an option as a whole number, or the one given here.
    pub fn number(&self, options: &Options, name: &str, otherwise: u64) -> u64 {
        match options.text(name).map(|text| (text, text.parse())) {
            None => otherwise,
            Some((_, Ok(number))) => number,
            Some((text, Err(_))) => {
                self.stop(format!("{name} takes a whole number from 0 to {}, not '{text}'", u64::MAX))
            }
        }
    }

    fn read(&self, arguments: impl Iterator<Item = OsString>) -> Result<Options, String> {
        let mut options = Options::default();
        let mut arguments = arguments
            .map(|argument| argument.into_string().map_err(|raw| format!("the argument {raw:?} is not Unicode text")));
        while let Some(argument) = arguments.next() {
            let argument = argument?;
            if argument == "--help" || argument == "-h" {
                options.help = true;
                return Ok(options);
            }
            if !argument.starts_with('-') {
                if options.free.len() == self.free {
                    return Err(format!("nothing is known of the argument '{argument}'"));
                }
                options.free.push(argument);
                continue;
            }
            let (name, joined) = match argument.split_once('=') {
                Some((name, value)) => (name.to_string(), Some(value.to_string())),
                None => (argument, None),
            };
            if options.text(&name).is_some() || options.flag(&name) {
                return Err(format!("{name} is given twice"));
            }
            if self.flags.contains(&name.as_str()) {
                if joined.is_some() {
                    return Err(format!("{name} takes no value"));
                }
                options.flags.push(name);
            } else if self.valued.contains(&name.as_str()) {
                let value = match joined {
                    Some(value) => value,
                    None => arguments.next().ok_or(format!("{name} needs a value"))??,
                };
                options.values.push((name, value));
            } else {
                return Err(format!("there is no option {name}"));
            }
        }
        Ok(options)
    }
}

impl Options {
    pub fn text(&self, name: &str) -> Option<&str> {
        self.values.iter().find(|(held, _)| held == name).map(|(_, value)| value.as_str())
    }

    pub fn flag(&self, name: &str) -> bool {
        self.flags.iter().any(|held| held == name)
    }

    pub fn free(&self, place: usize) -> Option<&str> {
        self.free.get(place).map(String::as_str)
    }
}

#[cfg(test)]
#[path = "tests/options.rs"]
mod tests;
