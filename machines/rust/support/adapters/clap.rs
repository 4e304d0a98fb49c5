//! `clap`, of which the sources use the splitting of words: which options there are, and the values
//! of each. Its messages are not used, but for the option that one names.
//!
//! A value lives as long as the process, as the words do that it was a part of.

use crate::rattle::alloc::{AllocError, Global};
use crate::rattle::convert::AsStr;
use crate::rattle::rt::Print;
use ::clap::error::{ContextKind, ErrorKind as Kind};
use std::collections::HashMap;
use std::fmt;
use std::marker::PhantomData;

pub use ::clap::ArgAction;
use error::ErrorKind;

/// A command: its options, its help and its version.
#[derive(Debug)]
pub struct Command<'a> {
    command: ::clap::Command,
    names: PhantomData<&'a str>,
}

impl<'a> Command<'a> {
    /// A command without options.
    pub fn new(_alloc: Global, name: &'a str) -> Command<'a> {
        Command::of(::clap::Command::new(name.to_owned()))
    }

    fn of(command: ::clap::Command) -> Command<'a> {
        Command {
            command,
            names: PhantomData,
        }
    }

    /// The same with this version.
    pub fn version(self, version: &'a str) -> Command<'a> {
        Command::of(self.command.version(version.to_owned()))
    }

    /// The same with this help.
    pub fn override_help(self, help: &'a str) -> Command<'a> {
        Command::of(self.command.override_help(help.to_owned()))
    }

    /// The same with this usage.
    pub fn override_usage(self, usage: &'a str) -> Command<'a> {
        Command::of(self.command.override_usage(usage.to_owned()))
    }

    /// The same with one more option.
    pub fn arg(self, arg: Arg<'a>) -> Result<Command<'a>, AllocError> {
        Ok(Command::of(self.command.arg(arg.arg)))
    }

    /// Splits words, the name of the program first.
    pub fn try_get_matches_from<S: AsStr>(self, words: &'a [S]) -> Result<ArgMatches<'a>, Error> {
        let words = words.iter().map(|word| word.as_str().to_owned());
        match self.command.try_get_matches_from(words) {
            Ok(matches) => Ok(ArgMatches::of(&matches)),
            Err(error) => Err(Error(error)),
        }
    }
}

/// An option, or what no option takes.
#[derive(Debug)]
pub struct Arg<'a> {
    arg: ::clap::Arg,
    names: PhantomData<&'a str>,
}

impl<'a> Arg<'a> {
    /// What no option takes.
    pub fn new(_alloc: Global, id: &'a str) -> Arg<'a> {
        Arg::of(::clap::Arg::new(id.to_owned()))
    }

    fn of(arg: ::clap::Arg) -> Arg<'a> {
        Arg {
            arg,
            names: PhantomData,
        }
    }

    /// The same as an option with this name.
    pub fn long(self, name: &'a str) -> Arg<'a> {
        Arg::of(self.arg.long(name.to_owned()))
    }

    /// The same as an option with this letter.
    pub fn short(self, letter: char) -> Arg<'a> {
        Arg::of(self.arg.short(letter))
    }

    /// The same, of which this becomes.
    pub fn action(self, action: ArgAction) -> Arg<'a> {
        Arg::of(self.arg.action(action))
    }

    /// The same with as many values.
    pub fn num_args(self, range: impl Into<::clap::builder::ValueRange>) -> Arg<'a> {
        Arg::of(self.arg.num_args(range))
    }

    /// The same, whose values may begin with a hyphen.
    pub fn allow_hyphen_values(self, yes: bool) -> Arg<'a> {
        Arg::of(self.arg.allow_hyphen_values(yes))
    }

    /// The same, whose value follows an equals sign.
    pub fn require_equals(self, yes: bool) -> Arg<'a> {
        Arg::of(self.arg.require_equals(yes))
    }

    /// The same, which has this value if none is given.
    pub fn default_missing_value(self, value: &'a str) -> Arg<'a> {
        Arg::of(self.arg.default_missing_value(value.to_owned()))
    }
}

/// The values of the options that were given.
#[derive(Debug)]
pub struct ArgMatches<'a> {
    flags: HashMap<String, bool>,
    texts: HashMap<String, Vec<&'a str>>,
    indices: HashMap<String, Vec<usize>>,
}

impl<'a> ArgMatches<'a> {
    fn of(matches: &::clap::ArgMatches) -> ArgMatches<'a> {
        let mut found = ArgMatches {
            flags: HashMap::new(),
            texts: HashMap::new(),
            indices: HashMap::new(),
        };
        for id in matches.ids().map(|id| id.as_str()) {
            if let Ok(Some(flag)) = matches.try_get_one::<bool>(id) {
                found.flags.insert(id.to_owned(), *flag);
            }
            if let Ok(Some(texts)) = matches.try_get_many::<String>(id) {
                let texts = texts.map(|text| &*text.clone().leak()).collect();
                found.texts.insert(id.to_owned(), texts);
            }
            if let Some(indices) = matches.indices_of(id) {
                found.indices.insert(id.to_owned(), indices.collect());
            }
        }
        found
    }

    /// The first value of an option.
    pub fn get_str(&self, id: &str) -> Option<&'a str> {
        self.texts.get(id)?.first().copied()
    }

    /// The values of an option.
    pub fn get_strs(&self, id: &str) -> Option<&[&'a str]> {
        self.texts.get(id).map(|texts| &**texts)
    }

    /// Whether an option without a value was given.
    pub fn get_flag(&self, id: &str) -> bool {
        self.flags.get(id).copied().unwrap_or(false)
    }

    /// The places of the values of an option among all values.
    pub fn indices_of(&self, id: &str) -> Option<&[usize]> {
        self.indices.get(id).map(|indices| &**indices)
    }
}

/// Kinds of errors.
pub mod error {
    /// Why words were not split.
    #[derive(Clone, Copy, PartialEq, Eq, Debug)]
    pub enum ErrorKind {
        /// There is no such option.
        UnknownArgument,
        /// An option lacks its value.
        InvalidValue,
        /// An option has a value that takes none.
        TooManyValues,
        /// An option is there twice.
        ArgumentConflict,
        /// The help was asked for.
        DisplayHelp,
        /// The version was asked for.
        DisplayVersion,
        /// Memory ran out. Upstream's crate aborts then.
        OutOfMemory,
        /// Something that the command has no options for.
        Other,
    }
}

/// Why words were not split.
#[derive(Debug)]
pub struct Error(::clap::Error);

impl Error {
    /// The kind of error.
    pub fn kind(&self) -> ErrorKind {
        match self.0.kind() {
            Kind::UnknownArgument => ErrorKind::UnknownArgument,
            Kind::InvalidValue => ErrorKind::InvalidValue,
            Kind::TooManyValues => ErrorKind::TooManyValues,
            Kind::ArgumentConflict => ErrorKind::ArgumentConflict,
            Kind::DisplayHelp => ErrorKind::DisplayHelp,
            Kind::DisplayVersion => ErrorKind::DisplayVersion,
            _ => ErrorKind::Other,
        }
    }

    /// Prints the help or the version.
    pub fn print<R: Print>(&self, rt: &R) -> std::io::Result<()> {
        rt.print(&self.0)
    }
}

/// The option that the error is about, in apostrophes: the part of upstream's message that is used.
impl fmt::Display for Error {
    fn fmt(&self, f: &mut fmt::Formatter<'_>) -> fmt::Result {
        match self.0.get(ContextKind::InvalidArg) {
            Some(option) => write!(f, "'{option}'"),
            None => Ok(()),
        }
    }
}
