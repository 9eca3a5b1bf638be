//! What the programs take of the crate `clap`: which words of a command line are an option's, a flag's or a file's, and what is wrong with them.

use crate::alloc::{AllocError, Global};
use crate::convert::AsStr;
use std::collections::HashMap;
use std::fmt;

pub mod error {
    #[derive(Clone, Copy, PartialEq, Eq, Debug)]
    pub enum ErrorKind {
        DisplayHelp,
        OutOfMemory,
        Words,
    }
}

use error::ErrorKind;

#[derive(Debug)]
pub struct Error {
    kind: ErrorKind,
    text: String,
}

impl Error {
    pub fn kind(&self) -> ErrorKind {
        self.kind
    }

    pub fn use_stderr(&self) -> bool {
        self.kind != ErrorKind::DisplayHelp
    }
}

impl fmt::Display for Error {
    fn fmt(&self, f: &mut fmt::Formatter<'_>) -> fmt::Result {
        f.write_str(&self.text)
    }
}

fn wrong<T>(text: String) -> Result<T, Error> {
    Err(Error { kind: ErrorKind::Words, text: format!("error: {text}\n") })
}

#[derive(PartialEq, Eq)]
pub enum ArgAction {
    Set,
    SetTrue,
    Append,
}

pub struct Arg<'a> {
    id: &'a str,
    long: Option<&'a str>,
    short: Option<char>,
    is_required: bool,
    takes_rest: bool,
    action: ArgAction,
}

impl<'a> Arg<'a> {
    pub fn new(_: Global, id: &'a str) -> Self {
        Arg { id, long: None, short: None, is_required: false, takes_rest: false, action: ArgAction::Set }
    }

    pub fn short(self, short: char) -> Self {
        Arg { short: Some(short), ..self }
    }

    pub fn long(self, long: &'a str) -> Self {
        Arg { long: Some(long), ..self }
    }

    pub fn required(self, is_required: bool) -> Self {
        Arg { is_required, ..self }
    }

    pub fn action(self, action: ArgAction) -> Self {
        Arg { action, ..self }
    }

    pub fn trailing_var_arg(self, takes_rest: bool) -> Self {
        Arg { takes_rest, ..self }
    }

    /// Here no option's help is shown.
    pub fn help(self, _: &'a str) -> Self {
        self
    }

    /// As a fault names it.
    /// Whether a word names this option.
    fn is_named(&self, word: &str) -> bool {
        self.long.is_some_and(|long| word.strip_prefix("--") == Some(long))
            || self.short.is_some_and(|short| word.strip_prefix('-').is_some_and(|it| it.chars().eq([short])))
    }

    fn shown(&self) -> String {
        match (self.long, &self.action) {
            (Some(long), ArgAction::SetTrue) => format!("--{long}"),
            (Some(long), _) => format!("--{long} <{}>", self.id),
            (None, _) if self.short.is_some() => format!("-{} <{}>", self.short.unwrap_or_default(), self.id),
            (None, ArgAction::Append) => format!("<{}>...", self.id),
            (None, _) => format!("<{}>", self.id),
        }
    }
}

pub struct Command<'a> {
    name: &'a str,
    args: Vec<Arg<'a>>,
    commands: Vec<Command<'a>>,
}

impl<'a> Command<'a> {
    pub fn new(_: Global, name: &'a str) -> Self {
        Command { name, args: Vec::new(), commands: Vec::new() }
    }

    pub fn no_binary_name(self, _: bool) -> Self {
        self
    }

    pub fn subcommand_required(self, _: bool) -> Self {
        self
    }

    pub fn subcommand(mut self, command: Command<'a>) -> Result<Self, AllocError> {
        self.commands.push(command);
        Ok(self)
    }

    pub fn arg(mut self, arg: Arg<'a>) -> Result<Self, AllocError> {
        self.args.push(arg);
        Ok(self)
    }

    pub fn try_get_matches_from<S: AsStr>(self, words: &'a [S]) -> Result<ArgMatches<'a>, Error> {
        let words: Vec<&'a str> = words.iter().map(S::as_str).collect();
        let Some((first, rest)) = words.split_first() else {
            return wrong(format!("'{}' requires a subcommand but one was not provided", self.name));
        };
        if let "help" | "-h" | "--help" = *first {
            return Err(help());
        }
        let Some(command) = self.commands.iter().find(|it| it.name == *first) else {
            let what = if first.starts_with('-') { "argument" } else { "subcommand" };
            return wrong(match what {
                "argument" => format!("unexpected argument '{first}' found"),
                _ => format!("unrecognized subcommand '{first}'"),
            });
        };
        let matches = command.matches_of(rest)?;
        Ok(ArgMatches { values: HashMap::new(), command: Some(Box::new((command.name, matches))) })
    }

    fn matches_of(&self, words: &[&'a str]) -> Result<ArgMatches<'a>, Error> {
        let mut values: HashMap<&'a str, Vec<&'a str>> = HashMap::new();
        let mut files = self.args.iter().filter(|it| it.long.is_none() && it.short.is_none());
        let mut file = files.next();
        let (mut rest, mut are_files) = (words.iter(), false);
        while let Some(word) = rest.next() {
            if are_files || !word.starts_with('-') || *word == "-" {
                let Some(arg) = file else {
                    return wrong(format!("unexpected argument '{word}' found"));
                };
                values.entry(arg.id).or_default().push(word);
                are_files |= arg.takes_rest;
                if arg.action != ArgAction::Append {
                    file = files.next();
                }
            } else if *word == "--" {
                are_files = true;
            } else {
                let (arg, value) = self.option(word, &mut rest)?;
                if values.insert(arg.id, vec![value]).is_some() {
                    return wrong(format!("the argument '{}' cannot be used multiple times", arg.shown()));
                }
            }
        }
        match self.args.iter().find(|it| it.is_required && !values.contains_key(it.id)) {
            Some(arg) => wrong(format!("the following required arguments were not provided:\n  {}", arg.shown())),
            None => Ok(ArgMatches { values, command: None }),
        }
    }

    /// The option that a word names, and its value, which may be the next word.
    fn option(&self, word: &'a str, rest: &mut std::slice::Iter<'_, &'a str>) -> Result<(&Arg<'a>, &'a str), Error> {
        if let "-h" | "--help" = word {
            return Err(help());
        }
        let (name, given) = word.split_once('=').map_or((word, None), |(name, value)| (name, Some(value)));
        let Some(arg) = self.args.iter().find(|it| it.is_named(name)) else {
            return wrong(format!("unexpected argument '{name}' found"));
        };
        if arg.action == ArgAction::SetTrue {
            return match given {
                Some(value) => wrong(format!("unexpected value '{value}' for '{name}' found; no more were expected")),
                None => Ok((arg, "true")),
            };
        }
        let next = rest.as_slice().first().filter(|it| !it.starts_with('-') || **it == "-");
        match (given, next) {
            (Some(value), _) => Ok((arg, value)),
            (None, Some(value)) => {
                rest.next();
                Ok((arg, value))
            }
            (None, None) => wrong(format!("a value is required for '{}' but none was supplied", arg.shown())),
        }
    }
}

fn help() -> Error {
    Error { kind: ErrorKind::DisplayHelp, text: String::new() }
}

#[derive(Debug)]
pub struct ArgMatches<'a> {
    values: HashMap<&'a str, Vec<&'a str>>,
    command: Option<Box<(&'a str, ArgMatches<'a>)>>,
}

impl<'a> ArgMatches<'a> {
    pub fn subcommand(&self) -> Option<(&'a str, &ArgMatches<'a>)> {
        self.command.as_ref().map(|it| (it.0, &it.1))
    }

    pub fn get_str(&self, id: &str) -> Option<&'a str> {
        self.values.get(id).and_then(|it| it.first().copied())
    }

    pub fn get_strs(&self, id: &str) -> Option<&[&'a str]> {
        self.values.get(id).map(Vec::as_slice)
    }
}
