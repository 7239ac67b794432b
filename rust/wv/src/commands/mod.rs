//! The commands.

mod asked;
mod build;
mod causes;
mod chain;
mod check;
mod circuit;
mod convert;
mod cost;
mod files;
mod join;
mod one_of;
mod prove;
mod row;
mod several;
mod shelf;
mod small;
mod upgrade;
mod witness;

use crate::args::Args;
use crate::failure::Failure;
use crate::pages::{about, value_name};
use crate::report::Report;

/// A command of `wv`.
pub struct Command {
    /// Its words, as `shelf new`.
    pub name: &'static str,
    /// What stands behind the words.
    pub usage: &'static str,
    /// What it does, in a line.
    pub about: &'static str,
    /// What else there is to know, in lines.
    pub help: &'static str,
    /// A call, in lines.
    pub example: &'static str,
    /// How many arguments have no name.
    pub places: usize,
    /// How often these can be given, one group after the other.
    pub times: usize,
    /// The options that take a value.
    pub options: &'static [&'static str],
    /// Those of them that can be given once for each group.
    pub repeated: &'static [&'static str],
    /// The options that take none.
    pub flags: &'static [&'static str],
    /// Does the work, and reports what is to be printed.
    pub run: fn(&Args, &mut Report) -> Result<(), Failure>,
}

/// All commands, in the order of the overview.
pub const ALL: &[Command] = &[
    circuit::CIRCUIT,
    circuit::EVALUATE,
    build::BUILD,
    row::ROW,
    row::CLAIM,
    convert::CONVERT,
    upgrade::UPGRADE,
    join::JOIN,
    one_of::ONE_OF,
    small::SMALL,
    shelf::NEW,
    shelf::STOCK,
    shelf::STATUS,
    prove::PROVE,
    check::CHECK,
    cost::COST,
];

/// What all commands have in common: inputs, outputs, exit status.
pub const COMMON: &str = "\
Input bytes are given as the name of a file, as `-` for standard input, as
`fd:3` for an open descriptor, as `hex:4e20` for bytes typed in hexadecimal, or
as `text:order 7`. Bits are packed into bytes lowest first. An output is a file,
which is replaced if it is there, or `-` for standard output; it may not be an
input of the same command, nor the page or the log of any shelf. A text with
spaces in it is quoted: 'text:order 7'. A word behind `--` is no option.

Exit status:
  0  done or accepted
  1  refused, with the refusal's number, if it has one, and a sentence on
     standard error
  2  the command line is wrong, or a file is not there, is not what it should
     be, or cannot be written
  3  another process has the shelf open
";

/// The help for all commands.
pub fn overview() -> String {
    let lines: String = ALL.iter().map(Command::line).collect();
    format!(
        "wv proves facts about rows that others may not read.\n\n{lines}\n\
         `wv help COMMAND` tells more about a command, `wv --version` its version.\n\n\
         {COMMON}"
    )
}

impl Command {
    /// The command whose words these words begin with.
    pub fn named_by(words: &[String]) -> Option<&'static Command> {
        let is_it = |command: &&Command| {
            let named = words.get(..command.words());
            named.is_some_and(|words| words.join(" ") == command.name)
        };
        ALL.iter().find(is_it)
    }

    /// How many words its name has.
    pub fn words(&self) -> usize {
        self.name.split(' ').count()
    }

    /// A line of the overview.
    pub fn line(&self) -> String {
        format!("  wv {:<14}{}\n", self.name, self.about)
    }

    /// All that there is to know about it.
    pub fn full_help(&self) -> String {
        let Command {
            name,
            usage,
            about,
            help,
            example,
            ..
        } = self;
        format!("wv {name} {usage}\n\n{about}\n\n{help}\nFor example:\n{example}\n{COMMON}")
    }

    /// The name of the argument at this place, as the usage has it.
    pub fn place_name(&self, place: usize) -> &'static str {
        let name = self.usage.split_whitespace().nth(place);
        name.unwrap_or_default()
    }

    /// The options that it has, for whoever gave another one.
    pub fn has(&self) -> String {
        let names = self.options.iter().chain(self.flags);
        let names: Vec<String> = names.map(|name| format!("--{name}")).collect();
        format!(": `wv {}` has {}, --help", self.name, names.join(", "))
    }

    /// What stands behind an option, and what it is.
    pub fn expected(&self, option: &str) -> String {
        let (value, about) = (value_name(self, option), about(self, option));
        format!("--{option} {value}, {about}")
    }

    /// The failure of a call that does not fit the usage.
    pub fn misused(&self, what: &str) -> Failure {
        let Command { name, usage, .. } = self;
        let text = format!("{what}\nusage: wv {name} {usage}\n`wv help {name}` tells more");
        Failure::Usage(text)
    }
}
