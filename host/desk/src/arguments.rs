//! The command line.

use crate::sheet::Form;
use clap::{value_parser, Arg, ArgAction, ArgGroup, ArgMatches, Command};

/// The steps that `desk answers` walks unless it is told otherwise.
const USUAL_STEPS: &str = "10000000";

const ABOUT: &str = "Walks a query through a garage's rules, forward and back";
const AFTER: &str = "\
RULES is a file of clauses. QUERY is a goal without a full stop, such as
'light(bay7, Light)', or @FILE for a file that has one.

Rules are pure Prolog: facts, rules, `,` `;` `=` and brackets around goals; no
lists, arithmetic, negation or cut. A comment goes from % to the end of its
line. The library knows no comments: the desk puts blanks in their place before
it reads, so they count towards the 65,535 bytes that rules and query may have
together.

Exit status: 0 done, 1 no answer, 2 refused input, 3 a limit stopped the walk.";

fn texts(command: Command) -> Command {
    command
        .arg(Arg::new("rules").value_name("RULES").required(true).help("The file that has the rules"))
        .arg(Arg::new("query").value_name("QUERY").required(true).help("The goal, or @FILE"))
        .after_help(AFTER)
}

fn number(name: &'static str, value: &'static str, help: &'static str) -> Arg {
    Arg::new(name).long(name).value_name(value).value_parser(value_parser!(u64)).help(help)
}

fn answers() -> Command {
    let flag = |name: &'static str, help: &'static str| Arg::new(name).long(name).action(ArgAction::SetTrue).help(help);
    texts(Command::new("answers").about("Prints every answer, with the clauses that gave it, and whether these are all"))
        .arg(number("limit", "N", "At most so many answers"))
        .arg(
            Arg::new("steps").long("steps").value_name("N").value_parser(value_parser!(u32)).default_value(USUAL_STEPS).help("At most so many steps"),
        )
        .arg(flag("csv", "Comma-separated values for the planning sheet; what is said of the list goes to standard error"))
        .arg(flag("json", "One JSON object"))
        .group(ArgGroup::new("form").args(["csv", "json"]))
}

fn walk() -> Command {
    texts(Command::new("walk").about("Prints the walk in words, a line for each event, up to the first answer"))
        .arg(Arg::new("all").long("all").action(ArgAction::SetTrue).help("Goes on past the first answer"))
        .arg(
            Arg::new("goals")
                .long("goals")
                .action(ArgAction::SetTrue)
                .help("Shows goals as they are typed alone, not the clauses and heads between them"),
        )
        .arg(number("from", "N", "The first event that is shown").default_value("0"))
        .arg(number("to", "N", "The last event that is shown [default: 100,000 behind the first]"))
        .arg(
            Arg::new("ports")
                .long("ports")
                .value_name("PORTS")
                .value_delimiter(',')
                .value_parser(["call", "exit", "fail", "redo"])
                .help("Shows these ports alone, as call,exit"),
        )
        .arg(
            Arg::new("spy")
                .long("spy")
                .value_name("NAME/ARITY")
                .action(ArgAction::Append)
                .help("Shows goals of this predicate alone; may be said again"),
        )
}

fn step() -> Command {
    texts(Command::new("step").about("Steps forward and back at a prompt; commands may come from a pipe"))
        .arg(number("at", "N", "The event at which it starts").default_value("0"))
}

fn command() -> Command {
    Command::new("desk")
        .about(ABOUT)
        .version(env!("CARGO_PKG_VERSION"))
        .after_help(AFTER)
        .subcommand_required(true)
        .arg_required_else_help(true)
        .subcommand(answers())
        .subcommand(walk())
        .subcommand(step())
}

/// What was asked for.
pub enum Asked {
    Answers { limit: u64, steps: u32, form: Form },
    Walk { all: bool, goals: bool, from: u64, to: Option<u64>, ports: Vec<String>, spied: Vec<String> },
    Step { at: u64 },
}

/// The command line, read.
pub struct Arguments {
    pub rules: String,
    pub query: String,
    pub asked: Asked,
}

fn words(matches: &ArgMatches, name: &str) -> Vec<String> {
    matches.get_many::<String>(name).into_iter().flatten().cloned().collect()
}

fn word(matches: &ArgMatches, name: &str) -> String {
    matches.get_one::<String>(name).cloned().unwrap_or_default()
}

fn number_of(matches: &ArgMatches, name: &str) -> Option<u64> {
    matches.get_one::<u64>(name).copied()
}

/// Reads the command line; help and mistakes are clap's.
pub fn read(arguments: impl IntoIterator<Item = std::ffi::OsString>) -> Result<Arguments, clap::Error> {
    let matches = command().try_get_matches_from(arguments)?;
    let Some((name, matches)) = matches.subcommand() else {
        return Err(command().error(clap::error::ErrorKind::MissingSubcommand, "a command is needed: answers, walk or step"));
    };
    let form = match (name == "answers" && matches.get_flag("csv"), name == "answers" && matches.get_flag("json")) {
        (true, _) => Form::Csv,
        (_, true) => Form::Json,
        _ => Form::Lines,
    };
    let asked = match name {
        "answers" => {
            let steps = matches.get_one::<u32>("steps").copied().unwrap_or(u32::MAX);
            Asked::Answers { limit: number_of(matches, "limit").unwrap_or(u64::MAX), steps, form }
        }
        "walk" => {
            let (from, to) = (number_of(matches, "from").unwrap_or_default(), number_of(matches, "to"));
            Asked::Walk {
                all: matches.get_flag("all"),
                goals: matches.get_flag("goals"),
                from,
                to,
                ports: words(matches, "ports"),
                spied: words(matches, "spy"),
            }
        }
        _ => Asked::Step { at: number_of(matches, "at").unwrap_or_default() },
    };
    Ok(Arguments { rules: word(matches, "rules"), query: word(matches, "query"), asked })
}
