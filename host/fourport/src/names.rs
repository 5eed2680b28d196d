//! The names that belong to the numbers of a record.

use crate::Term;
use layout::number_at;
use std::borrow::Cow;
use std::collections::HashMap;

/// The names of a text, by number, with the text's variables where it was a query.
///
/// A name's place in the list, from 0, is its number as a symbol and as a predicate. The names of a query's variables are kept for whoever shows a
/// walk: no record holds them.
///
/// ```
/// use fourport::{Clauses, Query};
/// let rules = "taken(bay1). light(Bay, red) :- taken(Bay).";
/// let (_, names) = Clauses::from_text(rules)?;
/// assert_eq!((names.number("red"), names.name(1), names.len()), (Some(3), Some("bay1"), 4));
///
/// // the names of the rules are a front of those of the query
/// let (_, names) = Query::from_text(rules, "light(bay2, Light), light(_, Light)")?;
/// assert_eq!((names.name(1), names.number("bay2")), (Some("bay1"), Some(4)));
/// assert_eq!((names.variable(0), names.variable(1), names.variable_number("Light")), (Some("Light"), None, Some(0)));
/// # Ok::<(), fourport::TextRefusal>(())
/// ```
///
/// A name that is new in a query has a number of that query alone: another query has the same number for another name. Do not compare the records of
/// two queries, or show one with the names of the other, where they may have such names. To compare a goal with those of a walk, read both as one text,
/// `(QUERY), (GOAL)`: the first half is the query's own goal again, and the names fit both.
///
/// ```
/// use fourport::{GoalKind, Query};
/// let rules = "taken(bay1).";
/// let (query, _) = Query::from_text(rules, "taken(bay9), taken(Bay)")?;
/// let (other, names) = Query::from_text(rules, "taken(bay8), taken(Bay)")?;
/// // number 2 is bay9 in one and bay8 in the other
/// assert_eq!((&query, query.shown(&names).to_string()), (&other, "taken(bay8), taken(Bay)".into()));
///
/// let (both, names) = Query::from_text(rules, "(taken(bay9), taken(Bay)), (taken(bay8))")?;
/// let GoalKind::Conjunction(first, goal) = both.goal().kind() else { panic!("a conjunction") };
/// assert_eq!((query.goal(), query.shown(&names).to_string()), (first, "taken(bay9), taken(Bay)".into()));
/// assert_eq!((goal.shown(&names).to_string(), names.number("bay9"), names.number("bay8")), ("taken(bay8)".into(), Some(2), Some(3)));
/// # Ok::<(), fourport::TextRefusal>(())
/// ```
#[derive(Clone, Debug, PartialEq, Eq)]
pub struct Names {
    list: Vec<String>,
    numbers: HashMap<String, u16>,
    variables: Vec<String>,
    /// what stands before the number of a name, or of a variable, that has no name here
    unnamed: String,
    unnamed_variable: String,
}

/// No names at all: numbers are shown instead.
impl Default for Names {
    fn default() -> Names {
        Names::new(Vec::new(), Vec::new())
    }
}

impl Names {
    fn new(list: Vec<String>, variables: Vec<String>) -> Names {
        let numbers = list.iter().zip(0..).map(|(name, number)| (name.clone(), number)).collect();
        let (unnamed, unnamed_variable) = (free("n", &list), free("V", &variables));
        Names { list, numbers, variables, unnamed, unnamed_variable }
    }

    /// From a list that the desk wrote, and the variables of a query by number.
    pub(crate) fn written(mut bytes: &[u8], variables: Vec<String>) -> Names {
        let mut list = Vec::new();
        while let Some(name) = bytes.get(2..2 + usize::from(number_at(bytes, 0))) {
            list.push(String::from_utf8_lossy(name).into_owned());
            bytes = &bytes[2 + name.len()..];
        }
        Names::new(list, variables)
    }

    /// How many names there are.
    pub fn len(&self) -> usize {
        self.list.len()
    }

    /// Whether there is no name.
    pub fn is_empty(&self) -> bool {
        self.list.is_empty()
    }

    /// The names by rising number.
    pub fn iter(&self) -> impl Iterator<Item = &str> {
        self.list.iter().map(String::as_str)
    }

    /// The name that has the number.
    pub fn name(&self, number: u16) -> Option<&str> {
        self.list.get(usize::from(number)).map(String::as_str)
    }

    /// The number that the name has.
    pub fn number(&self, name: &str) -> Option<u16> {
        self.numbers.get(name).copied()
    }

    /// The name that the query gave to a variable; nothing for a lone underscore, and for a variable that is not the query's.
    pub fn variable(&self, number: u16) -> Option<&str> {
        self.variables.get(usize::from(number)).map(String::as_str).filter(|&name| name != "_")
    }

    /// The number of the query's variable of that name.
    pub fn variable_number(&self, name: &str) -> Option<u16> {
        let place = self.variables.iter().position(|known| known == name && name != "_")?;
        u16::try_from(place).ok()
    }
}

/// How names and variables are shown.
///
/// [`Names`] is the usual one. One of one's own can give variables other names, or values, wherever `shown` is asked for.
///
/// ```
/// use fourport::{Names, Naming, Query, Term};
/// use std::borrow::Cow;
///
/// struct Filled(Names, Term);
///
/// impl Naming for Filled {
///     fn name(&self, number: u16) -> Cow<'_, str> {
///         Naming::name(&self.0, number)
///     }
///
///     fn variable(&self, number: u16) -> Cow<'_, str> {
///         Naming::variable(&self.0, number)
///     }
///
///     fn value(&self, variable: u16) -> Option<&Term> {
///         (variable == 0).then_some(&self.1)
///     }
/// }
///
/// let (query, names) = Query::from_text("", "light(Bay, Light), deck(Bay, red)")?;
/// let value = Term::try_from(vec![2, 0, 1, 1, 1, 0, 0])?;
/// assert_eq!(query.shown(&Filled(names, value)).to_string(), "light(deck(Bay), Light), deck(deck(Bay), red)");
/// # Ok::<(), Box<dyn std::error::Error>>(())
/// ```
pub trait Naming {
    /// How the name with the number is shown.
    fn name(&self, number: u16) -> Cow<'_, str>;

    /// How the variable with the number is shown.
    fn variable(&self, number: u16) -> Cow<'_, str>;

    /// What is shown in place of a variable, wherever it stands but in clauses and definitions, and but as the bound variable of a pair or an answer.
    /// Variables within a value are shown by name.
    fn value(&self, variable: u16) -> Option<&Term> {
        let _ = variable;
        None
    }
}

/// Where there is no name, a word with the number that is no other name.
impl Naming for Names {
    fn name(&self, number: u16) -> Cow<'_, str> {
        Names::name(self, number).map_or_else(|| format!("{}{number}", self.unnamed).into(), Cow::from)
    }

    fn variable(&self, number: u16) -> Cow<'_, str> {
        Names::variable(self, number).map_or_else(|| format!("{}{number}", self.unnamed_variable).into(), Cow::from)
    }
}

/// No names.
pub(crate) struct Numbers;

impl Naming for Numbers {
    fn name(&self, number: u16) -> Cow<'_, str> {
        format!("n{number}").into()
    }

    fn variable(&self, number: u16) -> Cow<'_, str> {
        format!("V{number}").into()
    }
}

/// The letter, with as many underscores as it takes: no name is this with digits behind it.
fn free(letter: &str, names: &[String]) -> String {
    let mut prefix = letter.to_string();
    let clashes = |prefix: &str, name: &String| {
        name.strip_prefix(prefix).is_some_and(|rest| !rest.is_empty() && rest.bytes().all(|byte| byte.is_ascii_digit()))
    };
    while names.iter().any(|name| clashes(&prefix, name)) {
        prefix.push('_');
    }
    prefix
}
