//! What texts were read, for the table; the typed reading beside the raw one, what is shown of it, and the places of refusals.

use fourport::{Clauses, Event, Names, Query, Refusal, TextRefusal};
use twin::text;

/// What a text holds, or why it is refused.
#[derive(Clone, Copy)]
pub enum Sort {
    Empty,
    BlanksAlone,
    Tab,
    LineFeed,
    CarriageReturn,
    Space,
    Longest,
    TooLong,
    NamesExact,
    NamesShort,
    Head16,
    Head17,
    Atom16,
    Atom17,
    Term16,
    Term17,
    Variables64,
    Variables65,
    Lone64,
    Lone65,
    TrueGoal,
    TrueInBrackets,
    TrueLeft,
    TrueRight,
    TrueArgument,
    TrueAtom,
    TrueApplied,
    TrueHead,
    NameAgain,
    Digits,
    RecordFull,
    RecordOver,
    Brackets,
    DeepTerm,
    DeeperTerm,
    Conjuncts,
    ManyNames,
    ChangedRead,
    ChangedRefused,
    InsertedRead,
    InsertedRefused,
    RemovedRead,
    RemovedRefused,
    NewName,
    NoNewName,
    FullStop,
    RulesOwn3,
    RulesOwn10,
    ByteInRules,
    ByteInQuery,
    OutsideInRules,
    OutsideInQuery,
    LongestTogether,
    LongTogether,
    QueryNamesExact,
    QueryNamesShort,
    QueryArity,
    QueryVariables,
    QueryFull,
    QueryOver,
    ShownAgain,
}

pub const TEXTS: [&str; 61] = [
    "no byte",
    "blanks alone",
    "a tab between tokens",
    "a line feed between tokens",
    "a carriage return between tokens",
    "a blank between tokens",
    "65,535 bytes",
    "one byte too long",
    "names that fit to the last byte",
    "names one byte too long",
    "16 arguments of a head",
    "17 arguments of a head",
    "16 arguments of an atom",
    "17 arguments of an atom",
    "16 arguments of a term",
    "17 arguments of a term",
    "64 variables",
    "65 variables",
    "64 variables, underscores among them",
    "65 variables, underscores among them",
    "true or fail as a goal",
    "true or fail as a goal in brackets",
    "true or fail left of =",
    "true or fail right of =",
    "true or fail as an argument",
    "true or fail with arguments as an atom",
    "true or fail with arguments as a head",
    "true or fail as a head",
    "a name as symbol and predicate",
    "7 and 07",
    "a record of 32,768 bytes",
    "a record of 32,769 bytes",
    "over 30,000 brackets",
    "a term as deep as a record holds",
    "a term over 20,000 deep",
    "over 30,000 conjuncts",
    "over 16,000 names",
    "a byte changed, and read",
    "a byte changed, and refused",
    "a byte put in, and read",
    "a byte put in, and refused",
    "a byte taken out, and read",
    "a byte taken out, and refused",
    "query: a name that is new",
    "query: no name that is new",
    "query: a full stop",
    "query: rules whose record gets 3",
    "query: rules whose record gets 10",
    "query: 20 in the rules",
    "query: 20 in the query",
    "query: 21 in the rules",
    "query: 21 in the query",
    "query: 65,535 bytes with the rules",
    "query: one byte too long with the rules",
    "query: names that fit to the last byte",
    "query: names one byte too long",
    "query: 17 arguments",
    "query: 65 variables",
    "query: a record of 32,768 bytes",
    "query: a record of 32,769 bytes",
    "shown of a program or a walk, and read",
];

/// More names than any two texts hold.
pub const MOST_NAMES: usize = 200_000;

type Told<T> = Result<T, String>;

/// A refusal is the raw one; where there is a place for its question there is one.
fn told<T>(number: u32, typed: Result<T, TextRefusal>) -> Told<Option<T>> {
    match typed {
        Ok(read) if number == 0 => Ok(Some(read)),
        Err(refused) if refused.refusal.number() == number && refused.place.is_some() == matches!(number, 3 | 20 | 21) => Ok(None),
        Err(refused) => Err(format!("the raw number is {number}, the typed one {}: {refused}", refused.refusal.number())),
        Ok(_) => Err(format!("the raw number is {number}, and the typed reading is not refused")),
    }
}

fn names_of(names: &Names) -> Vec<u8> {
    names.iter().flat_map(|name| [&(name.len() as u16).to_be_bytes()[..], name.as_bytes()].concat()).collect()
}

/// The typed reading gives what the raw one gave, and what is shown of it is read back as the same record and the same names.
pub fn typed(text: &[u8], number: u32, list: &[u8], record: &[u8]) -> Told<()> {
    let Some((clauses, names)) = told(number, Clauses::from_text(text))? else { return Ok(()) };
    let shown = clauses.shown(&names).to_string();
    if clauses.as_bytes() != record || names_of(&names) != list {
        return Err("the typed reading gives something else".into());
    }
    match Clauses::from_text(&shown) {
        Ok((again, others)) if again == clauses && others == names => Ok(()),
        Err(refused) if refused.refusal == Refusal::Length && shown.len() > fourport::TEXT_LIMIT => Ok(()),
        _ => Err(format!("what is shown is read as something else: {shown}")),
    }
}

/// The same of a query.
pub fn typed_query(rules: &[u8], query: &[u8], number: u32, list: &[u8], record: &[u8]) -> Told<()> {
    let Some((asked, names)) = told(number, Query::from_text(rules, query))? else { return Ok(()) };
    let shown = asked.shown(&names).to_string();
    if asked.as_bytes() != record || names_of(&names) != list {
        return Err("the typed reading gives something else".into());
    }
    match Query::from_text(rules, &shown) {
        Ok((again, others)) if again == asked && names_of(&others) == list => Ok(()),
        Err(refused) if refused.refusal == Refusal::Length && rules.len() + shown.len() > fourport::TEXT_LIMIT => Ok(()),
        _ => Err(format!("what is shown is read as something else: {shown}")),
    }
}

/// What is shown of the canonical program, and of the goals of a walk, is read back and shown again as the same text; how many texts were looked at.
/// What is too long or has too many variables for a text is passed over.
pub fn shown_again(rules: &[u8], query: &[u8], steps: usize) -> Told<usize> {
    let (Ok((clauses, own)), Ok((query, names))) = (Clauses::from_text(rules), Query::from_text(rules, query)) else { return Ok(0) };
    let (Ok(program), Ok(start)) = (clauses.canonical(), Event::first(&query)) else { return Ok(0) };
    let mut looked = again(program.shown(&own).to_string(), |text| Clauses::from_text(text).map(|(read, names)| read.shown(&names).to_string()))?;
    let goals = [start.goal().to_goal()]
        .into_iter()
        .chain(program.walk(start).forwards().take(steps).map(|event| event.goal().to_goal()).collect::<Vec<_>>());
    for goal in goals {
        looked += again(goal.shown(&names).to_string(), |text| Query::from_text(rules, text).map(|(read, names)| read.shown(&names).to_string()))?;
    }
    Ok(looked)
}

/// Whether a text is shown again as it is; 0 where it is beyond a limit.
fn again(text: String, read: impl FnOnce(&str) -> Result<String, TextRefusal>) -> Told<usize> {
    match read(&text) {
        Ok(other) if other == text => Ok(1),
        Err(refused) if matches!(refused.refusal.number(), 3 | 10 | 22) => Ok(0),
        other => Err(format!("shown {text}, and then {other:?}")),
    }
}

/// The place at which a text of clauses gets 21: up to there the text is the front of one that is of the grammar, and with the next token it is not.
/// A front is brought to an end by what its last clause still needs and the brackets that are open.
pub fn place_holds(text: &[u8]) -> Told<()> {
    let Some(place) = Clauses::from_text(text).err().and_then(|refused| refused.place) else { return Ok(()) };
    let (before, rest) = text.split_at(place.offset);
    let token = rest.iter().take_while(|&&byte| byte.is_ascii_alphanumeric() || byte == b'_').count();
    let token = match rest.get(token..) {
        Some([b'(', ..]) if token > 0 => token + 1,
        Some([b':', b'-', ..]) if token == 0 => 2,
        _ => token.max(1),
    };
    if !goes_on(before) {
        return Err(format!("no text goes on from byte {}", place.offset));
    }
    if !rest.is_empty() && goes_on(&text[..place.offset + token]) {
        return Err(format!("a text goes on behind byte {}", place.offset));
    }
    Ok(())
}

fn goes_on(front: &[u8]) -> bool {
    let count = |mark: u8| front.iter().filter(|&&byte| byte == mark).count();
    let open = b")".repeat(count(b'(').saturating_sub(count(b')')));
    let ends: [&[u8]; 3] = [b" ", b" a", b" =a"];
    let whole = |end: &[u8]| [front, end, &open, b"."].concat();
    let read = |text: Vec<u8>| text::read(&text, 0, 0).number != 21;
    read(front.to_vec()) || ends.into_iter().any(|end| read(whole(end)))
}
