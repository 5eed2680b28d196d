//! Texts at each limit, on both sides, and names and operators in every place: each with the number that the request gives it.

use super::{queries, texts as of_clauses};
use crate::compare::{Checked, Checker, Difference};
use crate::generate::texts;
use crate::texts::{Sort, MOST_NAMES};
use layout::RECORD_LIMIT as ROOM;

/// The longest text, and the first that is too long.
const LONGEST: usize = 65_535;

pub fn round(checker: &mut Checker) -> Checked<()> {
    spacing(checker)?;
    constants(checker)?;
    outside(checker)?;
    arities(checker)?;
    variables(checker)?;
    names(checker)?;
    lengths(checker)?;
    records(checker)?;
    depths(checker)?;
    orders(checker)?;
    asked(checker)?;
    asked_limits(checker)
}

/// A text that gets this number, with as much room as it needs.
fn due(checker: &mut Checker, number: u32, text: impl AsRef<[u8]>, sort: Option<Sort>) -> Checked<()> {
    lent(checker, number, text.as_ref(), MOST_NAMES, ROOM, sort)
}

fn lent(checker: &mut Checker, number: u32, text: &[u8], names: usize, room: usize, sort: Option<Sort>) -> Checked<()> {
    of_clauses::put(checker, text, names, room)?;
    expected(checker, number, twin::text::read(text, names, room).number, text, sort)
}

fn query_due(checker: &mut Checker, number: u32, rules: impl AsRef<[u8]>, query: impl AsRef<[u8]>, sort: Option<Sort>) -> Checked<()> {
    query_lent(checker, number, (rules.as_ref(), query.as_ref()), MOST_NAMES, ROOM, sort)
}

fn query_lent(checker: &mut Checker, number: u32, (rules, query): (&[u8], &[u8]), names: usize, room: usize, sort: Option<Sort>) -> Checked<()> {
    queries::put(checker, rules, query, names, room)?;
    expected(checker, number, twin::text::read_query(rules, query, names, room).number, query, sort)
}

fn expected(checker: &mut Checker, number: u32, given: u8, text: &[u8], sort: Option<Sort>) -> Checked<()> {
    if u32::from(given) != number {
        let front = String::from_utf8_lossy(&text[..text.len().min(80)]);
        return Err(Difference(format!("a text gets {given} and not {number}: {front}")));
    }
    sort.into_iter().for_each(|sort| checker.table.add_text(sort));
    Ok(())
}

/// Blanks of each kind at each place between tokens, and within tokens, where there may be none.
fn spacing(checker: &mut Checker) -> Checked<()> {
    due(checker, 0, "", Some(Sort::Empty))?;
    lent(checker, 0, b"", 0, ROOM, None)?;
    due(checker, 0, "\t\n\r ", Some(Sort::BlanksAlone))?;
    let tokens = ["p(", "X", ",", "07", ")", ":-", "(", "X", "=", "f(", "_", ")", ",", "q", ")", ";", "fail", "."];
    for (blank, sort) in [("\t", Sort::Tab), ("\n", Sort::LineFeed), ("\r", Sort::CarriageReturn), (" ", Sort::Space)] {
        due(checker, 0, tokens.join(blank), Some(sort))?;
        for place in 0..=tokens.len() {
            due(checker, 0, [&tokens[..place], &[blank], &tokens[place..]].concat().concat(), None)?;
        }
        for broken in ["p{}(X).", "p:{}-q.", "a{}b.", "p(X{}Y).", "p(0{}7)."] {
            due(checker, 21, broken.replace("{}", blank), None)?;
        }
    }
    Ok(())
}

/// The names true and fail in each place.
fn constants(checker: &mut Checker) -> Checked<()> {
    for name in ["true", "fail"] {
        let text = |form: &str| form.replace('N', name);
        due(checker, 0, text("a :- N, b ; N."), Some(Sort::TrueGoal))?;
        due(checker, 0, text("a :- (N), ((N) ; N)."), Some(Sort::TrueInBrackets))?;
        due(checker, 0, text("a :- N, N = x, N."), Some(Sort::TrueLeft))?;
        due(checker, 0, text("a :- N, X = N."), Some(Sort::TrueRight))?;
        due(checker, 0, text("a(N) :- b(f(N), N)."), Some(Sort::TrueArgument))?;
        due(checker, 0, text("a :- N(x), N."), Some(Sort::TrueAtom))?;
        due(checker, 0, text("N(N) :- N(N) = N."), Some(Sort::TrueApplied))?;
        due(checker, 21, text("N."), Some(Sort::TrueHead))?;
        for outside in ["N :- a.", "a. N.", "N (a).", "a :- (N) = b.", "a :- N(.", "a :- N b."] {
            due(checker, 21, text(outside), None)?;
        }
        query_due(checker, 0, text("a :- N = b."), text("N, (N) ; x = N"), None)?;
    }
    Ok(())
}

/// The texts that the readings of the request name, and bytes that stand in no text.
fn outside(checker: &mut Checker) -> Checked<()> {
    for text in ["p :- (a) = b.", "p :- X = (a).", "p((a)).", "(p) :- q.", "a :- (b :- c).", "p :- a = b = c.", ":- a.", "p ().", "p (x).", "p()."] {
        due(checker, 21, text, None)?;
    }
    for text in ["p :- X.", "p :- 7.", "1a.", "p(1a).", "a", "a :- b", "p(a).b", "a : b.", "a - b.", ".", "p(a", "p :- (a."] {
        due(checker, 21, text, None)?;
    }
    for byte in 0..=255u8 {
        let allowed = byte.is_ascii_alphanumeric() || b"_:-=;,().\t\n\r ".contains(&byte);
        if !allowed {
            due(checker, 20, [b"a :- ) b", &[byte][..]].concat(), None)?;
        }
        of_clauses::put(checker, &[&[byte][..], b"."].concat(), MOST_NAMES, ROOM)?;
        of_clauses::put(checker, &[b"p(a", &[byte][..], b"b)."].concat(), MOST_NAMES, ROOM)?;
    }
    due(checker, 0, "a.b.", None)
}

fn several(count: usize, one: impl Fn(usize) -> String) -> String {
    (0..count).map(one).collect::<Vec<_>>().join(",")
}

fn arities(checker: &mut Checker) -> Checked<()> {
    for (count, number, [head, atom, term]) in [
        (16, 0, [Sort::Head16, Sort::Atom16, Sort::Term16]),
        (17, 3, [Sort::Head17, Sort::Atom17, Sort::Term17]),
        (300, 3, [Sort::Head17, Sort::Atom17, Sort::Term17]),
    ] {
        let arguments = several(count, |_| "a".into());
        due(checker, number, format!("p({arguments})."), Some(head))?;
        due(checker, number, format!("p :- a, q({arguments})."), Some(atom))?;
        due(checker, number, format!("p(f(g({arguments})))."), Some(term))?;
        due(checker, number, format!("p :- X = f({arguments})."), Some(term))?;
        due(checker, number, format!("p :- f({arguments}) = X. q."), Some(term))?;
    }
    Ok(())
}

fn variables(checker: &mut Checker) -> Checked<()> {
    for (count, number, [named, lone]) in [(64, 0, [Sort::Variables64, Sort::Lone64]), (65, 3, [Sort::Variables65, Sort::Lone65])] {
        let of = |one: &dyn Fn(usize) -> String| several(count, |i| format!("{}=a", one(i)));
        due(checker, number, format!("p :- {}.", of(&|i| format!("V{i}"))), Some(named))?;
        due(checker, number, format!("a(X). p :- {}. b(X,Y).", of(&|_| "_".into())), Some(lone))?;
        due(checker, number, format!("p(X0,_,_) :- {}.", several(count - 2, |i| format!("X{i}=X{i}"))), Some(lone))?;
    }
    // each clause has variables of its own
    due(checker, 0, format!("p :- {}.", several(64, |i| format!("V{i}=a"))).repeat(3), None)
}

fn names(checker: &mut Checker) -> Checked<()> {
    due(checker, 0, "p(q, p, r) :- q(p), r = q.", Some(Sort::NameAgain))?;
    due(checker, 0, "p(7, 07, 7, x7, 7_7).".replace(", 7_7", ""), Some(Sort::Digits))?;
    for text in ["abc(d, abc) :- ef. ef.", "a.", "p(07, 7).", "p(X).", "x :- true, true = fail."] {
        let named = twin::text::read(text.as_bytes(), MOST_NAMES, ROOM).names.len();
        lent(checker, 0, text.as_bytes(), named, ROOM, Some(Sort::NamesExact))?;
        lent(checker, 22, text.as_bytes(), named - 1, ROOM, Some(Sort::NamesShort))?;
        lent(checker, 22, text.as_bytes(), 0, ROOM, None)?;
    }
    Ok(())
}

fn lengths(checker: &mut Checker) -> Checked<()> {
    let long = |length: usize| [&vec![b'x'; length - 1][..], b"."].concat();
    let text = |length: usize| [b"p(a).", &vec![b'\n'; length - 5][..]].concat();
    due(checker, 0, text(LONGEST), Some(Sort::Longest))?;
    due(checker, 22, text(LONGEST + 1), Some(Sort::TooLong))?;
    due(checker, 0, long(LONGEST), Some(Sort::Longest))?;
    due(checker, 22, long(LONGEST + 1), Some(Sort::TooLong))?;
    due(checker, 22, text(200_000), None)?;
    lent(checker, 0, &long(LONGEST), LONGEST + 1, ROOM, Some(Sort::NamesExact))?;
    lent(checker, 22, &long(LONGEST), LONGEST, ROOM, Some(Sort::NamesShort))
}

fn records(checker: &mut Checker) -> Checked<()> {
    for length in 32_760..=32_768 {
        due(checker, 0, texts::of_record(length), None)?;
    }
    due(checker, 0, texts::of_record(32_768), Some(Sort::RecordFull))?;
    due(checker, 10, texts::of_record(32_769), Some(Sort::RecordOver))?;
    for (room, number) in [(0, 5), (32_767, 5), (32_768, 0), (32_769, 0), (70_000, 0)] {
        lent(checker, number, b"p(a).", MOST_NAMES, room, None)?;
    }
    Ok(())
}

/// The deepest and the longest that 65,535 bytes hold.
fn depths(checker: &mut Checker) -> Checked<()> {
    due(checker, 0, texts::brackets(32_765), Some(Sort::Brackets))?;
    due(checker, 22, texts::brackets(32_766), None)?;
    due(checker, 0, texts::deep_term(8_188), Some(Sort::DeepTerm))?;
    due(checker, 10, texts::deep_term(8_190), None)?;
    due(checker, 10, texts::deep_term(21_843), Some(Sort::DeeperTerm))?;
    due(checker, 21, [&texts::deep_term(21_842)[..], b")"].concat(), None)?;
    due(checker, 10, texts::conjuncts(32_765, ","), Some(Sort::Conjuncts))?;
    due(checker, 10, texts::conjuncts(32_765, ";"), None)?;
    due(checker, 10, texts::facts_of_many_names(LONGEST), Some(Sort::ManyNames))?;
    due(checker, 0, texts::long_variables(64, 900), None)?;
    due(checker, 3, texts::long_variables(65, 900), None)
}

/// 20, 21, 22, 3, 5, 10: a text that two of them refuse gets the earlier one.
fn orders(checker: &mut Checker) -> Checked<()> {
    let (blanks, wide, large) = (" ".repeat(LONGEST), format!("p({}).", several(17, |_| "a".into())), "p(x).".repeat(9_000));
    due(checker, 20, format!("a b{blanks}%"), None)?;
    due(checker, 20, format!("{wide}{large}%"), None)?;
    due(checker, 21, format!("{blanks}a b"), None)?;
    due(checker, 21, format!("{wide}{large})"), None)?;
    due(checker, 22, format!("{wide}{blanks}"), None)?;
    lent(checker, 22, wide.as_bytes(), 5, 0, None)?;
    lent(checker, 3, wide.as_bytes(), 6, 0, None)?;
    lent(checker, 22, large.as_bytes(), 5, 0, None)?;
    lent(checker, 3, format!("{large}{wide}").as_bytes(), MOST_NAMES, 0, None)?;
    lent(checker, 5, large.as_bytes(), MOST_NAMES, ROOM - 1, None)?;
    lent(checker, 10, large.as_bytes(), MOST_NAMES, ROOM, None)
}

/// Queries that a question refuses in one of the two texts, and those that rules refused as a record do not matter to.
fn asked(checker: &mut Checker) -> Checked<()> {
    let wide = format!("p({}).", several(17, |_| "a".into()));
    query_due(checker, 21, "p.", "p.", Some(Sort::FullStop))?;
    query_due(checker, 0, &wide, "p(a), X = Y", Some(Sort::RulesOwn3))?;
    query_due(checker, 0, format!("p :- {}.", several(65, |_| "_=a".into())), "p", Some(Sort::RulesOwn3))?;
    query_due(checker, 0, "p(x).".repeat(9_000), "p(Y)", Some(Sort::RulesOwn10))?;
    query_due(checker, 20, "p. %", "(", Some(Sort::ByteInRules))?;
    query_due(checker, 20, "p", "p % p", Some(Sort::ByteInQuery))?;
    query_due(checker, 21, "p", "p", Some(Sort::OutsideInRules))?;
    for query in ["", " ", "p.", "p :- q", ":- p", "X", "7", "p,", "(p", "p)", "p q", "(p) = q", ".", "p. q"] {
        query_due(checker, 21, "p.", query, Some(Sort::OutsideInQuery))?;
    }
    for query in ["true", "fail", "p", "((p))", "X=Y", "p;q,r", "p(7,07)", " \n p \t"] {
        query_due(checker, 0, "p(a,7).", query, None)?;
    }
    Ok(())
}

fn asked_limits(checker: &mut Checker) -> Checked<()> {
    let blanks = |text: &str, length: usize| format!("{text}{}", " ".repeat(length - text.len()));
    for rules in [2, 3, 1_000, 32_767, 32_768, LONGEST - 2, LONGEST - 1] {
        query_due(checker, 0, blanks("p.", rules), blanks("q", LONGEST - rules), Some(Sort::LongestTogether))?;
        query_due(checker, 22, blanks("p.", rules), blanks("q", LONGEST + 1 - rules), Some(Sort::LongTogether))?;
    }
    query_due(checker, 22, blanks("p.", LONGEST), "q", Some(Sort::LongTogether))?;
    query_due(checker, 0, "", blanks("q", LONGEST), Some(Sort::LongestTogether))?;
    query_due(checker, 22, "", blanks("q", LONGEST + 1), Some(Sort::LongTogether))?;
    query_due(checker, 21, blanks("p.", LONGEST + 1), "q q", None)?;
    query_lent(checker, 0, (b"abc.", b"abc, de"), 9, ROOM, Some(Sort::QueryNamesExact))?;
    query_lent(checker, 22, (b"abc.", b"abc, de"), 8, ROOM, Some(Sort::QueryNamesShort))?;
    let wide = format!("p({})", several(17, |_| "a".into()));
    query_due(checker, 3, "p.", &wide, Some(Sort::QueryArity))?;
    query_due(checker, 0, "p.", several(64, |_| "_=a".into()), None)?;
    query_due(checker, 3, "p.", several(65, |_| "_=a".into()), Some(Sort::QueryVariables))?;
    query_due(checker, 0, "p.", texts::goal_of(32_765), Some(Sort::QueryFull))?;
    query_due(checker, 10, "p.", texts::goal_of(32_766), Some(Sort::QueryOver))?;
    for (names, room, number) in [(5, 0, 22), (6, 0, 3), (6, ROOM, 3)] {
        query_lent(checker, number, (b"p.", wide.as_bytes()), names, room, None)?;
    }
    query_lent(checker, 5, (b"p.", &texts::goal_of(32_766)), MOST_NAMES, ROOM - 1, None)
}
