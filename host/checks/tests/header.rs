//! The header for C and C++: it and the programs of host/c compile without a warning, its constants and words are those of the Rust side, its inline
//! functions find what the Rust side finds, and the programs print what the typed crate answers. It needs `cc` and `c++`.

#[path = "header/compiled.rs"]
mod compiled;
#[path = "header/programs.rs"]
mod programs;

use compiled::{body_prints, compiled_strictly, file, header, made, printed, text, LANGUAGES};
use fourport::{Event, Program, Query, Refusal, Which, NAMES_LIMIT, RECORD_LIMIT, TEXT_LIMIT};

/// The numbers that are put into words: those in use and some that are not.
const NUMBERS: std::ops::RangeInclusive<u32> = 0..=40;

fn hex(bytes: &[u8]) -> String {
    bytes.iter().map(|byte| format!(" {byte:02X}")).collect()
}

// ---- Constants and words
/// Every constant of the header but the version, with what the Rust side has for it.
fn constants() -> Vec<(&'static str, u32)> {
    use layout::port;
    let sizes =
        [("RECORD", RECORD_LIMIT), ("TEXT", TEXT_LIMIT), ("NAMES", NAMES_LIMIT), ("PORT_AT", layout::PORT_AT), ("GOAL_AT", layout::EVENT_GOAL_AT)];
    let sizes = sizes.map(|(name, size)| (name, size as u32));
    let bytes = [
        ("CALL", port::CALL),
        ("EXIT", port::EXIT),
        ("FAIL", port::FAIL),
        ("REDO", port::REDO),
        ("FORWARD", 0),
        ("BACK", 1),
        ("KIND_VARIABLE", layout::VARIABLE),
        ("KIND_SYMBOL", layout::SYMBOL),
        ("KIND_TRUE", layout::TRUTH),
        ("KIND_FAIL", layout::FAILURE),
        ("KIND_EQUALITY", layout::EQUALITY),
        ("KIND_CONJUNCTION", layout::CONJUNCTION),
        ("KIND_DISJUNCTION", layout::DISJUNCTION),
        ("KIND_ATOM", layout::ATOM),
        ("KIND_UNIFIER", layout::UNIFIER),
        ("KIND_OR", layout::OR),
        ("KIND_BY", layout::BY),
        ("KIND_IN_CONJUNCTION", layout::IN_CONJUNCTION),
        ("KIND_IN_DISJUNCTION", layout::IN_DISJUNCTION),
    ];
    sizes.into_iter().chain(bytes.map(|(name, byte)| (name, byte.into()))).chain(questions()).collect()
}

fn questions() -> Vec<(&'static str, u32)> {
    let refusals = [
        ("NO_PROGRAM_FRAME", Refusal::Frame(Which::Program)),
        ("NO_PROGRAM_VERSION", Refusal::Version(Which::Program)),
        ("NO_PROGRAM_GRAMMAR", Refusal::Grammar(Which::Program)),
        ("NO_PROGRAM_RULES", Refusal::Rules(Which::Program)),
        ("NO_ROOM", Refusal::Room),
        ("NO_WALK", Refusal::Walk),
        ("NO_MATCH", Refusal::Match),
        ("NO_VALUE", Refusal::Value),
        ("NO_LOCALS", Refusal::Locals),
        ("NO_FIT", Refusal::Fit),
        ("NO_EVENT_FRAME", Refusal::Frame(Which::Event)),
        ("NO_EVENT_VERSION", Refusal::Version(Which::Event)),
        ("NO_EVENT_GRAMMAR", Refusal::Grammar(Which::Event)),
        ("NO_EVENT_RULES", Refusal::Rules(Which::Event)),
        ("NO_BYTE", Refusal::Byte),
        ("NO_TEXT", Refusal::Text),
        ("NO_LENGTH", Refusal::Length),
        ("NO_LIMIT", Refusal::Limit),
    ];
    [("DONE", 0)].into_iter().chain(refusals.map(|(name, refusal)| (name, refusal.number()))).collect()
}

/// The name that a line of the header gives a number to, without what all names start with.
fn constant(line: &str) -> Option<&str> {
    let line = line.trim_start();
    let name = line.strip_prefix("#define FOURPORT_").or_else(|| line.strip_prefix("FOURPORT_").filter(|rest| rest.contains(" = ")))?;
    let name = name.split([' ', '\n']).next()?;
    (name != "H" && !name.starts_with("VERSION")).then_some(name)
}

#[test]
fn constants_are_those_of_the_rust_side() {
    let constants = constants();
    let lines: String = constants.iter().map(|(name, _)| format!("printf(\"{name} %lu\\n\", (unsigned long)FOURPORT_{name});\n")).collect();
    let due: String = constants.iter().map(|(name, number)| format!("{name} {number}\n")).collect();
    assert_eq!(body_prints("constants", &lines), due);

    let header = header();
    let (mut named, mut known): (Vec<&str>, Vec<&str>) =
        (header.lines().filter_map(constant).collect(), constants.iter().map(|(name, _)| *name).collect());
    named.sort_unstable();
    known.sort_unstable();
    assert_eq!(named, known);
}

/// The words of a number: a question is put as the Rust side puts it.
fn words_of(number: u32) -> String {
    let Some(refusal) = Refusal::from_number(number) else { return "done".into() };
    let about = match refusal.record() {
        Some(Which::Program) => "the program or clause record: ",
        Some(Which::Event) => "the query or event record: ",
        None => "",
    };
    match refusal {
        Refusal::Unknown(_) => "no such number".into(),
        known => format!("{about}{}", known.question()),
    }
}

#[test]
fn words_are_those_of_the_rust_side() {
    let lines: String = NUMBERS.map(|number| format!("printf(\"%s\\n\", fourport_words({number}u));\n")).collect();
    let due: String = NUMBERS.map(|number| words_of(number) + "\n").collect();
    assert_eq!(body_prints("words", &lines), due);
}

/// The version is that of the crate.
#[test]
fn version() {
    let manifest = text(file("host/fourport/Cargo.toml"));
    let version = manifest.lines().find_map(|line| line.strip_prefix("version = \"")?.strip_suffix('"')).expect("a version");
    let lines = "printf(\"%s %d.%d.%d\\n\", FOURPORT_VERSION, FOURPORT_VERSION_MAJOR, FOURPORT_VERSION_MINOR, FOURPORT_VERSION_PATCH);\n";
    assert_eq!(body_prints("version", lines), format!("{version} {version}\n"));
}

/// Buffers by their first two bytes and their length, and how long the record at the front is.
#[test]
fn lengths_of_records() {
    let cases = [
        ([0, 0], 0, 0),
        ([0, 0], 1, 0),
        ([0, 0], 2, 2),
        ([0, 1], 2, 0),
        ([0, 1], 3, 3),
        ([0, 1], 9, 3),
        ([1, 2], 259, 0),
        ([1, 2], 260, 260),
        ([255, 255], 65_536, 0),
        ([255, 255], 65_537, 65_537),
    ];
    let line = |([high, low], length, _): ([u8; 2], usize, usize)| {
        format!("bytes[0] = {high}; bytes[1] = {low}; printf(\"%lu\\n\", (unsigned long)fourport_record_length(bytes, {length}));\n")
    };
    let body: String = cases.into_iter().map(line).collect();
    let due: String = cases.into_iter().map(|(_, _, record)| format!("{record}\n")).collect();
    assert_eq!(body_prints("lengths", &format!("static uint8_t bytes[70000];\n{body}")), due);
}

/// Terms and goals by their bytes, and where each ends with something behind it; among them the deepest goal that a record holds.
#[test]
fn ends_of_terms_and_goals() {
    use layout::{atom, conjunction, constant, disjunction, equality, symbol, variable, FAIL, TRUE};
    let depth = (RECORD_LIMIT - 4) / 2;
    let deepest = [vec![layout::CONJUNCTION; depth], vec![layout::TRUTH; depth + 1]].concat();
    let (pair, bay) = (symbol(0x1315, &[variable(0x0102), constant(0x0202)]), constant(9));
    let goal = disjunction(&conjunction(&equality(&pair, &bay), &atom(0x1010, &[pair.clone(), variable(7)])), &FAIL);
    let terms = [variable(1), bay, symbol(1, &[pair.clone(), pair.clone()]), pair];
    let cases: Vec<(&str, Vec<u8>)> =
        terms.into_iter().map(|term| ("term", term)).chain([TRUE.to_vec(), goal, deepest].into_iter().map(|goal| ("goal", goal))).collect();
    let line = |(kind, bytes): &(&str, Vec<u8>)| {
        let listed: String = bytes.iter().chain(&[2, 0, 0, 0]).map(|byte| format!("{byte},")).collect();
        format!("{{ static const uint8_t bytes[] = {{{listed}}}; printf(\"%lu\\n\", (unsigned long)(fourport_{kind}_end(bytes) - bytes)); }}\n")
    };
    let due: String = cases.iter().map(|(_, bytes)| format!("{}\n", bytes.len())).collect();
    assert_eq!(body_prints("ends", &cases.iter().map(line).collect::<String>()), due);
}

/// The header alone bears warnings that are not asked of host/c.
#[test]
fn strict_warnings() {
    let source = made("strict.c");
    let body = "static const uint8_t bytes[] = {1, 16, 7};\nreturn fourport_number_at(bytes) == 272 && fourport_record_length(bytes, 3) == 0\n\
                && fourport_term_end(bytes) == bytes + 3 && fourport_goal_end(bytes + 1) == bytes + 2 && fourport_words(0)[0] == 'd' ? 0 : 1;\n";
    std::fs::write(&source, format!("#include \"fourport.h\"\nint main(void)\n{{\n{body}}}\n")).expect("a source");
    LANGUAGES.iter().for_each(|language| assert_eq!(printed(&compiled_strictly(&source, *language), &[]), ""));
}

/// The rows of bytes in the header's example are the query, its first event and the next one.
#[test]
fn example_of_the_header() {
    let query = Query::from_bytes([0, 9, 1, 0x12, 1, 0, 0, 2, 0, 2, 0]).expect("a query");
    let program = Program::from_bytes(layout::NO_DEFINITIONS).expect("a program");
    let first = Event::first(&query).expect("a first event");
    let next = program.forward(&first).expect("a step");
    let rows = header().lines().filter_map(|line| Some(line.strip_prefix(" *   00 ")?.replace(' ', ""))).collect::<Vec<_>>();
    let due = [query.as_bytes(), first.as_bytes(), next.as_bytes()].map(|bytes| hex(&bytes[1..]).replace(' ', ""));
    assert_eq!(rows, due);
}
