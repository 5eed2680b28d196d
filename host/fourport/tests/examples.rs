//! The little garages of the repository's examples, those with a query beside their rules: each input of the walk program is what the product makes of
//! rules and query, and each story has the numbers of the names and events of the walk.

use fourport::{Clauses, Event, Names, Program, Query};
use std::fs;
use std::path::PathBuf;

struct Garage {
    name: String,
    program: Program,
    query: Query,
    names: Names,
}

fn folder() -> PathBuf {
    PathBuf::from(env!("CARGO_MANIFEST_DIR")).join("../../examples")
}

fn file(name: &str, ending: &str) -> Vec<u8> {
    let path = folder().join(format!("{name}.{ending}"));
    fs::read(&path).unwrap_or_else(|error| panic!("{}: {error}", path.display()))
}

fn story(name: &str) -> String {
    String::from_utf8(file(name, "md")).expect("text")
}

fn garages() -> Vec<Garage> {
    let files = fs::read_dir(folder()).expect("the examples").filter_map(|file| file.ok()?.file_name().into_string().ok());
    let mut names: Vec<String> = files.filter_map(|file| file.strip_suffix(".query").map(String::from)).collect();
    names.sort();
    assert_eq!(names.len(), 6);
    names.into_iter().map(garage).collect()
}

fn garage(name: String) -> Garage {
    let rules = file(&name, "pl");
    let program = Clauses::from_text(&rules).expect("clauses").0.canonical().expect("a program");
    let (query, names) = Query::from_text(&rules, file(&name, "query")).expect("a query");
    Garage { name, program, query, names }
}

#[test]
fn inputs_of_the_walk_program() {
    for Garage { name, program, query, .. } in garages() {
        assert_eq!([program.as_bytes(), query.as_bytes()].concat(), file(&name, "in"), "{name}");
    }
}

fn numbered<'a>(names: impl Iterator<Item = &'a str>) -> String {
    names.enumerate().map(|(number, name)| format!("{number} {name}")).collect::<Vec<_>>().join(", ")
}

/// The lines of a story that list names: those of the text, and those of the query's variables if it has any.
#[test]
fn names_in_the_stories() {
    for Garage { name, names, .. } in garages() {
        let variables: Vec<&str> = (0..).map_while(|number| names.variable(number)).collect();
        let mut due = vec![format!("- Names: {}", numbered(names.iter()))];
        due.extend((!variables.is_empty()).then(|| format!("- Variables of the query: {}", numbered(variables.iter().copied()))));
        let listed: Vec<String> =
            story(&name).lines().filter(|line| line.starts_with("- Names: ") || line.starts_with("- Variables ")).map(String::from).collect();
        assert_eq!(listed, due, "{name}");
    }
}

fn line(step: usize, event: &Event, names: &Names) -> String {
    format!("{step} {} {} {}  {}", event.port(), event.ancestor_count(), event.bet_count(), event.goal().shown(names))
}

/// The lines of a walk as the stories show them.
fn lines(garage: &Garage) -> Vec<String> {
    let mut walk = garage.program.walk(Event::first(&garage.query).expect("a first event"));
    let mut lines = vec![line(0, walk.event(), &garage.names)];
    lines.extend(walk.forwards().enumerate().map(|(i, event)| line(i + 1, &event, &garage.names)));
    lines.extend(walk.stopped().map(|refusal| format!("stop {}", refusal.number())));
    lines
}

/// Lines that are indented in a story, numbers first or `stop`, are lines of the walk.
#[test]
fn events_in_the_stories() {
    for garage in garages() {
        let (lines, story) = (lines(&garage), story(&garage.name));
        let is_event = |text: &str| text.starts_with("stop ") || text.starts_with(|first: char| first.is_ascii_digit());
        let told: Vec<&str> = story.lines().filter(|line| line.starts_with("    ")).map(str::trim_start).filter(|text| is_event(text)).collect();
        assert!(told.len() >= 5 && told.contains(&"stop 6"), "{}", garage.name);
        for text in told {
            assert!(lines.iter().any(|line| line == text), "{}: {text}", garage.name);
        }
    }
}
