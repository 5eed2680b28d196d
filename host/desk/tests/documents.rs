//! Documents print what the program prints. A block in backticks whose first line starts with `$ desk` holds commands, each behind a `$`, and what they
//! print, standard error too. With FOURPORT_BLESS=1 the blocks are written anew instead, for somebody to read what changed.

use std::path::{Path, PathBuf};
use std::process::{Command, Stdio};
use std::{env, fs};

const FENCE: &str = "```";
const PROMPT: &str = "$ ";
/// How documents name the program: as it is called once it is installed, or where it is built.
const STARTS: [&str; 2] = ["$ desk ", "$ target/bin/desk "];

/// A part of a document.
#[derive(Clone, Debug)]
enum Part {
    Line(String),
    /// a command, its lines with the here-documents that belong to it, and the lines that it is said to print
    Command(Vec<String>, Vec<String>),
}

fn repository() -> PathBuf {
    Path::new(env!("CARGO_MANIFEST_DIR")).join("../..")
}

/// The documents that may have such blocks.
fn documents() -> Vec<PathBuf> {
    let root = repository();
    let pages = fs::read_dir(root.join("examples")).expect("the examples").map(|entry| entry.expect("an entry").path());
    let mut pages: Vec<PathBuf> = pages.filter(|path| path.extension().is_some_and(|end| end == "md")).collect();
    pages.sort();
    let listed = [root.join("README.md"), root.join("docs/TUTORIAL.md"), root.join("host/README.md"), root.join("host/desk/README.md")];
    listed.into_iter().chain(pages).filter(|path| path.exists()).collect()
}

/// The word that ends the here-document of a command.
fn here_end(command: &str) -> Option<String> {
    let (_, word) = command.split_once("<<")?;
    Some(word.trim().trim_matches('\'').to_string())
}

/// The parts of a document.
fn parts(text: &str) -> Vec<Part> {
    let (mut found, mut lines, mut within, mut fenced) = (Vec::new(), text.lines().peekable(), false, false);
    while let Some(line) = lines.next() {
        if line.starts_with(FENCE) {
            fenced = !fenced;
            within = fenced && lines.peek().is_some_and(|next| STARTS.iter().any(|start| next.starts_with(start)));
        }
        match (line.strip_prefix(PROMPT).filter(|_| within), found.last_mut()) {
            (Some(_), _) => {
                let mut command = vec![line.to_string()];
                if let Some(end) = here_end(line) {
                    while command.last() != Some(&end) {
                        command.push(lines.next().expect("the end of a here-document").into());
                    }
                }
                found.push(Part::Command(command, Vec::new()));
            }
            (None, Some(Part::Command(_, printed))) if within => printed.push(line.into()),
            _ => found.push(Part::Line(line.into())),
        }
    }
    assert!(!fenced, "a block without an end");
    found
}

/// What a command prints, by lines.
fn printed(command: &[String]) -> Vec<String> {
    let program = Path::new(env!("CARGO_BIN_EXE_desk"));
    let folder = program.parent().expect("a folder").to_str().expect("a path in UTF-8");
    let path = format!("{folder}:{}", env::var("PATH").unwrap_or_default());
    let script = command.join("\n").replacen(PROMPT, "", 1).replace("target/bin/desk", "desk");
    let mut shell = Command::new("sh");
    shell.args(["-c", &format!("exec 2>&1\n{script}\n")]).env("PATH", path).current_dir(repository()).stdin(Stdio::null());
    let output = shell.output().expect("a shell");
    String::from_utf8(output.stdout).expect("UTF-8").lines().map(String::from).collect()
}

fn joined(parts: &[Part]) -> String {
    let lines = parts.iter().flat_map(|part| match part {
        Part::Line(line) => vec![line.as_str()],
        Part::Command(command, printed) => command.iter().chain(printed).map(String::as_str).collect(),
    });
    lines.map(|line| format!("{line}\n")).collect()
}

/// The first line in which two texts differ.
fn difference(said: &[String], found: &[String]) -> Option<String> {
    let place = (0..said.len().max(found.len())).find(|&place| said.get(place) != found.get(place))?;
    Some(format!("line {}: the document has {:?}, the program prints {:?}", place + 1, said.get(place), found.get(place)))
}

#[test]
fn documents_have_what_is_printed() {
    let (mut wrong, mut counts) = (Vec::new(), Vec::new());
    for path in documents() {
        let text = fs::read_to_string(&path).expect("a document");
        let mut parts = parts(&text);
        assert_eq!(joined(&parts).trim_end(), text.trim_end(), "{} is read as it stands", path.display());
        let mut count = 0;
        for part in &mut parts {
            let Part::Command(command, said) = part else { continue };
            let found = printed(command);
            wrong.extend(difference(said, &found).map(|what| format!("{}: {}\n    {what}", path.display(), command[0])));
            *said = found;
            count += 1;
        }
        if env::var_os("FOURPORT_BLESS").is_some() {
            fs::write(&path, joined(&parts)).expect("the document is written");
        }
        counts.push((path, count));
    }
    println!("{counts:?}");
    assert!(counts.iter().any(|(path, count)| path.ends_with("TUTORIAL.md") && *count > 0), "no command in the tutorial");
    assert!(env::var_os("FOURPORT_BLESS").is_some() || wrong.is_empty(), "{}", wrong.join("\n"));
}

#[test]
fn blocks_are_read() {
    let text =
        "a\n```sh\n$ ls\n```\n```\n$ desk answers x y\nred\n\n$ target/bin/desk step x y <<'END'\nstep\n$ no command\nEND\ngreen\n```\n$ desk z\n";
    let commands: Vec<(usize, Vec<String>)> = parts(text)
        .into_iter()
        .filter_map(|part| if let Part::Command(command, printed) = part { Some((command.len(), printed)) } else { None })
        .collect();
    assert_eq!(commands, [(1, vec!["red".to_string(), String::new()]), (4, vec!["green".to_string()])]);
    assert_eq!(printed(&["$ desk walk 'no such file' true".into(), "echo done".into()]).last().map(String::as_str), Some("done"));
    assert!(printed(&["$ target/bin/desk walk no-such-file true".into()])[0].starts_with("no-such-file: error: "));
    assert_eq!(printed(&["$ cat <<'END'".into(), "a \\ b".into(), "END".into()]), ["a \\ b"]);
}
