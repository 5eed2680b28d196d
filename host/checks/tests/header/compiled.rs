//! C and C++ programs, compiled and run.

use std::path::{Path, PathBuf};
use std::process::{Command, Output};
use std::sync::atomic::{AtomicUsize, Ordering};
use std::{env, fs};

/// The compilers, each with its language.
pub const LANGUAGES: [(&str, &str, &str); 3] = [("cc", "c", "c99"), ("cc", "c", "c11"), ("c++", "c++", "c++17")];
const WARNINGS: [&str; 4] = ["-Wall", "-Wextra", "-Wpedantic", "-Werror"];
/// Warnings that others may ask for, under which the header is to be clean too.
const STRICT: [&str; 4] = ["-Wconversion", "-Wsign-conversion", "-Wshadow", "-Wcast-qual"];
const STRICT_IN_CPP: [&str; 2] = ["-Wold-style-cast", "-Wuseless-cast"];

pub fn repository() -> PathBuf {
    PathBuf::from(env!("CARGO_MANIFEST_DIR")).join("../..")
}

pub fn file(name: &str) -> Vec<u8> {
    let path = repository().join(name);
    fs::read(&path).unwrap_or_else(|error| panic!("{}: {error}", path.display()))
}

pub fn header() -> String {
    String::from_utf8(file("include/fourport.h")).expect("text")
}

fn archive() -> PathBuf {
    env::var_os("FOURPORT_ARCHIVE").map_or_else(|| repository().join("target/staticlib/libfourport.a"), PathBuf::from)
}

/// A path for what a test makes.
pub fn made(name: &str) -> PathBuf {
    Path::new(env!("CARGO_TARGET_TMPDIR")).join(name)
}

/// The program of a source, in one of the languages.
pub fn compiled(source: &Path, language: (&str, &str, &str)) -> PathBuf {
    compiled_with(source, language, &[])
}

/// The same, with every warning that the header has to bear.
pub fn compiled_strictly(source: &Path, language: (&str, &str, &str)) -> PathBuf {
    let of_the_language: &[&str] = if language.1 == "c++" { &STRICT_IN_CPP } else { &[] };
    compiled_with(source, language, &[&STRICT, of_the_language].concat())
}

/// Each has a name of its own, since tests run beside each other.
fn compiled_with(source: &Path, (compiler, language, standard): (&str, &str, &str), warnings: &[&str]) -> PathBuf {
    let stem = source.file_stem().and_then(|stem| stem.to_str()).expect("a name");
    static COMPILED: AtomicUsize = AtomicUsize::new(0);
    let program = made(&format!("{stem}-{standard}-{}", COMPILED.fetch_add(1, Ordering::Relaxed)));
    let mut command = Command::new(compiler);
    command.arg(format!("-std={standard}")).args(WARNINGS).args(warnings).arg("-I").arg(repository().join("include"));
    command.args(["-x", language]).arg(source).args(["-x", "none"]).arg(archive()).arg("-o").arg(&program);
    let done = command.output().unwrap_or_else(|error| panic!("{compiler}, which a package of C compilers has: {error}"));
    assert!(done.status.success(), "{compiler} -std={standard} {}:\n{}", source.display(), String::from_utf8_lossy(&done.stderr));
    program
}

pub fn run(program: &Path, words: &[&Path]) -> Output {
    Command::new(program).args(words).output().unwrap_or_else(|error| panic!("{}: {error}", program.display()))
}

pub fn text(bytes: Vec<u8>) -> String {
    String::from_utf8(bytes).expect("text")
}

/// What a program prints that ends well.
pub fn printed(program: &Path, words: &[&Path]) -> String {
    let done = run(program, words);
    assert!(done.status.success() && done.stderr.is_empty(), "{}: {}", program.display(), String::from_utf8_lossy(&done.stderr));
    text(done.stdout)
}

/// What each language's build of a program of host/c prints, which is one text.
pub fn each_prints(name: &str, words: &[&str], due: &str) {
    let paths: Vec<PathBuf> = words.iter().map(|word| repository().join(word)).collect();
    let words: Vec<&Path> = paths.iter().map(PathBuf::as_path).collect();
    for language in LANGUAGES {
        let program = compiled(&repository().join("host/c").join(format!("{name}.c")), language);
        assert_eq!(printed(&program, &words), due, "{name}, {language:?}");
    }
}

/// What a C program prints that includes the header and has this body; one text in all languages.
pub fn body_prints(name: &str, body: &str) -> String {
    let source = made(&format!("{name}.c"));
    fs::write(&source, format!("#include \"fourport.h\"\n#include \"fourport.h\"\n#include <stdio.h>\nint main(void)\n{{\n{body}return 0;\n}}\n"))
        .expect("a source");
    let texts = LANGUAGES.map(|language| printed(&compiled(&source, language), &[]));
    assert!(texts.iter().all(|text| *text == texts[0]), "{name}: {texts:?}");
    texts.into_iter().next().unwrap_or_default()
}
