//! The program itself, run as people run it, and the files that it is given.

use std::fs;
use std::path::PathBuf;
use std::process::{Command, Output, Stdio};
use std::sync::atomic::{AtomicUsize, Ordering};

/// What a run of the program ended with and printed.
#[derive(Clone, Debug)]
pub struct Told {
    pub status: i32,
    pub out: String,
    pub err: String,
}

impl From<Output> for Told {
    fn from(output: Output) -> Told {
        let text = |bytes| String::from_utf8(bytes).expect("what is printed is UTF-8");
        Told { status: output.status.code().expect("no signal ended it"), out: text(output.stdout), err: text(output.stderr) }
    }
}

/// The program, not started yet; nothing can be read from its input.
pub fn program() -> Command {
    let mut command = Command::new(env!("CARGO_BIN_EXE_desk"));
    command.env_remove("NO_COLOR").stdin(Stdio::null());
    command
}

/// Runs the program with these arguments.
pub fn desk(arguments: &[&str]) -> Told {
    program().args(arguments).output().expect("the program starts").into()
}

/// Writes a file, and gives its path. It is there as a whole or not at all, since another test may read it.
pub fn written(name: &str, bytes: impl AsRef<[u8]>) -> String {
    static COUNT: AtomicUsize = AtomicUsize::new(0);
    let path = PathBuf::from(env!("CARGO_TARGET_TMPDIR")).join(name);
    let folder = path.parent().expect("a folder");
    let part = folder.join(format!("part-{}", COUNT.fetch_add(1, Ordering::Relaxed)));
    fs::create_dir_all(folder).expect("the folder is made");
    fs::write(&part, bytes).and_then(|()| fs::rename(&part, &path)).expect("the file is written");
    path.to_str().expect("a path in UTF-8").into()
}
