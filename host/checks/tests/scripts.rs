//! The scripts that make the desk, on machines that are made up: a PATH with a few commands of this one, and with a dpkg, an apt-get, a sudo and a user
//! that only tell what they were asked.

use std::os::unix::fs::PermissionsExt;
use std::path::{Path, PathBuf};
use std::process::Command;
use std::{env, fs};

/// What the scripts use that every machine has.
const COMMANDS: [&str; 8] = ["cat", "dirname", "env", "find", "grep", "ls", "rm", "sh"];

/// A package whose name starts with `have` is installed, one that starts with `left` was removed but for its settings.
const DPKG_QUERY: &str = "case $2 in have*) echo 'Status: install ok installed';; left*) echo 'Status: deinstall ok config-files';; *) exit 1;; esac";
/// Says what it is asked, and can install what `apt-get update` has told it of.
const APT_GET: &str = "echo \"apt-get $*\" >> LOG; case $* in *update*) : > LOG.updated;; *) [ -f LOG.updated ];; esac";
const SUDO: &str = "echo sudo >> LOG; exec \"$@\"";

fn repository() -> PathBuf {
    PathBuf::from(env!("CARGO_MANIFEST_DIR")).join("../..")
}

/// A command of this machine.
fn found(name: &str) -> PathBuf {
    let path = env::var_os("PATH").unwrap_or_default();
    env::split_paths(&path).map(|folder| folder.join(name)).find(|file| file.exists()).unwrap_or_else(|| panic!("{name} is missing"))
}

/// A machine: the folder that is its PATH, and what its commands were asked.
struct Machine {
    path: PathBuf,
    log: PathBuf,
}

impl Machine {
    fn new(name: &str) -> Machine {
        let folder = Path::new(env!("CARGO_TARGET_TMPDIR")).join(name);
        let _ = fs::remove_dir_all(&folder);
        let machine = Machine { path: folder.join("bin"), log: folder.join("log") };
        fs::create_dir_all(&machine.path).expect("a folder");
        // no links, since the gate lets none stand in the repository
        COMMANDS.iter().fold(machine, |machine, name| machine.with(name, &format!("exec {} \"$@\"", found(name).display())))
    }

    fn with(self, name: &str, code: &str) -> Machine {
        let file = self.path.join(name);
        fs::write(&file, format!("#!/bin/sh\n{}\n", code.replace("LOG", &self.log.display().to_string()))).expect("a file");
        fs::set_permissions(&file, fs::Permissions::from_mode(0o755)).expect("a command");
        self
    }

    fn debian(name: &str, user: u32) -> Machine {
        Machine::new(name).with("dpkg-query", DPKG_QUERY).with("apt-get", APT_GET).with("id", &format!("echo {user}"))
    }

    /// Runs a script of the repository: whether it ended well, what it printed, and what was asked.
    fn runs(&self, script: &str, words: &[&str]) -> (bool, String, String) {
        let mut command = Command::new(repository().join(script));
        let done = command.args(words).env("PATH", &self.path).env_remove("FOURPORT_ARCHIVE").output().expect("the script starts");
        let said = [done.stdout, done.stderr].concat();
        (done.status.success(), String::from_utf8_lossy(&said).into_owned(), fs::read_to_string(&self.log).unwrap_or_default())
    }
}

fn install(packages: &str) -> String {
    format!("apt-get --yes --quiet --no-install-recommends install {packages}\n")
}

#[test]
fn nothing_is_missing() {
    assert_eq!(Machine::debian("nothing", 0).runs("host/desk/debian", &["have-a", "have-b"]), (true, String::new(), String::new()));
}

#[test]
fn root_installs_what_is_missing() {
    let (well, said, asked) = Machine::debian("root", 0).runs("host/desk/debian", &["have-a", "want-b", "left-c", "have-d"]);
    assert!(well && said.contains("installing want-b left-c"), "{said}");
    assert_eq!(asked, format!("{0}apt-get --quiet update\n{0}", install("want-b left-c")));
}

#[test]
fn a_user_installs_by_sudo() {
    let machine = Machine::debian("user", 1000).with("sudo", SUDO);
    let (well, _, asked) = machine.runs("host/desk/debian", &["want-b"]);
    assert!(well);
    assert_eq!(asked, format!("sudo\n{0}sudo\napt-get --quiet update\nsudo\n{0}", install("want-b")));
}

#[test]
fn a_user_without_sudo_is_told_what_to_type() {
    let (well, said, asked) = Machine::debian("without-sudo", 1000).runs("host/desk/debian", &["want-b", "have-a"]);
    assert!(!well && asked.is_empty(), "{asked}");
    assert!(said.contains("apt-get install want-b\n"), "{said}");
}

#[test]
fn packages_that_cannot_be_installed() {
    let machine = Machine::debian("refused", 0).with("apt-get", "exit 100");
    assert!(!machine.runs("host/desk/debian", &["want-b"]).0);
}

#[test]
fn another_system() {
    assert_eq!(Machine::new("another").runs("host/desk/debian", &["want-b"]), (true, String::new(), String::new()));
}

/// That cargo is missing is said at once, before any proof.
#[test]
fn no_cargo() {
    for (script, name) in [("host/desk/make", "no-cargo-make"), ("host/test", "no-cargo-test")] {
        let (well, said, asked) = Machine::new(name).with("rt", "echo rt >> LOG").runs(script, &[]);
        assert!(!well && said.contains("cargo is missing"), "{said}");
        assert_eq!(asked, "");
    }
}
