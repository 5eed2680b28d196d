//! A real terminal for a program: one of tmux's, with a server of its own.

use std::path::PathBuf;
use std::process::{self, Command, Output};
use std::sync::atomic::{AtomicUsize, Ordering};
use std::thread::sleep;
use std::time::{Duration, Instant};
use std::{env, fs};

/// How long a screen is waited for.
const DEADLINE: Duration = Duration::from_secs(20);
const PAUSE: Duration = Duration::from_millis(20);

/// Runs a program, then says its exit status and stays.
const TOLD: &str = r#""$@"; echo "status $?"; read -r end"#;

static SERVERS: AtomicUsize = AtomicUsize::new(0);

/// A terminal in which the program runs.
pub struct Terminal {
    /// where its server is spoken to
    socket: PathBuf,
}

impl Terminal {
    /// Starts the program, a path with arguments, in a terminal of a size.
    pub fn start(columns: usize, rows: usize, program: &[&str]) -> Terminal {
        // not among the tests' other files: the path of a socket has to be short
        let name = format!("desk-test-{}-{}", process::id(), SERVERS.fetch_add(1, Ordering::Relaxed));
        let terminal = Terminal { socket: env::temp_dir().join(name) };
        let (columns, rows) = (columns.to_string(), rows.to_string());
        let mut words = vec!["-f", "/dev/null", "new-session", "-d", "-x", &columns, "-y", &rows, "sh", "-c", TOLD, "sh"];
        words.extend(program);
        words.extend([";", "set-option", "-g", "status", "off"]);
        terminal.tmux(&words);
        terminal
    }

    fn command(&self) -> Command {
        let mut command = Command::new("tmux");
        command.arg("-S").arg(&self.socket).env_remove("TMUX");
        command
    }

    fn tmux(&self, words: &[&str]) -> Output {
        let output = self.command().args(words).output().expect("tmux is there");
        assert!(output.status.success(), "tmux {words:?}: {}", String::from_utf8_lossy(&output.stderr));
        output
    }

    fn told(&self, words: &[&str]) -> String {
        String::from_utf8(self.tmux(words).stdout).expect("text")
    }

    /// Presses keys, by tmux's names for them.
    pub fn press(&self, keys: &[&str]) {
        self.tmux(&[&["send-keys"], keys].concat());
    }

    /// Types a line and ends it.
    pub fn type_line(&self, line: &str) {
        self.tmux(&["send-keys", "-l", line]);
        self.press(&["Enter"]);
    }

    /// Gives the terminal another size, and waits until a program can see it, since tmux tells it a little later.
    pub fn resize(&self, columns: usize, rows: usize) {
        self.tmux(&["resize-window", "-x", &columns.to_string(), "-y", &rows.to_string()]);
        let device = self.told(&["display-message", "-p", "#{pane_tty}"]);
        let told = || Command::new("stty").args(["-F", device.trim(), "size"]).output().expect("stty is there").stdout;
        self.wait("the size", |_| told() == format!("{rows} {columns}\n").into_bytes());
    }

    /// The rows, from the first to the last, without blanks at their ends.
    pub fn rows(&self) -> Vec<String> {
        self.told(&["capture-pane", "-p", "-N"]).split('\n').map(|row| row.trim_end().to_string()).collect()
    }

    /// All that is on the screen, with the codes for colour.
    pub fn coloured(&self) -> String {
        self.told(&["capture-pane", "-p", "-e"])
    }

    /// The rows once they are as they should be.
    pub fn wait(&self, what: &str, is_there: impl Fn(&[String]) -> bool) -> Vec<String> {
        let start = Instant::now();
        loop {
            let rows = self.rows();
            if is_there(&rows) {
                return rows;
            }
            assert!(start.elapsed() < DEADLINE, "{what} never came:\n{}", rows.join("\n"));
            sleep(PAUSE);
        }
    }

    /// The exit status, once the program has ended.
    pub fn status(&self) -> i32 {
        let told = |shown: &[String]| shown.iter().find_map(|row| row.strip_prefix("status ")?.parse().ok());
        told(&self.wait("the end", |shown| told(shown).is_some())).unwrap_or(i32::MAX)
    }
}

impl Drop for Terminal {
    fn drop(&mut self) {
        // this test's own server; one that has ended already is no matter
        _ = self.command().arg("kill-server").output();
        _ = fs::remove_file(&self.socket);
    }
}
