//! Directories in which the program is run.

use cesca::Listing;
use std::ffi::OsStr;
use std::fs;
use std::io::Write;
use std::path::{Path, PathBuf};
use std::process::{self, Command, Output, Stdio};
use std::sync::atomic::{AtomicUsize, Ordering};
use std::thread;

/// Shows the keys on the LCD, behind two commands, up to a key 0. A key takes 6 steps and
/// 4 + 3 + 3 + 3 + 3 + 3 cycles, the rest 2 + 4 steps and 6 + 12 cycles.
pub const ECHO: &str = "
    routine 0 at 0 need 0

    0  8000  E0 38  mov LCDcmd, 56
    1  8000  E0 01  mov LCDcmd, 1
    2  8000  40 00  mov R0, IN
    3  8000  24 00  cmp R0, 0
    4  8000  B0 08  jz 8
    5  8000  E8 00  mov LCD, R0
    6  8000  50 00  mov IN, Ack
    7  8000  A0 02  jmp 2
    8  8000  F8 00  hlt
";

/// Writes to the LCD for ever.
pub const CHATTER: &str = "routine 0 at 0 need 0\n0 8000 E4 41 mov LCD, 65\n1 8000 A0 00 jmp 0";

/// A board that is never done.
pub const ENDLESS: &str = "routine 0 at 0 need 0\n0 8000 A0 00 jmp 0";

/// The directories made so far.
static MADE: AtomicUsize = AtomicUsize::new(0);

/// A directory of a test's own, which stays only if the test fails.
pub struct Sandbox {
    directory: PathBuf,
}

/// How the program ended, and what it printed.
#[derive(Debug, PartialEq, Eq)]
pub struct Ran {
    pub status: i32,
    pub out: String,
    pub err: String,
}

impl Sandbox {
    /// An empty directory.
    pub fn new(test: &str) -> Sandbox {
        let (process, number) = (process::id(), MADE.fetch_add(1, Ordering::Relaxed));
        let name = format!("{test}-{process}-{number}");
        let directory = Path::new(env!("CARGO_TARGET_TMPDIR")).join(name);
        fs::create_dir_all(&directory).expect("a directory");
        Sandbox { directory }
    }

    /// The path of a file here.
    pub fn path(&self, name: &str) -> PathBuf {
        self.directory.join(name)
    }

    /// The same with a file.
    pub fn with(self, name: &str, bytes: impl AsRef<[u8]>) -> Sandbox {
        fs::write(self.path(name), bytes).expect("a file");
        self
    }

    /// The same with copies of stored listings.
    pub fn with_stored(self, names: &[&str]) -> Sandbox {
        names.iter().fold(self, |sandbox, name| sandbox.with(name, stored(name)))
    }

    /// The same with the file of a listing that is given as text.
    pub fn with_listing(self, name: &str, text: &str) -> Sandbox {
        let listing = Listing::from_text(text).unwrap_or_else(|error| panic!("{error}"));
        self.with(name, listing.to_bytes())
    }

    /// The bytes of a file here.
    pub fn read(&self, name: &str) -> Vec<u8> {
        fs::read(self.path(name)).expect("a file")
    }

    /// The names of the files here, in order.
    pub fn names(&self) -> Vec<String> {
        let entries = fs::read_dir(&self.directory).expect("a directory");
        let names = entries.map(|entry| entry.expect("an entry").file_name().into_string());
        let mut names: Vec<String> = names.map(|name| name.expect("a plain name")).collect();
        names.sort();
        names
    }

    /// The program with these words behind its name, ready to be run here.
    pub fn command<W: AsRef<OsStr>>(&self, words: &[W]) -> Command {
        let mut command = Command::new(env!("CARGO_BIN_EXE_cesca"));
        command.args(words).current_dir(&self.directory).stdin(Stdio::null());
        command
    }

    /// What the program does with these words.
    pub fn cesca<W: AsRef<OsStr>>(&self, words: &[W]) -> Ran {
        ran(self.command(words).output().expect("the program starts"))
    }

    /// What the program does with these words and this standard input.
    pub fn cesca_given(&self, words: &[&str], input: impl AsRef<[u8]>) -> Ran {
        let mut command = self.command(words);
        command.stdin(Stdio::piped()).stdout(Stdio::piped()).stderr(Stdio::piped());
        let mut child = command.spawn().expect("the program starts");
        // The program may end before it has read everything.
        let _ = child.stdin.take().expect("a pipe").write_all(input.as_ref());
        ran(child.wait_with_output().expect("the program ends"))
    }
}

impl Drop for Sandbox {
    fn drop(&mut self) {
        if !thread::panicking() {
            fs::remove_dir_all(&self.directory).expect("a directory");
        }
    }
}

/// The bytes of a stored listing.
pub fn stored(name: &str) -> Vec<u8> {
    let directory = Path::new(env!("CARGO_MANIFEST_DIR")).join("../../listings");
    fs::read(directory.join(name)).unwrap_or_else(|error| panic!("{name}: {error}"))
}

/// How the program ended, and what it printed.
pub fn ran(output: Output) -> Ran {
    Ran {
        status: output.status.code().expect("the program wasn't killed"),
        out: String::from_utf8(output.stdout).expect("text"),
        err: String::from_utf8(output.stderr).expect("text"),
    }
}

/// Fails unless the program ended well and printed this.
pub fn expect_out(found: Ran, out: &str) {
    assert_eq!(found, Ran { status: 0, out: out.to_string(), err: String::new() });
}

/// Fails unless the program printed nothing but this on standard error, and ended so.
pub fn expect_err(found: Ran, status: i32, err: &str) {
    assert_eq!(found, Ran { status, out: String::new(), err: err.to_string() });
}
