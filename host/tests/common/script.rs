//! The script `../console`, called as a learner and as an engineer call it.

use std::env;
use std::ffi::{OsStr, OsString};
use std::fmt;
use std::fs;
use std::io::Write;
use std::os::unix::ffi::OsStrExt;
use std::path::{Path, PathBuf};
use std::process::{self, Command, Output, Stdio};
use std::sync::Once;

use sundewfrill_host::Refusal;

use super::documents::ROOT;
use super::programs::require_rt;

/// What every line that the script writes on standard error begins with.
const SAYS: &str = "console: ";
/// How much of what came of a call is shown where a test fails.
const SHOWN: usize = 1_000;

/// A call that is made ready.
pub struct Call {
    command: Command,
    input: Vec<u8>,
}

/// What came of a call.
pub struct Written {
    call: String,
    pub output: Vec<u8>,
    /// The lines of standard error, without what each of them begins with.
    pub lines: Vec<String>,
    pub status: Option<i32>,
}

/// A line typed in a shell, in the repository's folder.
pub fn typed(line: &str) -> Call {
    let mut command = Command::new("/bin/sh");
    command.args(["-c", line]);
    Call::new(command)
}

/// The script with these words, typed in a shell.
pub fn console(words: &str) -> Call {
    typed(&format!("./console {words}"))
}

/// The script with these words, which may hold any byte but 0.
pub fn words(words: &[&[u8]]) -> Call {
    let mut command = Command::new(Path::new(ROOT).join("console"));
    command.args(words.iter().copied().map(OsStr::from_bytes));
    Call::new(command)
}

impl Call {
    fn new(mut command: Command) -> Self {
        command.current_dir(ROOT);
        let input = Vec::new();
        Call { command, input }
    }

    /// With this on standard input, where else there is nothing.
    pub fn reading(mut self, input: &[u8]) -> Self {
        self.input = input.to_vec();
        self
    }

    /// In another folder.
    pub fn from(mut self, folder: &Path) -> Self {
        self.command.current_dir(folder);
        self
    }

    /// With this variable in its environment.
    pub fn with(mut self, name: &str, value: impl AsRef<OsStr>) -> Self {
        self.command.env(name, value);
        self
    }

    /// Runs it, when all is proved and built. Fails if a line of standard error is not
    /// the script's.
    pub fn run(self) -> Written {
        static BUILT: Once = Once::new();
        require_rt();
        BUILT.call_once(|| {
            let status = typed("./console").finished().status;
            assert!(status.success(), "./console does not run: {status}");
        });
        let call = format!("{:?}", self.command);
        let output = self.finished();
        let said = String::from_utf8_lossy(&output.stderr);
        let own = |line: &str| match line.strip_prefix(SAYS) {
            Some(said) => said.to_owned(),
            None => panic!("not the script's: {line:?}\nin {said}\nof {call}"),
        };
        Written {
            lines: said.lines().map(own).collect(),
            output: output.stdout,
            status: output.status.code(),
            call,
        }
    }

    /// Runs it to its end.
    fn finished(mut self) -> Output {
        let piped = Stdio::piped;
        let command = self.command.stdin(piped()).stdout(piped()).stderr(piped());
        let child = command.spawn();
        let mut child = child.unwrap_or_else(|error| panic!("{command:?}: {error}"));
        let mut stdin = child.stdin.take().expect("its input is ours");
        // It need not read all of it, or any.
        let _ = stdin.write_all(&self.input);
        drop(stdin);
        child.wait_with_output().expect("the command ends")
    }

    /// Runs it, and fails unless it writes and ends so.
    pub fn writes(self, output: &str, lines: &[impl AsRef<str>], status: i32) {
        self.run().must_be(output.as_bytes(), lines, status);
    }

    /// Runs it, and fails unless it writes this, which is a refusal, ends with status 1,
    /// and says the refusal's sentence, what is known of it, and what to do. Gives what
    /// is known of it.
    pub fn refused(self, output: &str) -> Vec<String> {
        let refusal = refusal_of(output);
        let (number, when) = (refusal.number(), refusal.when());
        let first = format!("refusal {number}: {when}");
        let written = self.run();
        let lines = &written.lines;
        let known = lines.get(1..lines.len().max(2) - 1).unwrap_or_default();
        let expected = [&[first], known, &[refusal.advice().to_owned()]].concat();
        written.must_be(output.as_bytes(), &expected, 1);
        known.to_vec()
    }
}

/// The refusal that the last line of an answer tells.
fn refusal_of(output: &str) -> Refusal {
    let line = output.lines().last().unwrap_or_default();
    let text = line.strip_prefix("refusal = ").unwrap_or(line);
    let number = text.split([' ', ',']).next().map(str::parse);
    let refusal = number.and_then(Result::ok).and_then(Refusal::from_number);
    refusal.unwrap_or_else(|| panic!("no refusal: {output}"))
}

impl Written {
    /// Fails unless it is exactly this.
    pub fn must_be(&self, output: &[u8], lines: &[impl AsRef<str>], status: i32) {
        let lines: Vec<&str> = lines.iter().map(AsRef::as_ref).collect();
        let expected = String::from_utf8_lossy(output);
        assert!(self.output == output, "not {expected:.SHOWN$}{self}");
        assert_eq!(self.lines, lines, "{self}");
        assert_eq!(self.status, Some(status), "{self}");
    }

    /// Standard output as text.
    pub fn shown(&self) -> String {
        String::from_utf8_lossy(&self.output).into_owned()
    }
}

impl fmt::Display for Written {
    fn fmt(&self, f: &mut fmt::Formatter<'_>) -> fmt::Result {
        let (call, shown, said) = (&self.call, self.shown(), self.lines.join("\n"));
        write!(f, "\n{call:.SHOWN$}\nwrote {shown:.SHOWN$}{said:.SHOWN$}\n")?;
        write!(f, "status {:?}", self.status)
    }
}

/// A folder of a test's own, with a blank in its name, gone when the test ends.
pub struct Folder {
    pub path: PathBuf,
}

impl Folder {
    pub fn new(name: &str) -> Self {
        let name = format!("sundewfrill {name} {}", process::id());
        let path = env::temp_dir().join(name);
        fs::create_dir_all(&path).expect("a folder for temporary files can be made");
        Folder { path }
    }
}

impl Drop for Folder {
    fn drop(&mut self) {
        let _ = fs::remove_dir_all(&self.path);
    }
}

/// The folders of the PATH.
fn folders() -> Vec<PathBuf> {
    let path = env::var_os("PATH").unwrap_or_default();
    env::split_paths(&path).collect()
}

/// The PATH behind this folder.
pub fn path_with(folder: &Path) -> OsString {
    path_of([folder.to_owned()].into_iter().chain(folders()))
}

/// The PATH without the kit.
pub fn path_without_rt() -> OsString {
    let others = folders().into_iter();
    path_of(others.filter(|folder| !folder.join("rt").exists()))
}

fn path_of(folders: impl Iterator<Item = PathBuf>) -> OsString {
    env::join_paths(folders).expect("no colon stands in a folder's name")
}

/// The kit's folder: that in which a folder has the command.
pub fn kit() -> PathBuf {
    require_rt();
    let commands = folders().into_iter().map(|folder| folder.join("rt"));
    let command = commands.map(fs::canonicalize).find_map(Result::ok);
    let command = command.expect("the command rt is on the PATH");
    let folder = command.ancestors().nth(2);
    folder.expect("the command stands in a folder").to_owned()
}

/// The rows of a table, a line each, the cells parted by ` => `. In a cell `\n` stands for
/// a line end, and `\s` for a blank at its end.
pub fn rows<const N: usize>(table: &str) -> Vec<[String; N]> {
    let cell = |cell: &str| cell.replace("\\n", "\n").replace("\\s", " ");
    let row = |line: &str| -> [String; N] {
        let cells: Vec<String> = line.split(" => ").map(cell).collect();
        cells.try_into().expect("every row has as many cells")
    };
    table.trim().lines().map(row).collect()
}
