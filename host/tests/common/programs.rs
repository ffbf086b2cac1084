//! Programs, run as a user runs them.

use std::env;
use std::fs::File;
use std::io::Write;
use std::process::{Command, Output, Stdio};

use sundewfrill_host::paper;

/// A program of standard input, and what the independent one writes.
pub struct Program {
    /// The environment variable of the command that runs it, a word a line.
    variable: &'static str,
    /// The command without that variable.
    usual: &'static str,
    independent: fn(&[u8]) -> Vec<u8>,
}

/// The program of document 01.
pub const CONSOLE: Program = Program {
    variable: "SUNDEWFRILL_PROGRAM",
    usual: concat!(env!("CARGO_MANIFEST_DIR"), "/../target/bin/console"),
    independent: paper::program,
};

/// The program that shows A codes as F.
pub const FORMULA: Program = Program {
    variable: "SUNDEWFRILL_FORMULA",
    usual: concat!(env!("CARGO_MANIFEST_DIR"), "/../target/bin/formula"),
    independent: paper::formula,
};

/// The program of the calls that `./console` has words for.
pub const WORDS: Program = Program {
    variable: "SUNDEWFRILL_WORDS",
    usual: concat!(env!("CARGO_MANIFEST_DIR"), "/../target/bin/words"),
    independent: paper::words,
};

impl Program {
    /// The words of the command that runs it.
    fn command(&self) -> Vec<String> {
        let words = env::var(self.variable);
        let words = words.unwrap_or_else(|_| self.usual.to_owned());
        words.split('\n').map(str::to_owned).collect()
    }

    /// What the program writes for this input; on standard error it must write
    /// nothing.
    pub fn written(&self, input: &[u8]) -> Vec<u8> {
        let words = self.command();
        let output = run(&words, input);
        assert!(output.status.success(), "{words:?}: {}", output.status);
        let said = String::from_utf8_lossy(&output.stderr);
        assert_eq!(said, "", "standard error, for the input {input:02x?}");
        output.stdout
    }

    /// What the program writes for this input, the independent one being of the
    /// same mind.
    pub fn compared(&self, input: &[u8]) -> Vec<u8> {
        let (expected, written) = ((self.independent)(input), self.written(input));
        assert!(
            expected == written,
            "the input {input:02x?}\nindependent: {}\nprogram:     {}",
            String::from_utf8_lossy(&expected),
            String::from_utf8_lossy(&written)
        );
        written
    }

    /// Fails unless the program ends with an error and without an answer where it cannot
    /// read, and with an error where it cannot write.
    pub fn must_end_where_streams_fail(&self) {
        let words = self.command();
        let must_end = |input: &str, output: Stdio| {
            let mut command = Command::new(&words[0]);
            command.args(&words[1..]).stdout(output);
            command.stdin(File::open(input).expect("it can be opened"));
            let output = command.output().expect("the command ends");
            assert_eq!(output.status.code(), Some(1), "{command:?} < {input}");
            let answer = String::from_utf8_lossy(&output.stdout);
            assert_eq!(answer, "", "{command:?} < {input}");
        };
        let full = File::options().write(true).open("/dev/full");
        must_end("/", Stdio::piped());
        must_end("/dev/null", full.expect("it can be opened").into());
    }

    /// Fails unless both write this for the input.
    pub fn must_write(&self, input: &[u8], expected: &str) {
        let written = self.compared(input);
        let written = String::from_utf8_lossy(&written);
        assert_eq!(written, expected, "for the input {input:02x?}");
    }
}

/// Runs a command on this input to its end.
fn run(words: &[String], input: &[u8]) -> Output {
    let mut child = Command::new(&words[0])
        .args(&words[1..])
        .stdin(Stdio::piped())
        .stdout(Stdio::piped())
        .stderr(Stdio::piped())
        .spawn()
        .unwrap_or_else(|error| panic!("{words:?}: {error}"));
    let mut stdin = child.stdin.take().expect("its input is ours");
    // A program stops reading after 65,536 bytes: the rest may find no reader.
    let _ = stdin.write_all(input);
    drop(stdin);
    child.wait_with_output().expect("the command ends")
}

/// Fails unless the script `../console` finds the command by which it proves and builds.
pub fn require_rt() {
    let path = env::var_os("PATH").unwrap_or_default();
    assert!(
        env::split_paths(&path).any(|folder| folder.join("rt").is_file()),
        "the Rattle kit's command rt, which the script console needs, is not on the PATH"
    );
}
