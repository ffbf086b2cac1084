//! What the documents show, held to what is so: README's refusals, the tables of
//! conversions, the headings of the codes, the transcripts, and README's Rust example.
//!
//! Needs the archive and document 01's program; for the transcripts the script
//! `../console`, bash, and the Rattle kit's command `rt` on the PATH, by which the
//! script proves and builds what is not there yet.

mod common;

use std::path::Path;
use std::process::{Command, Stdio};

use common::documents::{Conversion, Document, Row, Section, Transcript, ROOT};
use common::programs::{require_rt, CONSOLE};
use sundewfrill_host::{ceiling, convert, paper, Address, Refusal, SCRATCH_LENGTH};

const README: &str = "README.md";
const CODES: &str = "docs/CODES.md";

/// How many rows all tables of conversions have.
const CONVERSIONS: usize = 254;
/// How many commands all transcripts have.
const TRANSCRIPTS: usize = 56;

/// The header of README's table of refusals.
const REFUSALS: &str = "| No. | given when |";

/// The parts of docs/CODES.md that have a section for each code and each elm.
const PARTS: [(&str, &str); 2] = [
    (
        "The codes",
        "F G T L MCA MC/A MCN MC/N MCU MCL MCT MX MY ML MR D P",
    ),
    (
        "The elms of F",
        "n nR nRR 'text' LPV + - * *n / R : [] _ P = # > < ] [ (code)",
    ),
];

/// README's example, as it is compiled.
const EXAMPLE: &str = include_str!("../examples/readme.rs");

#[test]
fn refusals() {
    require_none(&wrong_refusals(&Document::read(README)));
}

#[test]
fn conversions() {
    let count = both_documents(wrong_conversions);
    assert_eq!(count, CONVERSIONS, "conversions are shown");
}

#[test]
fn codes_and_elms() {
    let document = Document::read(CODES);
    let wrong = PARTS.map(|(part, names)| wrong_part(&document, part, names));
    require_none(&wrong.concat());
}

/// Each command with all that it writes, as a learner sees it.
#[test]
fn transcripts() {
    require_rt();
    let root = Path::new(ROOT);
    // What is not proved yet is proved by this one, which says so.
    written("./console", root);
    let count = both_documents(|document| wrong_transcripts(document, root));
    assert_eq!(count, TRANSCRIPTS, "commands are shown");
}

/// README's example is the one that is compiled, but for its layout.
#[test]
fn rust_example() {
    let readme = Document::read(README);
    let shown = readme.code("rust");
    let is_compiled = |text: &&str| closed_up(text) == closed_up(EXAMPLE);
    assert!(
        shown.len() == 1 && shown.iter().all(is_compiled),
        "host/examples/readme.rs is another example than that of README.md:\n{}",
        shown.concat()
    );
}

/// The calls of the example give what its comment says.
#[test]
fn rust_example_runs() {
    let (mut output, mut scratch) = ([0; 32_768], [0; SCRATCH_LENGTH]);
    let (record, code, at) = (b"K1\xfe10\xfd20\xfe3", b"F;1;2R;*", Address::new(1, 0, 0));
    let calls = r#"(b"K1\xfe10\xfd20\xfe3", b"F;1;2R;*", Address::new(1, 0, 0))"#;
    assert!(EXAMPLE.contains(calls), "the example has other calls");
    let comment = EXAMPLE
        .lines()
        .find_map(|line| line.trim().strip_prefix("// "));
    let number = comment.and_then(|comment| comment.split(':').next());
    let budget = ceiling(record, code, at).expect("nothing is refused");
    let most = number.map(|number| number.replace(',', ""));
    assert_eq!(most, Some(budget.to_string()), "the number in the comment");
    let done = convert(record, code, at, budget, &mut output, &mut scratch);
    assert_eq!(done.expect("it is budget enough").answer, b"30\xfd60");
}

/// Examples that are counted, and what is wrong with them.
type Judged = (usize, Vec<String>);

/// The number of examples in both documents, if nothing is wrong with them.
fn both_documents(judge: impl Fn(&Document) -> Judged) -> usize {
    let judged = [README, CODES].map(|name| judge(&Document::read(name)));
    let (counts, wrong): (Vec<usize>, Vec<Vec<String>>) = judged.into_iter().unzip();
    require_none(&wrong.concat());
    counts.into_iter().sum()
}

/// Fails if something is wrong, and says all of it.
fn require_none(wrong: &[String]) {
    assert!(wrong.is_empty(), "\n{}", wrong.join("\n"));
}

/// Judges examples: some are none, and say why.
fn judged<T>(examples: Vec<Result<T, String>>, differs: impl Fn(T) -> Option<String>) -> Judged {
    let count = examples.len();
    let wrong = |example| match example {
        Ok(example) => differs(example),
        Err(wrong) => Some(wrong),
    };
    (count, examples.into_iter().filter_map(wrong).collect())
}

/// What is wrong in a table of refusals: each has its number and when it is given.
fn wrong_refusals(document: &Document) -> Vec<String> {
    let rows = document.rows(REFUSALS);
    if rows.len() != Refusal::ALL.len() {
        let (name, count, all) = (document.name, rows.len(), Refusal::ALL.len());
        return vec![format!("{name}: {count} rows of {REFUSALS}, not {all}")];
    }
    let differs = |(Row { line, cells }, refusal): (Row, &Refusal)| {
        let expected = [&refusal.number().to_string(), refusal.when()];
        (cells != expected).then(|| document.wrong(line, &format!("not {expected:?}")))
    };
    rows.into_iter()
        .zip(Refusal::ALL)
        .filter_map(differs)
        .collect()
}

/// Where rows are no conversions, or print something else.
fn wrong_conversions(document: &Document) -> Judged {
    judged(document.conversions(), |conversion| {
        let what = misprint(&conversion)?;
        Some(document.wrong(conversion.line, &what))
    })
}

/// What the program or the independent one prints in place of a row's text.
fn misprint(Conversion { input, prints, .. }: &Conversion) -> Option<String> {
    let by_both = [
        ("prints", CONSOLE.written(input)),
        ("by the independent program prints", paper::program(input)),
    ];
    let other = by_both.iter().find(|(_, line)| line != prints.as_bytes());
    other.map(|(who, line)| format!("{who} {:?}, not {prints:?}", lossy(line)))
}

/// What bytes show, as far as they are text.
fn lossy(bytes: &[u8]) -> String {
    String::from_utf8_lossy(bytes).into_owned()
}

/// What is wrong in a part: it has a section for each of these names and no more, and
/// each has its conversions.
fn wrong_part(document: &Document, part: &str, names: &str) -> Vec<String> {
    let sections = document.sections(part);
    let named = sections.iter().map(|section| section.name().unwrap_or(""));
    let (named, expected) = (sorted(named), sorted(names.split(' ')));
    let other = format!("{}: {part} are {named:?}, not {expected:?}", document.name);
    let names = (named != expected).then_some(other);
    let few = sections.iter().filter_map(|section| {
        let what = too_few(section)?;
        Some(document.wrong(section.title.number, &what))
    });
    names.into_iter().chain(few).collect()
}

fn sorted<'t>(names: impl Iterator<Item = &'t str>) -> Vec<&'t str> {
    let mut names: Vec<&str> = names.collect();
    names.sort_unstable();
    names
}

/// What a section lacks: two conversions with an answer, and one that is refused.
fn too_few(section: &Section) -> Option<String> {
    let printed = section.printed();
    let done = printed.iter().filter(|line| line.starts_with("0 ")).count();
    let refused = printed.len() - done;
    (done < 2 || refused < 1)
        .then(|| format!("{done} rows with an answer, {refused} refused: 2 and 1 are the least"))
}

/// Where transcripts are none, or their commands write something else in this folder.
fn wrong_transcripts(document: &Document, folder: &Path) -> Judged {
    judged(document.transcripts(), |transcript| {
        let what = miswriting(&transcript, folder)?;
        Some(document.wrong(transcript.line, &what))
    })
}

/// What a command writes in place of what stands in its transcript.
fn miswriting(transcript: &Transcript, folder: &Path) -> Option<String> {
    let (command, output) = (transcript.command, &transcript.output);
    let written = written(command, folder);
    let both = |written| format!("{command}\n  expected {output:?}\n  written  {written:?}");
    (written != output.as_bytes()).then(|| both(lossy(&written)))
}

/// What bash writes for a command in this folder, standard error among it.
fn written(command: &str, folder: &Path) -> Vec<u8> {
    let output = Command::new("bash")
        .args(["-c", &format!("exec 2>&1\n{command}")])
        .current_dir(folder)
        .stdin(Stdio::null())
        .output();
    output.expect("bash runs the transcripts").stdout
}

/// A program's text without its layout.
fn closed_up(text: &str) -> String {
    text.split_whitespace().collect()
}

/// The checks above on documents that are wrong: each must be found out.
mod made_up {
    use std::fs;
    use std::os::unix::fs::PermissionsExt;
    use std::path::PathBuf;

    use super::*;

    fn document(text: &str) -> Document {
        Document {
            name: "made up",
            text: text.to_owned(),
        }
    }

    /// The lines of which something is said; 0 where it is said of the whole.
    fn lines(wrong: &[String]) -> Vec<usize> {
        let line = |text: &String| {
            let place = text.strip_prefix("made up line ")?.split(':').next()?;
            place.parse().ok()
        };
        wrong.iter().map(|text| line(text).unwrap_or(0)).collect()
    }

    /// README's table of refusals as it is to be.
    fn table() -> String {
        let row = |refusal: &Refusal| format!("| {} | {} |\n", refusal.number(), refusal.when());
        let rows: String = Refusal::ALL.iter().map(row).collect();
        format!("{REFUSALS}\n|---|---|\n{rows}\n")
    }

    #[test]
    fn refusals() {
        let wrong = |text: &str| lines(&wrong_refusals(&document(text)));
        let table = table();
        assert_eq!(wrong(&table), []);
        assert_eq!(
            wrong(&table.replace("The output is", "The output was")),
            [18]
        );
        assert_eq!(wrong(&table.replace("| 3 |", "| 4 |")), [5]);
        assert_eq!(wrong(&table.replacen("bytes. |", "bytes |", 1)), [3]);
        assert_eq!(wrong(&[table.as_str(), &table].concat()), [0]);
        assert_eq!(wrong(table.trim_end().trim_end_matches('|')), [20]);
        assert_eq!(wrong(&table.replace("given when", "when")), [0]);
        assert_eq!(wrong(""), [0]);
    }

    #[test]
    fn conversions() {
        let document = document(
            r"
| record | code | prints |
|---|---|---|
| `K1^10]20^3` | `F;1;2R;*` | `0 62 30]60` |
| `K1^10]20^3` | `F;1;2R;*` then `MR2` | `0 76 0.30]0.60` |
| `K1^10]20^3` | `F;1;2R;*` | `0 62 30]61` |
| `K1^a\b` | `L` | `0 6 1\1` |
| `K1^a\b` | `L` | `0 6 1\1 ` |
| `K1^10` | `F;1;+` | `7 0 ` |
| `K1^10` | `F;1;+` | `7 0` |
| `K1^10` | F;1;+ | `7 0 ` |
| `K1^10` | `L` then L | `0 5 1` |
| `K1^10` | `L`then`L` | `0 5 1` |
| `K1^10` | `L` |
| `K1^10` | `L` | `0 4 2` | more |
| `K1^10` | `L` | `0 4 2`

| record | code | is |
|---|---|---|
| `K1^10` | `L` | `wrong` |

| record | code | prints |
| `K1^10` | `L` | `0 4 2` |
| `K1^10` | `L` | `0 4 3` |
",
        );
        let (count, wrong) = wrong_conversions(&document);
        assert_eq!(count, 15);
        assert_eq!(lines(&wrong), [6, 8, 10, 11, 12, 13, 14, 15, 16, 24]);
        let expected = r#"made up line 6: prints "0 62 30]60\n", not "0 62 30]61\n""#;
        assert_eq!(wrong[0], expected);
    }

    #[test]
    fn sections() {
        let document = document(
            "
## The codes
### `A`: with all that is asked for
| record | code | prints |
|---|---|---|
| `K1` | `A` | `0 1 ` |
| `K1` | `A` | `0 2 ` |

| record | code | prints |
|---|---|---|
| `K1` | `A` | `10 0 ` |
### `B`: nothing is refused
| record | code | prints |
|---|---|---|
| `K1` | `B` | `0 1 ` |
| `K1` | `B` | `0 2 ` |
### `C`: one answer, and `0 2 ` in another table
| record | code | prints |
|---|---|---|
| `K1` | `C` | `0 1 ` |
| `K1` | `C` | `6 0 ` |

| record | code | is |
|---|---|---|
| `K1` | `C` | `0 2 ` |
## Another part
### `D`: not of this part
",
        );
        let wrong = |names: &str| lines(&wrong_part(&document, "The codes", names));
        assert_eq!(wrong("C A B"), [12, 17]);
        for names in ["A B", "A B C D", "A B B C", "A B c", ""] {
            assert_eq!(wrong(names), [0, 12, 17], "{names}");
        }
        assert_eq!(lines(&wrong_part(&document, "The elms", "A")), [0]);
    }

    /// A folder whose `./console` is a shell: no link, which `rt ci` would find there.
    fn folder() -> PathBuf {
        let folder = Path::new(env!("CARGO_TARGET_TMPDIR")).join("documents");
        let console = folder.join("console");
        fs::create_dir_all(&folder).expect("a folder for tests takes another");
        fs::write(&console, "#!/bin/sh\nexec /bin/sh \"$@\"\n").expect("and a file");
        fs::set_permissions(&console, fs::Permissions::from_mode(0o755)).expect("it is ours");
        folder
    }

    #[test]
    fn transcripts() {
        let document = document(
            "
    $ ./console -c 'echo a; echo b >&2'
    a
    b
    $ ./console -c 'printf \"c \\n\"'
    c \x20
    $ ./console -c 'printf \"c \\n\"'
    c\x20
Text between two blocks.
    $ ./console -c 'exit 1'
    $ ./console -c 'printf c'
    c
    $ ./console -c 'echo a'
    $ ./console -c 'echo a'
    a

    a
    $ ./console -c 'echo a'
    a

    a block without a command

    $ echo a
    a
    $ ./console -c 'echo ${PWD##*/}'
    documents
 $ ./console -c 'echo a'
",
        );
        let (count, wrong) = wrong_transcripts(&document, &folder());
        assert_eq!(count, 12);
        assert_eq!(lines(&wrong), [5, 11, 13, 17, 23, 27]);
        let shown = "\n  expected \"c  \\n\"\n  written  \"c \\n\"";
        assert!(wrong[0].ends_with(shown), "{}", wrong[0]);
    }

    /// Whether a line is a command that a transcript may have.
    fn is_let_in(command: &str) -> bool {
        document(&format!("    $ {command}\n")).transcripts()[0].is_ok()
    }

    #[test]
    fn commands() {
        for command in [
            r"./console",
            r"./console 1,0,0 'K1^10' 'F;1;2;*' 'MR2,$'",
            r#"./console 1,0,0 'K1^10' "F;1;'7';+""#,
            r"./console 1,0,0 'K1^10' 'F;1;'7';+'",
            r#"./console 1,0,0 'K1^10' "MR2\$(#10)" "F;\"'a'\";(L)" "MR2$""#,
            r"./console 1,0,0 K1^75\80 F\;1",
            r"./console - < FILE 2>&1",
        ] {
            assert!(is_let_in(command), "{command}");
        }
        for command in [
            r"rt check console",
            r"console",
            r"./consoles",
            r"x=1 ./console",
            r"./console 1,0,0 K1 F;1",
            r"./console 1,0,0 K1 'F;'1;2",
            r"./console | cat",
            r"./console & cat",
            r"./console $(cat)",
            r#"./console "$(cat)""#,
            r"./console `cat`",
            r#"./console "`cat`""#,
            r"./console - < <(cat)",
        ] {
            assert!(!is_let_in(command), "{command}");
        }
    }
}
