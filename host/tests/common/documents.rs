//! The documents of the repository, as far as tests can hold them: tables, headings,
//! transcripts and code.

use std::fs;
use std::path::Path;

use sundewfrill_host::paper::VALUE_MARK;

use super::marks::marked;

/// The repository's folder.
pub const ROOT: &str = concat!(env!("CARGO_MANIFEST_DIR"), "/..");

/// The header of a table of conversions.
const CONVERSIONS: &str = "| record | code | prints |";
/// Where all of them are done.
const ADDRESS: &[u8] = b"1,0,0";

/// What the lines of a transcript begin with.
const INDENT: &str = "    ";
/// What a command in a transcript begins with.
const PROMPT: &str = "$ ";

/// A document.
pub struct Document {
    /// Its path from the repository's folder.
    pub name: &'static str,
    pub text: String,
}

/// A line of a document.
#[derive(Clone, Copy)]
pub struct Line<'t> {
    /// Counted from 1.
    pub number: usize,
    pub text: &'t str,
}

/// A row of a table.
pub struct Row<'t> {
    pub line: usize,
    pub cells: Vec<&'t str>,
}

/// A row of a table of conversions.
pub struct Conversion {
    pub line: usize,
    /// The three lines that document 01's program reads.
    pub input: Vec<u8>,
    /// The line that it is to print, its line end included.
    pub prints: String,
}

/// A heading of the third level and all below it.
pub struct Section<'t> {
    pub title: Line<'t>,
    lines: Vec<Line<'t>>,
}

/// A command and all that it is to write.
pub struct Transcript<'t> {
    pub line: usize,
    pub command: &'t str,
    pub output: String,
}

impl Document {
    /// The document of this name.
    pub fn read(name: &'static str) -> Self {
        let text = fs::read_to_string(Path::new(ROOT).join(name));
        let text = text.unwrap_or_else(|error| panic!("{name}: {error}"));
        Document { name, text }
    }

    /// What is wrong at a line, with the place.
    pub fn wrong(&self, line: usize, what: &str) -> String {
        format!("{} line {line}: {what}", self.name)
    }

    /// The rows of all tables with this header.
    pub fn rows(&self, header: &str) -> Vec<Row<'_>> {
        rows(&self.lines(), header)
    }

    /// The rows of all tables of conversions; of those that are none, what is wrong.
    pub fn conversions(&self) -> Vec<Result<Conversion, String>> {
        let of_row = |row: Row| {
            let none = "not three cells in backticks, with `then` between codes";
            conversion(&row).ok_or_else(|| self.wrong(row.line, none))
        };
        self.rows(CONVERSIONS).into_iter().map(of_row).collect()
    }

    /// The sections of the part with this title, a heading of the second level.
    pub fn sections(&self, part: &str) -> Vec<Section<'_>> {
        let mut sections: Vec<Section> = Vec::new();
        for line in self.part(part) {
            match sections.last_mut() {
                _ if line.text.starts_with("### ") => sections.push(Section {
                    title: line,
                    lines: Vec::new(),
                }),
                Some(section) => section.lines.push(line),
                None => {}
            }
        }
        sections
    }

    /// All transcripts; where a block is none throughout, what is wrong.
    pub fn transcripts(&self) -> Vec<Result<Transcript<'_>, String>> {
        let lines = self.lines();
        let is_block = |block: &&[Line]| block.iter().any(|line| command(line).is_some());
        let blocks = lines.split(|line| !line.text.starts_with(INDENT));
        let transcripts = blocks.filter(is_block).flat_map(|block| self.block(block));
        let beside = lines.iter().filter(|line| is_beside(line.text));
        let what = "a transcript is indented by four blanks";
        let beside = beside.map(|line| Err(self.wrong(line.number, what)));
        transcripts.chain(beside).collect()
    }

    /// The fenced blocks of code in this language.
    pub fn code(&self, language: &str) -> Vec<&str> {
        let fence = format!("```{language}\n");
        let behind = self.text.split(&fence).skip(1);
        behind.filter_map(|text| text.split("```").next()).collect()
    }

    fn lines(&self) -> Vec<Line<'_>> {
        let lines = self.text.split('\n').zip(1..);
        lines.map(|(text, number)| Line { number, text }).collect()
    }

    /// The lines below this heading of the second level, up to the next one.
    fn part(&self, title: &str) -> Vec<Line<'_>> {
        let lines = self.lines().into_iter();
        lines
            .skip_while(|line| line.text.strip_prefix("## ") != Some(title))
            .skip(1)
            .take_while(|line| !line.text.starts_with("## "))
            .collect()
    }

    /// The transcripts of one block.
    fn block<'t>(&self, block: &[Line<'t>]) -> Vec<Result<Transcript<'t>, String>> {
        let mut transcripts: Vec<Result<Transcript, String>> = Vec::new();
        for line in block {
            let wrong = |what: &str| Err(self.wrong(line.number, what));
            match (command(line), transcripts.last_mut()) {
                (Some(command), _) if !is_console_alone(command) => {
                    transcripts.push(wrong("a command other than ./console"));
                }
                (Some(command), _) => transcripts.push(Ok(Transcript {
                    line: line.number,
                    command,
                    output: String::new(),
                })),
                (None, Some(Ok(transcript))) => {
                    transcript.output += &line.text[INDENT.len()..];
                    transcript.output += "\n";
                }
                (None, Some(Err(_))) => {}
                (None, None) => transcripts.push(wrong("a line before the first command")),
            }
        }
        transcripts
    }
}

impl<'t> Section<'t> {
    /// What stands in the first backticks of its heading.
    pub fn name(&self) -> Option<&'t str> {
        self.title.text.split('`').nth(1)
    }

    /// What the rows of its tables of conversions print.
    pub fn printed(&self) -> Vec<&'t str> {
        let rows = rows(&self.lines, CONVERSIONS);
        let prints = |row: &Row<'t>| row.cells.get(2).and_then(|cell| in_backticks(cell));
        rows.iter().filter_map(prints).collect()
    }
}

/// The rows of all tables with this header.
fn rows<'t>(lines: &[Line<'t>], header: &str) -> Vec<Row<'t>> {
    let tables = lines.split(|line| !line.text.starts_with('|'));
    let tables = tables.filter(|table| table.first().is_some_and(|line| line.text == header));
    let rows = tables.flat_map(|table| &table[1..]);
    rows.filter(|line| !line.text.starts_with("|--"))
        .map(|line| Row {
            line: line.number,
            cells: cells(line.text),
        })
        .collect()
}

/// The cells of a row; none of one that does not end as a row does.
fn cells(row: &str) -> Vec<&str> {
    let inner = row
        .strip_prefix("| ")
        .and_then(|row| row.strip_suffix(" |"));
    inner.map_or(Vec::new(), |inner| inner.split(" | ").collect())
}

/// What stands in the one pair of backticks round a cell.
fn in_backticks(cell: &str) -> Option<&str> {
    let inner = cell.strip_prefix('`')?.strip_suffix('`')?;
    (!inner.contains('`')).then_some(inner)
}

fn conversion(row: &Row) -> Option<Conversion> {
    let [record, codes, prints] = row.cells.as_slice() else {
        return None;
    };
    let codes = codes.split(" then ").map(in_backticks);
    let codes: Vec<&str> = codes.collect::<Option<_>>()?;
    let codes: Vec<&[u8]> = codes.into_iter().map(str::as_bytes).collect();
    let (codes, record) = (codes.join(&VALUE_MARK), marked(in_backticks(record)?));
    Some(Conversion {
        line: row.line,
        input: [&codes, ADDRESS, &record, b""].join(&b'\n'),
        prints: [in_backticks(prints)?, "\n"].concat(),
    })
}

/// The command in a line of a block, if it has one.
fn command<'t>(line: &Line<'t>) -> Option<&'t str> {
    line.text.strip_prefix(INDENT)?.strip_prefix(PROMPT)
}

/// Whether a line looks like a command and is in no block.
fn is_beside(line: &str) -> bool {
    !line.starts_with(INDENT) && line.trim_start().starts_with(PROMPT)
}

/// Whether a command is one of `./console`, and the shell finds no other in it.
fn is_console_alone(command: &str) -> bool {
    let is_console = command == "./console" || command.starts_with("./console ");
    is_console && !begins_another(command)
}

/// Whether the shell finds what begins another command: outside of quotes, or a
/// substitution in double ones.
fn begins_another(command: &str) -> bool {
    const NONE: u8 = b' ';
    let (mut quote, mut before) = (NONE, NONE);
    let mut bytes = command.bytes();
    while let Some(byte) = bytes.next() {
        match (quote, byte) {
            (NONE, b'\'' | b'"') => quote = byte,
            (b'\'' | b'"', _) if byte == quote => quote = NONE,
            (NONE | b'"', b'\\') => drop(bytes.next()),
            (NONE, b'&') if before == b'>' => {}
            (NONE, b';' | b'|' | b'&' | b'(') | (NONE | b'"', b'`') => return true,
            (b'"', b'(') if before == b'$' => return true,
            _ => {}
        }
        before = byte;
    }
    false
}
