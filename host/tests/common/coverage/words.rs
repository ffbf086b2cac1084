//! The program of the calls that `./console` has words for: what each call answers and
//! refuses there.

use super::Coverage;

/// Each call's letter with the refusals that it can give at the program; 0 is none. Any
/// other letter counts as b.
const ANSWERS: [(u8, u64, &str); 30] = [
    (b'c', 0, "check: accepted"),
    (b'c', 5, "check: 5"),
    (b'c', 6, "check: 6"),
    (b'c', 7, "check: 7"),
    (b'c', 18, "check: 18"),
    (b'd', 0, "date: accepted"),
    (b'd', 5, "date: 5"),
    (b'd', 6, "date: 6"),
    (b'd', 12, "date: 12"),
    (b'f', 0, "find: accepted"),
    (b'f', 1, "find: 1"),
    (b'f', 2, "find: 2"),
    (b'f', 3, "find: 3"),
    (b'f', 4, "find: 4"),
    (b'r', 0, "replace: accepted"),
    (b'r', 1, "replace: 1"),
    (b'r', 2, "replace: 2"),
    (b'r', 3, "replace: 3"),
    (b'r', 4, "replace: 4"),
    (b'r', 9, "replace: 9"),
    (b'r', 17, "replace: 17"),
    (b'b', 0, "ceiling: accepted"),
    (b'b', 1, "ceiling: 1"),
    (b'b', 2, "ceiling: 2"),
    (b'b', 3, "ceiling: 3"),
    (b'b', 4, "ceiling: 4"),
    (b'b', 5, "ceiling: 5"),
    (b'b', 6, "ceiling: 6"),
    (b'b', 7, "ceiling: 7"),
    (b'b', 18, "ceiling: 18"),
];

/// What a line says of an accepted call, by how it begins.
const SAID: [(&str, &str); 4] = [
    ("refusal = 0, found = 1, ", "found"),
    ("refusal = 0, found = 0\n", "missing"),
    ("refusal = 0, day = -", "negative day"),
    ("refusal = 0, length = ", "record made"),
];

/// How calls that are accepted are typed.
const TYPED: [&str; 6] = [
    "the letter b", "another letter", "more behind the letter", "line without end",
    "line with end", "more lines",
];

impl Coverage {
    /// Notes what the program writes, and how an accepted call was typed.
    pub fn words(&mut self, input: &[u8], written: &[u8]) {
        let refusal = refusal(written);
        self.refusal(refusal);
        let letter = input.first().copied().unwrap_or(0);
        let is_other = !b"cdfrb".contains(&letter);
        let called = if is_other { b'b' } else { letter };
        for (call, number, tag) in ANSWERS {
            self.tag_if((called, refusal) == (call, number), tag);
        }
        for (beginning, tag) in SAID {
            self.tag_if(written.starts_with(beginning.as_bytes()), tag);
        }
        let lines: Vec<&[u8]> = input.split(|&byte| byte == b'\n').collect();
        let (last, accepted) = (last_line(letter), refusal == 0);
        for (reached, tag) in [
            (letter == b'b', "the letter b"),
            (is_other, "another letter"),
            (lines[0].len() > 1, "more behind the letter"),
            (lines.len() == last, "line without end"),
            (lines.len() == last + 1, "line with end"),
            (lines.len() > last + 1, "more lines"),
        ] {
            self.tag_if(accepted && reached, tag);
        }
    }

    /// Fails unless the program has reached everything.
    pub fn require_of_words(&self) {
        let (answers, said) = (ANSWERS.map(|answer| answer.2), SAID.map(|said| said.1));
        let refusals = [1, 2, 3, 4, 5, 6, 7, 9, 12, 17, 18];
        self.require("words", &refusals, &[&answers, &said, &TYPED]);
    }
}

/// The number of the last line that the call of this letter has.
fn last_line(letter: u8) -> usize {
    match letter {
        b'c' => 2,
        b'd' | b'f' => 3,
        _ => 4,
    }
}

/// The refusal number that a line begins with.
fn refusal(written: &[u8]) -> u64 {
    let text = String::from_utf8_lossy(written);
    let number = text.strip_prefix("refusal = ").expect("a line says it");
    let word = number.split([',', '\n']).next().expect("it has an end");
    word.parse().expect("a refusal is a number")
}
