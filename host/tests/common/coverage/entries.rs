//! The entries that F codes leave at their end: one, or more than that, and what else
//! is wrong with the same code, or with the codes before it and behind it.

use sundewfrill_host::paper::{self, grammar, STACK_DEPTH, VALUE_MARK};

use super::Coverage;

/// What code strings must reach of this.
pub const ENTRIES: [&str; 14] = [
    "one entry left of several",
    "two entries left",
    "fifteen entries left",
    "sixteen entries left",
    "seventeen entries are 7",
    "left over in the first code of several",
    "left over in a later code",
    "left over before a code that is 6",
    "left over before a code that is 7",
    "left over behind a code that is 6",
    "left over behind a code that is 7",
    "left over before what is no elm",
    "left over where entries are too few",
    "left over where a seventeenth was held",
];

/// How far the elms of an F code come, a missing entry made up and no more than
/// seventeen held.
#[derive(Default)]
struct Course {
    /// The entries at the end.
    entries: usize,
    /// The most of them.
    most: usize,
    too_few: bool,
    /// Whether something stands there that is no elm.
    unread: bool,
}

impl Course {
    /// The course of a code; of one that is no F code nothing is held.
    fn of(code: &[u8]) -> Self {
        let mut course = Course::default();
        for elm in grammar::elms(code).ok().flatten().into_iter().flatten() {
            let Ok(elm) = elm else {
                course.unread = true;
                break;
            };
            let (takes, puts) = grammar::entries(&elm);
            course.too_few |= course.entries < takes;
            course.entries = (course.entries.max(takes) - takes + puts).min(STACK_DEPTH + 1);
            course.most = course.most.max(course.entries);
        }
        course
    }
}

impl Coverage {
    /// Notes what the F codes of a string leave, if its refusal is that of a code.
    pub fn entries(&mut self, string: &[u8], refusal: u64) {
        let codes: Vec<&[u8]> = string.split(|&byte| byte == VALUE_MARK).collect();
        if refusal == 0 {
            let one_of_several = |code: &&[u8]| Course::of(code).most > 1;
            self.tag_until("one entry left of several", || {
                codes.iter().any(one_of_several)
            });
        }
        if !matches!(refusal, 6 | 7 | 18) {
            return;
        }
        let number = paper::check(string).code_number as usize;
        let course = Course::of(codes[number - 1]);
        let behind = |other: u64| {
            let mut refusals = codes[number..]
                .iter()
                .map(|code| paper::check(code).refusal);
            refusals.any(|refusal| refusal == other)
        };
        match refusal {
            18 => {
                let first = number == 1 && codes.len() > 1;
                self.tag_if(first, "left over in the first code of several");
                self.tag_if(number > 1, "left over in a later code");
                self.left_over(&course, behind);
            }
            7 => self.too_few_or_many(&course, || behind(18)),
            _ => {
                let left = course.unread && !course.too_few && course.entries > 1;
                self.tag_if(left, "left over before what is no elm");
                self.tag_until("left over behind a code that is 6", || behind(18));
            }
        }
    }

    /// Notes a code that is refused with 18.
    fn left_over(&mut self, course: &Course, behind: impl Fn(u64) -> bool) {
        self.tag_if(course.entries == 2, "two entries left");
        self.tag_if(course.entries == 15, "fifteen entries left");
        self.tag_if(course.entries == 16, "sixteen entries left");
        self.tag_until("left over before a code that is 6", || behind(6));
        self.tag_until("left over before a code that is 7", || behind(7));
    }

    /// Notes a code that is refused with 7, and that would leave entries over.
    fn too_few_or_many(&mut self, course: &Course, left_behind: impl FnOnce() -> bool) {
        let (left, held) = (course.entries, course.most);
        let few = course.too_few && held <= STACK_DEPTH;
        self.tag_if(few && left > 1, "left over where entries are too few");
        let many = held > STACK_DEPTH && !course.too_few;
        self.tag_if(many && left == held, "seventeen entries are 7");
        let fewer = many && left > 1 && left < held;
        self.tag_if(fewer, "left over where a seventeenth was held");
        self.tag_until("left over behind a code that is 7", left_behind);
    }
}
