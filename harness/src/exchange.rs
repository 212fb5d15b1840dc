//! The lines of a sheet exchanged, and each of them alone.
//!
//! A drill's result depends on the recording and its own text alone (CR 8 of document 02). So a sheet
//! with two lines exchanged prints the two results exchanged, each line number staying in its place,
//! and a sheet of one line prints what that line has on any other sheet. The buffers are lent as long
//! as before. What they hold afterwards is not compared: it depends on the order of the drills.

use crate::compare::Sheet;
use crate::lesson::{printed, sheet_of, Lesson};

/// The lines of a sheet that was run, and what was printed for each.
pub struct Lines<'a> {
    drills: Vec<&'a [u8]>,
    results: Vec<&'a str>,
}

impl<'a> Lines<'a> {
    pub fn of(sheet: &'a Sheet, lesson: &'a Lesson) -> Lines<'a> {
        let results = lesson.drills.iter().map(|marked| marked.result.as_str());
        Lines {
            drills: sheet.drills(lesson),
            results: results.collect(),
        }
    }

    pub fn count(&self) -> usize {
        self.drills.len()
    }

    /// Whether something else is printed where these two are exchanged.
    pub fn differ(&self, one: usize, other: usize) -> bool {
        self.results[one] != self.results[other]
    }

    /// The sheet with two lines exchanged, which may be the same one. `print` is told the text of a
    /// sheet, and gives what is printed for it.
    pub fn check_exchanged(
        &self,
        one: usize,
        other: usize,
        print: impl Fn(&[u8]) -> Result<String, String>,
    ) -> Result<(), String> {
        let (mut drills, mut results) = (self.drills.clone(), self.results.clone());
        drills.swap(one, other);
        results.swap(one, other);
        check(&Lines { drills, results }, print).map_err(|fault| {
            let [one, other] = [one, other].map(|line| line + 1);
            format!("lines {one} and {other} exchanged: {fault}")
        })
    }

    /// The sheet of one of the lines.
    pub fn check_alone(
        &self,
        line: usize,
        print: impl Fn(&[u8]) -> Result<String, String>,
    ) -> Result<(), String> {
        let alone = Lines {
            drills: vec![self.drills[line]],
            results: vec![self.results[line]],
        };
        check(&alone, print).map_err(|fault| format!("line {} alone: {fault}", line + 1))
    }
}

fn check(lines: &Lines, print: impl Fn(&[u8]) -> Result<String, String>) -> Result<(), String> {
    let expected = printed(lines.results.iter().copied());
    let found = print(&sheet_of(&lines.drills))?;
    if found != expected {
        return Err(format!("expected\n{expected}but found\n{found}"));
    }
    Ok(())
}

#[cfg(test)]
mod tests {
    use super::*;
    use crate::examples::{recording, recording_r};
    use crate::finder::WORK_WORDS;
    use crate::lesson::wrong::{self, Rule};
    use crate::lesson::{drills, Marked, DRILL_ROUNDS};
    use crate::zone::WORDS;

    /// The complaints about a lesson that tells its drills their rounds by a rule: all exchanges, a
    /// line with itself too, and each line alone.
    fn complaints(rule: Rule, recording: &[u8], text: &str) -> (Vec<String>, Vec<String>) {
        let marked = |text: &[u8]| -> Vec<Marked> {
            let (mut answer, mut work) = ([7; 8 * WORDS], [7; WORK_WORDS]);
            let drills = drills(text).expect("a sheet");
            wrong::run(rule, recording, &drills, &mut answer, &mut work)
        };
        let print = |text: &[u8]| {
            let marked = marked(text);
            Ok(printed(marked.iter().map(|one| one.result.as_str())))
        };
        let marked = marked(text.as_bytes());
        let lines = Lines {
            drills: drills(text.as_bytes()).expect("a sheet"),
            results: marked.iter().map(|one| one.result.as_str()).collect(),
        };
        let (mut exchanged, mut alone) = (Vec::new(), Vec::new());
        for one in 0..lines.count() {
            alone.extend(lines.check_alone(one, print).err());
            for other in one..lines.count() {
                exchanged.extend(lines.check_exchanged(one, other, print).err());
            }
        }
        (exchanged, alone)
    }

    /// `(a{0,1})*` takes as many rounds as a drill has, or one more.
    fn spending_sheets() -> [(Vec<u8>, &'static str); 3] {
        let high_for = |ticks: u32| recording(10 * ticks, 1, &[(0, 1)]);
        let text = "(a{0,1})*\n_*\n(a{0,1})*\n";
        [
            (recording_r(), "a\n(a{2,2})*\na)\n(a{2,2})*\nb\n"),
            (high_for(100_000), text),
            (high_for(100_001), text),
        ]
    }

    #[test]
    fn rounds_for_each_drill_are_no_complaint() {
        for (recording, text) in spending_sheets() {
            let none = (vec![], vec![]);
            assert_eq!(complaints(|_| DRILL_ROUNDS, &recording, text), none);
        }
    }

    /// Both ways of looking find each of them.
    #[test]
    fn other_ways_to_tell_the_rounds_are_found() {
        for (name, rule) in wrong::RULES {
            let found = spending_sheets().map(|(r, text)| complaints(rule, &r, text));
            let [exchanged, alone] = [
                found.iter().any(|(exchanged, _)| !exchanged.is_empty()),
                found.iter().any(|(_, alone)| !alone.is_empty()),
            ];
            assert!(exchanged && alone, "{name}: {found:?}");
        }
    }

    /// The line numbers stay where they are, and other results than before are a complaint.
    #[test]
    fn results_are_exchanged_and_numbers_are_not() {
        let lines = Lines {
            drills: vec![b"a", b"b", b"_"],
            results: vec!["one\n", "two\n", "three\n"],
        };
        let prints = |text: &'static str, printed: &'static str| {
            move |asked: &[u8]| {
                assert_eq!(asked, text.as_bytes());
                Ok(printed.to_string())
            }
        };
        let exchanged = "1\nthree\n2\ntwo\n3\none\n";
        let right = lines.check_exchanged(0, 2, prints("_\nb\na\n", exchanged));
        assert_eq!(right, Ok(()));
        for wrong in [
            "1\none\n2\ntwo\n3\nthree\n",
            "3\nthree\n2\ntwo\n1\none\n",
            "1\nthree\n2\none\n3\ntwo\n",
            "1\nthree\n2\ntwo\n",
        ] {
            let complaint = lines.check_exchanged(2, 0, prints("_\nb\na\n", wrong));
            assert!(complaint.is_err(), "{wrong}");
        }
        let same = "1\none\n2\ntwo\n3\nthree\n";
        let itself = lines.check_exchanged(1, 1, prints("a\nb\n_\n", same));
        assert_eq!(itself, Ok(()));
        assert_eq!(lines.check_alone(1, prints("b\n", "1\ntwo\n")), Ok(()));
        assert!(lines.check_alone(1, prints("b\n", "2\ntwo\n")).is_err());
    }
}
