//! The plain lesson: a sheet of drills over one recording, by CR 4 and CR 8 of document 02.
//!
//! The recording and the form of the sheet are checked before any drill. Then the drills are run in
//! order: each has 100,000 rounds of its own, whatever the others spend, and finds both buffers as the
//! ones before it left them.

use crate::finder::{find_with_rounds, listed, Returned};
use crate::recording::Recording;
use crate::refusal::Refusal;
use crate::sheet;
use crate::zone::Zone;

/// Rounds that each drill of a sheet has, counted from its first one.
pub const DRILL_ROUNDS: u64 = 100_000;
/// The most drills on a sheet.
pub const MAX_DRILLS: usize = 8;

/// What a lesson comes to.
#[derive(Clone, Debug, PartialEq, Eq)]
pub struct Lesson {
    /// 0 where the drills were run, whatever came of them, else 1, 2, 3 or 12.
    pub number: u32,
    /// All that is printed.
    pub text: String,
    /// The drills that were run, in order.
    pub drills: Vec<Marked>,
}

/// What one drill of a sheet comes to.
#[derive(Clone, Debug, PartialEq, Eq)]
pub struct Marked {
    pub returned: Returned,
    /// Rounds that it finishes, also where it is refused.
    pub spent: u64,
    /// The zones that it lists.
    pub zones: Vec<Zone>,
    /// Its result, as `marks` prints it.
    pub result: String,
}

/// Runs a sheet of drills over a recording.
pub fn lesson(recording: &[u8], text: &[u8], answer: &mut [i32], work: &mut [i32]) -> Lesson {
    match drills_to_run(recording, text) {
        Ok(drills) => {
            let drills = run(recording, &drills, DRILL_ROUNDS, answer, work);
            Lesson {
                number: 0,
                text: printed(drills.iter().map(|marked| marked.result.as_str())),
                drills,
            }
        }
        Err(refusal) => Lesson {
            number: refusal.number(),
            text: format!("{refusal}\n"),
            drills: Vec::new(),
        },
    }
}

/// The drills of a sheet, if nothing is wrong with the recording or with the form of the sheet.
fn drills_to_run<'a>(recording: &[u8], text: &'a [u8]) -> Result<Vec<&'a [u8]>, Refusal> {
    Recording::read(recording).map_err(|fault| fault.refusal)?;
    drills(text).ok_or(Refusal::SheetForm)
}

/// The lines of a sheet: one to eight, none of them empty, each ended by a newline, which is no part
/// of its drill. Nothing else ends a line.
pub fn drills(text: &[u8]) -> Option<Vec<&[u8]>> {
    let mut drills = Vec::new();
    let mut rest = text;
    while !rest.is_empty() {
        let length = rest.iter().position(|&byte| byte == b'\n')?;
        if length == 0 || drills.len() == MAX_DRILLS {
            return None;
        }
        drills.push(&rest[..length]);
        rest = &rest[length + 1..];
    }
    (!drills.is_empty()).then_some(drills)
}

/// The sheet of these drills, a line for each.
pub fn sheet_of(drills: &[&[u8]]) -> Vec<u8> {
    let lines = drills.iter().map(|drill| [drill, &b"\n"[..]].concat());
    lines.flatten().collect()
}

/// Runs drills in order, each with so many rounds of its own.
pub fn run(
    recording: &[u8],
    drills: &[&[u8]],
    rounds: u64,
    answer: &mut [i32],
    work: &mut [i32],
) -> Vec<Marked> {
    let mark = |drill: &&[u8]| {
        let (returned, left) = find_with_rounds(recording, drill, rounds, answer, work);
        Marked {
            returned,
            spent: rounds - left,
            zones: listed(returned, answer),
            // The next drill writes over the zones.
            result: sheet::text(returned, answer),
        }
    };
    drills.iter().map(mark).collect()
}

/// Before each result a line with only the drill's number, from 1.
pub fn printed<'a>(results: impl IntoIterator<Item = &'a str>) -> String {
    let numbered = results.into_iter().zip(1..);
    numbered
        .map(|(result, number)| format!("{number}\n{result}"))
        .collect()
}

/// Lessons that tell their drills other rounds than each its own.
#[cfg(test)]
pub mod wrong {
    use super::{Marked, DRILL_ROUNDS};

    /// The rounds that a drill is told, by what came of those before it on its sheet.
    pub type Rule = fn(&[Marked]) -> u64;

    pub const RULES: [(&str, Rule); 5] = [
        ("the rounds left are handed on", handed_on),
        ("only the first drill has rounds", only_the_first),
        ("the sheet has 100,000 rounds besides", besides),
        ("new rounds only after a refusal", after_a_refusal),
        ("new rounds only after an acceptance", after_an_acceptance),
    ];

    fn handed_on(before: &[Marked]) -> u64 {
        DRILL_ROUNDS - spent(before)
    }

    fn only_the_first(before: &[Marked]) -> u64 {
        rounds_if(before.is_empty())
    }

    /// A drill that begins after the sheet's own rounds are spent has none.
    fn besides(before: &[Marked]) -> u64 {
        rounds_if(spent(before) < DRILL_ROUNDS)
    }

    fn after_a_refusal(before: &[Marked]) -> u64 {
        let last = before.iter().rposition(|one| !one.returned.is_accepted());
        handed_on(&before[last.map_or(0, |last| last + 1)..])
    }

    fn after_an_acceptance(before: &[Marked]) -> u64 {
        let last = before.iter().rposition(|one| one.returned.is_accepted());
        handed_on(&before[last.map_or(0, |last| last + 1)..])
    }

    fn spent(drills: &[Marked]) -> u64 {
        drills.iter().map(|one| one.spent).sum()
    }

    fn rounds_if(any: bool) -> u64 {
        if any {
            DRILL_ROUNDS
        } else {
            0
        }
    }

    /// Runs drills in order, told their rounds by a rule.
    pub fn run(
        rule: Rule,
        recording: &[u8],
        drills: &[&[u8]],
        answer: &mut [i32],
        work: &mut [i32],
    ) -> Vec<Marked> {
        let mut marked = Vec::new();
        for drill in drills {
            let rounds = rule(&marked);
            marked.extend(super::run(recording, &[drill], rounds, answer, work));
        }
        marked
    }
}

#[cfg(test)]
mod tests {
    use super::*;
    use crate::examples::{low_start_r, recording, recording_r};
    use crate::finder::{find, WORK_WORDS};
    use crate::zone::WORDS;
    use crate::zones::MAX_ZONES;

    /// A lesson with buffers that are long enough.
    fn on(recording: &[u8], text: &str) -> Lesson {
        let mut answer = [7; MAX_ZONES * WORDS];
        lesson(
            recording,
            text.as_bytes(),
            &mut answer,
            &mut [7; WORK_WORDS],
        )
    }

    fn on_r(text: &str) -> String {
        on(&recording_r(), text).text
    }

    #[test]
    fn one_drill_has_its_number_and_its_sheet() {
        let expected = "1\n\
            zones 3 rounds 2\n\
            start [2,5] end [4,7] length [2,2]\n\
            start [2,3] end [6,7] length [4,4]\n\
            start [0,10] end [0,10] length [0,0]\n";
        assert_eq!(on_r("(a{2,2})*\n"), expected);
    }

    #[test]
    fn drills_come_in_order_with_their_numbers() {
        let expected = "1\n\
            zones 1 rounds 0\n\
            start [2,7) end (2,7] length (0,5]\n\
            2\n\
            zones 1 rounds 0\n\
            start [2,7) end (7,10] length (0,8]\n\
            3\n\
            zones 0 rounds 0\n\
            4\n\
            zones 1 rounds 1\n\
            start [0,10] end [0,10] length [0,0]\n";
        assert_eq!(on_r("a\na.!a\na&!a\n_*\n"), expected);
    }

    #[test]
    fn a_refused_drill_prints_its_refusal_and_the_next_is_run() {
        let expected = "1\nrefused 5\n\
            2\n\
            zones 1 rounds 0\n\
            start [2,2] end [7,7] length [5,5]\n\
            3\nrefused 6\n\
            4\nrefused 7\n\
            5\nrefused 8\n\
            6\nrefused 4\n\
            7\n\
            zones 1 rounds 0\n\
            start [2,2] end [2,2] length [0,0]\n\
            8\nrefused 5\n";
        let deep = format!("a{}", "*".repeat(16));
        let long = "a".repeat(256);
        let text = format!("a)\na{{5,5}}\nb\na{{3,2}}\n{deep}\n{long}\n+a\n \n");
        assert_eq!(on(&low_start_r(), &text).text, expected);
    }

    #[test]
    fn the_same_drill_twice_gives_the_same_twice() {
        let run = "zones 1 rounds 0\nstart [2,7) end (2,7] length (0,5]\n";
        assert_eq!(on_r("a\na\n"), format!("1\n{run}2\n{run}"));
        let eight = on_r(&"a\n".repeat(8));
        let expected: String = (1..=8).map(|k| format!("{k}\n{run}")).collect();
        assert_eq!(eight, expected);
    }

    #[test]
    fn sheets_of_another_form_are_refused_by_12() {
        let nine = "a\n".repeat(9);
        for text in [
            "", "\n", "\n\n", "a", "\r", "a\na", "a\n\n", "\na\n", "a\n\na\n", "a\n\n\n", "a\n\na",
            "\na", &nine,
        ] {
            assert_eq!(on_r(text), "refused 12\n", "{text:?}");
        }
        // The drills are not looked at.
        assert_eq!(on_r(")\n\n"), "refused 12\n");
        assert_eq!(on_r("a\nb\n("), "refused 12\n");
    }

    #[test]
    fn a_carriage_return_is_part_of_its_drill() {
        let run = "zones 1 rounds 0\nstart [2,7) end (2,7] length (0,5]\n";
        assert_eq!(on_r("a\r\n"), "1\nrefused 5\n");
        assert_eq!(on_r("\r\n"), "1\nrefused 5\n");
        assert_eq!(on_r("a\ra\na\n"), format!("1\nrefused 5\n2\n{run}"));
        assert_eq!(on_r("a\n\r"), "refused 12\n");
        // 255 bytes with the carriage return, and one more.
        let brackets = |pairs| format!("{}a{}", "(".repeat(pairs), ")".repeat(pairs));
        assert_eq!(on_r(&format!("{})\r\n", brackets(126))), "1\nrefused 5\n");
        assert_eq!(on_r(&format!("{}\r\n", brackets(127))), "1\nrefused 4\n");
        assert_eq!(on_r(&format!("{}\n", brackets(127))), format!("1\n{run}"));
    }

    #[test]
    fn recordings_are_checked_before_the_sheet() {
        let wrong_change = recording(100, 1, &[(100, 1)]);
        for text in ["a\n", "", "a", "\n", ")\n"] {
            assert_eq!(on(&[], text).text, "refused 1\n");
            assert_eq!(on(&[0; 8], text).text, "refused 2\n");
            assert_eq!(on(&wrong_change, text).text, "refused 3\n");
        }
        assert_eq!(on(&[], "a\n").number, 1);
        assert_eq!(on(&recording_r(), "").number, 12);
        assert_eq!(on(&recording_r(), ")\n").number, 0);
    }

    /// A second reading of the same words: split at every newline, what is behind the last one is
    /// nothing, and all before it are the drills.
    #[test]
    fn lines_are_what_stands_before_the_newlines() {
        let mut texts = vec![Vec::new()];
        for _ in 0..7 {
            let longer = texts.iter().flat_map(|text: &Vec<u8>| {
                [b'a', b'\n', b'\r'].map(|byte| [&text[..], &[byte]].concat())
            });
            texts = longer.chain([Vec::new()]).collect();
        }
        texts.extend((7..=10).map(|lines| b"a\n".repeat(lines)));
        for text in texts {
            let parts: Vec<&[u8]> = text.split(|&byte| byte == b'\n').collect();
            let (last, lines) = parts.split_last().expect("one part at least");
            let right = last.is_empty()
                && (1..=8).contains(&lines.len())
                && lines.iter().all(|line| !line.is_empty());
            let expected = right.then(|| lines.to_vec());
            assert_eq!(drills(&text), expected, "{text:?}");
        }
    }

    /// The number of each drill and the rounds that are spent on it.
    fn numbers_and_spent(drills: &[Marked]) -> Vec<(u32, u64)> {
        let each = drills.iter().map(|one| (one.returned.number, one.spent));
        each.collect()
    }

    /// `(a{0,1})*` takes 5 rounds on R, `(a{2,2})*` 2, `_*` 1 and `a` none.
    #[test]
    fn each_drill_has_rounds_of_its_own() {
        let drills: [&[u8]; 6] = [b"(a{0,1})*", b"a", b"(a{2,2})*", b"_*", b"a", b"_*"];
        let each_with = |rounds| {
            let mut answer = [7; MAX_ZONES * WORDS];
            let r = recording_r();
            let marked = run(&r, &drills, rounds, &mut answer, &mut [7; WORK_WORDS]);
            numbers_and_spent(&marked)
        };
        let all = [(0, 5), (0, 0), (0, 2), (0, 1), (0, 0), (0, 1)];
        for enough in [5, 6, 9, 100_000, u64::MAX] {
            assert_eq!(each_with(enough), all, "{enough}");
        }
        // The rounds of a drill that is stopped are spent in vain, and the others have theirs.
        for few in [4, 3, 2] {
            let [_, others @ ..] = all;
            let all_but_the_first = [&[(13, few)][..], &others].concat();
            assert_eq!(each_with(few), all_but_the_first, "{few}");
        }
        let one = [(13, 1), (0, 0), (13, 1), (0, 1), (0, 0), (0, 1)];
        assert_eq!(each_with(1), one);
        let none = [(13, 0), (0, 0), (13, 0), (13, 0), (0, 0), (13, 0)];
        assert_eq!(each_with(0), none);
    }

    #[test]
    fn a_drill_that_is_not_stopped_lists_what_it_lists_by_itself() {
        let drills: [&[u8]; 4] = [b"(a{2,2})*", b"b", b"!a|(a{0,1})*", b"a.!a"];
        let mut answer = [7; MAX_ZONES * WORDS];
        let marked = run(
            &recording_r(),
            &drills,
            5,
            &mut answer,
            &mut [7; WORK_WORDS],
        );
        for (drill, marked) in drills.iter().zip(marked) {
            let mut answer = [7; MAX_ZONES * WORDS];
            let returned = find(&recording_r(), drill, &mut answer, &mut [7; WORK_WORDS]);
            assert_eq!(marked.returned, returned);
            assert_eq!(marked.result, sheet::text(returned, &answer));
            assert_eq!(marked.zones, listed(returned, &answer));
        }
    }

    /// The buffers are handed on, so that each drill has the words of the ones before it behind its
    /// own front, and each refusal for a short buffer is its own.
    #[test]
    fn buffers_go_from_drill_to_drill() {
        let call = |text: &str, answer_words: usize, work_words: usize| {
            let mut answer = vec![7; answer_words];
            let mut work = vec![9; work_words];
            let lesson = lesson(&recording_r(), text.as_bytes(), &mut answer, &mut work);
            (lesson.text, answer, work)
        };
        let run = "zones 1 rounds 0\nstart [2,7) end (2,7] length (0,5]\n";
        let zone = [14, -3, 15, -4, 11, 0];
        let diagonal = [21, 1, 21, 1, 1, 1];
        let cleared = [vec![0; WORK_WORDS], vec![9; 2]].concat();
        // Two zones and then one: the second of the two stays behind it.
        let (text, answer, work) = call("_|a\na\n", 14, WORK_WORDS + 2);
        let two = "zones 2 rounds 0\n\
            start [0,10] end [0,10] length [0,0]\n\
            start [2,7) end (2,7] length (0,5]\n";
        assert_eq!(text, format!("1\n{two}2\n{run}"));
        assert_eq!(answer, [&zone[..], &zone, &[7, 7]].concat());
        assert_eq!(work, cleared);
        // Too short for two zones: 11, and the next drill is run.
        let (text, answer, work) = call("_|a\na\n", 11, WORK_WORDS + 2);
        assert_eq!(text, format!("1\nrefused 11\n2\n{run}"));
        assert_eq!(answer, [&zone[..], &[7; 5]].concat());
        assert_eq!(work, cleared);
        // A refusal after an acceptance leaves what the acceptance left.
        let (_, answer, work) = call("_\na|_\n(\n", 7, WORK_WORDS);
        assert_eq!(answer, [&diagonal[..], &[7]].concat());
        assert_eq!(work, vec![0; WORK_WORDS]);
        // 9 for each drill that is right, and both buffers as they were.
        let (text, answer, work) = call("a\na)\n_*\n", 8, WORK_WORDS - 1);
        assert_eq!(text, "1\nrefused 9\n2\nrefused 5\n3\nrefused 9\n");
        assert_eq!((answer, work), (vec![7; 8], vec![9; WORK_WORDS - 1]));
        // 12 leaves both as they were.
        let (text, answer, work) = call("a\na", 8, WORK_WORDS);
        assert_eq!(text, "refused 12\n");
        assert_eq!((answer, work), (vec![7; 8], vec![9; WORK_WORDS]));
    }

    /// By hand: where `a` is high for n ticks, `(a{0,1})*` takes n rounds, and `_*` takes one.
    #[test]
    fn each_drill_has_100_000_rounds() {
        let drive = |ticks: u32| recording(10 * ticks, 1, &[(0, 1)]);
        let numbers = |ticks, text: &str| numbers_and_spent(&on(&drive(ticks), text).drills);
        let text = "(a{0,1})*\na\n_*\n(a{0,1})*|_*\n(a{0,1})*\n";
        let (letter, diagonal) = ((0, 0), (0, 1));
        let (all, stopped) = ((0, 100_000), (13, 100_000));
        let one_less = [(0, 99_999), letter, diagonal, all, (0, 99_999)];
        assert_eq!(numbers(99_999, text), one_less);
        assert_eq!(
            numbers(100_000, text),
            [all, letter, diagonal, stopped, all]
        );
        assert_eq!(
            numbers(100_001, text),
            [stopped, letter, diagonal, stopped, stopped]
        );
    }

    #[test]
    fn the_sheet_of_some_drills_has_these_drills() {
        let lines: [&[u8]; 3] = [b"a", b"(", b"_*"];
        assert_eq!(sheet_of(&lines), b"a\n(\n_*\n");
        assert_eq!(drills(&sheet_of(&lines)), Some(lines.to_vec()));
    }
}
