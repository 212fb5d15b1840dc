//! Named calls that are told few rounds: the number and the rounds left afterwards are worked out by
//! hand, and then asked of the plain matcher and of the proved library.

use crate::compare::Call;
use crate::examples::{pulses, recording, recording_r, spending_drive};
use crate::finder::WORK_WORDS;
use crate::lent::Lent;
use crate::proved::Proved;
use crate::random::Rng;
use crate::recording::RECORD;
use crate::zone::WORDS;
use crate::zones::MAX_ZONES;

const ANSWER_WORDS: usize = MAX_ZONES * WORDS;

struct NamedCall {
    recording: Vec<u8>,
    drill: String,
    answer_words: usize,
    work_words: usize,
    left: u64,
    number: u32,
    left_after: u64,
}

impl NamedCall {
    fn check(&self, proved: Option<Proved>) -> Result<(), String> {
        let lent = Lent::of(self.answer_words, self.work_words, &mut Rng::new(1, 2));
        let call = Call {
            recording: &self.recording,
            drill: self.drill.as_bytes(),
            lent: &lent,
        };
        let outcome = call.compare_told(self.left, &call.plain(None), proved)?;
        let found = (outcome.returned.number, outcome.left);
        let expected = (self.number, Some(self.left_after));
        if found != expected {
            return Err(format!("by hand {expected:?}, plain matcher {found:?}"));
        }
        Ok(())
    }
}

/// Checks all calls, and gives their number.
pub fn check(proved: Option<Proved>) -> Result<usize, String> {
    let calls = all();
    for call in &calls {
        let NamedCall { drill, left, .. } = call;
        call.check(proved)
            .map_err(|fault| format!("`{drill}` told {left} rounds: {fault}"))?;
    }
    Ok(calls.len())
}

/// The calls of one drill, each as `left number left-after`, with a comma between two of them.
fn rows(recording: &[u8], drill: &str, rows: &str) -> Vec<NamedCall> {
    let call = |row: &str| {
        let words: Vec<&str> = row.split_whitespace().collect();
        let [left, number, left_after] = words[..] else {
            panic!("`{row}` is no row");
        };
        NamedCall {
            recording: recording.to_vec(),
            drill: drill.into(),
            answer_words: ANSWER_WORDS,
            work_words: WORK_WORDS,
            left: rounds(left),
            number: number.parse().expect("a number"),
            left_after: rounds(left_after),
        }
    };
    rows.split(',').map(call).collect()
}

/// Rounds in digits, `max` for as many as can be told, or so many less than that.
fn rounds(word: &str) -> u64 {
    match word.strip_prefix("max") {
        Some("") => u64::MAX,
        Some(less) => u64::MAX - less[1..].parse::<u64>().expect("a number after max-"),
        None => word.parse().expect("a number"),
    }
}

/// The calls of several drills, a line for each: the drill, and behind it its rows.
fn table(recording: &[u8], lines: &str) -> Vec<NamedCall> {
    let lines = lines.lines().map(str::trim).filter(|line| !line.is_empty());
    lines
        .flat_map(|line| {
            let (drill, calls) = line.split_once(' ').expect("a drill and its rows");
            rows(recording, drill, calls)
        })
        .collect()
}

fn with_buffers(calls: Vec<NamedCall>, answer_words: usize, work_words: usize) -> Vec<NamedCall> {
    let lent = |call| NamedCall {
        answer_words,
        work_words,
        ..call
    };
    calls.into_iter().map(lent).collect()
}

fn all() -> Vec<NamedCall> {
    let groups = [
        stars(),
        refused_before(),
        short_answers(),
        full_lists(),
        operands(),
        absences(),
    ];
    groups.into_iter().flatten().collect()
}

/// On R, `(a{2,2})*` takes 2 rounds, `(a{0,1})*` 5, and `_*` and the star of an empty list 1. Each star
/// that is written is counted by itself: the star of a star that holds the diagonal has 1 round.
fn stars() -> Vec<NamedCall> {
    let on_r = "
        a                    0 0 0,  1 0 1,  max 0 max
        a.a{1,2}|!a          0 0 0,  7 0 7
        (a{2,2})*            0 13 0,  1 13 0,  2 0 0,  3 0 1,  max 0 max-2
        _*                   0 13 0,  1 0 0,  2 0 1
        (a{6,})*             0 13 0,  1 0 0
        (a{0,1})*            0 13 0,  4 13 0,  5 0 0,  6 0 1
        (a{0,1})**           4 13 0,  5 13 0,  6 0 0,  7 0 1
        (a{0,1})*|(a{0,1})*  5 13 0,  9 13 0,  10 0 0,  11 0 1
        a.(a{2,2})*          1 13 0,  2 0 0
        (a{2,2})*.a          1 13 0,  2 0 0
        (a{2,2})*{1,3}       1 13 0,  2 0 0
    ";
    let rounds_of_a_drill = "(j{0,1})*  100000 13 0,  100001 0 0,  100002 0 1";
    let mut calls = table(&recording_r(), on_r);
    calls.extend(table(&spending_drive(), rounds_of_a_drill));
    calls
}

/// 1 to 9 spend nothing, whatever is left.
fn refused_before() -> Vec<NamedCall> {
    let on_r = "
        _*)      0 5 0,  9 5 9
        _*.b     0 6 0,  9 6 9
        _*{2,1}  0 7 0,  9 7 9
        a****************  0 8 0,  9 8 9
    ";
    let wrong_change = recording(100, 1, &[(100, 1)]);
    let no_work = rows(&recording_r(), "_*", "0 9 0,  9 9 9");
    let groups = [
        rows(&[], "_*", "0 1 0,  9 1 9"),
        rows(&[0; RECORD], "_*", "0 2 0,  9 2 9"),
        rows(&wrong_change, "_*", "0 3 0,  9 3 9"),
        rows(&recording_r(), "", "0 4 0,  9 4 9"),
        rows(&recording_r(), &"a".repeat(256), "0 4 0,  9 4 9"),
        rows(&recording_r(), "_*\n", "0 5 0,  9 5 9"),
        table(&recording_r(), on_r),
        with_buffers(no_work, ANSWER_WORDS, WORK_WORDS - 1),
    ];
    groups.into_iter().flatten().collect()
}

/// 13 comes before 11, and 11 spends the rounds. `(a{2,2})*` lists three zones on R.
fn short_answers() -> Vec<NamedCall> {
    let star = |calls| rows(&recording_r(), "(a{2,2})*", calls);
    let letter = rows(&recording_r(), "a", "0 11 0,  4 11 4");
    let groups = [
        with_buffers(star("0 13 0,  1 13 0,  2 11 0,  5 11 3"), 17, WORK_WORDS),
        with_buffers(star("0 13 0,  1 13 0,  2 0 0,  5 0 3"), 18, WORK_WORDS),
        with_buffers(letter, 5, WORK_WORDS),
    ];
    groups.into_iter().flatten().collect()
}

/// 10 in a round, which is begun and not finished; 10 at the diagonal, after all rounds; a list that
/// just fits; and 10 where there is no round.
fn full_lists() -> Vec<NamedCall> {
    let calls = "
        (d{1,1})*        0 13 0,  126 13 0,  127 13 0,  128 10 1,  129 10 2
        (g{1,1})*        127 13 0,  128 10 0,  129 10 1,  max 10 max-128
        (h{1,1})*        126 13 0,  127 0 0,  128 0 1
        (((d{1,1})*)*)*  127 13 0,  128 10 1
        e                0 10 0,  3 10 3
        (e)*             0 10 0,  3 10 3
        (+e|_)*          0 10 0,  3 10 3
    ";
    table(&spending_drive(), calls)
}

/// The left operand is finished before the right one is begun, whatever that would have come to.
fn operands() -> Vec<NamedCall> {
    let calls = "
        e.(b{0,1})*          0 10 0,  7 10 7
        e|(b{0,1})*          0 10 0,  7 10 7
        (b{0,1})*.e          0 13 0,  9 13 0,  10 10 0,  11 10 1
        (b{0,1})*&e          0 13 0,  9 13 0,  10 10 0,  11 10 1
        (b{0,1})*|(d{1,1})*  9 13 0,  136 13 0,  137 13 0,  138 10 1
        (d{1,1})*|(b{0,1})*  127 13 0,  128 10 1,  138 10 11
        ((b{0,1})*|e)*       9 13 0,  10 10 0,  11 10 1
    ";
    table(&spending_drive(), calls)
}

/// An absence has no round of its own, and comes after those of its operand. On R, `(~a)*` has one round
/// and `((~a){1,1})*` three; with 32 runs, `~a` has no room.
fn absences() -> Vec<NamedCall> {
    let on_r = "
        ~a            0 0 0,  7 0 7,  max 0 max
        ~~a           0 5 0,  7 5 7
        ~(a{2,2})*    0 13 0,  1 13 0,  2 0 0,  3 0 1
        ~(~(a{2,2})*) 1 13 0,  2 0 0,  9 0 7
        (~a)*         0 13 0,  1 0 0,  2 0 1
        (~a*)*        0 13 0,  1 13 0,  2 0 0,  3 0 1
        ((~a){1,1})*  2 13 0,  3 0 0,  4 0 1
        ~a*.(~a)*     1 13 0,  2 0 0
    ";
    let no_room = "
        ~a        0 10 0,  3 10 3
        (~a)*     0 10 0,  3 10 3
        ~a*       0 13 0,  1 10 0,  2 10 1
        ~(a|_*)   0 13 0,  1 10 0,  2 10 1
        ~(_*|a)   0 13 0,  1 0 0,  2 0 1
        ~a|_*     0 10 0,  2 10 2
        _*|~a     0 13 0,  1 10 0
    ";
    let mut calls = table(&recording_r(), on_r);
    calls.extend(table(&pulses(32), no_room));
    calls
}

#[cfg(test)]
mod tests {
    use super::*;
    use crate::proved;

    #[test]
    fn every_call_has_its_number() {
        let checked = check(proved::linked());
        assert!(checked.is_ok_and(|calls| calls > 90), "{:?}", check(None));
    }
}
