//! Named calls from a start tick: what each of them tells is worked out by hand from what its drill fits,
//! and then asked of the plain matcher, of brute force where the drive is short, and of the proved
//! library.

use crate::brute;
use crate::compare::Call;
use crate::compare_ends::{EndsCall, Room};
use crate::examples::{low_start_r, pulses, recording, recording_r, with_runs};
use crate::finder::WORK_WORDS;
use crate::lent::Lent;
use crate::proved::{self, Proved};
use crate::random::Rng;
use crate::recording::RECORD;
use crate::sheet;
use crate::zone::WORDS;
use crate::zones::MAX_ZONES;

const ANSWER_WORDS: usize = MAX_ZONES * WORDS;
/// The longest drive, in ticks, that goes through brute force.
const MAX_BRUTE_TICKS: u32 = 12;

struct NamedEnds {
    recording: Vec<u8>,
    drill: String,
    answer_words: usize,
    work_words: usize,
    start: u32,
    /// The line that must be told.
    line: String,
}

impl NamedEnds {
    fn check(&self, proved: Option<Proved>) -> Result<(), String> {
        let lent = Lent::of(self.answer_words, self.work_words, &mut Rng::new(1, 15));
        let call = Call {
            recording: &self.recording,
            drill: self.drill.as_bytes(),
            lent: &lent,
        };
        let from_start = EndsCall {
            call,
            start: self.start,
        };
        let alone = call.plain(None);
        // The list call is lent the same words.
        if let Some(proved) = proved {
            call.compare(None, &alone, proved)?;
        }
        for room in [Room::JUST_ENOUGH, Room::MORE] {
            let outcome = from_start.compare(&alone, proved, room)?;
            let (by_hand, found) = (&self.line, outcome.line());
            if *by_hand != found {
                return Err(format!("by hand `{by_hand}`, plain matcher `{found}`"));
            }
            lent.check_after(&outcome.after, outcome.told.returned)?;
        }
        self.check_by_fractions()
    }

    /// What brute force finds, where the call is accepted and the drive is short.
    fn check_by_fractions(&self) -> Result<(), String> {
        if self.line.starts_with("refused") {
            return Ok(());
        }
        let (recording, drill) = (&self.recording, self.drill.as_bytes());
        let tried = brute::ends_accepted(recording, drill, self.start, MAX_BRUTE_TICKS)?;
        let Some(ends) = tried else {
            return Ok(());
        };
        let found = ends.map_or("none".into(), |ends| {
            format!("end {}", sheet::ends_range(ends))
        });
        let by_hand = &self.line;
        if *by_hand != found {
            return Err(format!("by hand `{by_hand}`, brute force `{found}`"));
        }
        Ok(())
    }
}

/// Checks all calls, and gives their number.
pub fn check(proved: Option<Proved>) -> Result<usize, String> {
    let calls = all();
    for call in &calls {
        let NamedEnds { drill, start, .. } = call;
        call.check(proved)
            .map_err(|fault| format!("`{drill}` from {start}: {fault}"))?;
    }
    Ok(calls.len())
}

/// Checks all calls, with the proved library where it is linked, and says how many agree.
pub fn run() -> Result<String, String> {
    let proved = proved::linked();
    let calls = check(proved)?;
    let finders = match proved {
        Some(_) => "proved library, plain and quick matcher and brute force agree",
        None => "no proved library linked; plain and quick matcher and brute force agree",
    };
    Ok(format!(
        "{finders} with the ends by hand on {calls} calls from a start tick"
    ))
}

/// The calls of one drill, each as its start and what is told: `none`, the earliest and the latest end as
/// the sheet writes them, or a number alone for a refusal.
fn rows(recording: &[u8], drill: &str, rows: &str) -> Vec<NamedEnds> {
    let words: Vec<&str> = rows.split_whitespace().collect();
    let call = |row: &[&str]| {
        let [start, told] = row else {
            panic!("{row:?} is no row");
        };
        NamedEnds {
            recording: recording.to_vec(),
            drill: drill.into(),
            answer_words: ANSWER_WORDS,
            work_words: WORK_WORDS,
            start: tick(start),
            line: line(told),
        }
    };
    words.chunks(2).map(call).collect()
}

/// A start in digits, or `max` for the largest that can be told.
fn tick(word: &str) -> u32 {
    match word {
        "max" => u32::MAX,
        digits => digits.parse().expect("a tick"),
    }
}

fn line(told: &str) -> String {
    if told == "none" {
        told.into()
    } else if told.starts_with(['[', '(']) {
        format!("end {told}")
    } else {
        let number: u32 = told.parse().expect("a number");
        format!("refused {number}")
    }
}

/// The calls of several drills, a line for each: the drill, and behind it its rows.
fn table(recording: &[u8], lines: &str) -> Vec<NamedEnds> {
    let lines = lines.lines().map(str::trim).filter(|line| !line.is_empty());
    lines
        .flat_map(|line| {
            let (drill, calls) = line.split_once(' ').expect("a drill and its rows");
            rows(recording, drill, calls)
        })
        .collect()
}

fn with_buffers(calls: Vec<NamedEnds>, answer_words: usize, work_words: usize) -> Vec<NamedEnds> {
    let lent = |call| NamedEnds {
        answer_words,
        work_words,
        ..call
    };
    calls.into_iter().map(lent).collect()
}

fn all() -> Vec<NamedEnds> {
    let groups = [
        on_r(),
        bands(),
        strict_starts(),
        stars(),
        events(),
        absences(),
        crossed_runs(),
        reached_by_one(),
        crossed_absences(),
        first_reports(),
        durations(),
        one_tick(),
        longest_drive(),
        late_starts(),
        long_lists(),
        refused_before(),
        short_work(),
        full_lists(),
        short_answers(),
    ];
    groups.into_iter().flatten().collect()
}

/// On R, `a` is high from 2 to 7 and low from 7 to 10, and nothing is reported before 2. `a` fits from s to
/// any end behind it up to 7, and `a.!a` to any behind 7. `(a{2,2})*` fits no piece at every s, one piece
/// from the starts 2 to 5, and two from 2 and 3. `_` ends at s itself.
fn on_r() -> Vec<NamedEnds> {
    table(
        &recording_r(),
        "
        a          0 none   1 none   2 (2,7]   3 (3,7]   4 (4,7]   5 (5,7]   6 (6,7]   7 none   8 none   9 none   10 none     11 14
        a.!a       0 none   1 none   2 (7,10]  3 (7,10]  4 (7,10]  5 (7,10]  6 (7,10]  7 none   8 none   9 none   10 none     11 14
        (a{2,2})*  0 [0,0]  1 [1,1]  2 [2,6]   3 [3,7]   4 [4,6]   5 [5,7]   6 [6,6]   7 [7,7]  8 [8,8]  9 [9,9]  10 [10,10]  11 14
        _          0 [0,0]  1 [1,1]  2 [2,2]   3 [3,3]   4 [4,4]   5 [5,5]   6 [6,6]   7 [7,7]  8 [8,8]  9 [9,9]  10 [10,10]  11 14
        !a         0 none   2 none   6 none    7 (7,10]  8 (8,10]  9 (9,10]  10 none   11 14
        a*         0 [0,0]  1 [1,1]  2 [2,7]   6 [6,7]   7 [7,7]   10 [10,10]          11 14
        !a*        0 [0,0]  6 [6,6]  7 [7,10]  9 [9,10]  10 [10,10]
        (a|!a)*    0 [0,0]  1 [1,1]  2 [2,10]  6 [6,10]  7 [7,10]  9 [9,10]  10 [10,10]
        a|a        1 none   2 (2,7]  7 none
        a.a        1 none   2 (2,7]  6 (6,7]   7 none
        a&!a       0 none   5 none   10 none   11 14
        a{5,5}     1 none   2 [7,7]  3 none
        a{6,}      2 none
        a{0,0}     2 none   5 none
        ",
    )
}

/// Lengths from a start, cut off at 7, where the run ends: the end is reached there, whatever the bound is.
fn bands() -> Vec<NamedEnds> {
    table(
        &recording_r(),
        "
        a{<2,4}           1 none  2 (4,6]  3 (5,7]  4 (6,7]  5 none   6 none
        a{2,<4}           1 none  2 [4,6)  3 [5,7)  4 [6,7]  5 [7,7]  6 none
        a{<2,<4}          2 (4,6) 3 (5,7)  4 (6,7]  5 none
        a{<1,<2}          2 (3,4) 5 (6,7)  6 none
        a{0,<1}           2 (2,3) 6 (6,7)  7 none
        a{0,<1}|_         1 [1,1] 2 [2,3)  6 [6,7)  7 [7,7]  10 [10,10]
        a{1,2}.!a{<1,2}   4 none  5 (8,9]  6 (8,9]  7 none
        (a.!a){<4,<5}     2 none  3 (7,8)  4 (8,9)  5 (9,10) 6 none
        (a.!a){3,6}       2 (7,8] 4 (7,10] 6 [9,10] 7 none
        _{0,<1}           0 [0,0] 10 [10,10]
        _{<0,}            0 none  5 none   10 none
        ",
    )
}

/// Zones that have stretches from just before s on, or from just behind it, and none from s. On R with a
/// low start, `a` rises at 2: to be there from 0 on takes a length of 2, from 1 on one of 1.
fn strict_starts() -> Vec<NamedEnds> {
    let on_r = "
        (a.-a){0,<3}    3 none  4 none   5 [7,7]  6 [7,7]  7 none
        (a.-a){<3,}     2 [7,7] 3 [7,7]  4 none   5 none
        (a.-a){3,}      3 [7,7] 4 [7,7]  5 none
        a.-a            1 none  2 [7,7]  6 [7,7]  7 none
    ";
    let with_low_start = "
        (!a.+a){0,<2}   0 none   1 [2,2]  2 none
        (!a.+a){<1,}    0 [2,2]  1 none   2 none
        (!a.+a){1,2}    0 [2,2]  1 [2,2]  2 none
        (!a.a){<2,<4}   0 (2,4)  1 (3,5)  2 none
        !a              0 (0,2]  1 (1,2]  2 none   6 none  7 (7,10]  9 (9,10]  10 none
        !a.a            0 (2,7]  1 (2,7]  2 none   7 none
        !a.a{<4,}.!a    0 (7,10] 1 (7,10] 2 none
    ";
    let mut calls = table(&recording_r(), on_r);
    calls.extend(table(&low_start_r(), with_low_start));
    calls
}

/// No piece at all ends at s itself. From 2, one piece of 2 ticks or more, and less than 3, ends from 4 on and
/// before 5, and two end from 6 on; from 4 the run has room for one alone. From 2, one piece longer than 1
/// and shorter than 2 ends between 3 and 4, two between 4 and 6, and three behind 5.
fn stars() -> Vec<NamedEnds> {
    table(
        &recording_r(),
        "
        (a{1,1})*           1 [1,1]  2 [2,7]  3 [3,7]  6 [6,7]  7 [7,7]
        (a{2,<3})*          2 [2,7]  3 [3,7]  4 [4,7)  5 [5,7]  6 [6,6]
        (a{<1,<2})*{<0,}    2 (3,7]  3 (4,7]  4 (5,7]  5 (6,7)  6 none   7 none
        (a{2,2})*{<0,}      1 none   2 [4,6]  3 [5,7]  4 [6,6]  5 [7,7]  6 none
        a.(!a{1,1})*        1 none   2 (2,10] 6 (6,10] 7 none
        (a{6,})*            0 [0,0]  2 [2,2]  10 [10,10]
        _*                  0 [0,0]  7 [7,7]  10 [10,10]  11 14
        ",
    )
}

/// On R, `a` falls at 7 and, with nothing reported before 2, never rises; with a low start it rises at 2.
fn events() -> Vec<NamedEnds> {
    let on_r = "
        -a           6 none   7 [7,7]   8 none
        +a           1 none   2 none    3 none
        -a.!a        6 none   7 (7,10]  8 none
        -a|a         2 (2,7]  6 (6,7]   7 [7,7]  8 none
    ";
    let with_low_start = "
        +a           1 none   2 [2,2]   3 none   7 none   10 none   11 14
        -a           2 none   7 [7,7]   8 none
        +a|-a        2 [2,2]  3 none    7 [7,7]
        +a.a         1 none   2 (2,7]   3 none
        +a.a{0,3}    2 (2,5]
        +a.a{<2,<3}  2 (4,5)
        +a|a         2 [2,7]  3 (3,7]
        a|+a         2 [2,7]  3 (3,7]
        !a.+a        0 [2,2]  1 [2,2]   2 none
        !a.+a.a      0 (2,7]  1 (2,7]   2 none
        +a.a.-a      1 none   2 [7,7]   3 none
    ";
    let mut calls = table(&recording_r(), on_r);
    calls.extend(table(&low_start_r(), with_low_start));
    calls
}

/// Whatever `a` fits, the moment s and the end of the drive are left over by `~a`; without the moments there
/// is nothing up to 7 from a tick of the run. `~-a` lacks the moment 7 alone, and `~!a` what ends behind a
/// start from 7 on.
fn absences() -> Vec<NamedEnds> {
    table(
        &recording_r(),
        "
        ~a           0 [0,10]  1 [1,10]  2 [2,10]  3 [3,10]  6 [6,10]  7 [7,10]  9 [9,10]  10 [10,10]  11 14
        ~(a|_)       0 (0,10]  1 (1,10]  2 (7,10]  6 (7,10]  7 (7,10]  8 (8,10]  9 (9,10]  10 none
        ~a*          1 (1,10]  2 (7,10]  9 (9,10]  10 none
        ~(_|a.!a)    0 (0,10]  2 (2,7]   6 (6,7]   7 (7,10]  10 none
        ~_           0 (0,10]  9 (9,10]  10 none
        ~-a          0 [0,10]  6 [6,10]  7 (7,10]  8 [8,10]  10 [10,10]
        ~!a          0 [0,10]  6 [6,10]  7 [7,7]   8 [8,8]   9 [9,9]   10 [10,10]
        ~(~a)        1 none    2 (2,7]   6 (6,7]   7 none
        (~a){<5,}    0 (5,10]  1 (6,10]  2 (7,10]  3 (8,10]  4 (9,10]  5 none   6 none
        (~a){0,<3}   0 [0,3)   1 [1,4)   2 [2,2]   4 [4,4]   5 [5,8)   7 [7,10) 8 [8,10]
        ~a{6,}       0 [0,10]  2 [2,10]  10 [10,10]
        ~a&!a        6 none    7 (7,10]  9 (9,10]  10 none
        a&~a         2 none    5 none
        ~(a|~a)      0 none    5 none    10 none
        ~~a          0 5       11 5
        ",
    )
}

/// `a` is high from 1 to 4 and from 6 to 9, `b` from 3 to 8, in 12 ticks.
fn crossed() -> Vec<u8> {
    with_runs(12, &[&[(1, 4), (6, 9)], &[(3, 8)]])
}

/// Joins of runs that cross. In `b{3,}|a` from 3, the first zone has the ends from 6 to 8, and a later one
/// those up to 4: it has the earliest, and the first the latest. In `b.a` from 3 it is the other way
/// round: a cut before 4 gives the ends up to 4, one from 6 on those behind 6.
fn crossed_runs() -> Vec<NamedEnds> {
    table(
        &crossed(),
        "
        a              0 none   1 (1,4]  2 (2,4]  3 (3,4]  4 none   5 none   6 (6,9]  8 (8,9]  9 none   12 none   13 14
        b              2 none   3 (3,8]  7 (7,8]  8 none
        a|b            1 (1,4]  2 (2,4]  3 (3,8]  4 (4,8]  5 (5,8]  6 (6,9]  7 (7,9]  8 (8,9]  9 none
        b|a            1 (1,4]  2 (2,4]  3 (3,8]  4 (4,8]  5 (5,8]  6 (6,9]  7 (7,9]  8 (8,9]  9 none
        b{3,}|a        2 (2,4]  3 (3,8]  4 [7,8]  5 [8,8]  6 (6,9]  9 none
        a|b{3,}        2 (2,4]  3 (3,8]  4 [7,8]  5 [8,8]  6 (6,9]  9 none
        a{<1,}|b{0,2}  1 (2,4]  2 (3,4]  3 (3,5]  4 (4,6]  5 (5,7]  6 (6,9]  7 (7,9]  8 none
        b{0,2}|a{<1,}  1 (2,4]  2 (3,4]  3 (3,5]  4 (4,6]  5 (5,7]  6 (6,9]  7 (7,9]  8 none
        a&b            2 none   3 (3,4]  4 none   5 none   6 (6,8]  7 (7,8]  8 none
        a.b            0 none   1 (3,8]  2 (3,8]  3 (3,8]  4 none   5 none   6 (6,8]  7 (7,8]  8 none
        b.a            2 none   3 (3,9]  4 (6,9]  5 (6,9]  6 (6,9]  7 (7,9]  8 none
        (a|b)*         0 [0,0]  1 [1,9]  3 [3,9]  5 [5,9]  8 [8,9]  9 [9,9]  12 [12,12]  13 14
        +a|-a          0 none   1 [1,1]  3 none   4 [4,4]  6 [6,6]  9 [9,9]  12 none
        +a.a.-a        1 [4,4]  2 none   6 [9,9]
        a.-a.!a        1 (4,6]  3 (4,6]  4 none   6 (9,12] 8 (9,12] 9 none
        ",
    )
}

/// An end that one zone reaches and another only approaches, whichever of the two comes first: the lengths
/// below 2 and 2 itself; those above 1 and 1 itself; and ends of both zones beyond the other's.
fn reached_by_one() -> Vec<NamedEnds> {
    table(
        &crossed(),
        "
        b{1,<2}            2 none   3 [4,5)  6 [7,8)  7 [8,8]  8 none
        b{1,<2}|b{2,2}     2 none   3 [4,5]  4 [5,6]  5 [6,7]  6 [7,8]  7 [8,8]  8 none
        b{2,2}|b{1,<2}     2 none   3 [4,5]  4 [5,6]  5 [6,7]  6 [7,8]  7 [8,8]  8 none
        b{<1,2}|b{1,1}     2 none   3 [4,5]  4 [5,6]  5 [6,7]  6 [7,8]  7 [8,8]  8 none
        b{1,1}|b{<1,2}     2 none   3 [4,5]  4 [5,6]  5 [6,7]  6 [7,8]  7 [8,8]  8 none
        b{1,1}|b{<0,<1}    3 (3,4]  7 (7,8]  8 none
        b{<0,<1}|b{1,1}    3 (3,4]  7 (7,8]  8 none
        b{3,4}|b{<1,<2}    3 (4,7]  4 (5,8]  5 (6,8]  6 (7,8)  7 none
        b{<1,<2}|b{3,4}    3 (4,7]  4 (5,8]  5 (6,8]  6 (7,8)  7 none
        b{3,<4}|b{1,<2}    3 [4,7)  4 [5,8)  5 [6,8]  6 [7,8)  7 [8,8]
        b{<0,<1}|_         2 [2,2]  3 [3,4)  7 [7,8)  8 [8,8]
        ",
    )
}

/// Outside the run of `b` from 3 to 8. Short absences end before 8 from 6 and behind it from 7.
fn crossed_absences() -> Vec<NamedEnds> {
    table(
        &crossed(),
        "
        ~b             0 [0,12]  2 [2,12]  3 [3,12]  7 [7,12]  8 [8,12]  12 [12,12]  13 14
        ~(b|_)         2 (2,12]  3 (8,12]  7 (8,12]  8 (8,12]  11 (11,12]  12 none
        ~(~b)          2 none    3 (3,8]   7 (7,8]   8 none
        (~b){0,<2}     0 [0,2)   2 [2,4)   3 [3,3]   6 [6,6]   7 [7,9)   8 [8,10)   10 [10,12)  11 [11,12]  12 [12,12]
        (~b){<1,<2}    0 (1,2)   3 none    6 none    7 (8,9)   10 (11,12)  11 none  12 none
        (~b){<1,2}     3 none    6 none    7 (8,9]   10 (11,12]  11 none
        ",
    )
}

/// Drives that are reported never, on tick d alone, on the last tick, and from tick 0 on without a change
/// behind it.
fn first_reports() -> Vec<NamedEnds> {
    let never = "
        a        0 none    5 none   10 none     11 14
        !a       0 none    5 none   10 none
        -a       0 none    5 none
        _        0 [0,0]   5 [5,5]  10 [10,10]  11 14
        ~a       0 [0,10]  5 [5,10] 10 [10,10]  11 14
        (a|!a)*  0 [0,0]   7 [7,7]  10 [10,10]
    ";
    let on_tick_d = "
        a        9 none    10 none     11 14
        a|_      0 [0,0]   9 [9,9]     10 [10,10]  11 14
        ~a       9 [9,10]  10 [10,10]
    ";
    let on_the_last_tick = "
        !a       8 none    9 (9,10]    10 none     11 14
        !a*      8 [8,8]   9 [9,10]    10 [10,10]
        a        9 none
    ";
    let groups = [
        table(&recording(100, 1, &[]), never),
        table(&recording(104, 1, &[(96, 1)]), on_tick_d),
        table(&recording(104, 1, &[(94, 0)]), on_the_last_tick),
        rows(
            &recording(100, 1, &[(5, 1)]),
            "a",
            "0 (0,10] 9 (9,10] 10 none 11 14",
        ),
    ];
    groups.into_iter().flatten().collect()
}

/// The last tick of a drive is its duration in ticks, halves going to the even one, and 14 begins behind
/// it.
fn durations() -> Vec<NamedEnds> {
    let on = |duration: u32, calls: &str| rows(&recording(duration, 1, &[]), "_", calls);
    let groups = [
        on(94, "9 [9,9]  10 14"),
        on(95, "9 [9,9]  10 [10,10]  11 14"),
        on(104, "10 [10,10]  11 14"),
        on(105, "10 [10,10]  11 14"),
        on(106, "10 [10,10]  11 [11,11]  12 14"),
        on(115, "11 [11,11]  12 [12,12]  13 14"),
        on(15, "1 [1,1]  2 [2,2]  3 14"),
    ];
    groups.into_iter().flatten().collect()
}

/// One tick, in which `a` is high: from 0 everything up to 1, from 1 the moment 1 alone.
fn one_tick() -> Vec<NamedEnds> {
    table(
        &recording(10, 1, &[(0, 1)]),
        "
        a               0 (0,1]  1 none   2 14
        !a              0 none   1 none   2 14
        _               0 [0,0]  1 [1,1]  2 14
        a*              0 [0,1]  1 [1,1]  2 14
        ~a              0 [0,0]  1 [1,1]
        ~_              0 (0,1]  1 none
        a{1,1}          0 [1,1]  1 none
        a{<0,<1}        0 (0,1)  1 none
        a{0,<1}|_       0 [0,1)  1 [1,1]
        a{1,}|a{<0,<1}  0 (0,1]  1 none
        a{<1,}          0 none
        ",
    )
}

/// As many ticks as a drive can have: `a` is high in all of them, or in the last alone.
fn longest_drive() -> Vec<NamedEnds> {
    let throughout = "
        a                0 (0,1000000]  999999 (999999,1000000]  1000000 none  1000001 14
        _                0 [0,0]        1000000 [1000000,1000000]  1000001 14  max 14
        a*               0 [0,1000000]  1000000 [1000000,1000000]
        a{1000000,}      0 [1000000,1000000]  1 none
        a{<0,<1000000}   0 (0,1000000)  1 (1,1000000]  1000000 none
        ~a               0 [0,0]  500000 [500000,500000]  1000000 [1000000,1000000]  1000001 14
        ~_               999999 (999999,1000000]  1000000 none
    ";
    let at_the_end = "a  999998 none  999999 (999999,1000000]  1000000 none  1000001 14";
    let mut calls = table(&recording(10_000_000, 1, &[(0, 1)]), throughout);
    let late = recording(10_000_000, 1, &[(9_999_990, 1)]);
    calls.extend(table(&late, at_the_end));
    calls
}

/// Starts far above d, also such as are 2 or 0 in fewer bits, or doubled in 32 of them, and such as are
/// negative as signed words.
fn late_starts() -> Vec<NamedEnds> {
    let late = "
        11 14  12 14  258 14  65538 14  1000000 14  1073741826 14  2147483647 14  2147483648 14
        2147483650 14  4294967286 14  max 14
    ";
    let drills = ["a", "_", "(a{2,2})*", "~a", "a&!a"];
    let calls = drills.map(|drill| rows(&recording_r(), drill, late));
    calls.into_iter().flatten().collect()
}

/// Runs of a tick each, a tick apart, from tick 1 on. All lists but the last are of 127 zones or 128; the
/// last has a zone for each length from 1 to 120, and the diagonal.
fn long_lists() -> Vec<NamedEnds> {
    let of_127_runs = "
        a.!a       0 none   1 (2,3]  2 none   127 (128,129]  253 (254,255]  254 none  255 none  256 14
        a*         0 [0,0]  1 [1,2]  2 [2,2]  127 [127,128]  253 [253,254]  254 [254,254]  255 [255,255]  256 14
        a|!a{2,}   1 (1,2]  2 none   127 (127,128]
    ";
    let of_128_runs = "
        a          0 none   1 (1,2]  2 none   255 (255,256]  256 none  257 none  258 14
        a{1,1}|a   1 (1,2]  2 none
        a{1,1}     1 [2,2]  2 none   255 [256,256]
    ";
    let of_one_run = "(a{1,1})*  0 [0,120]  60 [60,120]  119 [119,120]  120 [120,120]  121 14";
    let groups = [
        table(&pulses(127), of_127_runs),
        table(&pulses(128), of_128_runs),
        table(&recording(1_200, 1, &[(0, 1)]), of_one_run),
    ];
    groups.into_iter().flatten().collect()
}

/// 1 to 8 come before 14, 9 and 11, whatever start is told and however short the buffers are.
fn refused_before() -> Vec<NamedEnds> {
    let wrong_change = recording(100, 1, &[(100, 1)]);
    let too_long = "a".repeat(256);
    let too_deep = format!("a{}", "*".repeat(16));
    let r = recording_r();
    let refused: [(&[u8], &str, u32); 16] = [
        (&[], "a", 1),
        (&r[..7], "a", 1),
        (&[0; RECORD], "a", 2),
        (&recording(9, 1, &[]), "a", 2),
        (&wrong_change, "a", 3),
        // A wrong drill beside it comes later.
        (&wrong_change, "a)", 3),
        (&r, "", 4),
        (&r, &too_long, 4),
        (&r, "a)", 5),
        (&r, "~~a", 5),
        (&r, "b", 6),
        (&r, "a.+b", 6),
        (&r, "a{2,1}", 7),
        (&r, "a{2,<2}", 7),
        (&r, "a{0,1000001}", 7),
        (&r, &too_deep, 8),
    ];
    let calls = |&(recording, drill, number): &(&[u8], &str, u32)| {
        let starts = format!("0 {number}  10 {number}  11 {number}  max {number}");
        let ample = rows(recording, drill, &starts);
        let short = rows(recording, drill, &starts);
        let mut calls = with_buffers(short, 0, 0);
        calls.extend(ample);
        calls
    };
    refused.iter().flat_map(calls).collect()
}

/// 9 comes behind 14, and before 10 and 11.
fn short_work() -> Vec<NamedEnds> {
    let on_r = |calls: &str| rows(&recording_r(), "a", calls);
    let crowd = |calls: &str| rows(&pulses(129), "a", calls);
    let groups = [
        with_buffers(
            on_r("0 9  2 9  10 9  11 14  max 14"),
            ANSWER_WORDS,
            WORK_WORDS - 1,
        ),
        with_buffers(on_r("2 9  11 14"), ANSWER_WORDS, 0),
        with_buffers(on_r("2 9  10 9  11 14  max 14"), 5, WORK_WORDS - 1),
        with_buffers(on_r("2 9  11 14"), 0, 0),
        with_buffers(crowd("0 9  259 9  260 14"), ANSWER_WORDS, WORK_WORDS - 1),
        with_buffers(crowd("0 9  260 14"), 0, 0),
        // One word more than is asked for stays as it is.
        with_buffers(on_r("2 (2,7]  7 none  11 14"), ANSWER_WORDS, WORK_WORDS + 1),
    ];
    groups.into_iter().flatten().collect()
}

/// 10 comes behind 14, and before 11. With 129 runs there are 259 ticks; in 130 ticks `(a{1,1})*` has no room
/// in its last round.
fn full_lists() -> Vec<NamedEnds> {
    let crowd = |calls: &str| rows(&pulses(129), "a", calls);
    let star = |calls: &str| rows(&recording(1_300, 1, &[(0, 1)]), "(a{1,1})*", calls);
    let groups = [
        crowd("0 10  1 10  2 10  259 10  260 14  max 14"),
        with_buffers(crowd("0 10  259 10  260 14"), 0, WORK_WORDS),
        star("0 10  130 10  131 14"),
        rows(&pulses(32), "~a", "0 10  65 10  66 14"),
        // What would have come of it is nothing.
        rows(&pulses(129), "a&_", "0 10  259 10  260 14"),
    ];
    groups.into_iter().flatten().collect()
}

/// 11 is given although two numbers would do, also where there is none to tell, and comes behind 14.
fn short_answers() -> Vec<NamedEnds> {
    let letter = |calls: &str| rows(&recording_r(), "a", calls);
    let star = |calls: &str| rows(&recording_r(), "(a{2,2})*", calls);
    let crowd = |calls: &str| rows(&pulses(128), "a", calls);
    let empty = |calls: &str| rows(&recording_r(), "a&!a", calls);
    let short = "0 11  2 11  7 11  10 11  11 14  max 14";
    let groups = [
        with_buffers(letter(short), 5, WORK_WORDS),
        with_buffers(letter(short), 3, WORK_WORDS),
        with_buffers(letter(short), 0, WORK_WORDS),
        with_buffers(letter("0 none  2 (2,7]  11 14"), 6, WORK_WORDS),
        with_buffers(letter("0 none  2 (2,7]  11 14"), 7, WORK_WORDS),
        with_buffers(star(short), 17, WORK_WORDS),
        // One of its zones would do for 8, and two for 5.
        with_buffers(star("5 11  8 11  11 14"), 12, WORK_WORDS),
        with_buffers(star("2 [2,6]  8 [8,8]  11 14"), 18, WORK_WORDS),
        with_buffers(crowd("1 11  2 11  257 11  258 14"), 767, WORK_WORDS),
        with_buffers(crowd("1 (1,2]  2 none  258 14"), 768, WORK_WORDS),
        with_buffers(empty("0 none  10 none  11 14"), 0, WORK_WORDS),
    ];
    groups.into_iter().flatten().collect()
}

#[cfg(test)]
mod tests {
    use super::*;
    use crate::honest::{honest_ends, HONEST};
    use crate::proved::Ends;
    use crate::wrong_ends::{self, told_by};
    use crate::zone::{Range, Zone};

    #[test]
    fn every_call_tells_its_ends() {
        let checked = check(proved::linked());
        assert!(checked.is_ok_and(|calls| calls > 900), "{:?}", check(None));
    }

    #[test]
    fn every_number_is_there() {
        let calls = all();
        for number in (1..=11).chain([14]) {
            let line = format!("refused {number}");
            assert!(calls.iter().any(|call| call.line == line), "{line}");
        }
    }

    /// The first complaint about a library that makes its calls from a start like this.
    fn complaint(ends: Ends) -> Option<String> {
        let proved = Proved { ends, ..HONEST };
        check(Some(proved)).err()
    }

    #[test]
    fn honest_calls_are_no_complaint() {
        assert_eq!(complaint(honest_ends), None);
        // By the rule itself, in other words: a zone cut at the start is the moment there and the zone.
        let composed: Ends = |asked| {
            told_by(asked, |zones, start| {
                let moment = Zone::moment(start);
                let cut = zones.iter().filter_map(|zone| moment.compose(zone));
                cut.map(|zone| zone.ends()).reduce(Range::hull)
            })
        };
        assert_eq!(complaint(composed), None);
    }

    #[test]
    fn wrong_programs_are_found() {
        for (name, ends) in wrong_ends::all() {
            assert!(complaint(ends).is_some(), "{name}");
        }
    }
}
