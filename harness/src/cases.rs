//! The executed cases: what a proved program is given, and what it must print.
//!
//! The expected output is worked out here, by the plain matcher, and every list of zones goes
//! through brute force first. Nothing in it comes from the proved library.
//!
//! A case of the input is five numbers of four bytes, low byte first (the lengths of recording and
//! drill, the words of the answer and of the work buffer, the zones that `front` is told), then the
//! recording and the drill. Before the call, word i of either buffer is i.

use crate::absence;
use crate::brute;
use crate::examples::{late_pulses, low_start_r, pulses, recording, recording_r};
use crate::finder::{find, front, listed, Returned, WORK_WORDS};
use crate::first_reports;
use crate::named_drills::NamedDrill;
use crate::recording::{MAX_LENGTH, RECORD};
use crate::sheet;
use crate::zone::WORDS;

pub struct Case {
    recording: Vec<u8>,
    drill: Vec<u8>,
    answer_words: usize,
    work_words: usize,
    /// Zones that `front` is told.
    told: u32,
}

/// Stands for the largest `usize` among the zones told.
const LARGEST: u32 = u32::MAX;
/// Enough for any list, and some words behind it.
const AMPLE_ANSWER: usize = 774;
const AMPLE_WORK: usize = WORK_WORDS + 16;
/// The longest drive, in ticks, that goes through brute force.
const MAX_BRUTE_TICKS: u32 = 300;

impl Case {
    /// With ample buffers, and `front` told as many zones as there are.
    fn new(recording: Vec<u8>, drill: impl Into<Vec<u8>>) -> Case {
        let mut case = Case {
            recording,
            drill: drill.into(),
            answer_words: AMPLE_ANSWER,
            work_words: AMPLE_WORK,
            told: 0,
        };
        case.told = case.call().returned.zones as u32;
        case
    }

    fn on_r(drill: impl Into<Vec<u8>>) -> Case {
        Case::new(recording_r(), drill)
    }

    /// On R with a report at tick 0, so that `!a` comes before `a` and `a` rises.
    fn on_low_start_r(drill: impl Into<Vec<u8>>) -> Case {
        Case::new(low_start_r(), drill)
    }

    fn answer(self, answer_words: usize) -> Case {
        Case {
            answer_words,
            ..self
        }
    }

    fn work(self, work_words: usize) -> Case {
        Case { work_words, ..self }
    }

    fn told(self, told: u32) -> Case {
        Case { told, ..self }
    }

    fn call(&self) -> Called {
        let mut answer: Vec<i32> = (0..).take(self.answer_words).collect();
        let mut work: Vec<i32> = (0..).take(self.work_words).collect();
        let (answer_before, work_before) = (answer.clone(), work.clone());
        let returned = find(&self.recording, &self.drill, &mut answer, &mut work);
        Called {
            returned,
            answer_before,
            answer,
            work_before,
            work,
        }
    }

    fn front_words(&self) -> usize {
        let zones = match self.told {
            LARGEST => usize::MAX,
            told => told as usize,
        };
        front(self.answer_words, zones)
    }
}

/// A call with both buffers before and after it.
struct Called {
    returned: Returned,
    answer_before: Vec<i32>,
    answer: Vec<i32>,
    work_before: Vec<i32>,
    work: Vec<i32>,
}

impl Called {
    fn answer_line(&self) -> Result<String, String> {
        let front = self.returned.zones as usize * WORDS;
        if self.answer == self.answer_before {
            Ok("answer kept".into())
        } else if self.answer[front..] == self.answer_before[front..] {
            Ok(format!("answer front {front} kept behind"))
        } else {
            Err("words behind the front were written".into())
        }
    }

    fn work_line(&self) -> Result<String, String> {
        if self.work == self.work_before {
            return Ok("work kept".into());
        }
        let (cleared, behind) = self.work.split_at(WORK_WORDS);
        if cleared.iter().all(|&word| word == 0) && behind == &self.work_before[WORK_WORDS..] {
            Ok("work zero kept behind".into())
        } else {
            Err("the work buffer is neither kept nor cleared".into())
        }
    }
}

/// The input file.
pub fn input(cases: &[Case]) -> Vec<u8> {
    let mut bytes = Vec::new();
    for case in cases {
        let numbers = [
            case.recording.len() as u32,
            case.drill.len() as u32,
            case.answer_words as u32,
            case.work_words as u32,
            case.told,
        ];
        bytes.extend(numbers.iter().flat_map(|number| number.to_le_bytes()));
        bytes.extend(&case.recording);
        bytes.extend(&case.drill);
    }
    bytes
}

/// What the program must print, or which case the matchers do not agree on.
pub fn output(cases: &[Case]) -> Result<String, String> {
    let mut text = String::new();
    for (index, case) in cases.iter().enumerate() {
        let number = index + 1;
        let lines = lines(case).map_err(|fault| format!("case {number}: {fault}"))?;
        text.push_str(&format!("case {number}\n{lines}"));
    }
    Ok(text)
}

fn lines(case: &Case) -> Result<String, String> {
    let called = case.call();
    let zones = listed(called.returned, &called.answer);
    if called.returned.is_accepted() {
        brute::compare_accepted(&case.recording, &case.drill, &zones, MAX_BRUTE_TICKS)?;
    }
    let Returned {
        number,
        zones: count,
        rounds,
    } = called.returned;
    Ok(format!(
        "returned {number} {count} {rounds}\n{}\n{}\nfront {}\n{}",
        called.answer_line()?,
        called.work_line()?,
        case.front_words(),
        sheet::text(called.returned, &called.answer),
    ))
}

/// Every case, in the order of the output.
pub fn all() -> Vec<Case> {
    let groups = [
        marked_set(),
        stars(),
        ticks(),
        recordings_refused(),
        drills_refused(),
        depths(),
        crowded_lists(),
        buffers(),
        fronts(),
        several_causes(),
        limits(),
        bounds_not_reached(),
        bounds_refused(),
        halves(),
        events(),
        events_hidden(),
        events_crowded(),
        events_refused(),
        before_the_first_report(),
        crowded_from_the_first_report(),
        absences_by_hand(),
        absences(),
        absences_at_the_edges(),
        absences_refused(),
    ];
    groups.into_iter().flatten().collect()
}

/// Document 01's marked set on R.
fn marked_set() -> Vec<Case> {
    let drills = [
        "a", "a.a", "a|a", "a.!a", "a{5,5}", "a{6,}", "a{0,0}", "a&!a", "_",
    ];
    drills.into_iter().map(Case::on_r).collect()
}

/// Two channels with several runs each.
fn two() -> Vec<u8> {
    recording(
        120,
        2,
        &[(0, 0), (10, 1), (34, 3), (35, 2), (61, 1), (80, 0), (90, 3)],
    )
}

/// Two channels with short runs that overlap.
fn overlapping() -> Vec<u8> {
    recording(
        79,
        2,
        &[
            (0, 0),
            (25, 3),
            (33, 2),
            (38, 1),
            (48, 3),
            (57, 0),
            (59, 2),
            (74, 1),
            (77, 2),
        ],
    )
}

fn stars() -> Vec<Case> {
    let overlapping_long = recording(
        99,
        2,
        &[
            (24, 1),
            (32, 3),
            (44, 2),
            (59, 1),
            (66, 3),
            (71, 1),
            (80, 3),
        ],
    );
    vec![
        Case::on_r("(a{2,2})*"),
        Case::on_low_start_r("(a|!a)*"),
        Case::new(two(), "(a|!a)*"),
        // A round that removes one zone and adds one.
        Case::on_r("(a{0,1})*"),
        // The star of an empty list, of the diagonal, of a star.
        Case::on_r("(a{6,})*"),
        Case::on_r("_*"),
        Case::on_r("(a{0,1})**"),
        Case::on_low_start_r("(a{1,2}.a{1,1})*|(!a{1,1})*"),
        Case::new(two(), "((a.b){0,3})*"),
        Case::new(two(), "((a|b){1,2}.!a)*.b"),
        Case::new(two(), "(a.b)&(a.b{1,})|!a.a"),
        Case::new(two(), "!a.a{1,1}.(b|_)"),
        // Here the order of the list shows which zones are composed first, and on which side.
        Case::new(overlapping(), "((a|b){1,1})*"),
        Case::new(overlapping_long, "((b.(a|b)|a){1,1})*"),
    ]
}

/// Rounding, several changes on a tick, changes on tick d, drives without changes.
fn ticks() -> Vec<Case> {
    vec![
        Case::new(recording(100, 1, &[(24, 1)]), "a"),
        Case::new(recording(100, 1, &[(25, 1)]), "a"),
        Case::new(recording(104, 1, &[(20, 1), (95, 0)]), "a"),
        Case::new(recording(105, 1, &[(20, 1), (95, 0)]), "a"),
        Case::new(recording(104, 1, &[(0, 0), (96, 1)]), "a"),
        Case::new(recording(100, 1, &[(0, 0), (48, 1), (52, 0)]), "!a"),
        Case::new(recording(100, 1, &[(15, 1), (17, 0), (24, 1)]), "a"),
        Case::new(recording(100, 1, &[(0, 1), (50, 0)]), "a"),
        Case::new(recording(10, 1, &[]), "a"),
        Case::new(recording(10, 1, &[]), "!a"),
        Case::new(recording(100, 16, &[(30, 0x8000)]), "p"),
        Case::new(recording(100, 2, &[(10, 1), (30, 3), (60, 2)]), "a"),
    ]
}

/// Refusals 1 to 3.
fn recordings_refused() -> Vec<Case> {
    let head = || recording(100, 1, &[]);
    let with = |at: usize, byte: u8| {
        let mut bytes = recording_r();
        bytes[at] = byte;
        bytes
    };
    let recordings = vec![
        vec![],
        recording_r()[..7].to_vec(),
        recording_r()[..23].to_vec(),
        largest(1),
        largest(RECORD),
        // The head, each field in turn.
        vec![0; RECORD],
        with(0, 0x43),
        with(1, 0x53),
        recording(9, 1, &[]),
        recording(10_000_001, 1, &[]),
        recording(100, 0, &[]),
        recording(100, 17, &[]),
        with(7, 1),
        // A change, each field in turn.
        with(8, 0x44),
        with(9, 0x49),
        recording(100, 1, &[(100, 1)]),
        recording(100, 1, &[(20, 1), (20, 0)]),
        recording(100, 1, &[(20, 1), (19, 0)]),
        recording(100, 1, &[(20, 2)]),
        recording(100, 15, &[(20, 0x8000)]),
        [head(), head()].concat(),
        // The last change is checked too.
        [recording_r(), vec![0; RECORD]].concat(),
    ];
    recordings
        .into_iter()
        .map(|bytes| Case::new(bytes, "a"))
        .collect()
}

/// The largest recording, with this many bytes too many.
fn largest(more: usize) -> Vec<u8> {
    let changes: Vec<(u32, u16)> = (0..(MAX_LENGTH / RECORD - 1) as u32)
        .map(|k| (10 * k, if k < 2048 { 2 } else { 1 }))
        .collect();
    let mut bytes = recording(50_000, 2, &changes);
    bytes.resize(MAX_LENGTH + more, 0);
    bytes
}

/// Refusals 4 to 7, and texts that just pass.
fn drills_refused() -> Vec<Case> {
    let wrapped = |inner: &str| format!("{}{inner}{}", "(".repeat(127), ")".repeat(127));
    let long_number = format!("a{{0,{}}}", "9".repeat(250));
    let long_wrapped = [wrapped("a"), wrapped("!a"), long_number];
    let of_another_form = "( ) a) () ab a| .a A q !_ !!a a{2} a{,2} a{02,3} a{2,03} a{2,3 *";
    let out_of_range = "b !p (a.b) a{3,2} a{1000001,} a{0,1000001} a{4294967296,} \
                        a{0,18446744073709551616}";
    let just_passing = "a{1000000,1000000} a{0,} (a)";
    let mut cases = vec![Case::on_r(""), Case::on_r("a b"), Case::on_r("a\n")];
    for drills in [of_another_form, out_of_range, just_passing] {
        cases.extend(drills.split_whitespace().map(Case::on_r));
    }
    cases.extend(long_wrapped.into_iter().map(Case::on_r));
    cases.push(Case::on_r(vec![0xC3, 0xA9]));
    cases.push(Case::on_r(vec![b'a'; 400]));
    cases
}

/// Refusal 8.
fn depths() -> Vec<Case> {
    let right_nested =
        |depth: usize| format!("{}a{}", "!a|(".repeat(depth - 1), ")".repeat(depth - 1));
    let left_nested = |depth: usize| format!("a{}", ".a".repeat(depth - 1));
    let broad = |rows: usize| vec!["a&a&a&a&a&a&a&a"; rows].join("|");
    vec![
        Case::on_r(format!("a{}", "*".repeat(15))),
        Case::on_r(format!("a{}", "*".repeat(16))),
        Case::on_r(right_nested(16)),
        Case::on_r(right_nested(17)),
        Case::on_r(left_nested(16)),
        Case::on_r(left_nested(17)),
        // 255 bytes of joins.
        Case::on_r(left_nested(128)),
        // A node for each of 15, 16, 63, 64 and 143 bytes, no deeper than 16.
        Case::on_r(broad(1)),
        Case::on_r(format!("{}*", broad(1))),
        Case::on_r(broad(4)),
        Case::on_r(format!("{}*", broad(4))),
        Case::on_r(broad(9)),
        // Brackets add nothing.
        Case::on_r(format!(
            "{}a{}{}",
            "(".repeat(20),
            ")".repeat(20),
            "*".repeat(15)
        )),
        Case::on_r(format!("{}a{}", "(".repeat(16), "*)".repeat(16))),
    ]
}

/// Refusal 10, and lists that are just not too long.
fn crowded_lists() -> Vec<Case> {
    vec![
        Case::new(pulses(128), "a"),
        Case::new(pulses(129), "a"),
        Case::new(pulses(128), "a.!a"),
        // The diagonal comes last, and may be the zone too many.
        Case::new(pulses(127), "a*"),
        Case::new(pulses(128), "a*"),
        // A put that removes a zone makes its own room.
        Case::new(pulses(128), "a{1,1}|a"),
        Case::new(pulses(128), "a|a{1,1}"),
        Case::new(pulses(128), "a|_"),
        Case::new(pulses(64), "a|!a"),
        Case::new(pulses(63), "a|!a|_"),
        // Too long on the way, whatever would have come of it.
        Case::new(pulses(129), "a&_"),
        Case::new(recording(200, 1, &[(0, 1)]), "(a{1,1})*"),
        Case::new(recording(1300, 1, &[(0, 1)]), "(a{1,1})*"),
    ]
}

/// Refusals 9 and 11, and buffers of just the right length.
fn buffers() -> Vec<Case> {
    let three = || Case::on_r("(a{2,2})*");
    vec![
        Case::on_r("a").work(WORK_WORDS - 1),
        Case::on_r("a").work(WORK_WORDS),
        Case::on_r("a").work(0),
        // Both short.
        Case::on_r("a").work(WORK_WORDS - 1).answer(5),
        Case::on_r("a").work(0).answer(0),
        Case::new(pulses(129), "a").work(WORK_WORDS - 1).answer(0),
        Case::on_r("a").answer(5),
        Case::on_r("a").answer(6),
        Case::on_r("a").answer(7),
        Case::on_r("a").answer(0),
        three().answer(17),
        three().answer(18),
        three().answer(19),
        three().answer(12).work(WORK_WORDS),
        // Nothing to list needs no room.
        Case::on_r("a&!a").answer(0),
        Case::on_r("a&!a").answer(0).work(WORK_WORDS),
        Case::new(pulses(128), "a").answer(767),
        Case::new(pulses(128), "a").answer(768),
        // 10 comes before 11.
        Case::new(pulses(129), "a").answer(0),
    ]
}

/// `front`, told what is so and what is not.
fn fronts() -> Vec<Case> {
    let three = || Case::on_r("(a{2,2})*").answer(23);
    let mut cases: Vec<Case> = [0, 1, 2, 3, 4, 5, 715_827_883, LARGEST - 1, LARGEST]
        .into_iter()
        .map(|told| three().told(told))
        .collect();
    cases.extend([
        three().answer(24).told(4),
        Case::on_r("a)").told(129),
        Case::on_r("a)").told(130),
        Case::on_r("a)").answer(0).told(0),
        Case::on_r("a)").answer(0).told(1),
        Case::on_r("a)").answer(0).told(LARGEST),
        Case::on_r("a)").answer(5).told(1),
    ]);
    cases
}

/// Several causes at once: the first one is given.
fn several_causes() -> Vec<Case> {
    let r = recording_r;
    let stars = "*".repeat(16);
    let odd_and_wrong = vec![0; 9];
    let wrong_head_and_change = [recording(9, 17, &[]), vec![0; RECORD]].concat();
    let wrong_change = || recording(100, 1, &[(200, 7)]);
    let short = |recording, drill: &str| Case::new(recording, drill).answer(0).work(0);
    vec![
        short(odd_and_wrong, ""),
        short(wrong_head_and_change, "("),
        short(wrong_change(), ""),
        short(wrong_change(), "b{2,1})"),
        short(r(), &"(".repeat(256)),
        short(r(), &format!("b{{2,1}}{stars})")),
        short(r(), &format!("a{{2,1}}{stars}.b")),
        short(r(), &format!("a{{2,1}}{stars}")),
        short(r(), &format!("a{stars}")),
        short(r(), "a"),
        Case::new(pulses(129), "a").answer(5),
    ]
}

/// The longest drive, low throughout.
fn longest() -> Vec<u8> {
    recording(10_000_000, 1, &[(0, 0), (9_999_999, 1)])
}

/// The largest of everything.
fn limits() -> Vec<Case> {
    vec![
        Case::new(largest(0), "b.(a{1,}|_)"),
        Case::new(longest(), "!a{1000000,1000000}"),
        Case::new(longest(), "!a{999999,}.!a*"),
        Case::new(longest(), "(!a|a)*{0,1000000}"),
    ]
}

/// Bands with a `<`, on R and at the edges.
fn bounds_not_reached() -> Vec<Case> {
    let throughout = recording(100, 1, &[(0, 1)]);
    // 255 bytes.
    let wrapped = format!("{}a{{<2,5}}{}", "(".repeat(124), ")".repeat(124));
    vec![
        Case::on_r("a{<2,5}"),
        Case::on_r("a{2,<5}"),
        Case::on_r("a{<2,<5}"),
        Case::on_r("a{<2,<3}"),
        Case::on_r("a{<0,}"),
        Case::on_r("a{<4,}"),
        Case::on_r("a{<5,}"),
        Case::on_r("a{5,<6}"),
        Case::on_r("a{0,<1}"),
        // Length 0 is not longer than 0, and shorter than 1.
        Case::on_r("_{<0,}"),
        Case::on_r("_{0,<1}"),
        Case::on_r("(a|_){<0,<1}"),
        // Whether a part reaches its bound shows in the whole.
        Case::on_r("a{<2,}.!a"),
        Case::on_low_start_r("!a.a{<4,}.!a"),
        Case::on_low_start_r("!a.a{<5,}.!a"),
        Case::on_low_start_r("!a.a{5,<6}.!a"),
        Case::on_r("a{<2,3}&a{2,<3}"),
        Case::on_r("a{<2,3}|a{2,<3}"),
        Case::on_r("a{2,3}|a{<2,<3}"),
        Case::on_r("a{<1,}.a{<1,}"),
        Case::on_r("a{0,<2}.a{0,2}"),
        Case::on_r("a{<1,4}{2,<4}"),
        Case::on_r("(a{<1,<2})*"),
        Case::on_r("(a{<1,2})*"),
        Case::on_r("(a{1,<2})*"),
        // One round more than with the bound reached, and with `a` high throughout as many as n + d.
        Case::on_r("(a{0,<1})*"),
        Case::new(throughout, "(a{0,<1})*"),
        Case::on_r("(a{<1,<2})**"),
        Case::new(two(), "((a.b){<0,<3})*"),
        Case::new(two(), "((a|b){<1,<2}.!a)*.b"),
        Case::new(overlapping(), "((a|b){<0,<1})*"),
        Case::new(overlapping(), "((a|b){1,<2})*"),
        Case::on_r(wrapped),
        Case::new(longest(), "!a{<999999,1000000}"),
        Case::new(longest(), "!a{999999,<1000000}"),
        Case::new(longest(), "!a{<999999,<1000000}"),
        Case::new(longest(), "!a{<1000000,}"),
    ]
}

/// Drills with a `<` that are refused: by 5, by 7, and by what is checked before and after these.
fn bounds_refused() -> Vec<Case> {
    let of_another_form = "a{200,<} a{<,5} a{<02,5} a{<<2,5} a{2<,5} a{2,<05} a{2,<<5} a{2,5<} \
                           a{<200,<} a{<,} a{<2} a{,<5} a{<2,5 a{>2,5} a{<=2,5} a<{2,5} a<b";
    let with_a_blank = [
        "a{< 2,5}", "a{ <2,5}", "a{<2 ,5}", "a{<2, 5}", "a{2, <5}", "a{2,< 5}", "a{2,<5 }",
    ];
    let out_of_range = "a{<5,5} a{<2,2} a{2,<2} a{<2,<2} a{<0,0} a{0,<0} a{<0,<0} \
                        a{1000000,<1000000} a{<1000001,<1000001} \
                        a{<99999999999999999999,99999999999999999999} \
                        a{<3,2} a{3,<2} a{<1000001,} a{0,<1000001} a{0,<4294967296} \
                        (a.a{<2,5}){<2,2}";
    let stars = "*".repeat(16);
    let mut cases: Vec<Case> = of_another_form.split(' ').map(Case::on_r).collect();
    cases.extend(with_a_blank.map(Case::on_r));
    cases.extend(out_of_range.split(' ').map(Case::on_r));
    // Several causes at once.
    cases.push(Case::on_r("b{<2,2})"));
    cases.push(Case::on_r("b{<2,2}"));
    cases.push(Case::on_r(format!("a{{<2,2}}{stars}")));
    cases.push(Case::on_r(format!("a{{<2,5}}{stars}")));
    cases.push(Case::on_r("a{<2,2}").work(0).answer(0));
    cases.push(Case::on_r("a{<2,5}").work(0).answer(0));
    cases.push(Case::on_r("a{<2,5}").answer(5));
    cases.push(Case::new(pulses(129), "a{<1,}"));
    cases
}

/// Times and durations halfway between two ticks, and their neighbours. `_` shows the duration.
fn halves() -> Vec<Case> {
    let high = |duration, changes: &[_]| Case::new(recording(duration, 1, changes), "a|_");
    let low = |duration, changes: &[_]| Case::new(recording(duration, 1, changes), "!a|_");
    // With 24 and 25 ms, which `ticks` has, each half and what is beside it.
    let mut cases: Vec<Case> = [4, 5, 6, 14, 15, 16, 26, 34, 35, 36]
        .into_iter()
        .map(|ms| high(100, &[(ms, 1)]))
        .collect();
    // Here d is 10, and a change from 95 ms on is on tick d.
    for ms in [94, 95, 96, 101] {
        cases.push(high(105, &[(ms, 1)]));
        cases.push(low(105, &[(0, 0), (20, 1), (ms, 0)]));
    }
    let shared = recording(105, 2, &[(5, 1), (15, 3), (25, 2), (45, 0)]);
    cases.extend([
        // A half that goes down from d, and one that goes up to it.
        high(106, &[(105, 1)]),
        high(25, &[(15, 1)]),
        // The shortest drives.
        high(10, &[(5, 1)]),
        high(10, &[(6, 1)]),
        high(14, &[(5, 1)]),
        low(15, &[(0, 0)]),
        high(15, &[(5, 1)]),
        high(15, &[(14, 1)]),
        // The longest.
        high(10_000_000, &[(9_999_985, 1)]),
        high(10_000_000, &[(9_999_994, 1)]),
        high(10_000_000, &[(9_999_995, 1)]),
        high(9_999_995, &[(9_999_994, 1)]),
        high(9_999_985, &[(9_999_984, 1)]),
        // Changes on one tick, of which only the last stands.
        high(100, &[(20, 1), (25, 0)]),
        high(100, &[(0, 1), (5, 0)]),
        high(100, &[(15, 1), (25, 0)]),
        high(100, &[(35, 0), (40, 0), (45, 1)]),
        // Changes on two ticks, which both stand.
        high(100, &[(25, 1), (30, 0)]),
        high(100, &[(5, 1), (10, 0)]),
        high(100, &[(25, 1), (35, 0)]),
        high(100, &[(34, 1), (35, 0)]),
        // A half on either side of a cut.
        Case::new(shared, "a.b|_"),
    ]);
    cases
}

/// Rises and falls on R with a low start, with every operator, and on drives with more of them.
fn events() -> Vec<Case> {
    let on_r = "+a -a +a.a{0,3} a.-a (+a|-a)* +a{0,0} +a{1,} +a&_ +a{<0,} \
                +a.-a +a.+a !a.+a.a a.+a +a.a.-a +a.a{2,3}.-a +a.a{<2,<3} (+a.a){3,3} \
                +a&a +a|a +a|_ -a|+a \
                +a* (+a|-a|a)* (+a|a)* (+a.a.-a)* (+a|-a|!a)*{1,2} (+a|-a|a|!a)* \
                (+a.a{0,1}|a{1,1}.-a|!a)* (!a.+a|+a.a{<1,<2}|a{2,2})*";
    let neighbours = || recording(100, 1, &[(0, 0), (10, 1), (20, 0), (30, 1), (90, 0)]);
    let sixteen = || {
        let changes = [(0, 0), (30, 0x8001), (50, 0x0001), (60, 0x8000)];
        recording(100, 16, &changes)
    };
    // 254 and 255 bytes.
    let wrapped = format!("{}-a{}", "(".repeat(126), ")".repeat(126));
    let wrapped_star = format!("{wrapped}*");
    let on_r = on_r.split_whitespace().map(Case::on_low_start_r);
    let mut cases: Vec<Case> = on_r.collect();
    cases.extend([
        Case::new(neighbours(), "+a|-a"),
        Case::new(neighbours(), "+a.a.-a"),
        Case::new(neighbours(), "(+a.a.-a|-a.!a.+a)*"),
        // The bound n + d with the rounds that short pieces after a rise take.
        Case::new(neighbours(), "(+a.a{0,<1}|a{0,<1})*"),
        Case::new(two(), "+a|-b"),
        Case::new(two(), "(+a.a&!b{0,300}).b"),
        Case::new(two(), "(+a|-a|+b|-b|a&b)*"),
        Case::new(overlapping(), "((+a|b){0,1}.(a|-b))*"),
        Case::new(sixteen(), "+p.(p&a).-p"),
        Case::new(sixteen(), "-a.+p|-a&+p|+j"),
        Case::on_low_start_r(format!("+a{}", "*".repeat(15))),
        Case::on_low_start_r(format!("{}-a{}", "+a|(".repeat(15), ")".repeat(15))),
        Case::on_low_start_r(wrapped),
        Case::on_low_start_r(wrapped_star),
        Case::on_low_start_r("+a").answer(6).work(WORK_WORDS),
    ]);
    cases
}

/// What the levels in two neighbouring ticks make of changes: at the edges of the drive, on one
/// tick, and of other channels.
fn events_hidden() -> Vec<Case> {
    let both = |duration, changes: &[_]| Case::new(recording(duration, 2, changes), "+a|-a");
    vec![
        // High from tick 0 on, by its time or by rounding.
        both(100, &[(0, 1), (50, 0)]),
        both(100, &[(0, 0), (5, 1)]),
        // At tick 1 and at d - 1, the first and the last there can be.
        both(100, &[(0, 0), (6, 1), (94, 0)]),
        both(20, &[(0, 0), (10, 1)]),
        // On tick d.
        both(104, &[(0, 0), (20, 1), (96, 0)]),
        both(100, &[(0, 0), (95, 1)]),
        // One tick has no tick beside it.
        both(10, &[(0, 0), (6, 1)]),
        both(100, &[]),
        // Of several changes on one tick the last stands.
        both(100, &[(0, 0), (48, 1), (52, 0)]),
        both(100, &[(0, 0), (20, 1), (48, 0), (52, 1)]),
        both(100, &[(0, 0), (46, 1), (49, 0), (52, 1)]),
        both(100, &[(0, 0), (20, 1), (46, 0), (49, 1), (52, 0)]),
        both(100, &[(0, 1), (4, 0), (10, 1)]),
        // Changes of the other channel, and one of nothing.
        both(100, &[(10, 2), (30, 3), (40, 1), (50, 1), (60, 0), (70, 2)]),
        // At either end of the longest drive.
        both(10_000_000, &[(0, 0), (6, 1), (9_999_994, 0)]),
        both(10_000_000, &[(0, 0), (20, 1), (9_999_995, 0)]),
    ]
}

/// Lists of as many events as there is room for, and of one more.
fn events_crowded() -> Vec<Case> {
    // Runs of one tick, a tick apart, the first from tick 0: its rise is no event.
    let from_0: Vec<(u32, u16)> = (0..258).map(|k| (10 * k, u16::from(k % 2 == 0))).collect();
    vec![
        Case::new(pulses(128), "+a"),
        Case::new(pulses(129), "+a"),
        Case::new(pulses(129), "-a"),
        Case::new(recording(2_580, 1, &from_0), "+a"),
        Case::new(pulses(64), "+a|-a"),
        Case::new(pulses(65), "+a|-a"),
        // The diagonal takes the place of all events, so that there is room for it.
        Case::new(pulses(128), "-a*"),
        Case::new(pulses(64), "(+a|a)*"),
        // Too long on the way, whatever would have come of it.
        Case::new(pulses(129), "-a&a"),
    ]
}

/// Drills with a `+` or a `-` that are refused: by 5, by 6, and by what is checked before and after
/// these.
fn events_refused() -> Vec<Case> {
    let of_another_form =
        "+ - +(a) -(a|a) !+a !-a ++a +-a +!a -!a a+ a+b +_ +* +{1,2} +.a +a- +ab \
                           +q -A (+ +a) a{1,-2}";
    let beyond_the_channels = "+b a.-b";
    let stars = "*".repeat(16);
    let too_long = format!("{}+a{}", "(".repeat(127), ")".repeat(127));
    let mut cases: Vec<Case> = Vec::new();
    for drills in [of_another_form, beyond_the_channels] {
        cases.extend(drills.split_whitespace().map(Case::on_r));
    }
    cases.extend(["+ a", "-\n"].map(Case::on_r));
    cases.push(Case::new(recording(100, 15, &[(20, 1)]), "+a|+p"));
    // Several causes at once.
    cases.extend([
        Case::on_r(too_long),
        Case::on_r(format!("+b{{2,1}}{stars}-")),
        Case::on_r(format!("+a{{2,1}}{stars}.-b")),
        Case::on_r(format!("+a{{2,1}}{stars}")),
        Case::on_r(format!("-a{stars}")),
        Case::on_r(format!("{}-a{}", "+a|(".repeat(16), ")".repeat(16))),
        Case::on_r("-a").work(0).answer(0),
        Case::on_r("-a").answer(5),
        Case::new(pulses(129), "+a").answer(0),
    ]);
    cases
}

/// The drills about the first report whose sheets are known by hand.
fn before_the_first_report() -> Vec<Case> {
    named(first_reports::all())
}

/// The drills about absence whose sheets are known by hand.
fn absences_by_hand() -> Vec<Case> {
    named(absence::all())
}

fn named(drills: Vec<NamedDrill>) -> Vec<Case> {
    let named = drills.into_iter();
    named
        .map(|named| Case::new(named.recording, named.drill))
        .collect()
}

/// Lists that have room for all low runs, or all rises, from the first report on, and not for one
/// before it.
fn crowded_from_the_first_report() -> Vec<Case> {
    vec![
        Case::new(late_pulses(128), "!a"),
        Case::new(pulses(128), "!a"),
        Case::new(late_pulses(129), "+a"),
    ]
}

/// Absences of every operator, in every operator, and in each other.
fn absences() -> Vec<Case> {
    let on_two = "~(a.b) ~a.~b ~(a&b) ~a|~b a.~(b.a) (a.~b)* ~(a.b)* (~a.b{0,2})* ((~a|b){<0,2})* ~(~(a.b)) \
                  ~((a|b){1,2}.!a)*.b !a&~(+a|-b) (~(+a|-a|b))* ~a{<1,<2}.~b{2,} ~(a{1,}|~b{0,3})";
    let on_overlapping = "~((a|b){1,1})* (~(a|b))* ((~a){0,<1}|b{1,1})* (~a.a|~b.b)* ~(~(~(~b)))";
    let on_r =
        "~a.!a !a.~a a.~!a ~(a.a) ~(a{1,2})* (~a{1,2})* (~a{1,2}&a)* ((~a){0,1})* ~(~a{1,2}).a \
                (~-a)* ~(-a|_)* (~(~a)|!a)* ((~a|a){3,3})* (((~a){2,2})*|~_{1,1}){0,9}";
    let mut cases: Vec<Case> = on_r.split_whitespace().map(Case::on_r).collect();
    for drill in on_two.split_whitespace() {
        cases.push(Case::new(two(), drill));
    }
    for drill in on_overlapping.split_whitespace() {
        cases.push(Case::new(overlapping(), drill));
    }
    cases
}

/// As deep, as long and as full as an absence may be, with buffers of just the right length and less.
fn absences_at_the_edges() -> Vec<Case> {
    let nested = |tildes: usize| format!("{}a{}", "~(".repeat(tildes), ")".repeat(tildes));
    let brackets = |inner: &str| format!("{}{inner}{}", "(".repeat(126), ")".repeat(126));
    vec![
        Case::on_r(nested(15)),
        Case::on_r(nested(16)),
        Case::on_r(format!("~a{}", "*".repeat(14))),
        Case::on_r(format!("(~a){}", "*".repeat(15))),
        Case::on_r(format!("{}a", "~a.".repeat(14))),
        Case::on_r(format!("{}~a", "~a.".repeat(15))),
        // 255 bytes and 256.
        Case::on_r(format!("~{}", brackets("!a"))),
        Case::on_r(format!("~{}", brackets("!a)"))),
        // Five zones, and what comes before and after 11.
        Case::on_r("~a").answer(30).work(WORK_WORDS),
        Case::on_r("~a").answer(29),
        Case::on_r("~(a|~a)").answer(0),
        Case::on_r("~a").work(WORK_WORDS - 1),
        Case::on_r("~~a").work(0).answer(0),
        Case::on_r("~a").told(6).answer(35),
        // The zones of an absence of 30 runs as an operand.
        Case::new(pulses(30), "~(~a)"),
        Case::new(late_pulses(8), "(~a)*"),
        Case::new(longest(), "~(!a{1,}.!a)"),
        Case::new(longest(), "~!a{<500000,999999}"),
    ]
}

/// Texts with a `~` that are refused, by its place or by something else, and several causes at once.
fn absences_refused() -> Vec<Case> {
    let stars = "*".repeat(15);
    let mut cases: Vec<Case> = ["~ a", " ~a", "~a ", "~\n", "~a\n", "a. ~a"]
        .into_iter()
        .map(Case::on_r)
        .collect();
    for byte in [0x00, 0x7D, 0x7F, 0xAC, 0xFE, 0xFF] {
        // Bytes beside 126, and others that are no `~`.
        cases.push(Case::on_r(vec![byte, b'a']));
    }
    cases.extend([
        Case::on_r(format!("~b{{2,1}}{stars}~")),
        Case::on_r(format!("~a{{2,1}}{stars}.~b")),
        Case::on_r(format!("~a{{2,1}}{stars}")),
        Case::on_r(format!("~a{stars}")),
        Case::new(recording(100, 15, &[(20, 1)]), "~a|~p"),
        Case::new(vec![0; RECORD], "~~a"),
    ]);
    cases
}

#[cfg(test)]
mod tests {
    use super::*;
    use crate::finder::call;
    use crate::quick::QuickList;
    use crate::zones::Allowed;

    #[test]
    fn the_matchers_agree_on_every_case() {
        let text = output(&all()).expect("agreement");
        for number in 0..=11 {
            assert!(text.contains(&format!("\nreturned {number} ")), "{number}");
        }
    }

    #[test]
    fn the_quick_matcher_agrees_on_every_case() {
        for case in all() {
            let called = case.call();
            let (mut answer, mut work) = (called.answer_before, called.work_before);
            let (recording, drill) = (&case.recording, &case.drill);
            let mut allowed = Allowed::ALL;
            let quick = call::<QuickList>(recording, drill, &mut answer, &mut work, &mut allowed);
            let name = drill.escape_ascii();
            let returned = quick.map(|found| found.returned);
            assert_eq!(returned, Some(called.returned), "{name}");
            assert!(answer == called.answer && work == called.work, "{name}");
        }
    }

    #[test]
    fn the_input_stays_within_its_bounds() {
        let cases = all();
        assert!(input(&cases).len() < 200_000);
        for case in cases {
            assert!(case.recording.len() <= MAX_LENGTH + RECORD);
            assert!(case.drill.len() <= 400);
            assert!(case.answer_words <= 800 && case.work_words <= 16_400);
        }
    }

    #[test]
    fn the_printed_example_as_lines() {
        let text = output(&[Case::on_r("(a{2,2})*")]).expect("agreement");
        let expected = "case 1\n\
            returned 0 3 2\n\
            answer front 18 kept behind\n\
            work zero kept behind\n\
            front 18\n\
            zones 3 rounds 2\n\
            start [2,5] end [4,7] length [2,2]\n\
            start [2,3] end [6,7] length [4,4]\n\
            start [0,10] end [0,10] length [0,0]\n";
        assert_eq!(text, expected);
    }
}
