//! The whole call: what it returns, and what both buffers hold afterwards.

use crate::drill::Drill;
use crate::recording::Recording;
use crate::refusal::Refusal;
use crate::zone::{Zone, WORDS};
use crate::zones::{Allowed, List, Matcher, Star, Stop, ZoneList};

/// Words that the work buffer must have, and that are zero once a list was begun.
pub const WORK_WORDS: usize = 16_384;

/// What a call returns.
#[derive(Clone, Copy, Debug, PartialEq, Eq)]
pub struct Returned {
    /// 0 where the drill is accepted, else the number of the refusal.
    pub number: u32,
    pub zones: u64,
    pub rounds: u64,
}

impl Returned {
    fn refused(refusal: Refusal) -> Returned {
        Returned {
            number: refusal.number(),
            zones: 0,
            rounds: 0,
        }
    }

    pub fn is_accepted(self) -> bool {
        self.number == 0
    }
}

/// What a call came to, with what a caller does not see.
#[derive(Clone, Debug)]
pub struct Found<Told = ()> {
    pub returned: Returned,
    /// The stars of an accepted drill.
    pub stars: Vec<Star>,
    /// What each finished composition of two lists and each finished round told, in the order in which
    /// they were finished, whether or not the drill is accepted.
    pub told: Vec<Told>,
}

/// Finds all stretches of the recording that fit the drill, however many rounds that takes.
pub fn find(recording: &[u8], drill: &[u8], answer: &mut [i32], work: &mut [i32]) -> Returned {
    let mut allowed = Allowed::ALL;
    let found = call::<List>(recording, drill, answer, work, &mut allowed);
    found.expect("no drill takes as many pairs").returned
}

/// The same call, given up with nothing written where the rounds would go through more pairs of
/// zones than `pairs`.
pub fn find_unless_slow(
    recording: &[u8],
    drill: &[u8],
    answer: &mut [i32],
    work: &mut [i32],
    pairs: u64,
) -> Option<Found> {
    let mut allowed = Allowed {
        pairs,
        ..Allowed::ALL
    };
    call::<List>(recording, drill, answer, work, &mut allowed)
}

/// The call of a drill that is told the rounds left before it, and gives back those left after it:
/// it is refused by 13 where it would begin a round beyond them.
pub fn find_with_rounds(
    recording: &[u8],
    drill: &[u8],
    left: u64,
    answer: &mut [i32],
    work: &mut [i32],
) -> (Returned, u64) {
    let mut allowed = Allowed {
        rounds: left,
        ..Allowed::ALL
    };
    let found = call::<List>(recording, drill, answer, work, &mut allowed);
    let returned = found.expect("no drill takes as many pairs").returned;
    (returned, allowed.rounds)
}

/// Any of these calls, with lists of any kind: what it came to, with what is left of `allowed`, or
/// nothing where it is too slow.
pub fn call<L: ZoneList>(
    recording: &[u8],
    drill: &[u8],
    answer: &mut [i32],
    work: &mut [i32],
    allowed: &mut Allowed,
) -> Option<Found<L::Told>> {
    let mut told = Vec::new();
    let (answer_words, work_words) = (answer.len(), work.len());
    match evaluate::<L>(
        recording,
        drill,
        answer_words,
        work_words,
        allowed,
        &mut told,
    ) {
        Ok((list, stars)) => {
            clear(work);
            write(list.zones(), answer);
            let returned = Returned {
                number: 0,
                zones: list.zones().len() as u64,
                rounds: stars.iter().map(|star| star.rounds).sum(),
            };
            Some(Found {
                returned,
                stars,
                told,
            })
        }
        Err(Stop::Refused(refusal)) => {
            if refusal.clears_work() {
                clear(work);
            }
            Some(Found {
                returned: Returned::refused(refusal),
                stars: Vec::new(),
                told,
            })
        }
        Err(Stop::TooSlow) => None,
    }
}

/// The words of the filled front, for a caller that tells the number of zones: none where it
/// tells more than the buffer can hold.
pub fn front(answer_words: usize, zones: usize) -> usize {
    match zones.checked_mul(WORDS) {
        Some(words) if words <= answer_words => words,
        _ => 0,
    }
}

/// The zones in the filled front of an answer buffer.
pub fn listed(returned: Returned, answer: &[i32]) -> Vec<Zone> {
    let words = answer.as_chunks::<WORDS>().0;
    let zones = words.iter().take(returned.zones as usize);
    zones.map(|&words| Zone::from_words(words)).collect()
}

/// All that recording, drill, the lengths of the buffers and what is allowed decide: 1 to 9 in the
/// order of their numbers, then 10 or 13, whichever the lists come to first, and last 11. The rounds
/// of a drill are spent, and what was finished has told its number, whatever comes of it.
fn evaluate<L: ZoneList>(
    recording: &[u8],
    drill: &[u8],
    answer_words: usize,
    work_words: usize,
    allowed: &mut Allowed,
    told: &mut Vec<L::Told>,
) -> Result<(L, Vec<Star>), Stop> {
    let recording = Recording::read(recording).map_err(|fault| fault.refusal)?;
    let drill = Drill::read(drill, recording.channels())?;
    if work_words < WORK_WORDS {
        return Err(Refusal::WorkShort.into());
    }
    let mut matcher = Matcher::<L>::new(&recording, *allowed);
    let list = matcher.list(&drill);
    *allowed = matcher.left();
    *told = matcher.take_told();
    let list = list?;
    if answer_words < WORDS * list.zones().len() {
        return Err(Refusal::AnswerShort.into());
    }
    Ok((list, matcher.into_stars()))
}

fn clear(work: &mut [i32]) {
    work[..WORK_WORDS].fill(0);
}

fn write(zones: &[Zone], answer: &mut [i32]) {
    for (words, zone) in answer.chunks_exact_mut(WORDS).zip(zones) {
        words.copy_from_slice(zone.words());
    }
}

#[cfg(test)]
mod tests {
    use super::*;
    use crate::examples::{late_pulses, low_start_r, pulses, recording, recording_r};
    use crate::sheet;

    /// The returned values and the sheet's lines, with buffers that are long enough.
    fn sheet(recording: &[u8], drill: &str) -> String {
        let mut answer = vec![7; 768];
        let mut work = vec![7; WORK_WORDS];
        let returned = find(recording, drill.as_bytes(), &mut answer, &mut work);
        sheet::text(returned, &answer)
    }

    fn number(recording: &[u8], drill: &str) -> u32 {
        let mut answer = vec![7; 768];
        find(
            recording,
            drill.as_bytes(),
            &mut answer,
            &mut [7; WORK_WORDS],
        )
        .number
    }

    #[test]
    fn the_printed_example() {
        let expected = "zones 3 rounds 2\n\
            start [2,5] end [4,7] length [2,2]\n\
            start [2,3] end [6,7] length [4,4]\n\
            start [0,10] end [0,10] length [0,0]\n";
        assert_eq!(sheet(&recording_r(), "(a{2,2})*"), expected);
    }

    #[test]
    fn the_marked_set() {
        let run = "zones 1 rounds 0\nstart [2,7) end (2,7] length (0,5]\n";
        let table = [
            ("a", run),
            ("a.a", run),
            ("a|a", run),
            (
                "a.!a",
                "zones 1 rounds 0\nstart [2,7) end (7,10] length (0,8]\n",
            ),
            (
                "a{5,5}",
                "zones 1 rounds 0\nstart [2,2] end [7,7] length [5,5]\n",
            ),
            ("a{6,}", "zones 0 rounds 0\n"),
            ("a{0,0}", "zones 0 rounds 0\n"),
            ("a&!a", "zones 0 rounds 0\n"),
            (
                "_",
                "zones 1 rounds 0\nstart [0,10] end [0,10] length [0,0]\n",
            ),
        ];
        for (drill, expected) in table {
            assert_eq!(sheet(&recording_r(), drill), expected, "{drill}");
        }
    }

    /// Worked out by hand from document 01: of the stretches from 2 to 7, those of the lengths that
    /// the band leaves, with the ends that such a length leaves.
    #[test]
    fn bounds_that_are_not_reached() {
        let table = [
            ("a{<2,5}", "start [2,5) end (4,7] length (2,5]"),
            ("a{2,<5}", "start [2,5] end [4,7] length [2,5)"),
            ("a{<2,<5}", "start [2,5) end (4,7] length (2,5)"),
            ("a{<2,<3}", "start [2,5) end (4,7] length (2,3)"),
            ("a{<0,}", "start [2,7) end (2,7] length (0,5]"),
            ("a{<4,}", "start [2,3) end (6,7] length (4,5]"),
            ("a{5,<6}", "start [2,2] end [7,7] length [5,5]"),
            ("_{0,<1}", "start [0,10] end [0,10] length [0,0]"),
            ("a{<1,}.a{<1,}", "start [2,5) end (4,7] length (2,5]"),
            ("!a.a{<4,}.!a", "start [0,2) end (7,10] length (5,10]"),
        ];
        for (drill, zone) in table {
            let expected = format!("zones 1 rounds 0\n{zone}\n");
            assert_eq!(sheet(&low_start_r(), drill), expected, "{drill}");
        }
        for drill in ["a{<5,}", "_{<0,}", "!a.a{<5,}.!a"] {
            assert_eq!(
                sheet(&low_start_r(), drill),
                "zones 0 rounds 0\n",
                "{drill}"
            );
        }
    }

    /// By hand: k pieces are together longer than k and shorter than 2k. Rounds 1 and 2 add the
    /// zones of two and of three pieces. Four pieces, longer than 4, lie in the zone of three, which
    /// the run of 5 ticks cuts off at 5 and not below: round 3 changes nothing.
    #[test]
    fn a_star_of_bounds_that_are_not_reached() {
        let expected = "zones 4 rounds 3\n\
            start [2,6) end (3,7] length (1,2)\n\
            start [2,5) end (4,7] length (2,4)\n\
            start [2,4) end (5,7] length (3,5]\n\
            start [0,10] end [0,10] length [0,0]\n";
        assert_eq!(sheet(&recording_r(), "(a{<1,<2})*"), expected);
    }

    /// By hand: after round k the one zone has the lengths below k + 1, so 5 itself is there only
    /// after round 5, where with the bound reached it is there after round 4.
    #[test]
    fn a_bound_that_is_not_reached_may_take_a_round_more() {
        let expected = "zones 2 rounds 6\n\
            start [2,7) end (2,7] length (0,5]\n\
            start [0,10] end [0,10] length [0,0]\n";
        assert_eq!(sheet(&recording_r(), "(a{0,<1})*"), expected);
        // With 10 ticks for 5, as many rounds as n + d.
        let throughout = recording(100, 1, &[(0, 1)]);
        assert!(sheet(&throughout, "(a{0,<1})*").starts_with("zones 2 rounds 11\n"));
    }

    /// The sheet of zones without a star, each given as in its line.
    fn listed<Line: std::fmt::Display>(zones: &[Line]) -> String {
        let lines: String = zones.iter().map(|zone| format!("{zone}\n")).collect();
        format!("zones {} rounds 0\n{lines}", zones.len())
    }

    /// The line of the stretch of length 0 at a tick.
    fn moment(tick: u32) -> String {
        format!("start [{tick},{tick}] end [{tick},{tick}] length [0,0]")
    }

    /// The sheet of these moments and nothing else.
    fn moments(ticks: &[u32]) -> String {
        let lines: Vec<String> = ticks.iter().map(|&tick| moment(tick)).collect();
        listed(&lines)
    }

    /// Worked out by hand: on R with a low start, `a` rises at 2 and falls at 7.
    #[test]
    fn events_of_r_with_a_low_start() {
        let (rise, fall) = (moment(2), moment(7));
        let run = "start [2,7) end (2,7] length (0,5]";
        let diagonal = "start [0,10] end [0,10] length [0,0]";
        let table: [(&str, &[&str]); 30] = [
            ("+a", &[&rise]),
            ("-a", &[&fall]),
            ("+a.a{0,3}", &["start [2,2] end (2,5] length (0,3]"]),
            ("a.-a", &["start [2,7) end [7,7] length (0,5]"]),
            ("+a{0,0}", &[&rise]),
            ("+a{0,<1}", &[&rise]),
            ("+a{1,}", &[]),
            ("+a{<0,}", &[]),
            ("+a&_", &[&rise]),
            ("+a&a", &[]),
            ("+a&-a", &[]),
            ("+a|-a", &[&rise, &fall]),
            ("-a|+a", &[&fall, &rise]),
            // A moment lies in no zone of a letter, and in the diagonal.
            ("+a|a", &[&rise, run]),
            ("a|+a", &[run, &rise]),
            ("+a|_", &[diagonal]),
            ("_|+a", &[diagonal]),
            // The same moment twice, and two moments that nothing joins.
            ("+a.+a", &[&rise]),
            ("+a.-a", &[]),
            ("_.+a._", &[&rise]),
            // Before a rise `a` is low, and after it high.
            ("+a.a", &["start [2,2] end (2,7] length (0,5]"]),
            ("!a.+a", &["start [0,2) end [2,2] length (0,2]"]),
            ("a.+a", &[]),
            ("+a.!a", &[]),
            ("-a.!a", &["start [7,7] end (7,10] length (0,3]"]),
            ("!a.+a.a", &["start [0,2) end (2,7] length (0,7]"]),
            // A whole run.
            ("+a.a.-a", &["start [2,2] end [7,7] length [5,5]"]),
            ("+a.a{2,3}.-a", &[]),
            ("(+a.a){3,3}", &["start [2,2] end [5,5] length [3,3]"]),
            ("+a.a{<2,<3}", &["start [2,2] end (4,5) length (2,3)"]),
        ];
        for (drill, zones) in table {
            assert_eq!(sheet(&low_start_r(), drill), listed(zones), "{drill}");
        }
    }

    /// By hand: on R itself only the fall has a report on either side. Nothing that asks for a rise
    /// fits, and all else is as with a low start.
    #[test]
    fn events_of_r() {
        for drill in [
            "+a",
            "+a.a",
            "!a.+a",
            "+a&_",
            "+a.a.-a",
            "(+a.a){3,3}",
            "+a{0,0}",
        ] {
            assert_eq!(sheet(&recording_r(), drill), moments(&[]), "{drill}");
        }
        for drill in ["-a", "+a|-a", "-a|+a", "-a{0,<1}", "-a.-a", "_.-a"] {
            assert_eq!(sheet(&recording_r(), drill), moments(&[7]), "{drill}");
        }
        let up_to_it = "start [2,7) end [7,7] length (0,5]";
        assert_eq!(sheet(&recording_r(), "a.-a"), listed(&[up_to_it]));
        let from_it = "start [7,7] end (7,10] length (0,3]";
        assert_eq!(sheet(&recording_r(), "-a.!a"), listed(&[from_it]));
    }

    /// By hand: the pieces touch only where an event meets its run, and what comes of these lies in the
    /// run. So the first round changes nothing, and the diagonal takes the place of the events.
    #[test]
    fn stars_of_events_of_r_with_a_low_start() {
        let run = "start [2,7) end (2,7] length (0,5]\n";
        let before = "start [0,2) end (0,2] length (0,2]\n";
        let behind = "start [7,10) end (7,10] length (0,3]\n";
        let whole = "start [2,2] end [7,7] length [5,5]\n";
        for (drill, longer) in [
            ("+a*", vec![]),
            ("(+a|-a)*", vec![]),
            ("(+a.-a)*", vec![]),
            ("(+a|-a|a)*", vec![run]),
            ("(+a|a)*", vec![run]),
            ("(a|-a)*", vec![run]),
            ("(+a|-a|!a)*", vec![before, behind]),
            ("(+a.a.-a)*", vec![whole]),
        ] {
            let (zones, longer) = (longer.len() + 1, longer.concat());
            let diagonal = "start [0,10] end [0,10] length [0,0]\n";
            let expected = format!("zones {zones} rounds 1\n{longer}{diagonal}");
            assert_eq!(sheet(&low_start_r(), drill), expected, "{drill}");
        }
    }

    /// By hand: the piece of one tick from the rise lies among all pieces of one tick, so the star is
    /// that of these, and five of them fill the run.
    #[test]
    fn a_star_may_start_at_an_event() {
        let expected = "zones 5 rounds 5\n\
            start [2,6] end [3,7] length [1,1]\n\
            start [2,5] end [4,7] length [2,2]\n\
            start [2,4] end [5,7] length [3,3]\n\
            start [2,3] end [6,7] length [4,4]\n\
            start [2,2] end [7,7] length [5,5]\n";
        let star = sheet(&low_start_r(), "(+a.a{1,1}|a{1,1})*{<0,}");
        assert_eq!(star, expected);
        // With the rise before the star only what starts there is left.
        let expected = "zones 5 rounds 5\n\
            start [2,2] end [3,3] length [1,1]\n\
            start [2,2] end [4,4] length [2,2]\n\
            start [2,2] end [5,5] length [3,3]\n\
            start [2,2] end [6,6] length [4,4]\n\
            start [2,2] end [7,7] length [5,5]\n";
        assert_eq!(sheet(&low_start_r(), "+a.(a{1,1})*{<0,}"), expected);
    }

    #[test]
    fn events_on_neighbouring_ticks() {
        let neighbours = recording(100, 1, &[(0, 0), (10, 1), (20, 0), (30, 1), (90, 0)]);
        assert_eq!(sheet(&neighbours, "+a"), moments(&[1, 3]));
        assert_eq!(sheet(&neighbours, "-a"), moments(&[2, 9]));
        // Each list by itself is in rising time.
        assert_eq!(sheet(&neighbours, "+a|-a"), moments(&[1, 3, 2, 9]));
        let pulse = "start [1,1] end [2,2] length [1,1]";
        let run = "start [3,3] end [9,9] length [6,6]";
        assert_eq!(sheet(&neighbours, "+a.a.-a"), listed(&[pulse, run]));
        let pause = "start [2,2] end [3,3] length [1,1]";
        assert_eq!(sheet(&neighbours, "-a.!a.+a"), listed(&[pause]));
        let both = "start [1,1] end [9,9] length [8,8]";
        assert_eq!(sheet(&neighbours, "+a.a.-a.!a.+a.a.-a"), listed(&[both]));
    }

    /// Nothing but the levels in the two ticks counts: not how often a channel changed on the way,
    /// nor a change of another channel, nor what is before the first report or behind tick d.
    #[test]
    fn what_is_no_event() {
        for (changes, rises, falls) in [
            (&[(0, 1), (50, 0)][..], &[][..], &[5][..]),
            (&[(0, 0), (4, 1), (50, 0)], &[], &[5]),
            (&[(0, 0), (48, 1), (52, 0)], &[], &[]),
            (&[(0, 0), (46, 1), (49, 0), (52, 1)], &[5], &[]),
            (&[(0, 0), (20, 1), (46, 0), (49, 1), (52, 0)], &[2], &[5]),
            (&[(0, 0), (20, 1), (48, 0), (52, 1)], &[2], &[]),
            (&[(0, 0), (96, 1)], &[], &[]),
            (&[(0, 0), (20, 1), (96, 0)], &[2], &[]),
            (&[(0, 0), (10, 1), (30, 3), (60, 2), (80, 0)], &[1], &[6]),
            (&[(10, 2), (30, 3), (40, 1), (50, 3)], &[3], &[]),
            (&[(20, 1), (50, 0), (70, 1)], &[7], &[5]),
            (&[(20, 0), (50, 1), (70, 0)], &[5], &[7]),
            // The first of two reports on one tick is none by itself.
            (&[(46, 0), (49, 1), (70, 0)], &[], &[7]),
        ] {
            let drive = recording(104, 2, changes);
            assert_eq!(sheet(&drive, "+a"), moments(rises), "{changes:?}");
            assert_eq!(sheet(&drive, "-a"), moments(falls), "{changes:?}");
        }
    }

    #[test]
    fn a_list_holds_128_events() {
        for drill in ["+a", "-a"] {
            assert!(sheet(&pulses(128), drill).starts_with("zones 128 rounds 0\n"));
            assert_eq!(number(&pulses(129), drill), 10);
        }
        assert!(sheet(&pulses(64), "+a|-a").starts_with("zones 128 rounds 0\n"));
        assert_eq!(number(&pulses(65), "+a|-a"), 10);
        // The diagonal removes all events, and so has room.
        let diagonal = "zones 1 rounds 1\nstart [0,257] end [0,257] length [0,0]\n";
        assert_eq!(sheet(&pulses(128), "+a*"), diagonal);
        assert_eq!(number(&pulses(129), "+a&_"), 10);
    }

    /// A run or a rise at the start that is not reported takes no room.
    #[test]
    fn what_is_not_reported_takes_no_room() {
        assert!(sheet(&pulses(127), "!a").starts_with("zones 128 rounds 0\n"));
        assert_eq!(number(&pulses(128), "!a"), 10);
        assert!(sheet(&late_pulses(128), "!a").starts_with("zones 128 rounds 0\n"));
        assert_eq!(number(&late_pulses(129), "!a"), 10);
        assert!(sheet(&late_pulses(129), "+a").starts_with("zones 128 rounds 0\n"));
        assert_eq!(number(&late_pulses(130), "+a"), 10);
    }

    #[test]
    fn rounding_reaches_the_zones() {
        let at = |ms| recording(100, 1, &[(ms, 1)]);
        let table = [
            ([4, 5], "start [0,10) end (0,10] length (0,10]"),
            ([6, 14], "start [1,10) end (1,10] length (0,9]"),
            ([15, 16], "start [2,10) end (2,10] length (0,8]"),
            ([24, 25], "start [2,10) end (2,10] length (0,8]"),
            ([26, 34], "start [3,10) end (3,10] length (0,7]"),
            ([35, 36], "start [4,10) end (4,10] length (0,6]"),
        ];
        for (times, zone) in table {
            let expected = format!("zones 1 rounds 0\n{zone}\n");
            for ms in times {
                assert_eq!(sheet(&at(ms), "a"), expected, "{ms}");
            }
        }
    }

    /// The sheet of `a|_` where `a` is high in one run or never: the run, and the moments of the
    /// drive up to its end d.
    fn run_and_end(run: Option<(u32, u32)>, d: u32) -> String {
        let moments = format!("start [0,{d}] end [0,{d}] length [0,0]\n");
        let Some((s, e)) = run else {
            return format!("zones 1 rounds 0\n{moments}");
        };
        let length = e - s;
        let zone = format!("start [{s},{e}) end ({s},{e}] length (0,{length}]\n");
        format!("zones 2 rounds 0\n{zone}{moments}")
    }

    /// `a` goes high once, at a half or beside one, in a drive that may end at a half.
    #[test]
    fn halves_in_times_and_durations() {
        let (longest, last) = (10_000_000, 1_000_000);
        for (duration, ms, run, d) in [
            (104, 94, Some((9, 10)), 10),
            (104, 95, None, 10),
            (105, 94, Some((9, 10)), 10),
            (105, 95, None, 10),
            (105, 96, None, 10),
            (105, 101, None, 10),
            (106, 105, Some((10, 11)), 11),
            (115, 114, Some((11, 12)), 12),
            (25, 14, Some((1, 2)), 2),
            (25, 15, None, 2),
            (10, 5, Some((0, 1)), 1),
            (10, 6, None, 1),
            (14, 5, Some((0, 1)), 1),
            (15, 5, Some((0, 2)), 2),
            (15, 14, Some((1, 2)), 2),
            (longest, 9_999_985, Some((999_998, last)), last),
            (longest, 9_999_994, Some((999_999, last)), last),
            (longest, 9_999_995, None, last),
            (9_999_995, 9_999_994, Some((999_999, last)), last),
            (9_999_985, 9_999_984, None, 999_998),
        ] {
            let rise = recording(duration, 1, &[(ms, 1)]);
            let expected = run_and_end(run, d);
            assert_eq!(sheet(&rise, "a|_"), expected, "{ms} of {duration}");
        }
        let fall = recording(105, 1, &[(0, 0), (20, 1), (95, 0)]);
        assert_eq!(sheet(&fall, "a|_"), run_and_end(Some((2, 10)), 10));
        // Nothing is left of `!a` behind the fall.
        let before = "zones 1 rounds 0\nstart [0,2) end (0,2] length (0,2]\n";
        assert_eq!(sheet(&fall, "!a"), before);
    }

    /// `a` is high from the first time to the second, and never where both are one tick.
    #[test]
    fn halves_share_a_tick_or_not() {
        for (rise, fall, run) in [
            (0, 5, None),
            (20, 25, None),
            (15, 25, None),
            (95, 99, None),
            (5, 10, Some((0, 1))),
            (25, 30, Some((2, 3))),
            (25, 35, Some((2, 4))),
            (34, 35, Some((3, 4))),
            (85, 95, Some((8, 10))),
        ] {
            let pulse = recording(100, 1, &[(rise, 1), (fall, 0)]);
            let expected = run_and_end(run, 10);
            assert_eq!(sheet(&pulse, "a|_"), expected, "{rise} to {fall}");
        }
    }

    /// 15 and 25 ms are both tick 2, so `a` is high from 0 to 2 and `b` from 2 to 4: the cut of `a.b`
    /// is 2, and that of `b.!b` is 4.
    #[test]
    fn halves_reach_the_cuts() {
        let halves = recording(105, 2, &[(5, 1), (15, 3), (25, 2), (45, 0)]);
        for (drill, zone) in [
            ("a.b", "start [0,2) end (2,4] length (0,4]"),
            ("b.!b", "start [2,4) end (4,10] length (0,8]"),
            ("a.b.!b", "start [0,2) end (4,10] length (2,10]"),
            (
                "a{<1,}.b{2,}.!b{6,}",
                "start [0,1) end [10,10] length (9,10]",
            ),
        ] {
            let expected = format!("zones 1 rounds 0\n{zone}\n");
            assert_eq!(sheet(&halves, drill), expected, "{drill}");
        }
        assert_eq!(sheet(&halves, "a&b"), "zones 0 rounds 0\n");
    }

    #[test]
    fn whole_ticks_are_not_the_only_cuts() {
        assert_eq!(sheet(&recording_r(), "a.a"), sheet(&recording_r(), "a"));
    }

    #[test]
    fn a_sequence_keeps_strictness() {
        // No stretch of length 0, so nothing is left of length 0 at most.
        assert_eq!(sheet(&recording_r(), "(a.a){0,0}"), "zones 0 rounds 0\n");
    }

    /// Each of the first four rounds removes the one zone and adds a longer one.
    #[test]
    fn a_number_of_zones_that_stands_still_ends_no_star() {
        let expected = "zones 2 rounds 5\n\
            start [2,7) end (2,7] length (0,5]\n\
            start [0,10] end [0,10] length [0,0]\n";
        assert_eq!(sheet(&recording_r(), "(a{0,1})*"), expected);
    }

    #[test]
    fn operands_are_composed_in_their_order() {
        let forth = "start [2,7) end (7,10] length (0,8]";
        let back = "start [0,2) end (2,7] length (0,7]";
        assert!(sheet(&low_start_r(), "a.!a").contains(forth));
        assert!(sheet(&low_start_r(), "!a.a").contains(back));
        // Their meets are no mirror images either.
        assert!(sheet(&low_start_r(), "a.a{1,1}").contains("start [2,6) end (3,7] length (1,5]"));
        assert!(sheet(&low_start_r(), "!a.a{1,1}").contains("start [0,2) end [3,3] length (1,3]"));
    }

    #[test]
    fn the_star_of_nothing_is_the_diagonal_after_one_round() {
        let expected = "zones 1 rounds 1\nstart [0,10] end [0,10] length [0,0]\n";
        assert_eq!(sheet(&recording_r(), "(a{6,})*"), expected);
    }

    #[test]
    fn rounds_are_summed_over_the_stars_as_written() {
        // The inner star has 5 rounds; its list holds the diagonal, so the outer one has 1.
        assert!(sheet(&recording_r(), "(a{0,1})**").starts_with("zones 2 rounds 6\n"));
        assert!(sheet(&recording_r(), "(a{0,1})*|(a{0,1})*").starts_with("zones 2 rounds 10\n"));
    }

    #[test]
    fn a_list_holds_128_zones() {
        assert!(sheet(&pulses(128), "a").starts_with("zones 128 rounds 0\n"));
        assert_eq!(number(&pulses(129), "a"), 10);
        // The diagonal is the zone too many.
        assert!(sheet(&pulses(127), "a*").starts_with("zones 128 rounds 1\n"));
        assert_eq!(number(&pulses(128), "a*"), 10);
        // A put that removes a zone leaves the list as long as it was.
        assert!(sheet(&pulses(128), "a{1,1}|a").starts_with("zones 128 rounds 0\n"));
    }

    #[test]
    fn buffers_are_left_as_the_table_says() {
        let call = |drill: &str, answer_words: usize, work_words: usize| {
            let mut answer = vec![7; answer_words];
            let mut work = vec![9; work_words];
            let returned = find(&recording_r(), drill.as_bytes(), &mut answer, &mut work);
            (returned.number, answer, work)
        };
        let cleared = [vec![0; WORK_WORDS], vec![9; 2]].concat();
        assert_eq!(call("a)", 8, 3), (5, vec![7; 8], vec![9; 3]));
        let short = WORK_WORDS - 1;
        assert_eq!(call("a", 5, short), (9, vec![7; 5], vec![9; short]));
        assert_eq!(
            call("a", 5, WORK_WORDS + 2),
            (11, vec![7; 5], cleared.clone())
        );
        let filled = vec![14, -3, 15, -4, 11, 0, 7, 7];
        assert_eq!(call("a", 8, WORK_WORDS + 2), (0, filled, cleared.clone()));
        assert_eq!(call("a&!a", 0, WORK_WORDS + 2), (0, vec![], cleared));
    }

    /// `(a{2,2})*` takes 2 rounds on R and lists three zones, the last of them the diagonal.
    #[test]
    fn a_drill_that_is_stopped_leaves_what_10_leaves() {
        let call = |left: u64, answer_words: usize| {
            let mut answer = vec![7; answer_words];
            let mut work = vec![9; WORK_WORDS + 2];
            let (recording, drill) = (recording_r(), b"(a{2,2})*");
            let (returned, left) =
                find_with_rounds(&recording, drill, left, &mut answer, &mut work);
            let Returned {
                number,
                zones,
                rounds,
            } = returned;
            ([number.into(), zones, rounds, left], answer, work)
        };
        let cleared = [vec![0; WORK_WORDS], vec![9; 2]].concat();
        let kept = vec![7; 20];
        for left in [0, 1] {
            let stopped = ([13, 0, 0, 0], kept.clone(), cleared.clone());
            assert_eq!(call(left, 20), stopped);
        }
        // Too short an answer buffer is found out after all rounds, so these are spent.
        assert_eq!(call(1, 17), ([13, 0, 0, 0], vec![7; 17], cleared.clone()));
        assert_eq!(call(2, 17), ([11, 0, 0, 0], vec![7; 17], cleared.clone()));
        assert_eq!(call(9, 17), ([11, 0, 0, 7], vec![7; 17], cleared.clone()));
        let (numbers, answer, work) = call(2, 20);
        assert_eq!((numbers, work), ([0, 3, 2, 0], cleared));
        assert_eq!(answer[12..], [21, 1, 21, 1, 1, 1, 7, 7]);
    }

    #[test]
    fn the_front_is_empty_where_it_would_not_fit() {
        assert_eq!(front(12, 2), 12);
        assert_eq!(front(12, 3), 0);
        assert_eq!(front(17, 2), 12);
        assert_eq!(front(12, usize::MAX), 0);
        assert_eq!(front(0, 0), 0);
    }
}
