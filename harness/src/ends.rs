//! The call from a start tick: the earliest and the latest end of all fitting stretches that start there
//! (CR 9 of document 02), by the plain matcher.

use crate::finder::{self, Returned, WORK_WORDS};
use crate::proved::{self, AskedEnds, Proved};
use crate::sheet;
use crate::zone::{Range, Zone, WORDS};
use crate::zones::{Allowed, List, ZoneList, MAX_ZONES};

/// Words in which the ends are handed over.
pub const ENDS_WORDS: usize = 3;

/// What a call from a start tick tells.
#[derive(Clone, Copy, Debug, PartialEq, Eq)]
pub struct ToldEnds {
    /// What the list call returns, but for 14.
    pub returned: Returned,
    /// The limits that the latest and the earliest end are, on the end and on its negation; nothing
    /// where no stretch from the start fits, and where the call is refused. Not every time between the
    /// two is an end.
    pub ends: Option<Range>,
}

impl ToldEnds {
    /// The ends as they are handed over: 1, the latest and the earliest; zeros where there is none.
    pub fn words(&self) -> [i32; ENDS_WORDS] {
        match self.ends {
            Some(Range { limit, minus_limit }) => [1, limit, minus_limit],
            None => [0; ENDS_WORDS],
        }
    }
}

/// Lists as [`finder::find`] does, and tells the ends of what it lists from the start on.
pub fn ends(
    recording: &[u8],
    drill: &[u8],
    start: u32,
    answer: &mut [i32],
    work: &mut [i32],
) -> ToldEnds {
    call::<List>(recording, drill, start, answer, work)
}

/// The same with lists of any kind.
pub fn call<L: ZoneList>(
    recording: &[u8],
    drill: &[u8],
    start: u32,
    answer: &mut [i32],
    work: &mut [i32],
) -> ToldEnds {
    let mut allowed = Allowed::ALL;
    let found = finder::call_from::<L>(recording, drill, Some(start), answer, work, &mut allowed);
    let returned = found.expect("no drill takes as many pairs").returned;
    // A refused call has no front, and only an accepted one has a start that is a tick of the drive.
    let front = &answer.as_chunks::<WORDS>().0[..returned.zones as usize];
    let zones = front.iter().map(|&words| Zone::from_words(words));
    ToldEnds {
        returned,
        ends: of(zones, start),
    }
}

/// The ends from a tick of all these zones together: the order of words is the order of limits, so the
/// largest are the latest end and, negated, the earliest, reached if any zone reaches it.
pub fn of(zones: impl IntoIterator<Item = Zone>, start: u32) -> Option<Range> {
    let from_start = |zone: Zone| zone.ends_from(start as i32);
    let ends = zones.into_iter().filter_map(from_start);
    ends.reduce(Range::hull)
}

/// What the proved library tells on both buffers, or what it hands over that is no answer.
fn proved_ends(
    recording: &[u8],
    drill: &[u8],
    start: u32,
    buffers: (&mut [i32], &mut [i32]),
    proved: Proved,
) -> Result<ToldEnds, String> {
    let (answer, work) = buffers;
    let mut ends = [0; ENDS_WORDS];
    let mut counts = [0; 2];
    let number = (proved.ends)(AskedEnds {
        recording,
        drill,
        start,
        answer,
        work,
        ends: &mut ends,
        counts: &mut counts,
    });
    let [zones, rounds] = counts;
    let ends = match ends {
        [0, 0, 0] => None,
        [1, limit, minus_limit] => Some(Range { limit, minus_limit }),
        words => return Err(format!("proved handed over {words:?}, which are no ends")),
    };
    let returned = Returned {
        number,
        zones,
        rounds,
    };
    Ok(ToldEnds { returned, ends })
}

/// The line that is printed for both files, by the proved library where it is linked, by the plain matcher
/// else. One final newline of the drill is dropped.
pub fn printed(recording: &[u8], drill: &[u8], start: u32) -> Result<String, String> {
    let drill = drill.strip_suffix(b"\n").unwrap_or(drill);
    let (mut answer, mut work) = ([0; MAX_ZONES * WORDS], [0; WORK_WORDS]);
    let (answer, work) = (&mut answer[..], &mut work[..]);
    let told = match proved::linked() {
        Some(proved) => proved_ends(recording, drill, start, (answer, work), proved)?,
        None => ends(recording, drill, start, answer, work),
    };
    Ok(sheet::ends_line(&told))
}

#[cfg(test)]
mod tests {
    use super::*;
    use crate::examples::{pulses, recording_r};
    use crate::honest::HONEST;
    use crate::zone::{not_reached, reached};

    fn words(drill: &str, start: u32) -> (u32, [i32; ENDS_WORDS]) {
        let (mut answer, mut work) = ([7; 18], [7; WORK_WORDS]);
        let told = ends(
            &recording_r(),
            drill.as_bytes(),
            start,
            &mut answer,
            &mut work,
        );
        (told.returned.number, told.words())
    }

    /// By hand, on R: the latest end first, then the earliest, negated as in an answer buffer.
    #[test]
    fn ends_are_coded_as_in_the_answer() {
        let latest_first = |latest, earliest| (0, [1, latest, earliest]);
        assert_eq!(words("a", 2), latest_first(reached(7), not_reached(-2)));
        assert_eq!(words("a", 2), (0, [1, 15, -4]));
        assert_eq!(words("(a{2,2})*", 2), (0, [1, 13, -3]));
        assert_eq!(words("a{2,<4}", 2), (0, [1, 12, -7]));
        assert_eq!(words("_", 0), (0, [1, 1, 1]));
        assert_eq!(words("a", 7), (0, [0, 0, 0]));
        assert_eq!(words("a", 11), (14, [0, 0, 0]));
        assert_eq!(words("a)", 2), (5, [0, 0, 0]));
    }

    #[test]
    fn one_line_is_printed() {
        let on_r = |drill: &str, start: u32| printed(&recording_r(), drill.as_bytes(), start);
        assert_eq!(on_r("a", 2).as_deref(), Ok("end (2,7]\n"));
        assert_eq!(on_r("a{2,<4}\n", 2).as_deref(), Ok("end [4,6)\n"));
        assert_eq!(on_r("_", 10).as_deref(), Ok("end [10,10]\n"));
        assert_eq!(on_r("a", 7).as_deref(), Ok("none\n"));
        assert_eq!(on_r("a", 11).as_deref(), Ok("refused 14\n"));
        assert_eq!(on_r("a\n\n", 11).as_deref(), Ok("refused 5\n"));
        // The buffers have room for the longest list.
        assert_eq!(printed(&pulses(128), b"a", 1).as_deref(), Ok("end (1,2]\n"));
    }

    /// The words that another library hands over are read as they are written.
    #[test]
    fn words_are_read_as_they_are_handed_over() {
        let read = |drill: &str, start: u32, proved: Proved| {
            let (mut answer, mut work) = ([7; 18], [7; WORK_WORDS]);
            let buffers = (&mut answer[..], &mut work[..]);
            proved_ends(&recording_r(), drill.as_bytes(), start, buffers, proved)
        };
        for (drill, start) in [("a", 2), ("(a{2,2})*", 2), ("a", 7), ("a", 11), ("a)", 2)] {
            let (mut answer, mut work) = ([7; 18], [7; WORK_WORDS]);
            let plain = ends(
                &recording_r(),
                drill.as_bytes(),
                start,
                &mut answer,
                &mut work,
            );
            assert_eq!(read(drill, start, HONEST), Ok(plain), "{drill} {start}");
        }
        let wrong = Proved {
            ends: |asked| {
                asked.ends[0] = 2;
                0
            },
            ..HONEST
        };
        assert!(read("a", 2, wrong).is_err());
    }

    /// Two zones reach 5 and only approach it, in either order.
    #[test]
    fn an_end_that_some_zone_reaches_is_reached() {
        let run = Zone::run(3, 8);
        let below = run.within(reached(-1), Some(not_reached(2))).unwrap();
        let at = run.within(reached(-2), Some(reached(2))).unwrap();
        let [one, other] = [[below, at], [at, below]].map(|zones| of(zones, 3));
        assert_eq!(one, other);
        let expected = Range {
            limit: reached(5),
            minus_limit: reached(-4),
        };
        assert_eq!(one, Some(expected));
        assert_eq!(of([below], 3).unwrap().limit, not_reached(5));
        assert_eq!(of([], 3), None);
    }
}
